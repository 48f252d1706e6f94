/* Markdown for terminals, for C: lays Markdown out as termimad-view does, into a buffer of the caller's.
 *
 * A text and a skin are a pointer and a length in bytes; no zero ends them. A skin is a word:
 *   of length 0   no style
 *   default, dark, light   the made skins
 *   any other     JSON text as {"bold":"red"}, which changes the default skin; keys that name no part of a skin are passed over
 * For termimad_markdown and termimad_code it is the skin of a page: sixteen and none too, and in JSON text the key page.
 *
 * Each call answers a status and a count: how many bytes the whole result has, whatever the buffer holds. Ask with a buffer that is
 * likely large enough. Where the status is TERMIMAD_SHORT, take one of `count` bytes and ask again:
 *
 *   char buffer[4096];
 *   termimad_answer answer = termimad_text("a *b*", 5, "", 0, 80, buffer, sizeof buffer);
 *   if (answer.status == TERMIMAD_DONE)
 *       fwrite(buffer, 1, answer.count, stdout);
 *
 * What is proved of each call: it reads only the bytes of its text and skin, and writes only those of its buffer. The result is what
 * termimad-view writes of that text, or what the call's own comment says. The count is the length of the whole result; the status is
 * TERMIMAD_DONE exactly where all of it is in the buffer. Of a result that is too long the buffer has the beginning. What is behind a
 * result stays, and all of the buffer where a call is refused. Where there are several reasons to refuse a call, it may tell any of them.
 *
 * What the caller must keep, which nothing checks: each pointer is not NULL, also where its length is 0, and is valid for its length.
 * The buffer shares no byte with the text or the skin, and no other thread touches these while the call runs. malloc, realloc and free
 * come from one allocator and align as the C library's do. No call is made from a signal handler, or from the child of a fork in a
 * program with threads. There is enough stack; 1 MiB is.
 *
 * There is no state between calls but behind a termimad_stream and a termimad_live, so any thread may call: what termimad_parts needs of the calls
 * before, its caller hands it. While a call runs the whole result is in memory, also what doesn't fit the buffer. All memory that a call takes it
 * gives back, but what a termimad_stream or a termimad_live keeps.
 */
#ifndef TERMIMAD_H
#define TERMIMAD_H

#include <stddef.h>
#include <stdint.h>

#ifdef __cplusplus
extern "C" {
#endif

/* How a call ended. */
enum {
    TERMIMAD_DONE = 0,      /* the buffer has all of the result */
    TERMIMAD_SHORT = 1,     /* the buffer is too small, and has the beginning */
    TERMIMAD_CONDITION = 2, /* a number is none that the call takes */
    TERMIMAD_NOT_UTF8 = 3,  /* the text or the skin is not UTF-8 */
    TERMIMAD_SKIN = 4,      /* the skin is no JSON text, or says no skin */
    TERMIMAD_MEMORY = 5     /* out of memory */
};

/* Where termimad_fit puts the ellipsis. */
enum {
    TERMIMAD_INSIDE = 0, /* in the widest words */
    TERMIMAD_LEFT = 1,   /* at the end of the line */
    TERMIMAD_CENTER = 2, /* at both ends */
    TERMIMAD_RIGHT = 3   /* at the front of the line */
};

typedef struct {
    size_t count;    /* the bytes of the whole result, or the rows; 0 where the call was refused */
    uint32_t status; /* TERMIMAD_DONE to TERMIMAD_MEMORY */
} termimad_answer;

/* How far a text is laid out that is still coming. */
typedef struct {
    size_t count;    /* the bytes of the rows, whatever the buffer holds; 0 where the call was refused */
    size_t used;     /* how many bytes of the text they are of; 0 where the status isn't TERMIMAD_DONE */
    uint32_t fenced; /* 1 where a fence is open after these bytes, else 0 */
    uint32_t status; /* TERMIMAD_DONE to TERMIMAD_MEMORY */
} termimad_progress;

/* Where a link goes within a text. */
typedef struct {
    size_t section;  /* the number of the section; 0 where there is none, and where the call was refused */
    uint32_t found;  /* 1 where there is one, else 0 */
    uint32_t status; /* TERMIMAD_DONE, TERMIMAD_NOT_UTF8 or TERMIMAD_MEMORY */
} termimad_place;

/* A text of Markdown that comes in pieces, from termimad_stream_begin to termimad_stream_end. */
typedef struct {
    void *text; /* where it is kept: no caller reads or changes it */
} termimad_stream;

/* A text of Markdown that comes in pieces and grows on a terminal, from termimad_live_begin to termimad_live_end. */
typedef struct {
    void *text; /* where it is kept: no caller reads or changes it */
} termimad_live;

/* The text in an area of the screen: what `termimad-view area LEFT TOP WIDTH HEIGHT` writes.
 *
 * LEFT and TOP count columns and rows from 0. WIDTH is at least 4; LEFT + WIDTH and TOP + HEIGHT are at most 65535.
 * Other numbers are refused: TERMIMAD_CONDITION.
 *
 *   termimad_area("# Hello\n* *one* item", 20, "dark", 4, 0, 0, 24, 3, buffer, sizeof buffer);
 */
termimad_answer termimad_area(const char *text, size_t text_length, const char *skin, size_t skin_length,
                              size_t left, size_t top, size_t width, size_t height,
                              char *buffer, size_t capacity);

/* The text, laid out in WIDTH columns, each row with a newline: what `termimad-view text WIDTH` writes.
 *
 * WIDTH is at most 65535, else TERMIMAD_CONDITION. Under 3 nothing is wrapped.
 *
 *   termimad_text("|a|b|\n|-|-|\n|1|2|", 17, "", 0, 40, buffer, sizeof buffer);
 */
termimad_answer termimad_text(const char *text, size_t text_length, const char *skin, size_t skin_length,
                              size_t width, char *buffer, size_t capacity);

/* The text, read as people write Markdown and laid out in WIDTH columns, each row with a newline: what `termimad-view markdown WIDTH`
 * writes. Nothing of the text reaches the terminal that it obeys. Words stay whole.
 *
 * WIDTH is at most 65535, else TERMIMAD_CONDITION. Under 3 nothing is wrapped.
 *
 *   termimad_markdown("Two lines\nof a [paragraph](x)", 29, "", 0, 40, buffer, sizeof buffer);
 */
termimad_answer termimad_markdown(const char *text, size_t text_length, const char *skin, size_t skin_length,
                                  size_t width, char *buffer, size_t capacity);

/* The text as code, laid out in WIDTH columns, each row with a newline: what `termimad-view code LANGUAGE WIDTH` writes. It is what a fence around
 * it shows. Nothing of the text reaches the terminal that it obeys.
 *
 * LANGUAGE is the word of a language, as rust, or the name of a file, as main.rs or Makefile. Of one that isn't known, code has no colors. It is UTF-8,
 * else TERMIMAD_NOT_UTF8. WIDTH is at most 65535, else TERMIMAD_CONDITION.
 *
 *   termimad_code("let x = 1;", 10, "rust", 4, "dark", 4, 40, buffer, sizeof buffer);
 */
termimad_answer termimad_code(const char *text, size_t text_length, const char *language, size_t language_length,
                              const char *skin, size_t skin_length, size_t width, char *buffer, size_t capacity);

/* The links of the text, read as termimad_markdown reads it, in the order of the text. Each is a line: the number of its section in
 * decimal, a tab, and the address to which it leads. Sections count from 0; a heading's is the one that termimad_headings tells.
 *
 * An address is as it is shown: without escapes and entities. No character of it is a tab, a newline, or another that a terminal obeys.
 * Images aren't among the links. A tag a of html with an address is.
 *
 *   termimad_links("see [the disks](disks.md)", 25, buffer, sizeof buffer);
 */
termimad_answer termimad_links(const char *text, size_t text_length, char *buffer, size_t capacity);

/* The headings of the text, read as termimad_markdown reads it, in order. Each is a line: its level, 1 to 6, the number of its section, its
 * name, and its text, with tabs between. The numbers are decimal.
 *
 * The name is the one that GitHub gives the heading: `[..](#name)` goes there. The text is what the heading shows: without marks, and with a
 * space where a row ends. No character of both is a tab, a newline, or another that a terminal obeys.
 *
 *   termimad_headings("# Disks\n\n## Two *large* ones", 28, buffer, sizeof buffer);
 */
termimad_answer termimad_headings(const char *text, size_t text_length, char *buffer, size_t capacity);

/* Where `[..](#NAME)` goes in the text, read as termimad_markdown reads it: SECTION is the number of a section, as termimad_headings tells them. There is no
 * buffer.
 *
 * It is the section of the first tag of html that has the name as its id, or is an a of that name. Tags in tables don't count. Without such a tag it is that
 * of the first heading of the name, or else of the first that has it in small letters. Of a tag it may be the blank row before the one where it stands; and
 * where that one shows nothing, the next, also behind the last.
 *
 * NAME is what comes behind the number sign. Percent signs in it are signs. It is UTF-8, else TERMIMAD_NOT_UTF8.
 *
 *   termimad_place place = termimad_find_section("# Disks", 7, "disks", 5);
 *   if (place.found)
 *       printf("section %zu\n", place.section);
 */
termimad_place termimad_find_section(const char *text, size_t text_length, const char *name, size_t name_length);

/* The text as it comes: the rows of the parts at its front that are complete, laid out in WIDTH columns.
 *
 * A part is a table, a block of code, or any other line. A line is complete with its newline; a table or a block of code with the first
 * line that isn't its own. FENCED is what the call before answered, and 0 at first. LAST is 1 at the end of the text, else 0: then all that
 * is left is laid out. Drop the bytes that were used, keep the others, append what comes, and call again. In all, the rows are those that
 * termimad_text writes of the whole text, wherever it was cut.
 *
 * At the end of what has come, the beginning of a character may be left, unless LAST is 1. A text that no more bytes make UTF-8 is
 * refused. WIDTH is at most 65535, else TERMIMAD_CONDITION. What is left is read anew by each call: call once for a block, or for a line.
 *
 *   size_t kept = 0, came;
 *   uint32_t fenced = 0;
 *   char text[8192], rows[65536];
 *   do {
 *       came = fread(text + kept, 1, sizeof text - kept, stdin);
 *       termimad_progress now = termimad_parts(text, kept + came, "", 0, 80, fenced, came == 0, rows, sizeof rows);
 *       if (now.status != TERMIMAD_DONE || (now.used == 0 && kept + came == sizeof text))
 *           return 1;
 *       fwrite(rows, 1, now.count, stdout);
 *       kept += came - now.used;
 *       memmove(text, text + now.used, kept);
 *       fenced = now.fenced;
 *   } while (came > 0);
 */
termimad_progress termimad_parts(const char *text, size_t text_length, const char *skin, size_t skin_length,
                                 size_t width, size_t fenced, size_t last, char *buffer, size_t capacity);

/* Begins a text that comes in pieces: read as termimad_markdown reads one, in its skins, and laid out in WIDTH columns.
 *
 * Where the status is TERMIMAD_DONE the stream is begun, and its text lives until termimad_stream_end. What stood in the struct is lost. Else it stays as
 * it was, and nothing is begun. COUNT is 0. WIDTH is at most 65535, else TERMIMAD_CONDITION.
 */
termimad_answer termimad_stream_begin(termimad_stream *stream, const char *skin, size_t skin_length, size_t width);

/* Takes the next piece of a text that was begun; where LAST isn't 0, the last one. The buffer gets the rows that wait then: first those of the leaves
 * that are complete, and at the text's end all others.
 *
 * A leaf is a paragraph, a heading, a table, code, html or a rule. A piece is cut anywhere, also inside a character. COUNT is how many bytes waited.
 * Where the status is TERMIMAD_SHORT, the buffer is full, and the others wait: ask again with an empty piece, also after the last one. In all, the rows are
 * those that `termimad-view markdown-stream WIDTH` writes of the whole text, wherever it was cut. Each piece takes time for itself alone.
 *
 * TERMIMAD_NOT_UTF8: the piece makes no text of what came. TERMIMAD_CONDITION: the text has ended already. Then nothing was taken. After
 * TERMIMAD_MEMORY the text is of no use, but for its end. The stream is one that was begun and hasn't ended. No two calls use it at a time, and no
 * copy of the struct is used.
 *
 *   termimad_stream stream;
 *   if (termimad_stream_begin(&stream, "none", 4, 80).status != TERMIMAD_DONE)
 *       return 1;
 *   char piece[8192], rows[4096];
 *   size_t came;
 *   do {
 *       came = fread(piece, 1, sizeof piece, stdin);
 *       termimad_answer now = termimad_stream_take(&stream, piece, came, came == 0, rows, sizeof rows);
 *       while (now.status == TERMIMAD_SHORT) {
 *           fwrite(rows, 1, sizeof rows, stdout);
 *           now = termimad_stream_take(&stream, "", 0, came == 0, rows, sizeof rows);
 *       }
 *       fwrite(rows, 1, now.count, stdout);
 *   } while (came > 0);
 *   termimad_stream_end(&stream);
 */
termimad_answer termimad_stream_take(termimad_stream *stream, const char *text, size_t text_length, size_t last,
                                     char *buffer, size_t capacity);

/* Ends a text that was begun, whether all of it came or not, and gives its memory back. The stream can be begun anew. */
void termimad_stream_end(termimad_stream *stream);

/* Begins a text that comes in pieces and grows on a terminal that scrolls: what has come so far is shown, and what still changes is redrawn in place.
 * It is read as termimad_markdown reads one, in its skins, and laid out in WIDTH columns, for a screen of HEIGHT rows.
 *
 * WIDTH is at most the terminal's columns less one, and HEIGHT at most its rows. The cursor is at the beginning of a blank row, below which all is
 * blank. Until the end nothing else writes on the terminal. What isn't so spoils what is seen, and nothing else.
 *
 * Where the status is TERMIMAD_DONE the text is begun, and lives until termimad_live_end. What stood in the struct is lost. Else it stays as it was,
 * and nothing is begun. COUNT is 0. WIDTH and HEIGHT are at most 65535, else TERMIMAD_CONDITION.
 */
termimad_answer termimad_live_begin(termimad_live *live, const char *skin, size_t skin_length, size_t width, size_t height);

/* Takes the next piece of a text that was begun; where LAST isn't 0, the last one. The buffer gets the bytes that wait then: write them all on the
 * terminal, in their order. Then it shows the text as far as it has come.
 *
 * The rows of a leaf, as of a paragraph or a table, scroll off and stay once it ends. Of the leaf that grows the last rows are shown, HEIGHT at most.
 * After the last piece the terminal has all rows that `termimad-view markdown-stream WIDTH` writes of the text, wherever it was cut, and the cursor
 * is below them. This holds where the text has stood on that terminal alone, since it was begun or resized.
 *
 * A piece is cut anywhere, also inside a character. COUNT is how many bytes waited. Where the status is TERMIMAD_SHORT, the buffer is full, and the
 * others wait: ask again with an empty piece, also after the last one. Each piece takes the time of the leaf that grows, so hand what there is, and
 * not character by character.
 *
 * TERMIMAD_NOT_UTF8: the piece makes no text of what came. TERMIMAD_CONDITION: the text has ended already. Then nothing was taken. After
 * TERMIMAD_MEMORY the text is of no use, but for its end. The struct is one that was begun and hasn't ended. No two calls use it at a time, and no
 * copy of it is used.
 *
 *   termimad_live live;
 *   if (termimad_live_begin(&live, "none", 4, 79, 24).status != TERMIMAD_DONE)
 *       return 1;
 *   char piece[8192], bytes[4096];
 *   size_t came;
 *   do {
 *       came = fread(piece, 1, sizeof piece, stdin);
 *       termimad_answer now = termimad_live_take(&live, piece, came, came == 0, bytes, sizeof bytes);
 *       while (now.status == TERMIMAD_SHORT) {
 *           fwrite(bytes, 1, sizeof bytes, stdout);
 *           now = termimad_live_take(&live, "", 0, came == 0, bytes, sizeof bytes);
 *       }
 *       fwrite(bytes, 1, now.count, stdout);
 *       fflush(stdout);
 *   } while (came > 0);
 *   termimad_live_end(&live);
 */
termimad_answer termimad_live_take(termimad_live *live, const char *text, size_t text_length, size_t last, char *buffer, size_t capacity);

/* Goes on below whatever stands on the terminal, in WIDTH columns and on a screen of HEIGHT rows: after its size has changed, or on another one. The
 * buffer gets the bytes that wait then: a new row begins.
 *
 * What is on the screen stays. The next piece, also an empty one, shows below it what grows. So nothing is lost, and the rows of one leaf may stand
 * there twice. Take all bytes that wait before you call it. All below the cursor is blank. For the rest WIDTH, HEIGHT, COUNT and TERMIMAD_SHORT are as
 * above; ask for bytes that wait by termimad_live_take. TERMIMAD_CONDITION: a number is over 65535, or the text has ended already. Then nothing changed.
 */
termimad_answer termimad_live_resize(termimad_live *live, size_t width, size_t height, char *buffer, size_t capacity);

/* Ends a text that was begun, whether all of it came or not, and gives its memory back. The struct can be begun anew. */
void termimad_live_end(termimad_live *live);

/* The text as one line with its inline marks, and a newline: what `termimad-view inline` writes.
 *
 * One newline at the end of the text is dropped before, with a carriage return before it.
 *
 *   termimad_inline("**done** in `3 s`", 17, "default", 7, buffer, sizeof buffer);
 */
termimad_answer termimad_inline(const char *text, size_t text_length, const char *skin, size_t skin_length,
                                char *buffer, size_t capacity);

/* How many rows termimad_text writes of the text in WIDTH columns: `count` is that number. There is no buffer.
 *
 * WIDTH is at most 65535, else TERMIMAD_CONDITION.
 *
 *   size_t rows = termimad_rows(text, length, "", 0, 80).count;
 */
termimad_answer termimad_rows(const char *text, size_t text_length, const char *skin, size_t skin_length,
                              size_t width);

/* The text as one line with its inline marks, in at most WIDTH columns: an ellipsis is where something is left out.
 *
 * ALIGN is TERMIMAD_INSIDE to TERMIMAD_RIGHT, and WIDTH at most 65535, else TERMIMAD_CONDITION. No newline is added or taken.
 * A line that fits stays as it is. An indent of the line is a part of its width.
 *
 *   termimad_fit("a **very** long line", 20, "", 0, 10, TERMIMAD_LEFT, buffer, sizeof buffer);
 */
termimad_answer termimad_fit(const char *text, size_t text_length, const char *skin, size_t skin_length,
                             size_t width, size_t align, char *buffer, size_t capacity);

/* The text without what a terminal obeys: no character of it but newlines is a command. ESC is shown as its picture, tabs are
 * spaces, and no override turns the text round. Use it for each text that others wrote, before it is laid out.
 *
 *   termimad_printable(name, strlen(name), buffer, sizeof buffer);
 */
termimad_answer termimad_printable(const char *text, size_t text_length, char *buffer, size_t capacity);

/* A table of data, laid out in WIDTH columns: each row with a newline.
 *
 * TEXT has all cells one after the other, row by row; LENGTHS has the bytes of each. Each row has COLUMNS cells, and the first row has the
 * headers. No mark is read in a cell, and no character is changed: make those that others wrote printable first, and leave out newlines.
 * ALIGNS has the side of each column, as termimad_fit takes it; a column without one has none. TERMIMAD_CONDITION: a number of ALIGNS is
 * over 3, COLUMNS is 0, the cells fill no whole rows, they are not all of the text, or one ends inside a character; or WIDTH is over 65535.
 *
 *   size_t lengths[] = {4, 4, 3, 1}, aligns[] = {TERMIMAD_LEFT, TERMIMAD_RIGHT};
 *   termimad_table("diskuseda|b7", 12, lengths, 4, aligns, 2, "", 0, 2, 40, buffer, sizeof buffer);
 */
termimad_answer termimad_table(const char *text, size_t text_length, const size_t *lengths, size_t count,
                               const size_t *aligns, size_t align_count, const char *skin, size_t skin_length,
                               size_t columns, size_t width, char *buffer, size_t capacity);

#ifdef __cplusplus
}
#endif

#endif
