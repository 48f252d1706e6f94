/* Answers calls that it reads, by libtermimad: `answers <REQUESTS`. tools/same_rows/compare writes them, and says how they look. */
#include "termimad.h"

#include <stdio.h>
#include <stdlib.h>
#include <string.h>

enum { MOST = 64, PIECES_HELD = 1 << 16 };

typedef struct {
    char call[16];
    size_t numbers[MOST], number_count;
    size_t lengths[MOST], text_count;
    char *texts[MOST];
} request;

/* What a call made: its bytes are its reader's. */
typedef struct {
    char *bytes;
    size_t count;
    uint32_t status;
} made;

static void *room_of(void *old, size_t size)
{
    void *room = realloc(old, size ? size : 1);
    if (room == NULL)
        exit(2);
    return room;
}

/* Reads a request, or answers 0 at the end: a line of the call, how many numbers and how many texts, the numbers, the lengths; then the texts. */
static int read_request(request *it)
{
    if (scanf("%15s %zu %zu", it->call, &it->number_count, &it->text_count) != 3)
        return 0;
    if (it->number_count > MOST || it->text_count > MOST)
        exit(2);
    for (size_t at = 0; at < it->number_count; at++)
        if (scanf("%zu", &it->numbers[at]) != 1)
            exit(2);
    for (size_t at = 0; at < it->text_count; at++)
        if (scanf("%zu", &it->lengths[at]) != 1)
            exit(2);
    getchar();
    for (size_t at = 0; at < it->text_count; at++) {
        it->texts[at] = room_of(NULL, it->lengths[at]);
        if (fread(it->texts[at], 1, it->lengths[at], stdin) != it->lengths[at])
            exit(2);
    }
    return 1;
}

/* A text that others wrote, as a cell: printable, and a newline is a space. */
static made cell_of(const char *text, size_t length)
{
    made cell = { NULL, 0, TERMIMAD_DONE };
    termimad_answer answer = termimad_printable(text, length, "", 0);
    cell.bytes = room_of(NULL, answer.count);
    answer = termimad_printable(text, length, cell.bytes, answer.count);
    cell.count = answer.count;
    cell.status = answer.status;
    for (size_t at = 0; at < cell.count; at++)
        if (cell.bytes[at] == '\n')
            cell.bytes[at] = ' ';
    return cell;
}

/* The rows of a table. Its numbers are the width, the columns and the alignments; its texts are the skin and the cells. */
static termimad_answer table_of(const request *it, char *buffer, size_t capacity)
{
    size_t lengths[MOST], whole = 0;
    char *text = NULL;
    for (size_t at = 1; at < it->text_count; at++) {
        made cell = cell_of(it->texts[at], it->lengths[at]);
        if (cell.status != TERMIMAD_DONE)
            exit(2);
        text = room_of(text, whole + cell.count);
        memcpy(text + whole, cell.bytes, cell.count);
        whole += cell.count;
        lengths[at - 1] = cell.count;
        free(cell.bytes);
    }
    termimad_answer answer = termimad_table(text, whole, lengths, it->text_count - 1, it->numbers + 2, it->number_count - 2, it->texts[0],
                                            it->lengths[0], it->numbers[1], it->numbers[0], buffer, capacity);
    free(text);
    return answer;
}

static termimad_answer answer_of(const request *it, char *buffer, size_t capacity)
{
    const char *text = it->texts[0], *skin = it->text_count > 1 ? it->texts[1] : "";
    size_t length = it->lengths[0], skin_length = it->text_count > 1 ? it->lengths[1] : 0;
    const size_t *n = it->numbers;
    if (strcmp(it->call, "area") == 0)
        return termimad_area(text, length, skin, skin_length, n[0], n[1], n[2], n[3], buffer, capacity);
    if (strcmp(it->call, "text") == 0)
        return termimad_text(text, length, skin, skin_length, n[0], buffer, capacity);
    if (strcmp(it->call, "markdown") == 0)
        return termimad_markdown(text, length, skin, skin_length, n[0], buffer, capacity);
    if (strcmp(it->call, "code") == 0)
        return termimad_code(text, length, it->texts[2], it->lengths[2], skin, skin_length, n[0], buffer, capacity);
    if (strcmp(it->call, "inline") == 0)
        return termimad_inline(text, length, skin, skin_length, buffer, capacity);
    if (strcmp(it->call, "fit") == 0)
        return termimad_fit(text, length, skin, skin_length, n[0], n[1], buffer, capacity);
    if (strcmp(it->call, "printable") == 0)
        return termimad_printable(text, length, buffer, capacity);
    if (strcmp(it->call, "links") == 0)
        return termimad_links(text, length, buffer, capacity);
    if (strcmp(it->call, "headings") == 0)
        return termimad_headings(text, length, buffer, capacity);
    if (strcmp(it->call, "table") == 0)
        return table_of(it, buffer, capacity);
    exit(2);
}

/* The rows of a text in pieces. Its numbers are the width and the bytes of a piece. */
static made pieces_of(const request *it)
{
    made whole = { NULL, 0, TERMIMAD_DONE };
    size_t kept = 0, at = 0;
    uint32_t fenced = 0;
    int is_last;
    do {
        size_t left = it->lengths[0] - at, came = left < it->numbers[1] ? left : it->numbers[1];
        at += came;
        is_last = at == it->lengths[0];
        const char *front = it->texts[0] + at - came - kept;
        whole.bytes = room_of(whole.bytes, whole.count + PIECES_HELD);
        termimad_progress now = termimad_parts(front, kept + came, it->texts[1], it->lengths[1], it->numbers[0], fenced, (size_t)is_last,
                                               whole.bytes + whole.count, PIECES_HELD);
        whole.status = now.status;
        if (now.status != TERMIMAD_DONE)
            break;
        whole.count += now.count;
        kept += came - now.used;
        fenced = now.fenced;
    } while (!is_last);
    return whole;
}

/* A text of Markdown that comes in pieces, or one that grows on a terminal. */
typedef struct {
    int grows;
    termimad_stream stream;
    termimad_live live;
} kept;

static uint32_t begin(kept *it, const request *r)
{
    const size_t *n = r->numbers;
    it->grows = strcmp(r->call, "live") == 0;
    return (it->grows ? termimad_live_begin(&it->live, r->texts[1], r->lengths[1], n[0], n[1]) : termimad_stream_begin(&it->stream, r->texts[1], r->lengths[1], n[0])).status;
}

static termimad_answer take(kept *it, const char *piece, size_t count, int last, char *buffer, size_t capacity)
{
    return it->grows ? termimad_live_take(&it->live, piece, count, (size_t)last, buffer, capacity)
                     : termimad_stream_take(&it->stream, piece, count, (size_t)last, buffer, capacity);
}

static void end(kept *it)
{
    if (it->grows)
        termimad_live_end(&it->live);
    else
        termimad_stream_end(&it->stream);
}

/* What Markdown makes in pieces of so many bytes, by a buffer of a few bytes: its last number says how many. */
static made stream_of(const request *it)
{
    made whole = { NULL, 0, TERMIMAD_DONE };
    kept text;
    size_t length = it->lengths[0], cut = it->numbers[it->number_count - 1];
    whole.status = begin(&text, it);
    if (whole.status != TERMIMAD_DONE)
        return whole;
    for (size_t at = 0; at <= length && whole.status == TERMIMAD_DONE; at += cut) {
        size_t count = length - at < cut ? length - at : cut;
        do {
            char buffer[64];
            termimad_answer now = take(&text, it->texts[0] + at, count, at + cut > length, buffer, sizeof buffer);
            size_t got = now.count < sizeof buffer ? now.count : sizeof buffer;
            whole.bytes = room_of(whole.bytes, whole.count + got);
            memcpy(whole.bytes + whole.count, buffer, got);
            whole.count += got;
            whole.status = now.status;
            count = 0;
        } while (whole.status == TERMIMAD_SHORT);
    }
    end(&text);
    return whole;
}

/* How many rows a text takes, as a number. */
static made rows_of(const request *it)
{
    termimad_answer answer = termimad_rows(it->texts[0], it->lengths[0], it->texts[1], it->lengths[1], it->numbers[0]);
    made number = { room_of(NULL, 32), 0, answer.status };
    if (answer.status == TERMIMAD_DONE)
        number.count = (size_t)sprintf(number.bytes, "%zu", answer.count);
    return number;
}

/* The section to which a name leads, as a number; nothing, where there is none. */
static made section_of(const request *it)
{
    termimad_place place = termimad_find_section(it->texts[0], it->lengths[0], it->texts[1], it->lengths[1]);
    made number = { room_of(NULL, 32), 0, place.status };
    if (place.found)
        number.count = (size_t)sprintf(number.bytes, "%zu", place.section);
    return number;
}

/* What any other call makes. The first buffer is empty, so that it is told to be short. */
static made whole_of(const request *it)
{
    made whole = { NULL, 0, TERMIMAD_DONE };
    termimad_answer answer = answer_of(it, "", 0);
    whole.bytes = room_of(NULL, answer.count);
    if (answer.status == TERMIMAD_SHORT) {
        answer = answer_of(it, whole.bytes, answer.count);
        whole.count = answer.count;
    }
    whole.status = answer.status;
    return whole;
}

static made made_of(const request *it)
{
    if (strcmp(it->call, "pieces") == 0)
        return pieces_of(it);
    if (strcmp(it->call, "markdown-pieces") == 0 || strcmp(it->call, "live") == 0)
        return stream_of(it);
    if (strcmp(it->call, "section") == 0)
        return section_of(it);
    return strcmp(it->call, "rows") == 0 ? rows_of(it) : whole_of(it);
}

int main(void)
{
    request it;
    while (read_request(&it)) {
        made whole = made_of(&it);
        if (whole.status != TERMIMAD_DONE)
            whole.count = 0;
        printf("%u %zu\n", (unsigned)whole.status, whole.count);
        fwrite(whole.bytes, 1, whole.count, stdout);
        free(whole.bytes);
        for (size_t at = 0; at < it.text_count; at++)
            free(it.texts[at]);
    }
    return 0;
}
