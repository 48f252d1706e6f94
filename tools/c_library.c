/* Calls the library as a careless program would: short buffers, empty texts, bad UTF-8, refused skins, huge numbers. Each text, each list
 * and each buffer has memory of its own, of exactly its length, so that valgrind or a sanitizer sees each byte beside it. What it answers
 * is compared with the same call into a buffer that has room for all. Then the call is made once more, with memory for its first
 * growths alone: `c_library CALLS`. It is linked so that malloc and realloc come here first. */
#include "termimad.h"

#include <stdint.h>
#include <stdio.h>
#include <stdlib.h>
#include <string.h>

enum { ROOM = 1 << 21, PARTS = 6 };

typedef struct {
    char *bytes;
    size_t length;
} bytes;

typedef struct {
    size_t *numbers;
    size_t count;
} sizes;

typedef struct {
    unsigned kind;
    bytes text, skin, language;
    sizes lengths, aligns;
    size_t numbers[4];
} call;

/* How many growths of memory are granted; below zero, all are. */
static long granted = -1;

void *__real_malloc(size_t size);
void *__real_realloc(void *old, size_t size);

static int refuses(void)
{
    if (granted > 0)
        granted--;
    else if (granted == 0)
        return 1;
    return 0;
}

void *__wrap_malloc(size_t size)
{
    return refuses() ? NULL : __real_malloc(size);
}

void *__wrap_realloc(void *old, size_t size)
{
    return refuses() ? NULL : __real_realloc(old, size);
}

static uint64_t state = 63;

static uint64_t next(uint64_t below)
{
    state = state * 6364136223846793005u + 1442695040888963407u;
    return (state >> 33) % below;
}

static const char *const parts[] = {
    "", "# head\n", "# rust\n\n", "<a id=c>c</a> ", "[a](b.md) ", "* item of *some* words\n", "|a|b|\n|:-|-:|\n|1|**2**|\n", "```\ncode\n```\n", "> quote\n", "---\n", "plain words ",
    "\xff", "\xe6\x97", "\xe6\x97\xa5\xe6\x9c\xac", "\xf0\x9f\x98\x80", "\xed\xa0\x80", "\x1b[2J", "\t", "\r\n", "**bo", "`", "\xc2\x85", "\xe2\x80\xae",
};

static const char *const skins[] = {
    "", "", "default", "dark", "light", "{\"bold\":\"red\"}", "{\"bold\":", "nothing", "{\"bold\":\"pissenlit\"}", "{\"colour\":1}", "\xff", "[", "{}", "null",
    "{\"table_border_chars\":\"rounded\",\"headers\":[\"red\",\"\",\"\"]}", "{\"list_items_indentation_mode\":\"hanging(2)\"}",
};

static const char *const languages[] = { "", "rust", "c", "sh", "json", "main.py", "Makefile", "nothing", "rust and more", "\xff" };

static const size_t numbers[] = { 0, 1, 2, 3, 4, 5, 7, 12, 20, 40, 80, 300, 65535, 65536, 65540, 1u << 31, SIZE_MAX / 2, SIZE_MAX - 3, SIZE_MAX };

#define COUNT(list) (sizeof(list) / sizeof *(list))

static void *taken(size_t length)
{
    void *room = malloc(length);
    if (room == NULL && length > 0) {
        fprintf(stderr, "out of memory\n");
        exit(2);
    }
    return room;
}

/* Memory of exactly these bytes. */
static bytes copy_of(const char *from, size_t length)
{
    bytes it = { taken(length), length };
    memcpy(it.bytes, from, length);
    return it;
}

static bytes random_text(void)
{
    char text[PARTS * 64];
    size_t length = 0;
    for (uint64_t left = next(PARTS + 1); left > 0; left--) {
        const char *part = parts[next(COUNT(parts))];
        memcpy(text + length, part, strlen(part));
        length += strlen(part);
    }
    return copy_of(text, length);
}

/* Lengths of up to six cells: mostly all of the text, cut anywhere, also inside characters. */
static sizes random_lengths(size_t left)
{
    size_t count = next(7);
    sizes it = { taken(count * sizeof(size_t)), count };
    for (size_t at = 0; at < count; at++) {
        it.numbers[at] = at + 1 == count && next(4) ? left : next(left + 1);
        left -= it.numbers[at];
    }
    if (count > 0 && next(8) == 0)
        it.numbers[next(count)] = numbers[next(COUNT(numbers))];
    return it;
}

static sizes random_aligns(void)
{
    size_t count = next(4);
    sizes it = { taken(count * sizeof(size_t)), count };
    for (size_t at = 0; at < count; at++)
        it.numbers[at] = next(9) ? next(4) : numbers[next(COUNT(numbers))];
    return it;
}

static call random_call(void)
{
    call it = { .kind = (unsigned)next(13), .text = random_text() };
    it.lengths = random_lengths(it.text.length);
    it.aligns = random_aligns();
    const char *skin = skins[next(COUNT(skins))];
    it.skin = copy_of(skin, strlen(skin));
    const char *language = languages[next(COUNT(languages))];
    it.language = copy_of(language, strlen(language));
    for (int n = 0; n < 4; n++)
        it.numbers[n] = numbers[next(COUNT(numbers))];
    /* A tall wide area has gigabytes. */
    if (it.kind == 0 && it.numbers[3] > 300 && it.numbers[3] < 65536)
        it.numbers[3] = 9;
    /* Half of the fits have an alignment, and half of the tables few columns. */
    if ((it.kind == 4 || it.kind == 7) && next(2))
        it.numbers[1] = next(4);
    return it;
}

/* The answer without how far the text was used, which has to be within the text, and all of it where it is the last. */
static termimad_answer parts_of(const call *c, char *buffer, size_t capacity)
{
    size_t length = c->text.length, fenced = c->numbers[1], last = c->numbers[2];
    termimad_progress it = termimad_parts(c->text.bytes, length, c->skin.bytes, c->skin.length, c->numbers[0], fenced, last, buffer, capacity);
    size_t most = it.status == TERMIMAD_DONE ? length : 0;
    if (it.used > most || it.fenced > 1 || (last && it.status == TERMIMAD_DONE && it.used < length)) {
        fprintf(stderr, "%zu of %zu bytes used, fenced %u, status %u\n", it.used, length, (unsigned)it.fenced, (unsigned)it.status);
        exit(1);
    }
    return (termimad_answer){ it.count, it.status };
}

/* The section of a name as the count of an answer: one more than its number, and 0 where there is none. The word of the language is the name. */
static termimad_answer section_of(const call *c)
{
    termimad_place it = termimad_find_section(c->text.bytes, c->text.length, c->language.bytes, c->language.length);
    if (it.found > 1 || (it.found == 0 && it.section != 0) || (it.found && it.status != TERMIMAD_DONE)) {
        fprintf(stderr, "section %zu, found %u, status %u\n", it.section, (unsigned)it.found, (unsigned)it.status);
        exit(1);
    }
    return (termimad_answer){ it.found ? it.section + 1 : 0, it.status };
}

/* Whether a call has a buffer. */
static int has_buffer(const call *c)
{
    return c->kind != 3 && c->kind != 11;
}

static termimad_answer answer_of(const call *c, char *buffer, size_t capacity)
{
    const char *text = c->text.bytes, *skin = c->skin.bytes;
    size_t length = c->text.length, skin_length = c->skin.length;
    const size_t *n = c->numbers;
    switch (c->kind) {
    case 0: return termimad_area(text, length, skin, skin_length, n[0], n[1], n[2], n[3], buffer, capacity);
    case 1: return termimad_text(text, length, skin, skin_length, n[0], buffer, capacity);
    case 2: return termimad_inline(text, length, skin, skin_length, buffer, capacity);
    case 3: return termimad_rows(text, length, skin, skin_length, n[0]);
    case 4: return termimad_fit(text, length, skin, skin_length, n[0], n[1], buffer, capacity);
    case 5: return termimad_markdown(text, length, skin, skin_length, n[0], buffer, capacity);
    case 6: return parts_of(c, buffer, capacity);
    case 7:
        return termimad_table(text, length, c->lengths.numbers, c->lengths.count, c->aligns.numbers, c->aligns.count, skin, skin_length, n[1], n[0],
                              buffer, capacity);
    case 8: return termimad_links(text, length, buffer, capacity);
    case 9: return termimad_headings(text, length, buffer, capacity);
    case 10: return termimad_code(text, length, c->language.bytes, c->language.length, skin, skin_length, n[0], buffer, capacity);
    case 11: return section_of(c);
    default: return termimad_printable(text, length, buffer, capacity);
    }
}

/* What is wrong with an answer into a buffer of `capacity` bytes that were all '~', if the whole is so; or NULL. */
static const char *fault_of(const call *c, termimad_answer whole, const char *bytes, termimad_answer answer, const char *buffer, size_t capacity)
{
    if (whole.status != TERMIMAD_DONE && whole.count != 0)
        return "a refused call has bytes";
    if (answer.count != whole.count)
        return "the count depends on the buffer";
    if (whole.status != TERMIMAD_DONE || !has_buffer(c)) {
        if (answer.status != whole.status)
            return "the refusal depends on the buffer";
        whole.count = 0;
    } else if (answer.status != (whole.count <= capacity ? TERMIMAD_DONE : TERMIMAD_SHORT)) {
        return "the status is not that of the buffer";
    }
    size_t written = whole.count < capacity ? whole.count : capacity;
    if (memcmp(buffer, bytes, written) != 0)
        return "the buffer has not the beginning";
    for (size_t at = written; at < capacity; at++)
        if (buffer[at] != '~')
            return "a byte behind the result changed";
    return NULL;
}

/* What is wrong with the same call where memory runs out, or NULL: it is refused with an untouched buffer, or does its work. */
static const char *fault_without_memory(const call *c, termimad_answer whole, const char *bytes, char *buffer, size_t capacity, unsigned *refused)
{
    memset(buffer, '~', capacity);
    granted = (long)next(8);
    termimad_answer answer = answer_of(c, buffer, capacity);
    granted = -1;
    if (answer.status != TERMIMAD_MEMORY)
        return fault_of(c, whole, bytes, answer, buffer, capacity);
    (*refused)++;
    termimad_answer none = { 0, TERMIMAD_MEMORY };
    return fault_of(c, none, bytes, answer, buffer, capacity);
}

/* Makes one call thrice, and answers whether it did as it has to. */
static int try_call(unsigned number, char *room, unsigned *counted)
{
    call c = random_call();
    termimad_answer whole = answer_of(&c, room, ROOM);
    if (whole.status == TERMIMAD_SHORT || whole.status > TERMIMAD_SKIN) {
        fprintf(stderr, "call %u: status %u with room for all\n", number, (unsigned)whole.status);
        return 0;
    }
    counted[whole.status]++;
    size_t fits = !has_buffer(&c) || whole.count == 0 ? next(9) : whole.count;
    size_t capacities[] = { 0, next(fits + 1), fits, fits + 1 + next(9) };
    size_t capacity = capacities[next(4)];
    char *buffer = taken(capacity);
    memset(buffer, '~', capacity);
    termimad_answer answer = answer_of(&c, buffer, capacity);
    const char *fault = fault_of(&c, whole, room, answer, buffer, capacity);
    if (answer.status == TERMIMAD_SHORT)
        counted[TERMIMAD_SHORT]++;
    if (fault == NULL)
        fault = fault_without_memory(&c, whole, room, buffer, capacity, &counted[TERMIMAD_MEMORY]);
    if (fault != NULL)
        fprintf(stderr, "call %u, kind %u: %s\n", number, c.kind, fault);
    free(buffer);
    free(c.text.bytes);
    free(c.skin.bytes);
    free(c.language.bytes);
    free(c.lengths.numbers);
    free(c.aligns.numbers);
    return fault == NULL;
}

/* Hands a text to a stream in pieces, into buffers of a few bytes, and answers the last status: `grants` growths of memory are granted at first, or all
 * below zero. Where the status is done, `rows` has all rows, and `length` is how many bytes they have. */
static uint32_t streamed(const bytes *text, const bytes *skin, size_t width, long grants, char *rows, size_t *length)
{
    termimad_stream stream;
    granted = grants;
    termimad_answer now = termimad_stream_begin(&stream, skin->bytes, skin->length, width);
    uint32_t begun = now.status;
    *length = 0;
    for (size_t at = 0, last = begun != TERMIMAD_DONE; !last && now.status == TERMIMAD_DONE;) {
        size_t left = text->length - at, count = next(8) < left ? next(8) % (left + 1) : left, capacity = next(40);
        last = count == left;
        do {
            char *buffer = __real_malloc(capacity);
            now = termimad_stream_take(&stream, text->bytes + at, count, last, buffer, capacity);
            size_t got = now.count < capacity ? now.count : capacity;
            memcpy(rows + *length, buffer, now.status > TERMIMAD_SHORT ? 0 : got);
            *length += now.status > TERMIMAD_SHORT ? 0 : got;
            free(buffer);
            at += count;
            count = 0;
            capacity = capacity * 2 + 1;
        } while (now.status == TERMIMAD_SHORT);
    }
    granted = -1;
    if (begun == TERMIMAD_DONE)
        termimad_stream_end(&stream);
    return now.status;
}

/* Streams one text twice, once while memory runs out. Where both are done the rows have to be the same. */
static int try_stream(unsigned number, char *room, unsigned *counted)
{
    bytes text = random_text();
    const char *word = skins[next(COUNT(skins))];
    bytes skin = copy_of(word, strlen(word));
    size_t width = next(8) ? numbers[next(12)] : 65536 + next(9), length, other;
    char *again = room + ROOM / 2;
    uint32_t status = streamed(&text, &skin, width, -1, room, &length);
    uint32_t poor = streamed(&text, &skin, width, (long)next(40), again, &other);
    counted[status]++;
    counted[TERMIMAD_MEMORY] += poor == TERMIMAD_MEMORY;
    int is_right = status < TERMIMAD_MEMORY && (poor == TERMIMAD_MEMORY || (poor == status && (status != TERMIMAD_DONE || other == length)))
        && memcmp(room, again, length < other ? length : other) == 0;
    if (!is_right)
        fprintf(stderr, "stream %u: status %u, then %u\n", number, (unsigned)status, (unsigned)poor);
    free(text.bytes);
    free(skin.bytes);
    return is_right;
}

/* Appends what a call handed out. */
static void keep(termimad_answer now, const char *buffer, size_t capacity, char *all, size_t *length)
{
    size_t got = now.status > TERMIMAD_SHORT ? 0 : now.count < capacity ? now.count : capacity;
    if (*length + got > ROOM / 2) {
        fprintf(stderr, "more bytes than there is room for\n");
        exit(2);
    }
    memcpy(all + *length, buffer, got);
    *length += got;
}

/* Hands a piece to a live text, or resizes it first where the height isn't 0, into buffers of a few bytes. */
static uint32_t live_step(termimad_live *live, const char *piece, size_t count, int last, size_t width, size_t height, char *all, size_t *length)
{
    termimad_answer now = { 0, TERMIMAD_DONE };
    size_t capacity = next(40);
    do {
        char *buffer = __real_malloc(capacity);
        int resizes = height > 0;
        now = resizes ? termimad_live_resize(live, width, height, buffer, capacity) : termimad_live_take(live, piece, count, (size_t)last, buffer, capacity);
        keep(now, buffer, capacity, all, length);
        free(buffer);
        if (!resizes)
            count = 0;
        height = 0;
        capacity = capacity * 2 + 1;
        if (resizes && now.status == TERMIMAD_DONE)
            now.status = TERMIMAD_SHORT;
    } while (now.status == TERMIMAD_SHORT);
    return now.status;
}

/* Hands a text to a live text in pieces of `step` bytes, and answers the last status: before the piece of the number `turn` it is resized. `grants` growths
 * of memory are granted at first, or all below zero. Where the status is done, `all` has all bytes, and `length` is how many these are. */
static uint32_t lived(const bytes *text, const bytes *skin, size_t width, size_t height, size_t step, size_t turn, long grants, char *all, size_t *length)
{
    termimad_live live;
    granted = grants;
    uint32_t begun = termimad_live_begin(&live, skin->bytes, skin->length, width, height).status, status = begun;
    *length = 0;
    int last = 0;
    for (size_t at = 0, number = 0; status == TERMIMAD_DONE && !last; at += step, number++) {
        size_t left = text->length - at;
        last = left <= step;
        status = live_step(&live, text->bytes + at, last ? left : step, last, width / 2, number == turn ? height + 1 : 0, all, length);
    }
    granted = -1;
    if (begun == TERMIMAD_DONE) {
        char none;
        if (status == TERMIMAD_DONE && termimad_live_resize(&live, width, height, &none, 0).status != TERMIMAD_CONDITION)
            status = UINT32_MAX;
        termimad_live_end(&live);
    }
    return status;
}

/* Shows one text twice, once while memory runs out. Where both are done the bytes have to be the same. */
static int try_live(unsigned number, char *room, unsigned *counted)
{
    bytes text = random_text();
    const char *word = skins[next(COUNT(skins))];
    bytes skin = copy_of(word, strlen(word));
    size_t width = next(8) ? numbers[next(12)] : 65536 + next(9), height = next(8) ? next(30) : 65536 + next(9);
    size_t step = 8 + next(60), turn = next(12), length, other;
    char *again = room + ROOM / 2;
    uint32_t status = lived(&text, &skin, width, height, step, turn, -1, room, &length);
    uint32_t poor = lived(&text, &skin, width, height, step, turn, (long)next(60), again, &other);
    int is_right = status < TERMIMAD_MEMORY && (poor == TERMIMAD_MEMORY || (poor == status && (status != TERMIMAD_DONE || other == length)))
        && memcmp(room, again, length < other ? length : other) == 0;
    if (is_right) {
        counted[status]++;
        counted[TERMIMAD_MEMORY] += poor == TERMIMAD_MEMORY;
    } else {
        fprintf(stderr, "live %u: status %u, then %u\n", number, (unsigned)status, (unsigned)poor);
    }
    free(text.bytes);
    free(skin.bytes);
    return is_right;
}

int main(int count, char **words)
{
    unsigned calls = count > 1 ? (unsigned)strtoul(words[1], NULL, 10) : 1000;
    unsigned counted[TERMIMAD_MEMORY + 1] = { 0 }, wrong = 0;
    char *room = taken(ROOM);
    for (unsigned number = 0; number < calls; number++)
        wrong += number % 8 == 3 ? !try_stream(number, room, counted) : number % 8 == 7 ? !try_live(number, room, counted) : !try_call(number, room, counted);
    free(room);
    printf("%u calls: done %u, of these short %u, condition %u, not UTF-8 %u, skin %u; refused memory %u; wrong %u\n", calls, counted[TERMIMAD_DONE],
           counted[TERMIMAD_SHORT], counted[TERMIMAD_CONDITION], counted[TERMIMAD_NOT_UTF8], counted[TERMIMAD_SKIN], counted[TERMIMAD_MEMORY], wrong);
    return wrong != 0;
}
