/* Reads Markdown as GitHub has it from standard input and writes html, by md4c: cc -O2 -o md4c bench/md4c.c -lmd4c-html */
#include <md4c-html.h>
#include <stdio.h>
#include <stdlib.h>

static void put(const MD_CHAR *text, MD_SIZE size, void *out) { fwrite(text, 1, size, out); }

int main(void) {
    size_t size = 0, room = 1 << 24;
    char *text = malloc(room);
    if (!text) return 1;
    for (size_t got; (got = fread(text + size, 1, room - size, stdin)) > 0;) size += got;
    return md_html(text, size, put, stdout, MD_DIALECT_GITHUB, 0);
}
