/* A help page at a width: `help [WIDTH [SKIN]]`, of 60 columns without style where nothing is said. */
#include "termimad.h"

#include <stdio.h>
#include <stdlib.h>
#include <string.h>

static const char page[] =
    "# count\n"
    "\n"
    "**count** reads files and says how many *words* each has. A word is what stands between whitespace.\n"
    "\n"
    "## Options\n"
    "\n"
    "|option|default|what it does|\n"
    "|:-|:-:|:-|\n"
    "|`--lines`|no|counts lines, and not words|\n"
    "|`--top N`|10|shows the **N** files that have most|\n"
    "|`--sort`|no|begins with the file that has most|\n"
    "\n"
    "## Examples\n"
    "\n"
    "* `count *.txt` for each text of the folder\n"
    "* `count --top 3 *.txt` for the three longest\n"
    "\n"
    "> Files that cannot be read are named at the end.\n";

static const char *said_of(uint32_t status)
{
    switch (status) {
    case TERMIMAD_CONDITION: return "the width is at most 65535";
    case TERMIMAD_NOT_UTF8: return "the page or the skin is not UTF-8";
    case TERMIMAD_SKIN: return "that is no skin";
    default: return "out of memory";
    }
}

/* Writes the page on standard output, and answers the call's status. It asks with a small buffer first. */
static uint32_t show(size_t width, const char *skin)
{
    char small[512];
    termimad_answer answer = termimad_text(page, sizeof page - 1, skin, strlen(skin), width, small, sizeof small);
    if (answer.status == TERMIMAD_DONE)
        fwrite(small, 1, answer.count, stdout);
    if (answer.status != TERMIMAD_SHORT)
        return answer.status;

    char *whole = malloc(answer.count);
    if (whole == NULL)
        return TERMIMAD_MEMORY;
    answer = termimad_text(page, sizeof page - 1, skin, strlen(skin), width, whole, answer.count);
    if (answer.status == TERMIMAD_DONE)
        fwrite(whole, 1, answer.count, stdout);
    free(whole);
    return answer.status;
}

int main(int count, char **words)
{
    size_t width = count > 1 ? strtoul(words[1], NULL, 10) : 60;
    const char *skin = count > 2 ? words[2] : "";
    uint32_t status = show(width, skin);
    if (status != TERMIMAD_DONE)
        fprintf(stderr, "help: %s\n", said_of(status));
    return (int)status;
}
