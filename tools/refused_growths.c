// The allocator of a program whose growths are refused: with COUNT=1 in the environment it says how many growths there were, with FAIL=N the
// N-th growth is refused. It is linked by refused_growths beside a module that `rt try` compiled.
#include <stdint.h>
#include <stdio.h>
#include <stdlib.h>

// Whether memory was found, and where.
struct growth {
    uint64_t found, place;
};

extern struct growth rattle_alloc(uint64_t size, uint64_t align);
extern struct growth rattle_realloc(void *block, uint64_t kept, uint64_t size, uint64_t align);

static long growths, refused;
static char no_place[64];
static const char *place;

__attribute__((constructor)) static void begin(void) {
    const char *number = getenv("FAIL");
    refused = number ? atol(number) : 0;
}

__attribute__((destructor)) static void end(void) {
    if (getenv("COUNT")) fprintf(stderr, "growths=%ld\n", growths);
}

struct growth try_rattle_alloc(uint64_t size, uint64_t align) {
    if (++growths == refused) return (struct growth){0, (uint64_t)no_place};
    return rattle_alloc(size, align);
}

struct growth try_rattle_realloc(void *block, uint64_t kept, uint64_t size, uint64_t align) {
    if (++growths == refused) return (struct growth){0, (uint64_t)no_place};
    return rattle_realloc(block, kept, size, align);
}

// Where a check failed.
void *__rattle_keep_place(void *p) { return (void *)(place = p); }

void __rattle_write_place(void) { fprintf(stderr, "stopped at %s\n", place ? place : "an unknown place"); }
