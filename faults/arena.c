#define _GNU_SOURCE

#include "arena.h"

#include <stdint.h>
#include <stdio.h>
#include <stdlib.h>
#include <sys/mman.h>
#include <unistd.h>

/* Wide enough that an index some thousands out still meets it. */
enum { FENCE = 65536, SPAN = FENCE + SLOT_BYTES + FENCE };

static unsigned char *own;
static unsigned char *fenced; /* for each slot the writable span, then the read-only one */

static void *mapped(void *place, size_t bytes, int protection, int flags, int file, off_t offset)
{
    void *const got = mmap(place, bytes, protection, flags, file, offset);
    if (got == MAP_FAILED) {
        perror("faults: mmap");
        exit(1);
    }
    return got;
}

void arena_open(void)
{
    const int file = memfd_create("faults", 0);
    if (file < 0 || ftruncate(file, SLOTS * SLOT_BYTES) != 0) {
        perror("faults: memory");
        exit(1);
    }
    own = mapped(NULL, SLOTS * SLOT_BYTES, PROT_READ | PROT_WRITE, MAP_SHARED, file, 0);
    fenced = mapped(NULL, (size_t)SLOTS * 2 * SPAN, PROT_NONE, MAP_PRIVATE | MAP_ANONYMOUS, -1, 0);
    for (int slot = 0; slot < SLOTS; slot++)
        for (int read_only = 0; read_only < 2; read_only++)
            mapped(arena_seen(slot, read_only), SLOT_BYTES, read_only ? PROT_READ : PROT_READ | PROT_WRITE,
                   MAP_SHARED | MAP_FIXED, file, (off_t)slot * SLOT_BYTES);
    close(file);
}

unsigned char *arena_own(int slot) { return own + (size_t)slot * SLOT_BYTES; }

unsigned char *arena_seen(int slot, int read_only) { return fenced + ((size_t)slot * 2 + read_only) * SPAN + FENCE; }

int arena_slot(const void *address)
{
    const uintptr_t at = (uintptr_t)address, start = (uintptr_t)fenced;
    return at >= start && at - start < (uintptr_t)SLOTS * 2 * SPAN ? (int)((at - start) / SPAN / 2) : -1;
}
