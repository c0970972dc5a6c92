/* Memory in which a buffer lies against an inaccessible page. */
#ifndef ARENA_H
#define ARENA_H

#include <stddef.h>

#include "inputs.h"

/* One for each parameter. */
enum { SLOTS = MOST, SLOT_BYTES = ROOM_BYTES };

/* Where a buffer lies: its end at the inaccessible page behind it, or its start at the one before it. */
enum layout { AT_END, AT_START };

/* Maps the memory; prints why and ends the program where that fails. */
void arena_open(void);

/* A slot's bytes as the harness writes and reads them. */
unsigned char *arena_own(int slot);

/* A slot's bytes as a door sees them, with inaccessible pages on both sides; read_only has them mapped so. */
unsigned char *arena_seen(int slot, int read_only);

/* The slot that an address lies in or next to, or -1. */
int arena_slot(const void *address);

#endif
