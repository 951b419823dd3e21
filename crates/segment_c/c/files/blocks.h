/* The long blocks of memory that the archive has from the C library. files.c finds in them the segments whose pages it
   keeps for a transaction. */
#ifndef RATTLE_BLOCKS_H
#define RATTLE_BLOCKS_H

#include <stdbool.h>
#include <stddef.h>
#include <stdint.h>

/* A shorter block is not noted: to copy it takes less time than to find out which of its pages changed. */
enum { LONG_BLOCK = 1 << 17 };

struct rattle_block {
    struct rattle_block *next;
    uint8_t *at;
    size_t len;
    uint64_t number; /* no other block ever has it */
};

/* Finds the block to which one of these words points. */
bool rattle_find_block(const uintptr_t *words, size_t count, struct rattle_block *found);

/* Is called when a block ends, unless it is null. If the block is about to be freed, its bytes may be lost already. */
extern void (*_Atomic rattle_ends)(const struct rattle_block *block, bool is_freed);

/* Hold the list of blocks, and let it go, around a fork. */
void rattle_hold_blocks(void);
void rattle_let_blocks_go(void);

#endif
