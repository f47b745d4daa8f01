/* A responder in memory of the program's own, such as a static array: for firmware without a heap.
 *
 * This header has the three functions of the heap that the library calls, in place of those of libfelosumay_heap.a: include it in
 * exactly one file of the program, and link libfelosumay.a alone. They have memory for `felosumay_responder_new_in`, and for no
 * other call: a collector and a search, which take memory as they go on, need a heap, and are OUT_OF_MEMORY here.
 *
 * A responder takes all its memory when it is made, and no later call asks for any. The program may have several, each in memory of
 * its own. One thread at a time makes a responder or frees one.
 *
 * docs/C.md says how large the memory is, and c/no_heap.c is a fixture that has it. */
#ifndef FELOSUMAY_MEMORY_H
#define FELOSUMAY_MEMORY_H
#include "felosumay.h"
#include <string.h>

#ifdef __cplusplus
#define FELOSUMAY_ALIGNED alignas(16)
extern "C" {
#else
#define FELOSUMAY_ALIGNED _Alignas(16)
#endif

/* Makes a responder as `felosumay_responder_new_with`, in `bytes` bytes of memory that begin at a multiple of 16. The memory is the
 * library's until the handle is freed, or holds another responder, and may hold anything before.
 *
 *     FELOSUMAY_ALIGNED static uint8_t memory[FELOSUMAY_RESPONDER_BYTES(8, 64, 0)];
 *
 * A profile with unusual features needs more: felosumay.h says which of FELOSUMAY_PARTICULARS_BYTES,
 * FELOSUMAY_OWN_PARAMETERS_BYTES, FELOSUMAY_VALUES_BYTES, FELOSUMAY_CHOICES_BYTES, FELOSUMAY_LOCKS_BYTES and FELOSUMAY_MODES_BYTES to add.
 *
 * UNALIGNED; SHORT_MEMORY, if there are fewer bytes than FELOSUMAY_RESPONDER_BYTES of these sizes and the profile's sub-devices;
 * IN_USE, if a responder lies in some of it; and then as `new_with`, in this order, where OUT_OF_MEMORY means that there is no room for
 * the profile's unusual features. If it isn't DONE, the handle stays as it was, and the memory is the program's again. */
felosumay_result felosumay_responder_new_in(void *memory, uint64_t bytes, felosumay_responder *responder, uint16_t maker, uint32_t device,
                                            const felosumay_profile *profile, uint16_t queue_size, uint16_t entries, uint32_t first_job);

/* What is at the front of such memory: 32 bytes on each target, so addresses are 64-bit numbers here. */
typedef struct felosumay_arena {
    struct felosumay_arena *next; /* the arena that came into use before it */
    uint64_t free;                /* where the next block begins */
    uint64_t end;
    uint64_t blocks; /* how many blocks there are, and one more while the responder is made */
} felosumay_arena;
FELOSUMAY_ASSERT(sizeof(felosumay_arena) == 32);

/* All arenas in use, and the one whose responder is made, or NULL. */
static felosumay_arena *felosumay_arenas, *felosumay_open_arena;

/* The address of an empty block: no pointer is NULL. */
static felosumay_block felosumay_no_block(void) {
    static char nothing[1];
    felosumay_block block = {0, nothing};
    return block;
}

/* One block less; with the last one the arena is out of use. */
static void felosumay_leave_arena(felosumay_arena *arena) {
    felosumay_arena **link = &felosumay_arenas;
    if (--arena->blocks != 0)
        return;
    while (*link != arena)
        link = &(*link)->next;
    *link = arena->next;
}

felosumay_block rattle_alloc(uint64_t size, uint64_t alignment) {
    felosumay_arena *arena = felosumay_open_arena;
    felosumay_block block = {1, NULL};
    (void)alignment; /* each block begins at a multiple of 16 */
    if (arena == NULL || size > arena->end - arena->free || FELOSUMAY_ROUNDED(size) > arena->end - arena->free)
        return felosumay_no_block();
    block.at = (void *)(uintptr_t)arena->free;
    arena->free += FELOSUMAY_ROUNDED(size);
    arena->blocks++;
    return block;
}

felosumay_block rattle_realloc(void *at, uint64_t kept, uint64_t size, uint64_t alignment) {
    felosumay_block block = rattle_alloc(size, alignment);
    if (block.there) {
        memcpy(block.at, at, (size_t)kept);
        rattle_dealloc(at);
    }
    return block;
}

void rattle_dealloc(void *at) {
    const uint64_t place = (uintptr_t)at;
    felosumay_arena *arena = felosumay_arenas;
    while (place < (uintptr_t)(arena + 1) || place > arena->end)
        arena = arena->next;
    felosumay_leave_arena(arena);
}

felosumay_result felosumay_responder_new_in(void *memory, uint64_t bytes, felosumay_responder *responder, uint16_t maker, uint32_t device,
                                            const felosumay_profile *profile, uint16_t queue_size, uint16_t entries, uint32_t first_job) {
    const uint64_t start = (uintptr_t)memory;
    felosumay_arena *arena = (felosumay_arena *)memory, *other;
    felosumay_result result = felosumay_responder_fits(start, bytes, queue_size, entries, profile->subs);
    if (result != FELOSUMAY_DONE)
        return result;
    for (other = felosumay_arenas; other != NULL; other = other->next)
        if (start < other->end && (uintptr_t)other < start + bytes)
            return FELOSUMAY_IN_USE;
    arena->next = felosumay_arenas;
    arena->free = start + sizeof *arena;
    arena->end = start + bytes;
    arena->blocks = 1;
    felosumay_arenas = felosumay_open_arena = arena;
    result = felosumay_responder_new_with(responder, maker, device, profile, queue_size, entries, first_job);
    felosumay_open_arena = NULL;
    felosumay_leave_arena(arena);
    return result;
}

#ifdef __cplusplus
}
#endif
#endif
