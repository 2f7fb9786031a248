/*
 * heap_arena.h - where the archive takes its memory in a program without malloc: an arena, one piece of memory.
 *
 * Compile heap_arena.c beside the archive libapei_bare.a. It has an array of 2 MB, in which the arena lies at first. Give another
 * place by apei_arena; -DAPEI_ARENA=0 leaves the array out, and -DAPEI_ARENA=BYTES makes it of another size. docs/EMBED.md says
 * how much memory a device takes; each of its 12 blocks takes up to 31 bytes more here.
 *
 * One arena serves all devices, and it has no lock. Only apei_erst_open, _open_raw, _load, _load_raw, _close, apei_check_hest and
 * apei_arena use it. If two threads, processors or levels of interrupt may call any of these at the same time, hold one lock of
 * yours around each such call. The other calls need none for the arena.
 */
#ifndef APEI_HEAP_ARENA_H
#define APEI_HEAP_ARENA_H

#include "apei.h"

#ifdef __cplusplus
extern "C" {
#endif

/*
 * From now on the arena is these bytes. They may lie anywhere and have any contents, and belong to the arena until another one
 * is given. APEI_POINTER: the pointer is null. APEI_SHORT: there are fewer than 64 bytes. APEI_OPEN: memory of the arena before
 * is held, as by an open device. A refused call leaves the arena as it was.
 */
enum apei_status apei_arena(void *memory, size_t size);

/* The most bytes that were taken of the arena at once since it was given, with what the blocks take beside their contents. */
size_t apei_arena_most(void);

#ifdef __cplusplus
}
#endif

#endif
