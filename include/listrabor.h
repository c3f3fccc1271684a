/* A tray recording, run over a card memory that the caller lends.

   docs/EMBEDDING.md says what each parameter must be, what is proved and what is not. The library is
   target/staticlib/liblistrabor.a, for x86-64, which tests/library.py proves and writes. */
#ifndef LISTRABOR_H
#define LISTRABOR_H

#include <stddef.h>
#include <stdint.h>

#ifdef __cplusplus
extern "C" {
#endif

/* The words of a card memory, and the numbers by which sizes are refused. */
#define LISTRABOR_RAM_WORDS 16384
#define LISTRABOR_RAM_REFUSED 1
#define LISTRABOR_ROOM_REFUSED 10

/* How many bytes a buffer must have for the text of a recording of so many bytes: 21 for each and
   168 more. Where that is more than a size_t holds the answer is SIZE_MAX, and no buffer will do. */
size_t listrabor_room(size_t bytes);

/* The number by which a run over these sizes is refused, and 0 where it is not: the bytes of the
   recording, the words of the RAM, the bytes of the buffer. LISTRABOR_RAM_REFUSED comes first. */
uint32_t listrabor_refusal(size_t bytes, size_t words, size_t room);

/* Runs a recording, and answers how many bytes of text stand in `out` then, from its first byte on.
   Where the sizes are refused it answers 0, and `ram` and `out` are as they were; a run that is not
   refused never answers 0. No pointer may be null, and the three may not overlap. */
size_t listrabor_run(const uint8_t *recording, size_t bytes,
                     uint16_t *ram, size_t words,
                     uint8_t *out, size_t room);

#ifdef __cplusplus
}
#endif

#endif
