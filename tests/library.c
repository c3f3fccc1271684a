/* The library from C, for tests/library.py: the recording on standard input is run over a RAM of
   zeros; the text is printed, then every nonzero cell of the RAM, rising. On the way it is checked
   that nothing else is written, and that sizes which cannot be used are refused by number and touch
   nothing. What is wrong is said on standard error, and exit status 1 left. */
#include <stdio.h>
#include <stdlib.h>
#include <string.h>

#include "listrabor.h"

enum { WORDS = LISTRABOR_RAM_WORDS, GUARD = 64, FILL = 0xA5 };

static void fail(const char *what)
{
    fprintf(stderr, "library: %s\n", what);
    exit(EXIT_FAILURE);
}

static void *room_for(size_t bytes)
{
    void *room = malloc(bytes);
    if (room == NULL)
        fail("no memory");
    return room;
}

static uint8_t *read_all(size_t *length)
{
    size_t room = 4096;
    uint8_t *bytes = room_for(room);
    *length = 0;
    for (;;) {
        size_t got = fread(bytes + *length, 1, room - *length, stdin);
        if (got == 0)
            return bytes;
        *length += got;
        if (*length == room) {
            room *= 2;
            bytes = realloc(bytes, room);
            if (bytes == NULL)
                fail("no memory");
        }
    }
}

static int all_are(const void *memory, size_t count, uint8_t byte)
{
    const uint8_t *bytes = memory;
    for (size_t at = 0; at < count; at++)
        if (bytes[at] != byte)
            return 0;
    return 1;
}

/* A run over so many words and so many bytes is refused by a number, and touches nothing. */
static void refused(const uint8_t *recording, size_t length, size_t words, size_t room,
                    uint32_t number)
{
    uint16_t *ram = room_for((WORDS + GUARD) * sizeof *ram);
    uint8_t *out = room_for(room + GUARD);
    memset(ram, FILL, (WORDS + GUARD) * sizeof *ram);
    memset(out, FILL, room + GUARD);
    if (listrabor_refusal(length, words, room) != number)
        fail("refused by another number");
    if (listrabor_run(recording, length, ram, words, out, room) != 0)
        fail("a refused run answers a count");
    if (!all_are(ram, (WORDS + GUARD) * sizeof *ram, FILL) || !all_are(out, room + GUARD, FILL))
        fail("a refused run wrote something");
    free(ram);
    free(out);
}

static void check_refusals(const uint8_t *recording, size_t length, size_t room)
{
    static const size_t others[] = {0, 1, 64, 256, WORDS - 1, WORDS + 1};
    for (size_t at = 0; at < sizeof others / sizeof others[0]; at++) {
        refused(recording, length, others[at], room, LISTRABOR_RAM_REFUSED);
        refused(recording, length, others[at], 0, LISTRABOR_RAM_REFUSED);
    }
    refused(recording, length, WORDS, room - 1, LISTRABOR_ROOM_REFUSED);
    refused(recording, length, WORDS, 167, LISTRABOR_ROOM_REFUSED);
    refused(recording, length, WORDS, 0, LISTRABOR_ROOM_REFUSED);
    if (listrabor_refusal(length, WORDS, room) != 0
        || listrabor_refusal(length, WORDS, room + 1) != 0)
        fail("sizes that can be used are refused");
}

/* The greatest recording whose room a size_t holds has 878,416,384,462,359,592 bytes. */
static void check_rooms(size_t length, size_t room)
{
    const size_t longest = (SIZE_MAX - 168) / 21;
    if (room != 21 * length + 168 || listrabor_room(0) != 168 || listrabor_room(1) != 189)
        fail("another room");
    if (listrabor_room(longest) != 21 * longest + 168)
        fail("another room for the longest recording");
    if (listrabor_room(longest + 1) != SIZE_MAX || listrabor_room(SIZE_MAX) != SIZE_MAX)
        fail("a room that wrapped round");
    if (listrabor_refusal(longest + 1, WORDS, SIZE_MAX) != LISTRABOR_ROOM_REFUSED
        || listrabor_refusal(SIZE_MAX, WORDS, SIZE_MAX) != LISTRABOR_ROOM_REFUSED)
        fail("a recording that has no room is not refused");
}

int main(void)
{
    size_t length;
    uint8_t *recording = read_all(&length);
    size_t room = listrabor_room(length);
    check_rooms(length, room);
    check_refusals(recording, length, room);

    uint16_t *ram = room_for((WORDS + GUARD) * sizeof *ram);
    uint8_t *out = room_for(room + GUARD);
    uint8_t *copy = room_for(length + 1);
    memset(ram, 0, WORDS * sizeof *ram);
    memset(ram + WORDS, FILL, GUARD * sizeof *ram);
    memset(out, FILL, room + GUARD);
    memcpy(copy, recording, length);

    size_t count = listrabor_run(recording, length, ram, WORDS, out, room);
    if (count == 0 || room < count)
        fail("no count of text");
    if (!all_are(out + count, room - count + GUARD, FILL))
        fail("a byte behind the text was written");
    if (!all_are(ram + WORDS, GUARD * sizeof *ram, FILL))
        fail("a word behind the RAM was written");
    if (memcmp(copy, recording, length) != 0)
        fail("the recording was written");

    fwrite(out, 1, count, stdout);
    for (size_t at = 0; at < WORDS; at++)
        if (ram[at] != 0)
            printf("%04zX %04X\n", at, ram[at]);
    free(recording);
    free(copy);
    free(out);
    free(ram);
    return EXIT_SUCCESS;
}
