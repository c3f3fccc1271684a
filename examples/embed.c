/* A C program that runs a tray recording by the library: document 01's, over a RAM of zeros. Prints
   what the run prints, then the two words that it has stored. docs/EMBEDDING.md says how it is
   built. */
#include <inttypes.h>
#include <stdio.h>
#include <stdlib.h>

#include "listrabor.h"

static const uint8_t recording[] = {
    0x01, 0x00, 0x03, 0x05, 0x01, 0x00,                         /* station 5, table block 1 */
    0x05, 0x00, 0x04, 0x00, 0x43, 0x40, 0x02,                   /* the chain begins with block 2 */
    0x05, 0x00, 0x04, 0x00, 0xBF, 0x40, 0x03,                   /* .. which links to block 3 */
    0x02, 0x00, 0x07, 0x06, 0x28, 0x62, 0x00, 0x00, 0x00, 0x28, /* receive two words */
    0x02, 0x00, 0x07, 0x0C, 0x11, 0x11, 0x00, 0x00, 0x00, 0x3C,
    0x02, 0x00, 0x07, 0x0C, 0x22, 0x22, 0x00, 0x00, 0x00, 0x50,
    0x03, 0x00, 0x05, 0x00, 0x00, 0x00, 0x00, 0x64,             /* silence ends the message */
    0x04, 0x00, 0x00,                                           /* read the queue */
};

int main(void)
{
    static uint16_t ram[LISTRABOR_RAM_WORDS];
    size_t room = listrabor_room(sizeof recording);
    uint8_t *out = malloc(room);
    if (out == NULL) {
        perror("embed");
        return EXIT_FAILURE;
    }

    size_t count = listrabor_run(recording, sizeof recording, ram, LISTRABOR_RAM_WORDS, out, room);
    if (count == 0) {
        fprintf(stderr, "embed: refused by number %" PRIu32 "\n",
                listrabor_refusal(sizeof recording, LISTRABOR_RAM_WORDS, room));
        free(out);
        return EXIT_FAILURE;
    }
    fwrite(out, 1, count, stdout);
    printf("block 2: %04X %04X\n", ram[64 * 2], ram[64 * 2 + 1]);
    free(out);
    return EXIT_SUCCESS;
}
