/*
 * recording BYTES [modes | controller]: writes a recording of about that many bytes, always the
 * same, as a busy rack's: receives, transmits, mode commands, transfers between stations, broken
 * messages, queue reads and the host's writes; or of mode commands alone; or what comes back to
 * the controller. It ends after a whole message, so a run of it prints END.
 */
#include <stdbool.h>
#include <stdint.h>
#include <stdio.h>
#include <stdlib.h>
#include <string.h>

enum { STATION = 5, OTHER = 9, TABLE = 1, COMMAND = 6, DATA = 12, UNSOUND = 8 };

static uint64_t written;
static bool counts_alone; /* what would be written is counted only */
static uint32_t now;
static uint64_t seed = 1;

/* A number below the limit (Knuth's linear generator, its high bits). */
static unsigned below(unsigned limit)
{
    seed = seed * 6364136223846793005u + 1442695040888963407u;
    return (unsigned)(seed >> 33) % limit;
}

static void put(uint32_t number, unsigned bytes)
{
    written += bytes;
    while (!counts_alone && bytes-- > 0)
        putchar((int)(number >> 8 * bytes & 255));
}

static void head(unsigned tag, unsigned length)
{
    put(tag, 1);
    put(length, 2);
}

static void stamp(void)
{
    now += 20;
    put(now, 4);
}

static void word(unsigned marks, unsigned value)
{
    head(2, 7);
    put(marks, 1);
    put(value, 2);
    stamp();
}

static void silence(unsigned line)
{
    head(3, 5);
    put(line, 1);
    stamp();
}

static void host_write(unsigned address, unsigned value)
{
    head(5, 4);
    put(address, 2);
    put(value, 2);
}

static void queue_read(void)
{
    head(4, 0);
}

static unsigned command(unsigned station, unsigned direction, unsigned subaddress, unsigned count)
{
    return station << 11 | direction << 10 | subaddress << 5 | (count & 31);
}

static void data_words(unsigned line, unsigned count)
{
    while (count-- > 0)
        word(DATA | line, below(65536));
}

static void receive(unsigned line, unsigned subaddress, unsigned count)
{
    word(COMMAND | line, command(STATION, 0, subaddress, count));
    data_words(line, count);
    silence(line);
}

static void transmit(unsigned line, unsigned subaddress, unsigned count)
{
    word(COMMAND | line, command(STATION, 1, subaddress, count));
    silence(line);
}

/* Every code but those that shut or inhibit: most lines shall be answered. */
static void mode_command(unsigned line)
{
    static const uint8_t codes[] = {0, 1, 2, 3, 5, 7, 8, 16, 17, 18, 19, 20, 21};
    const unsigned code = codes[below(sizeof codes)];
    const unsigned takes = code == 17 || code >= 20;

    word(COMMAND | line, command(STATION, !takes, 31 * below(2), code));
    data_words(line, takes);
    silence(line);
}

/* Another station sends to ours. */
static void transfer(unsigned line, unsigned subaddress, unsigned count)
{
    word(COMMAND | line, command(STATION, 0, subaddress, count));
    word(COMMAND | 8 | line, command(OTHER, 1, subaddress, count));
    silence(line);
    word(COMMAND | line, OTHER << 11);
    data_words(line, count);
    silence(line);
}

static void broken(unsigned line, unsigned subaddress, unsigned count)
{
    word(COMMAND | line, command(STATION, 0, subaddress, count));
    data_words(line, count - 1);
    switch (below(4)) {
    case 0: /* a word short */
        break;
    case 1:
        word(UNSOUND | line, below(65536));
        break;
    case 2: /* a word too many */
        data_words(line, 2);
        break;
    default: /* superseded on the other line */
        line ^= 1;
        word(COMMAND | line, command(STATION, 1, subaddress, count));
        break;
    }
    silence(line);
}

/* Setup, and a chain through three blocks for each table cell. */
static void prepare(void)
{
    head(1, 3);
    put(STATION, 1);
    put(TABLE, 1);
    put(1, 1); /* broadcast enabled */
    for (unsigned cell = 0; cell < 64; cell++) {
        const unsigned first = 2 + 3 * cell;

        host_write(64 * TABLE + cell, 0x4000 | first);
        for (unsigned link = 0; link < 3; link++)
            host_write(64 * (first + link) + 63, 0x4000 | (first + (link + 1) % 3));
    }
}

static void message(void)
{
    const unsigned line = below(8) == 0;
    const unsigned subaddress = 1 + below(30);
    const unsigned count = 1 + below(32);
    const unsigned draw = below(100);

    if (draw < 50)
        receive(line, subaddress, count);
    else if (draw < 70)
        transmit(line, subaddress, count);
    else if (draw < 80)
        mode_command(line);
    else if (draw < 90)
        transfer(line, subaddress, count);
    else if (draw < 95)
        broken(line, subaddress, count);
    else
        host_write(64 * (2 + below(192)) + below(32), below(65536));
    if (below(8) != 0)
        queue_read();
}

/*
 * The controller's recording. A chain in a loop over CHAIN blocks; every reply is sound and no
 * status has a bit set, so the chain goes on. A setup's count is at most 65,535, and a second
 * setup is refused: after so many messages every start gives nothing and what comes back does
 * nothing. So that the recording keeps the controller busy to its end it has no more of them;
 * most have 32 words, which makes some 13 MB.
 */
enum { CHAIN = 64, MESSAGES = 65535, GO_ON = 0x10, LINE_B = 0x20 };

/* A message of the chain: block 1 + its place in it. */
static struct link {
    unsigned row;   /* of document 001's table of formats */
    unsigned line;
    unsigned first; /* its command, or in row 2 the receiver's */
    unsigned other; /* row 2: the transmitter's station */
} chain[CHAIN];

static void choose_chain(void)
{
    static const uint8_t without_data[] = {0, 1, 2, 3, 5, 7, 8};

    for (unsigned place = 0; place < CHAIN; place++) {
        struct link *const link = &chain[place];
        const unsigned draw = below(100);
        const unsigned station = below(30);

        link->row = draw < 40 ? 0 : draw < 65 ? 1 : draw < 85 ? 2 : draw < 90 ? 3
            : draw < 95 ? 4 : 5;
        link->line = below(8) == 0;
        link->other = 30;
        if (link->row <= 2)
            link->first = command(station, link->row == 1, 1 + below(30), 32);
        else if (link->row == 3)
            link->first = command(station, 1, 0, without_data[below(sizeof without_data)]);
        else
            link->first = command(station, link->row == 5, 0, link->row == 5 ? 16 : 17);
    }
}

static unsigned control_word(unsigned place)
{
    return (1 + place) << 6 | (chain[place].line != 0 ? LINE_B : 0) | GO_ON | chain[place].row;
}

/* Setup, then commands and the next control word into each block. */
static void prepare_controller(void)
{
    head(10, 4);
    put(control_word(0), 2);
    put(MESSAGES, 2);
    for (unsigned place = 0; place < CHAIN; place++) {
        const unsigned start = 64 * (1 + place);

        host_write(start, chain[place].first);
        host_write(start + 1, command(chain[place].other, 1, 1, 32));
        host_write(start + 63, control_word((place + 1) % CHAIN));
    }
}

/* The host's new data for a message that gives 32 words. */
static void refill(unsigned place)
{
    head(5, 2 + 2 * 32);
    put(64 * (1 + place) + 1, 2);
    for (unsigned index = 0; index < 32; index++)
        put(below(65536), 2);
}

/* Start, and the sound reply. */
static void exchange(unsigned place)
{
    const struct link *const link = &chain[place];
    const unsigned station = link->first >> 11;

    if (link->row == 0)
        refill(place);
    head(11, 0);
    silence(link->line);
    word(COMMAND | link->line, (link->row == 2 ? link->other : station) << 11);
    if (link->row == 1 || link->row == 2)
        data_words(link->line, 32);
    else if (link->row == 5)
        data_words(link->line, 1);
    silence(link->line);
    if (link->row == 2) {
        word(COMMAND | link->line, station << 11);
        silence(link->line);
    }
}

static void controller(uint64_t wanted)
{
    prepare_controller();
    for (unsigned number = 0; number < MESSAGES && written < wanted; number++)
        exchange(number % CHAIN);
}

/* False, with nothing written, where all messages together have fewer bytes. */
static bool write_controller(uint64_t wanted)
{
    uint64_t most;

    choose_chain();
    counts_alone = true;
    controller(UINT64_MAX);
    most = written;
    if (wanted > most) {
        fprintf(stderr, "recording: %d messages, all that a controller may start, have %llu "
                "bytes\n", MESSAGES, (unsigned long long)most);
        return false;
    }
    written = 0;
    counts_alone = false;
    controller(wanted);
    return true;
}

static void write_tray(uint64_t wanted, bool has_modes_alone)
{
    prepare();
    while (written < wanted) {
        if (has_modes_alone)
            mode_command(below(8) == 0);
        else
            message();
    }
}

int main(int argument_count, char **arguments)
{
    const char *const kind = argument_count == 3 ? arguments[2] : "";
    const bool is_modes = strcmp(kind, "modes") == 0;
    const bool is_controller = strcmp(kind, "controller") == 0;
    const bool is_known = argument_count == 2 || is_modes || is_controller;
    const uint64_t wanted = is_known ? strtoull(arguments[1], NULL, 10) : 0;

    if (wanted == 0) {
        fputs("usage: recording BYTES [modes | controller]\n", stderr);
        return 2;
    }
    if (!is_controller)
        write_tray(wanted, is_modes);
    else if (!write_controller(wanted))
        return 2;
    return fflush(stdout) == 0 ? 0 : 1;
}
