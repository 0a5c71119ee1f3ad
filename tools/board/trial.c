/* Calls of the wall book from a fixed stream of numbers; a line for each tells everything that it left.
 *
 * The same file runs on this machine and on a board: the lines must be the same.
 */
#include "wall_book.h"

#if __STDC_HOSTED__
#include <stdio.h>
static void print(const char *text) { fputs(text, stdout); }
#else
void print(const char *text);
#endif

enum { BLOCK = 16384, MOST_BLOCKS = 64, MOST_COMMANDS = 400, ROUNDS = 60 };

static uint8_t pool[MOST_BLOCKS * BLOCK];
static uint8_t table[MOST_BLOCKS * 1024];
static uint8_t commands[MOST_COMMANDS * 13];
static uint8_t lengths[4 * WALL_BOOK_PANELS];
static uint8_t answers[MOST_COMMANDS * 259];
static uint32_t state;

/* A pseudo-random number below a limit (xorshift). */
static uint32_t below(uint32_t limit)
{
    state ^= state << 13;
    state ^= state >> 17;
    state ^= state << 5;
    return state % limit;
}

static size_t lay(size_t at, uint32_t value, int bytes)
{
    while (bytes-- > 0)
        commands[at++] = (uint8_t)(value >> 8 * bytes);
    return at;
}

enum { KINDS = 9, KINDS_OF_QUEUES = 8 };

/* One command of so many kinds at a place: mostly puts, so that the tree grows. Answers the place behind it. */
static size_t lay_command(size_t at, uint32_t kinds, uint32_t keys)
{
    static const uint8_t payloads[] = {0, 4, 8, 4, 10, 1, 0, 4};
    static const uint8_t tags[KINDS] = {1, 2, 2, 2, 2, 3, 4, 7, 5};
    uint32_t tag = tags[below(kinds)];

    at = lay(lay(at, tag, 1), payloads[tag], 2);
    if (tag == 5)
        return lay(at, below(WALL_BOOK_PANELS), 1);
    at = lay(at, below(keys), 4);
    if (tag == 2 || tag == 4)
        at = lay(at, below(keys), 4);
    return tag == 4 ? lay(at, 1 + below(32), 2) : at;
}

/* FNV-1a of 64 bits. */
static uint64_t hash(const uint8_t *bytes, size_t size)
{
    uint64_t sum = 0xcbf29ce484222325u;
    size_t i;

    for (i = 0; i < size; i++)
        sum = (sum ^ bytes[i]) * 0x100000001b3u;
    return sum;
}

static void print_number(uint64_t number)
{
    char text[18];
    int i;

    for (i = 15; i >= 0; i--, number >>= 4)
        text[i] = "0123456789abcdef"[number & 15];
    text[16] = ' ';
    text[17] = 0;
    print(text);
}

/* The places that a call writes its length and its charges to. */
static size_t length;
static uint64_t charges[WALL_BOOK_PANELS];

static void spoil_places(void)
{
    int panel;

    length = 77;
    for (panel = 0; panel < WALL_BOOK_PANELS; panel++)
        charges[panel] = 77;
}

/* A line of all that a call left. */
static void print_left(uint32_t number, size_t blocks)
{
    int panel;

    print_number(number);
    print_number(length);
    for (panel = 0; panel < WALL_BOOK_PANELS; panel++)
        print_number(charges[panel]);
    print_number(hash(pool, blocks * BLOCK));
    print_number(hash(table, sizeof table));
    print_number(hash(answers, sizeof answers));
    print("\n");
}

/* A batch of random commands. One in 16 is a byte short, one has little room for answers, two meet a spoiled pool. */
static void try_batch(size_t blocks, uint32_t keys)
{
    uint32_t count = below(MOST_COMMANDS), turn = below(16), place = below((uint32_t)blocks * BLOCK);
    size_t bytes = 0;

    while (count-- > 0)
        bytes = lay_command(bytes, KINDS, keys);
    if (turn < 2)
        pool[place] ^= 0x10;
    if (turn == 2 && bytes > 0)
        bytes--;
    spoil_places();
    print_left(wall_book_batch(pool, blocks * BLOCK, table, sizeof table, commands, bytes,
                               answers, turn == 3 ? 100 : sizeof answers, &length, charges), blocks);
    if (turn < 2)
        pool[place] ^= 0x10;
}

/* Random commands for each of 16 queues, one in four of which is empty. Answers how many bytes they have. */
static size_t lay_queues(uint32_t kinds, uint32_t keys)
{
    size_t panel, start, at = 0;
    uint32_t count;
    int byte;

    for (panel = 0; panel < WALL_BOOK_PANELS; panel++) {
        start = at;
        for (count = below(4) == 0 ? 0 : below(MOST_COMMANDS / WALL_BOOK_PANELS); count > 0; count--)
            at = lay_command(at, kinds, keys);
        for (byte = 0; byte < 4; byte++)
            lengths[4 * panel + byte] = (uint8_t)((at - start) >> 8 * (3 - byte));
    }
    return at;
}

/* A desk of random queues. One in 16 has part of a length, one a byte too few, one little room, and one 05s in it. */
static void try_desk(size_t blocks, uint32_t keys)
{
    uint32_t turn = below(16);
    size_t bytes = lay_queues(turn == 3 ? KINDS : KINDS_OF_QUEUES, keys);

    if (turn == 1 && bytes > 0)
        bytes--;
    spoil_places();
    print_left(wall_book_desk(pool, blocks * BLOCK, table, sizeof table,
                              lengths, turn == 0 ? sizeof lengths - 1 : sizeof lengths, commands, bytes,
                              answers, turn == 2 ? 100 : sizeof answers, &length, charges), blocks);
}

int main(void)
{
    static const uint32_t sizes[][2] = {{4, 400}, {9, 1500}, {64, 9000}};
    size_t i;
    int round;

    state = 1;
    for (i = 0; i < 3; i++) {
        print_number(wall_book_prepare(pool, sizes[i][0] * BLOCK, 3, 1, 2, 1, 4, 4, 3, 2));
        print("\n");
        for (round = 0; round < ROUNDS; round++) {
            try_batch(sizes[i][0], sizes[i][1]);
            try_desk(sizes[i][0], sizes[i][1]);
        }
    }
    return 0;
}
