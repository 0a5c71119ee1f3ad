/* A wall book that is kept in a file: `book FILE` prepares a pool, runs batches, reopens it, serves the queues of three
 * panels at a desk, and meets refusals.
 *
 * `tools/library` makes the proved library, `make -C examples/c` builds target/book. The file is C99 and C++.
 */
#include "wall_book.h"

#include <stdio.h>
#include <string.h>

enum { POOL_BYTES = 4 * WALL_BOOK_BLOCK_BYTES, COMMANDS_BYTES = 64, ANSWERS_BYTES = 20 * COMMANDS_BYTES };

/* What the book is lent. A panel that has room for one pool at a time keeps the buffers like this, out of the stack. */
static uint8_t pool[POOL_BYTES];
static uint8_t table[WALL_BOOK_TABLE_BYTES(POOL_BYTES)];
static uint8_t commands[COMMANDS_BYTES];
static size_t commands_bytes;
static uint8_t answers[ANSWERS_BYTES];

/* For a desk: a length for each queue, how many there are, and how many bytes of the commands are in them. */
static uint8_t lengths[4 * WALL_BOOK_PANELS];
static size_t queues, queues_bytes;

/* Lays a number at a place, its most significant byte first. */
static void lay_at(uint8_t *at, uint32_t number, int bytes)
{
    while (bytes-- > 0)
        *at++ = (uint8_t)(number >> 8 * bytes);
}

/* Lays a number behind the commands. */
static void lay(uint32_t number, int bytes)
{
    lay_at(commands + commands_bytes, number, bytes);
    commands_bytes += (size_t)bytes;
}

static void lay_head(uint32_t tag, uint32_t length)
{
    lay(tag, 1);
    lay(length, 2);
}

static void lay_get(uint32_t key)
{
    lay_head(0x01, 4);
    lay(key, 4);
}

static void lay_put(uint32_t key, uint32_t value)
{
    lay_head(0x02, 8);
    lay(key, 4);
    lay(value, 4);
}

static void lay_delete(uint32_t key)
{
    lay_head(0x03, 4);
    lay(key, 4);
}

static void lay_scan(uint32_t low, uint32_t high, uint32_t most)
{
    lay_head(0x04, 10);
    lay(low, 4);
    lay(high, 4);
    lay(most, 2);
}

/* Names the panel whose commands follow. It has no answer. */
static void lay_panel(uint32_t panel)
{
    lay_head(0x05, 1);
    lay(panel, 1);
}

/* Asks for the key, or the nearest above it. */
static void lay_ceiling(uint32_t key)
{
    lay_head(0x07, 4);
    lay(key, 4);
}

/* Makes the commands laid since the last queue the next panel's: none is an empty queue. */
static void end_queue(void)
{
    lay_at(lengths + 4 * queues++, (uint32_t)(commands_bytes - queues_bytes), 4);
    queues_bytes = commands_bytes;
}

/* A number read back from an answer. */
static uint32_t number(const uint8_t *at, int bytes)
{
    uint32_t value = 0;

    while (bytes-- > 0)
        value = value << 8 | *at++;
    return value;
}

static const char *in_words(uint32_t refused)
{
    switch (refused) {
    case WALL_BOOK_POOL_LENGTH:
        return "the pool is not 4 to 64 blocks of 16,384 bytes";
    case WALL_BOOK_TABLE_LENGTH:
        return "the table has fewer than 1,024 bytes a block";
    case WALL_BOOK_BATCH:
        return "the batch or a queue is too long or not wholly of valid commands";
    case WALL_BOOK_ANSWER_ROOM:
        return "the answers might not fit their buffer";
    case WALL_BOOK_PAGES:
        return "the pages break the layout";
    case WALL_BOOK_CHECKPOINT:
        return "the newest checkpoint is incomplete";
    case WALL_BOOK_TREE:
        return "the tree is unsound";
    case WALL_BOOK_SEQUENCE_NUMBERS:
        return "the sequence numbers are used up";
    case WALL_BOOK_NODE_IDS:
        return "node ids do not suffice";
    case WALL_BOOK_TARIFF:
        return "a tariff number is out of range";
    case WALL_BOOK_QUEUE_LENGTHS:
        return "the lengths are not those of the queues";
    default:
        return "no refusal of this book";
    }
}

/* Prints a refusal, or nothing where there is none. Answers whether there was one. */
static int print_refused(uint32_t refused)
{
    if (refused != WALL_BOOK_DONE)
        printf("  refused %u: %s\n", (unsigned)refused, in_words(refused));
    return refused != WALL_BOOK_DONE;
}

/* Prints the pairs of a payload, and ends the line. */
static void print_pairs(const uint8_t *payload, uint32_t length)
{
    uint32_t at;

    for (at = 0; at < length; at += 8)
        printf(" %u=%u", (unsigned)number(payload + at, 4), (unsigned)number(payload + at + 4, 4));
    printf("\n");
}

/* Prints one answer, and answers where the next begins. */
static const uint8_t *print_answer(const uint8_t *answer)
{
    uint32_t length = number(answer + 1, 2);
    const uint8_t *payload = answer + 3;

    switch (answer[0]) {
    case 0x80:
        printf("  absent\n");
        break;
    case 0x81:
        printf("  got %u\n", (unsigned)number(payload, 4));
        break;
    case 0x82:
        printf("  replaced %u\n", (unsigned)number(payload, 4));
        break;
    case 0x83:
        printf("  deleted %u\n", (unsigned)number(payload, 4));
        break;
    case 0x84:
        printf("  %u pairs:", (unsigned)length / 8);
        print_pairs(payload, length);
        break;
    case 0x87:
        printf("  ceiling");
        print_pairs(payload, length);
        break;
    case 0x8f:
        print_refused(payload[0]);
        break;
    }
    return payload + length;
}

/* Runs the commands laid so far as one batch with so much room for answers. */
static uint32_t batch(size_t room, size_t *length, uint64_t *charges)
{
    size_t bytes = commands_bytes;

    commands_bytes = 0;
    return wall_book_batch(pool, sizeof pool, table, sizeof table, commands, bytes, answers, room, length, charges);
}

/* Prints what each panel's own commands cost, where they cost anything: which one drives the flash. */
static void print_charges(const uint64_t *charges)
{
    int panel;

    for (panel = 0; panel < WALL_BOOK_PANELS; panel++)
        if (charges[panel] != 0)
            printf("  panel %d is charged %lu\n", panel, (unsigned long)charges[panel]);
}

/* Prints what a call answered and cost. */
static void print_done(size_t length, const uint64_t *charges)
{
    const uint8_t *answer = answers;

    while (answer < answers + length)
        answer = print_answer(answer);
    print_charges(charges);
}

/* Runs them and prints what comes of it. */
static void run(const char *what, size_t room)
{
    size_t length;
    uint64_t charges[WALL_BOOK_PANELS];

    printf("%s\n", what);
    if (!print_refused(batch(room, &length, charges)))
        print_done(length, charges);
}

/* Serves the queues laid so far and prints what comes of it: the answers come in the order of service. */
static void serve(const char *what)
{
    size_t bytes = commands_bytes, lengths_bytes = 4 * queues, length;
    uint64_t charges[WALL_BOOK_PANELS];

    commands_bytes = queues = queues_bytes = 0;
    printf("%s\n", what);
    if (!print_refused(wall_book_desk(pool, sizeof pool, table, sizeof table, lengths, lengths_bytes,
                                      commands, bytes, answers, sizeof answers, &length, charges)))
        print_done(length, charges);
}

/* Three panels hand in together; the second has nothing to ask. */
static void serve_three(void)
{
    lay_get(7);
    lay_get(8);
    end_queue();
    end_queue();
    lay_put(9, 301);
    lay_ceiling(8);
    lay_delete(9);
    end_queue();
    serve("a desk: gets of panel 0, put, ceiling and delete of panel 2");
}

/* A batch without commands: a buffer of 0 bytes may be NULL. */
static void run_empty(void)
{
    size_t length;
    uint64_t charges[WALL_BOOK_PANELS];

    printf("an empty batch\n");
    if (!print_refused(wall_book_batch(pool, sizeof pool, table, sizeof table, NULL, 0, NULL, 0, &length, charges)))
        printf("  length %u\n", (unsigned)length);
}

/* A desk at which nobody hands in: neither lengths nor queues are there. */
static void serve_empty(void)
{
    size_t length;
    uint64_t charges[WALL_BOOK_PANELS];

    printf("an empty desk\n");
    if (!print_refused(wall_book_desk(pool, sizeof pool, table, sizeof table, NULL, 0, NULL, 0, NULL, 0,
                                      &length, charges)))
        printf("  length %u\n", (unsigned)length);
}

/* Puts keys from 1 up, one a batch, until the book has no node ids for the next. */
static void fill(void)
{
    uint32_t key = 0;
    size_t length;
    uint64_t charges[WALL_BOOK_PANELS];

    printf("puts of new keys\n");
    do {
        lay_put(++key, 0);
        if (print_refused(batch(sizeof answers, &length, charges)))
            return;
    } while (answers[0] != 0x8f);
    printf("  key %u:\n", (unsigned)key);
    print_answer(answers);
}

/* Calls that are refused, each for another reason; the pool stays as it is. */
static void meet_refusals(void)
{
    size_t length;
    uint64_t charges[WALL_BOOK_PANELS];

    printf("no pool, no table, nothing at all, a switch that costs nothing\n");
    print_refused(wall_book_prepare(NULL, 0, 3, 1, 2, 1, 4, 4, 3, 2));
    print_refused(wall_book_batch(pool, sizeof pool, NULL, 0, NULL, 0, NULL, 0, &length, charges));
    print_refused(wall_book_desk(NULL, 0, NULL, 0, NULL, 0, NULL, 0, NULL, 0, &length, charges));
    print_refused(wall_book_prepare(pool, sizeof pool, 3, 1, 2, 1, 4, 4, 0, 2));
    lay_scan(1, 9, 33);
    run("a scan for 33 pairs", sizeof answers);
    lay_get(7);
    run("a get with room for 6 bytes", 6);
    lay_panel(3);
    end_queue();
    serve("a queue that names a panel");
    lay_get(7);
    serve("a queue without its length");
    pool[9] ^= 1;
    run("a flipped bit in the pool", sizeof answers);
    pool[9] ^= 1;
}

/* Writes the pool to a file. Answers whether that was done. */
static int save(const char *name)
{
    FILE *file = fopen(name, "wb");
    int written = file != NULL && fwrite(pool, 1, sizeof pool, file) == sizeof pool;

    return file != NULL && fclose(file) == 0 && written;
}

/* Reads the pool from a file. Answers whether that was done. */
static int load(const char *name)
{
    FILE *file = fopen(name, "rb");
    int read = file != NULL && fread(pool, 1, sizeof pool, file) == sizeof pool;

    return file != NULL && fclose(file) == 0 && read;
}

/* Prepares a pool, puts four times and saves it. Answers whether it is saved. */
static int begin(const char *name)
{
    memset(pool, 0xff, sizeof pool);
    run("a blank pool", sizeof answers);
    printf("prepare\n");
    print_refused(wall_book_prepare(pool, sizeof pool, 3, 1, 2, 1, 4, 4, 3, 2));
    lay_put(7, 100);
    lay_put(9, 300);
    lay_put(8, 200);
    lay_put(7, 101);
    run("four puts", sizeof answers);
    return save(name);
}

/* Loads it again and goes on: nothing else has to be kept. Answers whether it is loaded and saved. */
static int go_on(const char *name)
{
    memset(pool, 0, sizeof pool);
    if (!load(name))
        return 0;
    lay_panel(3);
    lay_get(7);
    lay_scan(0, 0xffffffff, 32);
    lay_panel(12);
    lay_delete(9);
    lay_get(9);
    run("reopened: get and scan of panel 3, delete and get of panel 12", sizeof answers);
    lay_ceiling(1);
    lay_ceiling(9);
    run("ceilings of 1 and 9", sizeof answers);
    serve_three();
    run_empty();
    serve_empty();
    meet_refusals();
    fill();
    return save(name);
}

int main(int count, char **words)
{
    if (count != 2) {
        fprintf(stderr, "usage: book FILE\n");
        return 2;
    }
    if (!begin(words[1]) || !go_on(words[1])) {
        perror(words[1]);
        return 1;
    }
    return 0;
}
