/* The wall book: an ordered map from 32-bit keys to 32-bit values on raw NAND flash.
 *
 * Three calls, on buffers that the caller lends; none asks anything of the bytes in them. docs/COMMANDS.md takes
 * commands, queues, answers and refusals apart byte by byte.
 *
 * What to lend:
 *
 *   pool      4 to 64 blocks of 16,384 bytes. It is plain memory: a call reads and writes its bytes in any order and
 *             any number of times. A flash chip's pages are copied in before a call, and those that changed out after.
 *   table     1,024 bytes for each block or more (WALL_BOOK_TABLE_BYTES). What it holds at entry means nothing.
 *   commands  0 to 32,768 bytes. A command is a tag of 1 byte, a length of 2 and a payload of that many; keys, values
 *             and bounds have 4 bytes, `most` (1 to 32) has 2, `panel` (0 to 15) has 1, and the most significant byte
 *             comes first:
 *                01 0004 key                get       answers 7 bytes or fewer
 *                02 0008 key value          put       7
 *                03 0004 key                delete    7
 *                04 000a low high most      scan      3 + 8 x most
 *                05 0001 panel              panel     no answer, 0 bytes
 *                07 0004 key                ceiling   11
 *   queues    for a desk, in place of commands: up to 16 queues of them, one behind the other, that of panel 0 first.
 *   lengths   4 bytes for each of them, the most significant first: as many bytes as the queue has.
 *   answers   room for the sum of the last column, however short the answers turn out. Twenty bytes for each byte of
 *             commands are always enough; without a scan, two.
 *
 * No two of these share a byte, `length` and `charges` included, and nobody else reads or writes them while a call
 * runs. A buffer of 0 bytes may be NULL: nothing is read or written through its pointer. `length` and `charges` may
 * not.
 *
 * Command 05 names the current panel: it is charged for the commands behind, up to the next 05 or the batch's end.
 * Every batch begins at panel 0. Nothing else depends on it: pool and answers are those of the batch without its 05s.
 *
 * Command 07 asks for the key, or the nearest above it: 87 0008 key value, or 80 0000 where none is at or above. It
 * reads the nodes that a scan from the key to ffffffff for one pair reads.
 *
 * Nothing is kept between calls and the library has no data of its own: pools may be used by turns, and several at once
 * from several threads, each with buffers of its own.
 *
 * A batch or a desk takes at most 12,288 bytes of stack on x86-64 and 16,384 (WALL_BOOK_STACK_BYTES) on a Cortex-M4,
 * M3 or M0+, whatever the pool holds, and prepare 2,048 and 3,072; nothing calls itself. What memcpy and the like take
 * is in it, what an interrupt takes is not.
 *
 * All calls answer 0, or the number of the first question that failed; a refusal leaves pool and answers as they were.
 */
#ifndef WALL_BOOK_H
#define WALL_BOOK_H

#include <stddef.h>
#include <stdint.h>

#ifdef __cplusplus
extern "C" {
#endif

#define WALL_BOOK_BLOCK_BYTES 16384
#define WALL_BOOK_MOST_COMMAND_BYTES 32768
#define WALL_BOOK_PANELS 16
#define WALL_BOOK_STACK_BYTES 16384
#define WALL_BOOK_TABLE_BYTES(pool_bytes) ((pool_bytes) / 16)

/* Why a call is refused; batch asks 1 to 8 in this order, desk too with 11 between 2 and 3, prepare 1 and then 10. */
enum wall_book_refusal {
    WALL_BOOK_DONE = 0,
    WALL_BOOK_POOL_LENGTH = 1,      /* the pool is not 4 to 64 blocks of 16,384 bytes */
    WALL_BOOK_TABLE_LENGTH = 2,     /* the table has fewer than 1,024 bytes a block */
    WALL_BOOK_BATCH = 3,            /* the batch is over 32,768 bytes or not wholly of valid commands; or a queue is
                                       not, or has an 05 in it, or all of them joined are over 32,768 bytes */
    WALL_BOOK_ANSWER_ROOM = 4,      /* the answers might not fit their buffer */
    WALL_BOOK_PAGES = 5,            /* a page, or the pages together, break the layout */
    WALL_BOOK_CHECKPOINT = 6,       /* the newest checkpoint is incomplete */
    WALL_BOOK_TREE = 7,             /* the tree that the pool spells is unsound */
    WALL_BOOK_SEQUENCE_NUMBERS = 8, /* the sequence numbers are used up */
    WALL_BOOK_NODE_IDS = 9,         /* no call's: the answer 8f of a put for which node ids do not suffice has it */
    WALL_BOOK_TARIFF = 10,          /* a tariff number is out of range */
    WALL_BOOK_QUEUE_LENGTHS = 11    /* over 16 lengths, one that is cut short, or a sum that is not queues_bytes */
};

/* Erases the pool and writes an empty map under a tariff: what a read, an edit and a rewrite cost in log mode and in
 * disk mode (0 to 1,000,000), and what a switch to disk and to log costs (1 to 1,000,000). */
uint32_t wall_book_prepare(uint8_t *pool, size_t pool_bytes,
                           uint32_t log_read, uint32_t log_edit, uint32_t log_rewrite,
                           uint32_t disk_read, uint32_t disk_edit, uint32_t disk_rewrite,
                           uint32_t to_disk, uint32_t to_log);

/* Runs a batch of commands. `length` becomes the number of bytes laid in `answers`, `charges[p]` what the commands of
 * panel p cost; their sum, which stays below 2^44, is what the batch cost. All are 0 where it is refused. Refusals 1
 * and 2 leave the table as it was; after any other call 1,024 bytes of it a block are zero and those behind them as
 * they were. */
uint32_t wall_book_batch(uint8_t *pool, size_t pool_bytes, uint8_t *table, size_t table_bytes,
                         const uint8_t *commands, size_t commands_bytes, uint8_t *answers, size_t answers_bytes,
                         size_t *length, uint64_t charges[WALL_BOOK_PANELS]);

/* Serves the queues of up to 16 panels round robin: from panel 0 up it takes the next command of each that has one
 * left, and begins again until none has. So nobody waits for more than 15 commands of others. It puts an 05 with the
 * panel, 4 bytes, before every command, and runs what comes of it as a batch: within 32,768 bytes, answers in the order
 * of service, the rest as above. A queue is wholly of commands, none of them an 05. Panels without a command have a
 * length of 0 or, behind the last that has one, no length at all. */
uint32_t wall_book_desk(uint8_t *pool, size_t pool_bytes, uint8_t *table, size_t table_bytes,
                        const uint8_t *lengths, size_t lengths_bytes, const uint8_t *queues, size_t queues_bytes,
                        uint8_t *answers, size_t answers_bytes,
                        size_t *length, uint64_t charges[WALL_BOOK_PANELS]);

#ifdef __cplusplus
}
#endif

#endif
