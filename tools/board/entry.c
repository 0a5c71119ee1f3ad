/* The three calls of wall_book.h on a machine of 32 bits.
 *
 * The proved code counts in 64 bits. Here sizes are widened on their way in, and the length, which is at most
 * answers_bytes, is narrowed on its way out. tools/firmware compiles this file; nothing proves it.
 */
#include "wall_book.h"

uint32_t wall_book_prepare_wide(uint8_t *pool, uint64_t pool_bytes,
                                uint32_t log_read, uint32_t log_edit, uint32_t log_rewrite,
                                uint32_t disk_read, uint32_t disk_edit, uint32_t disk_rewrite,
                                uint32_t to_disk, uint32_t to_log);

uint32_t wall_book_batch_wide(uint8_t *pool, uint64_t pool_bytes, uint8_t *table, uint64_t table_bytes,
                              const uint8_t *commands, uint64_t commands_bytes,
                              uint8_t *answers, uint64_t answers_bytes,
                              uint64_t *length, uint64_t charges[WALL_BOOK_PANELS]);

uint32_t wall_book_desk_wide(uint8_t *pool, uint64_t pool_bytes, uint8_t *table, uint64_t table_bytes,
                             const uint8_t *lengths, uint64_t lengths_bytes,
                             const uint8_t *queues, uint64_t queues_bytes,
                             uint8_t *answers, uint64_t answers_bytes,
                             uint64_t *length, uint64_t charges[WALL_BOOK_PANELS]);

uint32_t wall_book_prepare(uint8_t *pool, size_t pool_bytes,
                           uint32_t log_read, uint32_t log_edit, uint32_t log_rewrite,
                           uint32_t disk_read, uint32_t disk_edit, uint32_t disk_rewrite,
                           uint32_t to_disk, uint32_t to_log)
{
    return wall_book_prepare_wide(pool, pool_bytes, log_read, log_edit, log_rewrite,
                                  disk_read, disk_edit, disk_rewrite, to_disk, to_log);
}

uint32_t wall_book_batch(uint8_t *pool, size_t pool_bytes, uint8_t *table, size_t table_bytes,
                         const uint8_t *commands, size_t commands_bytes, uint8_t *answers, size_t answers_bytes,
                         size_t *length, uint64_t charges[WALL_BOOK_PANELS])
{
    uint64_t length_wide;
    uint32_t refused = wall_book_batch_wide(pool, pool_bytes, table, table_bytes, commands, commands_bytes,
                                            answers, answers_bytes, &length_wide, charges);

    *length = (size_t)length_wide;
    return refused;
}

uint32_t wall_book_desk(uint8_t *pool, size_t pool_bytes, uint8_t *table, size_t table_bytes,
                        const uint8_t *lengths, size_t lengths_bytes, const uint8_t *queues, size_t queues_bytes,
                        uint8_t *answers, size_t answers_bytes,
                        size_t *length, uint64_t charges[WALL_BOOK_PANELS])
{
    uint64_t length_wide;
    uint32_t refused = wall_book_desk_wide(pool, pool_bytes, table, table_bytes, lengths, lengths_bytes,
                                           queues, queues_bytes, answers, answers_bytes, &length_wide, charges);

    *length = (size_t)length_wide;
    return refused;
}
