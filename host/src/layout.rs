//! The sizes of the papers, each named once.

/// Bytes of a page.
pub const PAGE_BYTES: usize = 512;
/// Pages of an erase block.
pub const BLOCK_PAGES: usize = 32;
/// Bytes of an erase block.
pub const BLOCK_BYTES: usize = PAGE_BYTES * BLOCK_PAGES;
/// Fewest and most blocks of a pool.
pub const MIN_BLOCKS: usize = 4;
pub const MAX_BLOCKS: usize = 64;
/// The byte of erased flash.
pub const BLANK: u8 = 0xFF;

/// Bytes of the work table for each block.
pub const TABLE_BYTES_PER_BLOCK: usize = 1024;
/// Longest batch.
pub const MAX_BATCH_BYTES: usize = 32_768;
/// Most pairs that one scan may ask for.
pub const MAX_SCAN_PAIRS: usize = 32;
/// Panels of a wall.
pub const PANELS: usize = 16;

/// Most keys of a node.
pub const MAX_KEYS: usize = 24;
/// Most levels of a sound tree: every branch has two children or more, and a pool at most 620 nodes.
pub const MAX_LEVELS: usize = 9;
/// Keys that stay in the lower half when a node of `MAX_KEYS + 1` splits.
pub const LOWER_KEYS: usize = 12;
/// The link of the last leaf.
pub const NO_LINK: u32 = 0xFFFF_FFFF;

/// Entries of a full log page, and of the log buffer.
pub const LOG_PAGE_ENTRIES: usize = 27;
/// Most log pages that a node's greatest version may lie on.
pub const MAX_LOG_PAGES: usize = 3;

/// Scores on a full checkpoint page: the one that begins with the tariff, and any other.
pub const FIRST_CHECKPOINT_SCORES: usize = 50;
pub const OTHER_CHECKPOINT_SCORES: usize = 54;

/// Greatest sequence number of a pool that still opens.
pub const MAX_SEQUENCE: u32 = 4_000_000_000;
/// Greatest number of a tariff.
pub const MAX_TARIFF: u32 = 1_000_000;

/// How many blocks a pool of this length has, if it is a length that document 01 names.
pub fn block_count(pool_bytes: usize) -> Option<usize> {
    let blocks = pool_bytes / BLOCK_BYTES;
    let whole = pool_bytes.is_multiple_of(BLOCK_BYTES);
    (whole && (MIN_BLOCKS..=MAX_BLOCKS).contains(&blocks)).then_some(blocks)
}

/// Bytes of the work table that a pool of this length needs.
pub const fn table_bytes(pool_bytes: usize) -> usize {
    pool_bytes / BLOCK_BYTES * TABLE_BYTES_PER_BLOCK
}

/// Most nodes of a pool of this many blocks.
pub fn node_limit(blocks: usize) -> usize {
    10 * (blocks - 2)
}

/// The bytes of a pool that a page takes.
pub fn page_range(page: usize) -> std::ops::Range<usize> {
    page * PAGE_BYTES..(page + 1) * PAGE_BYTES
}

/// The bytes of a page, if the pool has so many pages; any number may be asked for.
pub fn page_at(pool: &[u8], page: usize) -> Option<&[u8]> {
    pool.chunks_exact(PAGE_BYTES).nth(page)
}

/// The bytes of a pool that a block takes.
pub fn block_range(block: usize) -> std::ops::Range<usize> {
    block * BLOCK_BYTES..(block + 1) * BLOCK_BYTES
}
