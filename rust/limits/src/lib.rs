//! All limits in Rust, in one file: first those of the log, which `cindrolf` re-exports, then those of the commands and
//! the store. A name that ends in `LIMIT` is the largest value that is accepted.

/// Words in a state buffer.
pub const STATE_WORDS: usize = 527;
/// Words in an entry buffer.
pub const ENTRY_WORDS: usize = 4096;
/// Words in the entry buffer of a small cartridge.
pub const SMALL_ENTRY_WORDS: usize = 512;
/// Words in a marks buffer.
pub const MARK_WORDS: usize = 64;
/// Words in a rights buffer, one for each client that a log can have.
pub const RIGHTS_WORDS: usize = 16;
/// The fewest bytes of a text buffer. Every sentence fits them.
pub const TEXT_BYTES: usize = 96;

/// The most clients that a log serves.
pub const CLIENT_LIMIT: u64 = 16;
/// The highest client number that a step word, a line or a sentence holds. A log may serve fewer.
pub const CLIENT_NUMBER_LIMIT: u64 = 255;
/// The most ledgers that a log creates. They have the numbers from 1.
pub const LEDGER_LIMIT: u64 = 255;
/// The largest value that an entry holds.
pub const VALUE_LIMIT: u64 = (1 << 52) - 1;
/// The most scores that one write takes.
pub const SCORES_LIMIT: usize = 4000;
/// The highest score.
pub const SCORE_LIMIT: u16 = 372;
/// The most marks that a marks buffer keeps.
pub const MARKS_LIMIT: usize = 32;
/// The most words of a window.
pub const WINDOW_LIMIT: u64 = 256;
/// The most words that are rearranged at once.
pub const REARRANGE_LIMIT: usize = 4096;

// ---- the commands and the store

/// Bytes of a session. The proved programs have the same limit.
pub const INPUT_LIMIT: usize = 16_384;

/// Bytes of a line with a step, without its end. The longest step, `W 255 18446744073709551615`, has as many, so of a
/// longer line no more need be kept to know that it is bad.
pub const LINE_LIMIT: usize = 26;

/// Seconds that a step may be told to wait for a lock: a day. A longer time is taken for a mistake.
pub const WAIT_LIMIT: u64 = 86_400;

/// Rows of a journal: those of sixteen clients, and the others. A log that is filled with reads has some six thousand.
/// Only steps that are taken over and over, such as naming one leader and then another, come near: a controller that does
/// so without end is stopped before the file fills the disk, and before it takes long to open.
pub const ROW_LIMIT: i64 = 1_000_000;

/// Rows of one client, so that none uses up those of the others.
pub const CLIENT_ROW_LIMIT: u32 = 60_000;

/// Rows of marks and rights, and of clients that no log has.
pub const OTHER_ROW_LIMIT: u32 = 40_000;

/// Bytes of a note in a row, as the name of a read.
pub const NOTE_LIMIT: usize = 200;

/// Bytes of the name of a process in a row.
pub const PROCESS_LIMIT: usize = 100;

/// Bytes of the name of a log on a server.
pub const LOG_NAME_LIMIT: usize = 200;

/// Lines of steps that are taken as one request. So many writes share one wait for the disk, and an answer does not wait
/// for long.
pub const BATCH_LIMIT: usize = 256;

/// Bytes of a line of reads, without its end. The longest reads that any instrument has given are some four million bases;
/// the log takes 4,000, and refuses the others by their names.
pub const READ_LINE_LIMIT: usize = 16_777_216;

/// Bytes of a plan's file: as many of the longest lines as a log takes rows.
pub const PLAN_LIMIT: usize = ROW_LIMIT as usize * (LINE_LIMIT + 1);

/// Bytes of one field of a log's file, so that a file which was made to deceive cannot use up the memory. The largest
/// is a text of its schema; the scores of a read have at most 8,000 bytes.
pub const FIELD_LIMIT: i32 = 65_536;

/// Bytes of a file's path. SQLite takes 512, with the end of the name of a file beside it.
pub const PATH_LIMIT: usize = 504;

/// Steps of a session whose picture is part of its page. Beyond it there is the list alone, so that a page stays below
/// 2 MB.
pub const DRAWN_LIMIT: usize = 200;

/// Rows of a log that a page shows: as many as a full log has reads.
pub const PAGE_ROW_LIMIT: usize = 4_096;
