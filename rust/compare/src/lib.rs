//! Holds the proved library against the model: every call on both, then the answers and every word of every buffer.

pub mod arguments;
pub mod buffers;
pub mod call;
pub mod forty;
pub mod histories;
pub mod logs;
pub mod marks;
pub mod plans;
pub mod rights;
pub mod sentences;
pub mod shrink;
pub mod sides;
pub mod storage;
pub mod sweep;
pub mod tally;
pub mod texts;
