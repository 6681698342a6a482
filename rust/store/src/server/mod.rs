//! The engine that keeps rows in a PostgreSQL database, which controllers on many computers share.
//!
//! A request is one call of one function of the server, in one message. Under a lock of the server it looks at the last
//! row, adds the request after it, and answers its place. So no controller holds a lock, and one that falls silent at
//! any byte of its message stops no other.

mod audit;
mod engine;
pub mod import;
pub mod schema;
pub mod store;
