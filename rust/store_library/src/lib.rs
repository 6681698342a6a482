//! The store for controllers in C, C++ and Python: the functions of `include/cindrolf_store.h`, which says what each
//! does and what its caller must ensure.
//!
//! A handle is a number that is never given twice, and leads to no memory: one that is null, closed or made up is
//! detected. Each call takes its handle for itself, and returns `IN_USE` if another has it. No panic leaves a call.

// The header has the contract of each function, for its callers.
#![allow(clippy::missing_safety_doc)]

mod failure;
mod handles;
mod memory;
mod opening;
mod reading;
mod settings;
mod status;
mod steps;

pub use handles::Opaque;
pub use opening::*;
pub use reading::*;
pub use settings::*;
pub use status::{Status, cindrolf_store_status_text};
pub use steps::*;
