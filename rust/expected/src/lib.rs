//! The outputs that the repository's programs must give, computed by the model, which uses none of their code.

pub mod files;
pub mod grammar;
pub mod histories;
pub mod log;
pub mod session;
pub mod total;
