//! Controllers that share a log through an engine with faults, in one process and from a seed.
//!
//! A [`Controller`](controller::Controller) does what the proved kernel decides and keeps its copy with the proved
//! library. Between it and the [`Engine`](engine::Engine), messages are lost, late and repeated; controllers crash and
//! start again; the engine fails over, and keeps all rows or loses some. The [`Judge`](judge::Judge) sees every event,
//! takes the rows once more with the [`model`], and checks the promises of sharing with both. It uses neither the
//! kernel nor the library.
//!
//! A [`Fault`](fault::Fault) plants a mistake in the kernel's decisions, in the driver or in the engine; the judge has to
//! find it.

pub mod change;
pub mod controller;
pub mod engine;
pub mod fault;
pub mod judge;
pub mod kernel;
pub mod replica;
pub mod row;
pub mod truth;
pub mod wishes;
pub mod world;
