//! A session or the rows of a log as a picture: a page of HTML to step through, or one static drawing.
//!
//! This crate computes what is shown, by taking each step on the proved log. The page's script applies and undoes these
//! changes; it knows no rule of the log.

mod data;
pub mod escape;
pub mod frames;
pub mod page;
mod policy;
pub mod rows;
pub mod scene;
pub mod svg;
mod words;
