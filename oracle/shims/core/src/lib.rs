//! The module tree around the ported files. `analyze` brings its own mod.rs.
#![allow(warnings)]
pub mod analyze;
pub mod error_chain;
pub mod events;
pub mod objects;
pub mod utils;
