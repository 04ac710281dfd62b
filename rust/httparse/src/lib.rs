//! Headreader under httparse's name: every name here is [`headreader`]'s.
//!
//! ```toml
//! [patch.crates-io]
//! httparse = { path = "headreader/rust/httparse" }
//! ```
//!
//! in the `Cargo.toml` of a program puts Headreader in httparse's place, also for the crates below
//! it, such as hyper.

#![no_std]

pub use headreader::*;
