//! The calls of the scale's volume code once more, in plain Rust.
//!
//! Written from the specification alone, so that the archive can be compared
//! with it call by call. `volume` has the calls, `listing` the text of the
//! listing program, `volumes` makes volumes and calls to try them on, and
//! `archive` declares the C functions of the archive.

#![deny(unsafe_code)]

#[cfg(feature = "archive")]
#[allow(unsafe_code)]
pub mod archive;
pub mod comparison;
pub mod listing;
pub mod volume;
pub mod volumes;
