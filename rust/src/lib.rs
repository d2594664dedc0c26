//! Evidence from outside the proofs.
//!
//! `ffi` declares the proved library's exported functions and the controller's calls once and wraps each once. `reading` is an independent
//! reading of documents 01 and 02, written from them. `calls` makes any call to either and compares them on every buffer. `cases`, `world`
//! and `damage` are the inputs from a fixed seed, good ones and ones with faults; `guard` has buffers between guard pages. `plain`,
//! `plain_path`, `plain_times`, `plain_files`, `plain_filled`, `plain_fork`, `plain_screen` and `plain_jobs` are plain Rust that does what the calls do, for the
//! benchmark, and `cubic` is another method.

pub mod calls;
pub mod cases;
pub mod cubic;
pub mod damage;
pub mod ffi;
pub mod guard;
pub mod plain;
pub mod plain_filled;
mod plain_files;
pub mod plain_fork;
pub mod plain_jobs;
pub mod plain_path;
pub mod plain_screen;
pub mod plain_times;
pub mod random;
pub mod reading;
pub mod world;
