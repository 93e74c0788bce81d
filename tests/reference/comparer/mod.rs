//! A second comparer of process models in plain Rust, written from the pages in `docs` alone.
//! It is read beside the first one: both are handed the same inputs, and their answers must agree.
//! Nothing here knows how the first one is built.
#![allow(dead_code)]

pub mod accepting;
pub mod judging;
pub mod models;
pub mod reading;
pub mod sheets;
pub mod unfolding;
pub mod writing;
