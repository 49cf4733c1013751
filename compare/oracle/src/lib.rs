//! The unchanged Rust, with a module appended that reaches its private functions (`reach.rs`).
#![allow(dead_code, unused_imports)]

include!(concat!(env!("OUT_DIR"), "/modules.rs"));
