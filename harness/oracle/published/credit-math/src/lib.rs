//! The published credit-math, compiled as it is. Its root is a module here (see `source.rs`), and all that it makes public stands
//! at the top of this crate, where its own `crate::` paths look for it.
#![allow(unused_attributes)] // the published root's `no_std`, which means nothing in a module
extern crate alloc;
include!(concat!(env!("OUT_DIR"), "/root.rs"));
pub use published::*;
