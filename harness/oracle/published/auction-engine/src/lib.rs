//! The published auction engine, compiled as it is. Its root is a module here (see `source.rs`), and all that it makes public
//! stands at the top of this crate, where its own `crate::` paths look for it.
include!(concat!(env!("OUT_DIR"), "/root.rs"));
pub use published::*;
