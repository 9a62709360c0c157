//! The copy of the oracle's own code that the build makes, with its faults.
include!(concat!(env!("OUT_DIR"), "/oracle/lib.rs"));
