//! What include/allocation.h names, as build.rs puts it into Rust: each number as a constant, each place that it describes as a function.

include!(concat!(env!("OUT_DIR"), "/header.rs"));
