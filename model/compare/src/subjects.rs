//! The model and its mutants as subjects, written by `build.rs`.

include!(concat!(env!("OUT_DIR"), "/subjects.rs"));
