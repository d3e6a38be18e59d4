//! The given html/context.rs.
#![allow(dead_code)]

include!(concat!(env!("COMRAK_DIR"), "/src/html/context.rs"));
