//! The given fragments.rs.
#![allow(dead_code, unexpected_cfgs)]

include!(concat!(env!("COMRAK_DIR"), "/src/parser/fragments.rs"));
