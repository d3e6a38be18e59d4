//! The given html/grid_table.rs.

include!(concat!(env!("COMRAK_DIR"), "/src/html/grid_table.rs"));
