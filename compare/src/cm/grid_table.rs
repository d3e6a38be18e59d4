//! The given cm/grid_table.rs.

include!(concat!(env!("COMRAK_DIR"), "/src/cm/grid_table.rs"));
