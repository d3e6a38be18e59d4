//! Stands in for comrak's inline parser: two types that are only handed on.

pub struct RefMap;

impl RefMap {
    pub fn new() -> Self {
        RefMap
    }
}

pub struct Delimiters;
