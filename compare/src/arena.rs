//! Stands in for typed_arena::Arena: nodes that live as long as the arena.

use std::cell::{Cell, OnceCell};

/// Chunk k has 2^k places, so a node never moves once it is stored.
pub struct TypedArena<T> {
    chunks: [OnceCell<Box<[OnceCell<T>]>>; 32],
    used: Cell<usize>,
}

impl<T> TypedArena<T> {
    pub fn new() -> Self {
        TypedArena {
            chunks: [const { OnceCell::new() }; 32],
            used: Cell::new(0),
        }
    }

    pub fn alloc(&self, value: T) -> &T {
        let number = self.used.get() + 1;
        self.used.set(number);
        let chunk = number.ilog2() as usize;
        let places = self.chunks[chunk]
            .get_or_init(|| (0..1usize << chunk).map(|_| OnceCell::new()).collect());
        places[number - (1 << chunk)].get_or_init(|| value)
    }
}
