//! The two sides.

use crate::rows::Row;
use crate::seen::Seen;
use crate::text::Text;
use crate::{ours, rust};

/// Whose loop is called.
#[derive(Clone, Copy)]
pub enum Side {
    Rust,
    Ours,
}

impl Side {
    pub const ALL: [Side; 2] = [Side::Rust, Side::Ours];

    pub fn name(self) -> &'static str {
        match self {
            Side::Rust => "rust",
            Side::Ours => "ours",
        }
    }
}

/// How many bytes a room has: more than any line.
pub const ROOM: usize = 4096;

/// The rooms that lines are fetched into, as large on both sides.
pub struct Rooms {
    rust: String,
    pub ours: Vec<u8>,
}

impl Rooms {
    pub fn new() -> Rooms {
        Rooms {
            rust: String::with_capacity(ROOM),
            ours: vec![0; ROOM],
        }
    }

    /// One call of one side.
    pub fn call(&mut self, side: Side, row: Row, text: Text) -> Seen {
        match side {
            Side::Rust => rust::call(row, text, &mut self.rust),
            Side::Ours => ours::call(row, text, &mut self.ours),
        }
    }
}

/// A number of each side.
#[derive(Clone, Copy)]
pub struct Pair {
    pub rust: f64,
    pub ours: f64,
}

impl Pair {
    /// What is left of each side without another pair of the same sides.
    pub fn without(self, other: Pair) -> Pair {
        Pair {
            rust: self.rust - other.rust,
            ours: self.ours - other.ours,
        }
    }

    /// Above 1 ours is the larger.
    pub fn ratio(self) -> f64 {
        self.ours / self.rust
    }
}
