//! Times by one clock.

use crate::limits::Limit;
use crate::rows::Row;
use crate::seen::Seen;
use crate::sides::{Pair, Rooms, Side};
use crate::text::Text;
use std::hint::black_box;
use std::time::Instant;

/// How often each is called.
const ROUNDS: usize = 500;

/// Microseconds for one call.
fn time(mut call: impl FnMut() -> Seen) -> f64 {
    let start = Instant::now();
    black_box(call());
    start.elapsed().as_secs_f64() * 1e6
}

/// The least microseconds of each side, called in turns. What else runs on the machine only adds.
pub fn both(row: Row, text: Text, rooms: &mut Rooms) -> Pair {
    let mut least = Pair {
        rust: f64::INFINITY,
        ours: f64::INFINITY,
    };
    for _ in 0..ROUNDS {
        let rust = time(|| rooms.call(Side::Rust, row, black_box(text)));
        let ours = time(|| rooms.call(Side::Ours, row, black_box(text)));
        least.rust = least.rust.min(rust);
        least.ours = least.ours.min(ours);
    }
    least
}

/// The least microseconds of a limit.
pub fn limit(limit: Limit, text: Text, rooms: &mut Rooms) -> f64 {
    (0..ROUNDS)
        .map(|_| time(|| limit.call(black_box(text.bytes), &mut rooms.ours)))
        .fold(f64::INFINITY, f64::min)
}
