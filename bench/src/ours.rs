//! The loops by this repository's reader, from the static library of crates/bench.

use crate::rows::{Kind, Row, Task};
use crate::seen::Seen;
use crate::text::Text;

/// A loop: its number, the text, how many characters it reads if it reads by a count, and the room.
type Loop = unsafe extern "C" fn(u32, *const u8, usize, usize, *mut u8, usize) -> Seen;

/// Declares functions of the library that have the same parameters.
macro_rules! declare {
    ($parameters:tt: $($name:ident)*) => {
        unsafe extern "C" {
            $(fn $name $parameters -> Seen;)*
        }
    };
}

declare!((task: u32, text: *const u8, len: usize, count: usize, room: *mut u8, room_len: usize):
    bench_slice bench_ring bench_failing_ring);
declare!((text: *const u8, len: usize, room: *mut u8, room_len: usize):
    bench_slice_in_flow bench_ring_in_flow bench_failing_ring_in_flow);

/// A loop by tokens in flow: the text and the room.
type FlowLoop = unsafe extern "C" fn(*const u8, usize, *mut u8, usize) -> Seen;

fn call_in_flow(kind: Kind, text: Text, room: &mut [u8]) -> Seen {
    let call: FlowLoop = match kind {
        Kind::Slice => bench_slice_in_flow,
        Kind::Ring => bench_ring_in_flow,
        Kind::FailingRing => bench_failing_ring_in_flow,
    };
    // SAFETY: as in `call`.
    unsafe {
        call(
            text.bytes.as_ptr(),
            text.bytes.len(),
            room.as_mut_ptr(),
            room.len(),
        )
    }
}

/// One call.
pub fn call(row: Row, text: Text, room: &mut [u8]) -> Seen {
    if row.task == Task::FetchFlowTokens {
        return call_in_flow(row.kind, text, room);
    }
    let call: Loop = match row.kind {
        Kind::Slice => bench_slice,
        Kind::Ring => bench_ring,
        Kind::FailingRing => bench_failing_ring,
    };
    // SAFETY: the declarations are those of crates/bench/src/lib.rt, which require nothing; each pointer and length is that of one slice, and the room is lent mutably.
    unsafe {
        call(
            row.task as u32,
            text.bytes.as_ptr(),
            text.bytes.len(),
            text.chars,
            room.as_mut_ptr(),
            room.len(),
        )
    }
}
