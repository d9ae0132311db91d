//! The loops by the published Rust. Each stands in crates/bench/src/loops.rt too.

use crate::rows::{Kind, Row, Task};
use crate::seen::Seen;
use crate::text::Text;
use granit_parser::input::SkipTabs;
use granit_parser::{BufferedInput, ErrorKind, FallibleBufferedInput, Input, StrInput};

/// More turns than any loop here takes: each turn but the last takes a character or more, and no text has so many.
/// Ours are bounded by it, since Rattle wants to see that a loop ends, and so these are too.
const TURNS: usize = 70_000;

fn skip_lines<I: Input>(input: &mut I) -> Seen {
    let mut seen = Seen::default();
    for _ in 0..TURNS {
        seen.part(input.skip_while_non_breakz());
        input.lookahead(1);
        if input.next_is_z() {
            break;
        }
        input.skip();
        seen.part(1);
    }
    seen
}

fn fetch_lines<I: Input>(input: &mut I, room: &mut String) -> Seen {
    let mut seen = Seen::default();
    for _ in 0..TURNS {
        room.clear();
        seen.part(input.fetch_block_scalar_line(room));
        input.lookahead(1);
        if input.next_is_z() {
            break;
        }
        input.skip();
        seen.part(1);
    }
    seen
}

fn fetch_token<I: Input, const IN_FLOW: bool>(
    input: &mut I,
    room: &mut String,
    most: usize,
) -> usize {
    let mut count = 0;
    room.clear();
    for _ in 0..TURNS {
        let (stopped, chunk) = input.fetch_plain_scalar_chunk(room, most, IN_FLOW);
        count += chunk;
        if stopped {
            break;
        }
    }
    count
}

/// In flow or not is told by a constant, so that each has a loop of its own.
fn fetch_tokens<I: Input, const IN_FLOW: bool>(input: &mut I, room: &mut String) -> Seen {
    let mut seen = Seen::default();
    let most = input.bufmaxlen() - 1;
    for _ in 0..TURNS {
        let (count, skipped) = input.skip_ws_to_eol(SkipTabs::Yes);
        seen.part(count);
        if skipped.is_err() {
            // a comment with no blank before it
            room.clear();
            seen.part(input.fetch_block_scalar_line(room));
        }
        input.lookahead(2);
        if input.next_is_z() {
            break;
        }
        if input.next_is_break() {
            input.skip();
            seen.part(1);
            continue;
        }
        let count = fetch_token::<I, IN_FLOW>(input, room, most);
        seen.part(count);
        if count == 0 {
            // the `:`, or in flow one of `,[]{}`
            input.skip();
            seen.part(1);
        }
    }
    seen
}

fn read_chars<I: Input>(input: &mut I, window: usize, count: usize) -> Seen {
    let mut seen = Seen::default();
    input.lookahead(window);
    for _ in 0..count {
        seen.char(input.raw_read_ch());
    }
    seen
}

/// What is read by a count is as many characters as the text has; every other loop reads all.
fn run<I: Input>(task: Task, input: &mut I, count: usize, room: &mut String) -> Seen {
    match task {
        Task::SkipLines => skip_lines(input),
        Task::FetchLines => fetch_lines(input, room),
        Task::FetchTokens => fetch_tokens::<I, false>(input, room),
        Task::ReadNarrow => read_chars(input, 0, count),
        Task::ReadWide => read_chars(input, 4, count),
        Task::Check | Task::FetchFlowTokens => Seen::default(),
    }
}

#[inline(never)]
fn slice(task: Task, text: &str, count: usize, room: &mut String) -> Seen {
    run(task, &mut StrInput::new(text), count, room)
}

#[inline(never)]
fn ring(task: Task, text: &str, count: usize, room: &mut String) -> Seen {
    run(task, &mut BufferedInput::new(text.chars()), count, room)
}

#[inline(never)]
fn failing_ring(task: Task, text: &str, count: usize, room: &mut String) -> Seen {
    let chars = text.chars().map(Ok::<char, ErrorKind>);
    run(task, &mut FallibleBufferedInput::new(chars), count, room)
}

// By tokens in flow. Each kind has a function of its own for it, so that the other loops are compiled as without it.

#[inline(never)]
fn slice_in_flow(text: &str, room: &mut String) -> Seen {
    fetch_tokens::<_, true>(&mut StrInput::new(text), room)
}

#[inline(never)]
fn ring_in_flow(text: &str, room: &mut String) -> Seen {
    fetch_tokens::<_, true>(&mut BufferedInput::new(text.chars()), room)
}

#[inline(never)]
fn failing_ring_in_flow(text: &str, room: &mut String) -> Seen {
    let chars = text.chars().map(Ok::<char, ErrorKind>);
    fetch_tokens::<_, true>(&mut FallibleBufferedInput::new(chars), room)
}

/// One call. The other side takes bytes and checks them, so the check is a part of this call too.
pub fn call(row: Row, text: Text, room: &mut String) -> Seen {
    let checked = std::str::from_utf8(text.bytes).expect("a text is UTF-8");
    if row.task == Task::FetchFlowTokens {
        let call = match row.kind {
            Kind::Slice => slice_in_flow,
            Kind::Ring => ring_in_flow,
            Kind::FailingRing => failing_ring_in_flow,
        };
        return call(checked, room);
    }
    let call = match row.kind {
        Kind::Slice => slice,
        Kind::Ring => ring,
        Kind::FailingRing => failing_ring,
    };
    call(row.task, checked, text.chars, room)
}
