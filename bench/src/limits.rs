//! Limits: loops that do the work of a row and nothing else, over bytes, with no reader.

use crate::rows::Task;
use crate::seen::Seen;
use std::arch::x86_64::{
    __m128i, _mm_cmpeq_epi8, _mm_cmpgt_epi8, _mm_loadu_si128, _mm_movemask_epi8, _mm_or_si128,
    _mm_set1_epi8,
};

/// What a limit does.
#[derive(Clone, Copy, PartialEq)]
pub enum Limit {
    /// The ends of lines are found.
    Found,
    /// They are found, and the characters counted.
    Counted,
    /// They are found, the characters counted, and each line copied.
    Copied,
    /// The characters are decoded, with no test, and added up.
    Decoded,
}

impl Limit {
    pub const ALL: [Limit; 4] = [Limit::Found, Limit::Counted, Limit::Copied, Limit::Decoded];

    /// The limit that does the work of a loop.
    pub fn of_task(task: Task) -> Option<Limit> {
        match task {
            Task::SkipLines => Some(Limit::Counted),
            Task::FetchLines => Some(Limit::Copied),
            Task::ReadNarrow | Task::ReadWide => Some(Limit::Decoded),
            Task::Check | Task::FetchTokens | Task::FetchFlowTokens => None,
        }
    }

    pub fn label(self) -> &'static str {
        match self {
            Limit::Found => "the ends of lines found",
            Limit::Counted => "found, and the characters counted",
            Limit::Copied => "found, counted and copied",
            Limit::Decoded => "the characters decoded and added up",
        }
    }

    /// Does it over a text, which is UTF-8. What it sees is what the loops of its task see.
    pub fn call(self, text: &[u8], room: &mut [u8]) -> Seen {
        match self {
            Limit::Found => find_lines(text),
            Limit::Counted => count_lines(text),
            Limit::Copied => copy_lines(text, room),
            Limit::Decoded => decode(text),
        }
    }
}

/// How many bytes are looked at together.
const BLOCK: usize = 16;

/// The block at a place, if a whole one is left.
#[inline(always)]
fn block(text: &[u8], place: usize) -> Option<__m128i> {
    let bytes: &[u8; BLOCK] = text.get(place..)?.first_chunk()?;
    // SAFETY: the bytes are those of an array as long as a vector, and this load asks for no alignment.
    Some(unsafe { _mm_loadu_si128(bytes.as_ptr().cast()) })
}

/// A bit for each byte that ends a line.
#[inline(always)]
fn ends(block: __m128i) -> u32 {
    // SAFETY: every processor of this architecture has these instructions.
    unsafe {
        let is_feed = _mm_cmpeq_epi8(block, _mm_set1_epi8(b'\n' as i8));
        let is_return = _mm_cmpeq_epi8(block, _mm_set1_epi8(b'\r' as i8));
        let is_nul = _mm_cmpeq_epi8(block, _mm_set1_epi8(0));
        let is_end = _mm_or_si128(_mm_or_si128(is_feed, is_return), is_nul);
        _mm_movemask_epi8(is_end) as u32
    }
}

/// A bit for each byte that begins a character. Those that go on with one are -128 to -65 as signed numbers.
#[inline(always)]
fn begins(block: __m128i) -> u32 {
    // SAFETY: every processor of this architecture has these instructions.
    unsafe { _mm_movemask_epi8(_mm_cmpgt_epi8(block, _mm_set1_epi8(-65))) as u32 }
}

/// How long a line is that is shorter than a block.
fn short_line(text: &[u8]) -> usize {
    text.iter()
        .position(|byte| matches!(byte, b'\n' | b'\r' | 0))
        .unwrap_or(text.len())
}

/// How many characters there are, byte by byte.
fn count(text: &[u8]) -> usize {
    text.iter().filter(|&&byte| byte as i8 > -65).count()
}

/// The first end of a line from a place on.
#[inline(always)]
fn line_end(text: &[u8], mut place: usize) -> usize {
    while let Some(block) = block(text, place) {
        let ends = ends(block);
        if ends != 0 {
            return place + ends.trailing_zeros() as usize;
        }
        place += BLOCK;
    }
    place + short_line(&text[place..])
}

/// The first end of a line from a place on, and how many characters there are before it.
#[inline(always)]
fn counted_line(text: &[u8], mut place: usize) -> (usize, usize) {
    let mut chars = 0;
    while let Some(block) = block(text, place) {
        let (ends, begins) = (ends(block), begins(block));
        if ends != 0 {
            let before = (1 << ends.trailing_zeros()) - 1;
            chars += (begins & before).count_ones() as usize;
            return (place + ends.trailing_zeros() as usize, chars);
        }
        chars += begins.count_ones() as usize;
        place += BLOCK;
    }
    let rest = &text[place..];
    let length = short_line(rest);
    (place + length, chars + count(&rest[..length]))
}

/// Goes from line to line. `next` tells the end of the line at a place and what is counted of it; `take` is given the line.
#[inline(always)]
fn by_lines(
    text: &[u8],
    next: impl Fn(&[u8], usize) -> (usize, usize),
    mut take: impl FnMut(&[u8]),
) -> Seen {
    let mut seen = Seen::default();
    let mut place = 0;
    loop {
        let (end, part) = next(text, place);
        take(&text[place..end]);
        seen.part(part);
        if end == text.len() {
            return seen;
        }
        seen.part(1);
        place = end + 1;
    }
}

#[inline(never)]
fn find_lines(text: &[u8]) -> Seen {
    let next = |text: &[u8], place| {
        let end = line_end(text, place);
        (end, end - place)
    };
    by_lines(text, next, |_| ())
}

#[inline(never)]
fn count_lines(text: &[u8]) -> Seen {
    by_lines(text, counted_line, |_| ())
}

#[inline(never)]
fn copy_lines(text: &[u8], room: &mut [u8]) -> Seen {
    by_lines(text, counted_line, |line| {
        room[..line.len()].copy_from_slice(line)
    })
}

#[inline(never)]
fn decode(text: &[u8]) -> Seen {
    let mut seen = Seen::default();
    // SAFETY: the texts of the benchmark are made as strings.
    let checked = unsafe { std::str::from_utf8_unchecked(text) };
    for c in checked.chars() {
        seen.char(c);
    }
    seen
}
