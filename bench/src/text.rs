//! The texts that are read, always the same ones.

use std::fmt::Write;

/// No text has more bytes.
pub const MOST_BYTES: usize = 65_535;

/// Which text is read.
#[derive(Clone, Copy, PartialEq)]
pub enum Sample {
    /// Firing programs, nearly all of it ASCII.
    Program,
    /// Names and notes in Japanese.
    Wide,
    /// Lines of 400 bytes.
    Long,
    /// Short lines in which a scan by blocks stops often.
    Marks,
}

impl Sample {
    pub const ALL: [Sample; 4] = [Sample::Program, Sample::Wide, Sample::Long, Sample::Marks];

    pub fn name(self) -> &'static str {
        match self {
            Sample::Program => "program",
            Sample::Wide => "wide",
            Sample::Long => "long",
            Sample::Marks => "marks",
        }
    }

    pub fn label(self) -> &'static str {
        match self {
            Sample::Program => "Firing programs",
            Sample::Wide => "Wide characters",
            Sample::Long => "Long lines",
            Sample::Marks => "Marks and short words",
        }
    }

    /// Its lines, as many as fit into so many bytes.
    pub fn lines_within(self, bytes: usize) -> String {
        let mut text = match self {
            Sample::Program => programs(),
            Sample::Wide => wide_characters(),
            Sample::Long => long_lines(),
            Sample::Marks => marks(),
        };
        if text.len() > bytes {
            let end = text.as_bytes()[..bytes]
                .iter()
                .rposition(|&byte| byte == b'\n');
            text.truncate(end.map_or(0, |last| last + 1));
        }
        text
    }

    pub fn whole(self) -> String {
        self.lines_within(MOST_BYTES)
    }
}

/// What is read, and how many characters it has.
#[derive(Clone, Copy)]
pub struct Text<'a> {
    pub bytes: &'a [u8],
    pub chars: usize,
}

impl Text<'_> {
    pub fn new(text: &str) -> Text<'_> {
        Text {
            bytes: text.as_bytes(),
            chars: text.chars().count(),
        }
    }
}

const NAMES: [&str; 8] = [
    "bisque",
    "glaze cone 6",
    "Glasur weiß",
    "émail bleu",
    "raku \u{1f525}",
    "slow cool",
    "test:tile",
    "candle",
];

/// Numbers that look random (xorshift).
struct Numbers(u32);

impl Numbers {
    fn below(&mut self, limit: u32) -> u32 {
        self.0 ^= self.0 << 13;
        self.0 ^= self.0 >> 17;
        self.0 ^= self.0 << 5;
        self.0 % limit
    }
}

fn program(number: u32, numbers: &mut Numbers) -> String {
    let mut s = String::new();
    let name = NAMES[numbers.below(8) as usize];
    let _ = write!(
        s,
        "  - name: {name}  # program {number}\n    note: Brennkurve für Ofen {}, Δ ≤ 5 °C\n    segments:\n",
        numbers.below(9)
    );
    for segment in 0..3 + numbers.below(5) {
        let (ramp, temp, hold) = (
            60 + numbers.below(200),
            100 + numbers.below(1200),
            numbers.below(90),
        );
        let fan = if numbers.below(2) == 0 { "on" } else { "off" };
        let _ = write!(
            s,
            "      - ramp: {ramp}  # degrees per hour\n        temp: {temp}\n        hold: {hold}  # minutes, segment {segment}\n        fan: {fan}\n"
        );
    }
    if number % 7 == 3 {
        s.push_str("    curve: [20, 600, 1040, 1222]\n");
    }
    s
}

/// As many programs as fit, and then `#` up to the last byte.
fn programs() -> String {
    let mut s = String::from(
        "# kiln room program file\n---\nkiln: north  # front loading\nunit: celsius\nprograms:\n",
    );
    let mut numbers = Numbers(12345);
    for number in 0.. {
        let next = program(number, &mut numbers);
        if s.len() + next.len() > MOST_BYTES {
            break;
        }
        s.push_str(&next);
    }
    while s.len() + 1 < MOST_BYTES {
        s.push('#');
    }
    s.push('\n');
    s
}

fn wide_characters() -> String {
    let mut s = String::new();
    for number in 0.. {
        let next = format!(
            "  - 名前: 備前焼きの大皿 {number}  # 還元焼成、温度は千二百度\n    メモ: |\n      ゆっくり冷ますこと。窯を開けるのは翌日の朝。\u{1f525}\n"
        );
        if s.len() + next.len() > MOST_BYTES {
            break;
        }
        s.push_str(&next);
    }
    s
}

fn long_lines() -> String {
    let mut line = "some words ".repeat(37);
    line.truncate(400);
    line.push('\n');
    line.repeat(MOST_BYTES / line.len())
}

/// What a scan by blocks stops at or looks at again: tabs, empty lines, marks inside words, comments glued and not, characters of two bytes, full-width forms.
const MARKED: [&str; 20] = [
    "",
    "",
    "a: b",
    "k:\tv\t# tab",
    "\tt: 1",
    "\t\t- x\t\ty",
    "- a::b",
    "max: 1222 °C",
    "Δ: ±5 °C  # µ, ½",
    "é: ñ\u{a0}ü",
    "名：ＡＢ　１２，３",
    "ｶﾏ: ９００℃",
    "가마: 한 — “5”…",
    "u: http://x:80",
    "u: http://kiln:8080/a#b",
    "# c",
    "n: 1 #no: 2",
    "s: [20, 600, 1040, 1222]",
    "m: {a: 1, b: [x, y]}#z",
    "- [a:b, 'c', \"d\"]",
];

/// As many lines as fit, of which one in eight ends with two characters.
fn marks() -> String {
    let mut s = String::new();
    let mut numbers = Numbers(67890);
    loop {
        let indent = " ".repeat(2 * numbers.below(3) as usize);
        let line = MARKED[numbers.below(MARKED.len() as u32) as usize];
        let end = if numbers.below(8) == 0 { "\r\n" } else { "\n" };
        if s.len() + indent.len() + line.len() + end.len() > MOST_BYTES {
            return s;
        }
        // an empty line has no blanks
        if !line.is_empty() {
            s.push_str(&indent);
        }
        s.push_str(line);
        s.push_str(end);
    }
}
