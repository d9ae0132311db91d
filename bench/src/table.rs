//! The tables, in Markdown.

use crate::count::{self, Job};
use crate::limits::Limit;
use crate::rows::{Kind, Row, Task};
use crate::sides::{Pair, ROOM, Rooms, Side};
use crate::text::{MOST_BYTES, Sample, Text};
use crate::time;

fn print_line(cells: &[String]) {
    println!("| {} |", cells.join(" | "));
}

fn print_head(names: &[&str]) {
    print_line(
        &names
            .iter()
            .map(|name| name.to_string())
            .collect::<Vec<_>>(),
    );
    // what stands under the first name is words, and under the others numbers
    let under: Vec<_> = (0..names.len())
        .map(|place| if place == 0 { "---" } else { "---:" }.to_string())
        .collect();
    print_line(&under);
}

/// Stops where the two sides differ, or a loop does not see the whole text.
fn compare(row: Row, text: Text, rooms: &mut Rooms) {
    let by_rust = rooms.call(Side::Rust, row, text);
    let by_ours = rooms.call(Side::Ours, row, text);
    assert_eq!(by_rust, by_ours, "{}", row.label());
    let chars = if row.task == Task::Check {
        0
    } else {
        text.chars
    };
    assert_eq!(by_rust.chars, chars as u64, "{}", row.label());
    if let Some(limit) = Limit::of_task(row.task) {
        let by_limit = limit.call(text.bytes, &mut rooms.ours);
        assert_eq!(by_limit, by_rust, "{}", row.label());
    }
}

/// The microseconds of each limit, in the order of `Limit::ALL`.
fn print_limits(text: Text, rooms: &mut Rooms) -> [f64; Limit::ALL.len()] {
    let least = Limit::ALL.map(|limit| time::limit(limit, text, rooms));
    print_head(&["limit", "µs"]);
    for (limit, least) in Limit::ALL.iter().zip(least) {
        print_line(&[limit.label().to_string(), format!("{least:.1}")]);
    }
    println!();
    least
}

/// What a row costs by both sides.
#[derive(Clone, Copy)]
struct Cost {
    /// Microseconds.
    times: Pair,
    /// Instructions a character, if they could be counted.
    counts: Option<Pair>,
}

impl Cost {
    /// Each side less what it takes for its own check.
    fn without(self, check: Cost) -> Cost {
        let counts = self.counts.zip(check.counts);
        Cost {
            times: self.times.without(check.times),
            counts: counts.map(|(counts, check)| counts.without(check)),
        }
    }
}

/// What is told of a row.
struct Told {
    row: Row,
    cost: Cost,
    /// The cost without the check, if the row is not the check.
    read: Option<Cost>,
    /// Microseconds of the limit, if the row has one.
    limit: Option<f64>,
}

impl Told {
    /// How many times the limit our scan of lines takes, both without the check.
    fn over_limit(&self) -> Option<f64> {
        let scans_lines = matches!(self.row.task, Task::SkipLines | Task::FetchLines);
        if self.row.kind == Kind::Slice && scans_lines {
            Some(self.read?.times.ours / self.limit?)
        } else {
            None
        }
    }

    fn print(&self) {
        let cell = |number: Option<f64>, digits: usize| {
            number.map_or(String::new(), |number| format!("{number:.digits$}"))
        };
        let mut cells = vec![
            self.row.label(),
            cell(Some(self.cost.times.rust), 1),
            cell(Some(self.cost.times.ours), 1),
            cell(Some(self.cost.times.ratio()), 2),
            cell(self.read.map(|read| read.times.ratio()), 2),
            cell(self.limit, 1),
            cell(self.over_limit(), 2),
        ];
        if let Some(counts) = self.cost.counts {
            let read = self.read.and_then(|read| read.counts);
            cells.push(cell(Some(counts.rust), 2));
            cells.push(cell(Some(counts.ours), 2));
            cells.push(cell(Some(counts.ratio()), 2));
            cells.push(cell(read.map(Pair::ratio), 2));
        }
        print_line(&cells);
    }
}

/// The instructions a character of each row by both sides. Nothing if they are not to be counted.
fn counts(rows: &[Row], sample: Sample, counting: bool) -> Result<Vec<Option<Pair>>, String> {
    if !counting {
        return Ok(vec![None; rows.len()]);
    }
    let of_row = |&row: &Row| {
        Side::ALL.map(|side| Job {
            side,
            row,
            sample,
            bytes: MOST_BYTES,
        })
    };
    let jobs: Vec<_> = rows.iter().flat_map(of_row).collect();
    let numbers = count::a_character(&jobs)?;
    let pair = |both: &[f64]| {
        Some(Pair {
            rust: both[0],
            ours: both[1],
        })
    };
    Ok(numbers.chunks_exact(Side::ALL.len()).map(pair).collect())
}

/// The table of one text, for these kinds of input.
pub fn print_sample(sample: Sample, kinds: &[Kind], counting: bool) -> Result<(), String> {
    let whole = sample.whole();
    let text = Text::new(&whole);
    let longest = whole.lines().map(str::len).max().unwrap_or(0);
    assert!(longest < ROOM, "a line does not fit into the room");
    println!(
        "### {}: {} bytes, {} characters, {} lines\n",
        sample.label(),
        text.bytes.len(),
        text.chars,
        whole.lines().count()
    );
    let mut rooms = Rooms::new();
    let limits = print_limits(text, &mut rooms);
    let limit_of = |row: Row| {
        let limit = Limit::of_task(row.task)?;
        let place = Limit::ALL.iter().position(|&one| one == limit)?;
        Some(limits[place])
    };
    let mut rows = vec![Row::CHECK];
    rows.extend(Row::of_kinds(kinds));
    for &row in &rows {
        compare(row, text, &mut rooms);
    }
    let times: Vec<_> = rows
        .iter()
        .map(|&row| time::both(row, text, &mut rooms))
        .collect();
    let counts = counts(&rows, sample, counting)?;
    let each = times.into_iter().zip(counts);
    let costs: Vec<_> = each.map(|(times, counts)| Cost { times, counts }).collect();
    let mut head = vec![
        "loop",
        "Rust, µs",
        "ours, µs",
        "ours / Rust",
        "without the check",
        "limit, µs",
        "ours / limit",
    ];
    if counting {
        head.extend([
            "Rust, instructions",
            "ours, instructions",
            "ours / Rust",
            "without the check",
        ]);
    }
    print_head(&head);
    let check = costs[0];
    for (&row, &cost) in rows.iter().zip(&costs) {
        let told = Told {
            row,
            cost,
            read: (row != Row::CHECK).then(|| cost.without(check)),
            limit: limit_of(row),
        };
        told.print();
    }
    println!();
    Ok(())
}

/// The lengths of text over which the cost a character is shown to stay.
const LENGTHS: [usize; 3] = [4 * 1024, 16 * 1024, 64 * 1024];

/// What a loop of ours costs a character over texts of each length: instructions, or else nanoseconds.
fn costs(rows: &[Row], counting: bool) -> Result<Vec<f64>, String> {
    let sample = Sample::Program;
    let of_row = |&row: &Row| {
        LENGTHS.map(|bytes| Job {
            side: Side::Ours,
            row,
            sample,
            bytes,
        })
    };
    let jobs: Vec<_> = rows.iter().flat_map(of_row).collect();
    if counting {
        return count::a_character(&jobs);
    }
    let mut rooms = Rooms::new();
    let mut nanoseconds = |job: &Job| {
        let read = sample.lines_within(job.bytes);
        let text = Text::new(&read);
        time::both(job.row, text, &mut rooms).ours * 1e3 / text.chars as f64
    };
    Ok(jobs.iter().map(&mut nanoseconds).collect())
}

/// The table that shows the cost a character over short texts and long ones.
pub fn print_linear(kinds: &[Kind], counting: bool) -> Result<(), String> {
    let unit = if counting {
        "instructions"
    } else {
        "nanoseconds"
    };
    println!("### Cost by length: {unit} of ours a character, of firing programs\n");
    let rows = Row::scans_of_kinds(kinds);
    let costs = costs(&rows, counting)?;
    print_head(&["loop", "4 KB", "16 KB", "64 KB"]);
    for (row, costs) in rows.iter().zip(costs.chunks_exact(LENGTHS.len())) {
        let mut cells = vec![row.label()];
        cells.extend(costs.iter().map(|cost| format!("{cost:.2}")));
        print_line(&cells);
    }
    println!();
    Ok(())
}
