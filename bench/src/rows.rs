//! The rows of the tables: a loop over a kind of input.

/// A kind of input, by both sides.
#[derive(Clone, Copy, PartialEq)]
pub enum Kind {
    Slice,
    Ring,
    FailingRing,
}

impl Kind {
    pub const ALL: [Kind; 3] = [Kind::Slice, Kind::Ring, Kind::FailingRing];

    pub fn name(self) -> &'static str {
        match self {
            Kind::Slice => "slice",
            Kind::Ring => "ring",
            Kind::FailingRing => "failing-ring",
        }
    }
}

/// A loop, by the number that it has in crates/bench/src/loops.rt.
#[derive(Clone, Copy, PartialEq)]
#[repr(u32)]
pub enum Task {
    /// Reads nothing: what is left is the check of the text.
    Check = 0,
    SkipLines = 1,
    FetchLines = 2,
    FetchTokens = 3,
    ReadNarrow = 4,
    ReadWide = 5,
    FetchFlowTokens = 6,
}

impl Task {
    const ALL: [Task; 7] = [
        Task::Check,
        Task::SkipLines,
        Task::FetchLines,
        Task::FetchTokens,
        Task::FetchFlowTokens,
        Task::ReadNarrow,
        Task::ReadWide,
    ];

    /// The loops that go by the scanning calls.
    pub const SCANS: [Task; 4] = [
        Task::SkipLines,
        Task::FetchLines,
        Task::FetchTokens,
        Task::FetchFlowTokens,
    ];

    pub fn name(self) -> &'static str {
        match self {
            Task::Check => "check",
            Task::SkipLines => "skip",
            Task::FetchLines => "fetch",
            Task::FetchTokens => "tokens",
            Task::FetchFlowTokens => "flow-tokens",
            Task::ReadNarrow => "read-0",
            Task::ReadWide => "read-4",
        }
    }

    fn label(self) -> &'static str {
        match self {
            Task::Check => "the check of the text alone",
            Task::SkipLines => "`skip_while_non_breakz`, line by line",
            Task::FetchLines => "`fetch_block_scalar_line`, line by line",
            Task::FetchTokens => "`skip_ws_to_eol`, `fetch_plain_scalar_chunk`",
            Task::FetchFlowTokens => "`skip_ws_to_eol`, `fetch_plain_scalar_chunk` in flow",
            Task::ReadNarrow => "`raw_read_ch`, window 0",
            Task::ReadWide => "`raw_read_ch`, window 4",
        }
    }
}

/// A row of a table.
#[derive(Clone, Copy, PartialEq)]
pub struct Row {
    pub kind: Kind,
    pub task: Task,
}

impl Row {
    /// The check has one row, since all kinds check alike.
    pub const CHECK: Row = Row {
        kind: Kind::Slice,
        task: Task::Check,
    };

    /// The loops over these kinds. The check is none of them.
    pub fn of_kinds(kinds: &[Kind]) -> Vec<Row> {
        let of_kind = |&kind: &Kind| Task::ALL.map(|task| Row { kind, task });
        kinds
            .iter()
            .flat_map(of_kind)
            .filter(|row| row.task != Task::Check)
            .collect()
    }

    /// The rows of the scanning calls, of these kinds.
    pub fn scans_of_kinds(kinds: &[Kind]) -> Vec<Row> {
        let of_kind = |&kind: &Kind| Task::SCANS.map(|task| Row { kind, task });
        kinds.iter().flat_map(of_kind).collect()
    }

    pub fn label(self) -> String {
        match self.task {
            Task::Check => self.task.label().to_string(),
            _ => format!(
                "{}: {}",
                self.kind.name().replace('-', " "),
                self.task.label()
            ),
        }
    }

    pub fn named(kind: &str, task: &str) -> Option<Row> {
        Some(Row {
            kind: named(&Kind::ALL, Kind::name, kind)?,
            task: named(&Task::ALL, Task::name, task)?,
        })
    }
}

/// The one with this name.
pub fn named<T: Copy>(all: &[T], name: fn(T) -> &'static str, wanted: &str) -> Option<T> {
    all.iter().copied().find(|&one| name(one) == wanted)
}
