//! Instructions a character, counted by valgrind. The program runs itself as a child that makes some calls of one loop.

use crate::rows::Row;
use crate::rows::named;
use crate::sides::{Rooms, Side};
use crate::text::{Sample, Text};
use std::env;
use std::hint::black_box;
use std::num::NonZero;
use std::process::Command;
use std::sync::atomic::{AtomicUsize, Ordering};
use std::thread;

/// The first argument of a child.
pub const CHILD: &str = "calls";

/// A loop of one side over the lines of a text that fit into so many bytes.
#[derive(Clone, Copy)]
pub struct Job {
    pub side: Side,
    pub row: Row,
    pub sample: Sample,
    pub bytes: usize,
}

impl Job {
    /// What a child is given after the first argument.
    fn arguments(self, calls: usize) -> [String; 6] {
        [
            self.row.kind.name().to_string(),
            self.row.task.name().to_string(),
            self.side.name().to_string(),
            self.sample.name().to_string(),
            self.bytes.to_string(),
            calls.to_string(),
        ]
    }

    fn of_arguments(arguments: &[String]) -> Option<(Job, usize)> {
        let [kind, task, side, sample, bytes, calls] = arguments else {
            return None;
        };
        let job = Job {
            side: named(&Side::ALL, Side::name, side)?,
            row: Row::named(kind, task)?,
            sample: named(&Sample::ALL, Sample::name, sample)?,
            bytes: bytes.parse().ok()?,
        };
        Some((job, calls.parse().ok()?))
    }
}

/// What a child does. It answers whether its arguments say what to call.
pub fn child(arguments: &[String]) -> bool {
    let Some((job, calls)) = Job::of_arguments(arguments) else {
        return false;
    };
    let read = job.sample.lines_within(job.bytes);
    let text = Text::new(&read);
    let mut rooms = Rooms::new();
    for _ in 0..calls {
        black_box(rooms.call(job.side, job.row, black_box(text)));
    }
    true
}

/// How many calls a child makes: the second number less the first is what is counted, so that nothing but the calls is.
const CALLS: [usize; 2] = [1, 3];

/// Whether the tool that counts is there.
pub fn is_there() -> bool {
    let version = Command::new("valgrind").arg("--version").output();
    version.is_ok_and(|output| output.status.success())
}

/// The instructions of a child, from the line `Collected` that the tool writes.
fn collected(job: Job, calls: usize) -> Result<u64, String> {
    let program = env::current_exe().map_err(|error| error.to_string())?;
    let output = Command::new("valgrind")
        .args(["--tool=callgrind", "--callgrind-out-file=/dev/null"])
        .arg(program)
        .arg(CHILD)
        .args(job.arguments(calls))
        .output()
        .map_err(|error| error.to_string())?;
    let told = String::from_utf8_lossy(&output.stderr);
    told.lines()
        .find_map(|line| line.split_once("Collected :"))
        .and_then(|(_, number)| number.trim().parse().ok())
        .ok_or_else(|| format!("valgrind counted nothing:\n{told}"))
}

/// The instructions of children, as many at a time as there are processors.
fn all_collected(runs: &[(Job, usize)]) -> Result<Vec<u64>, String> {
    let next = AtomicUsize::new(0);
    let work = || {
        let mut done = Vec::new();
        loop {
            let place = next.fetch_add(1, Ordering::Relaxed);
            let Some(&(job, calls)) = runs.get(place) else {
                return Ok(done);
            };
            done.push((place, collected(job, calls)?));
        }
    };
    let mut all = vec![0; runs.len()];
    thread::scope(|scope| {
        let workers = thread::available_parallelism().map_or(1, NonZero::get);
        let at_work: Vec<_> = (0..workers).map(|_| scope.spawn(work)).collect();
        for worker in at_work {
            let done: Result<Vec<(usize, u64)>, String> = worker.join().expect("no worker panics");
            for (place, number) in done? {
                all[place] = number;
            }
        }
        Ok(all)
    })
}

/// The instructions a character of each job.
pub fn a_character(jobs: &[Job]) -> Result<Vec<f64>, String> {
    let runs: Vec<_> = jobs
        .iter()
        .flat_map(|&job| CALLS.map(|calls| (job, calls)))
        .collect();
    let counted = all_collected(&runs)?;
    let each = jobs.iter().zip(counted.chunks_exact(CALLS.len()));
    Ok(each
        .map(|(job, numbers)| {
            let calls = (CALLS[1] - CALLS[0]) as f64;
            let chars = job.sample.lines_within(job.bytes).chars().count() as f64;
            (numbers[1] - numbers[0]) as f64 / calls / chars
        })
        .collect())
}
