//! Beside each other over the same texts: the published Rust reader and this repository's, by time and by instructions, as tables in Markdown.

mod count;
mod limits;
mod ours;
mod rows;
mod rust;
mod seen;
mod sides;
mod table;
mod text;
mod time;

use crate::rows::{Kind, named};
use crate::text::Sample;
use std::env;
use std::process::ExitCode;

/// The argument for the table of costs by length.
const LENGTHS: &str = "lengths";

/// What is asked for. With no texts named it is all of them, and the costs by length; with no kinds, all.
struct Part {
    samples: Vec<Sample>,
    kinds: Vec<Kind>,
    lengths: bool,
}

impl Part {
    fn of_arguments(arguments: &[String]) -> Option<Part> {
        let mut part = Part {
            samples: Vec::new(),
            kinds: Vec::new(),
            lengths: false,
        };
        for argument in arguments {
            if let Some(sample) = named(&Sample::ALL, Sample::name, argument) {
                part.samples.push(sample);
            } else if let Some(kind) = named(&Kind::ALL, Kind::name, argument) {
                part.kinds.push(kind);
            } else if argument == LENGTHS {
                part.lengths = true;
            } else {
                return None;
            }
        }
        if part.samples.is_empty() && !part.lengths {
            part.samples.extend(Sample::ALL);
            part.lengths = true;
        }
        if part.kinds.is_empty() {
            part.kinds.extend(Kind::ALL);
        }
        Some(part)
    }

    fn print(&self) -> Result<(), String> {
        let counting = count::is_there();
        if !counting {
            println!("valgrind is not there: no instructions are counted\n");
        }
        for &sample in &self.samples {
            table::print_sample(sample, &self.kinds, counting)?;
        }
        if self.lengths {
            table::print_linear(&self.kinds, counting)?;
        }
        Ok(())
    }
}

fn main() -> ExitCode {
    let arguments: Vec<String> = env::args().skip(1).collect();
    if let Some((first, job)) = arguments.split_first()
        && first == count::CHILD
    {
        return match count::child(job) {
            true => ExitCode::SUCCESS,
            false => ExitCode::FAILURE,
        };
    }
    let Some(part) = Part::of_arguments(&arguments) else {
        eprintln!(
            "bench [program] [wide] [long] [marks] [{LENGTHS}] [slice] [ring] [failing-ring]"
        );
        return ExitCode::FAILURE;
    };
    match part.print() {
        Ok(()) => ExitCode::SUCCESS,
        Err(told) => {
            eprintln!("bench: {told}");
            ExitCode::FAILURE
        }
    }
}
