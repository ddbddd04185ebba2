//! `beside`: the port beside the Rust and the C++. `beside help` lists what it does.
mod compare;
mod paths;
mod store;

use beside::inputs::{Input, Kind};
use compare::Plan;
use paths::{Inputs, MOST};
use saltcurtain::Variant;
use std::fs::File;
use std::io::{self, BufWriter, Write};
use std::process::ExitCode;
use std::{env, thread};

const HELP: &str = "\
beside                          compare: some millions of cases
beside long [TIMES]             the same so many times over (20), and around all tops to 100 MB
beside huge                     inputs at and past the greatest length, and past 2^32 bytes
beside again SECTION JOB        one job of a comparison, as a difference names it
beside known                    the listed differences
beside paths                    look for the shortest input at which the ratio paths differ, in 650 pseudo-random ones
beside paths VARIANT CHARACTERS MANY MOST
                                the same in one variant, in so many of so many characters, up to so many bytes
beside store FILE               write the stored list of the Rust's answers
beside store-distances FILE     write the stored list of the Rust's distances
beside input KIND SEED LENGTH   the bytes of an input, to standard output

--seed N      all random numbers come from it (20250101)
--threads N   (as many as the machine has processors)
--only NAME   one section
--trace       say each job before it is run

Exit status: 0 no difference that is not listed, 1 some, 2 bad usage, 77 no case was run.";

/// What stands on the command line: words, and options with their values.
struct Line {
    words: Vec<String>,
    plan: Plan,
}

fn parse() -> Result<Line, String> {
    let threads = thread::available_parallelism().map_or(2, usize::from);
    let mut line =
        Line { words: Vec::new(), plan: Plan { seed: 20_250_101, scale: 1, threads, only: None, trace: false } };
    let mut rest = env::args().skip(1);
    while let Some(word) = rest.next() {
        let mut value = || rest.next().ok_or(format!("{word} needs a value"));
        match word.as_str() {
            "--seed" => line.plan.seed = number(&value()?)?,
            "--threads" => line.plan.threads = number(&value()?)?.clamp(1, 256) as usize,
            "--only" => line.plan.only = Some(value()?),
            "--trace" => line.plan.trace = true,
            _ => line.words.push(word),
        }
    }
    Ok(line)
}

fn number(text: &str) -> Result<u64, String> {
    text.parse().map_err(|_| format!("{text} is not a number"))
}

fn act() -> Result<ExitCode, String> {
    let Line { words, mut plan } = parse()?;
    let words: Vec<&str> = words.iter().map(String::as_str).collect();
    match words[..] {
        [] => Ok(compare::all(&plan)),
        ["long"] => {
            plan.scale = 20;
            Ok(compare::all(&plan))
        }
        ["long", times] => {
            plan.scale = number(times)?.max(2);
            Ok(compare::all(&plan))
        }
        ["huge"] => Ok(compare::huge::all(plan.seed, plan.threads)),
        ["again", section, job] => Ok(compare::again(&plan, section, number(job)?)),
        ["known"] => {
            compare::print_known();
            Ok(ExitCode::SUCCESS)
        }
        ["paths"] => Ok(paths::search(&Inputs { many: 10, characters: None, most: MOST }, None, plan.threads)),
        ["paths", variant, characters, many, most] => {
            let only = Variant::from_number(number(variant)? as u32).ok_or(format!("there is no variant {variant}"))?;
            let inputs = Inputs {
                many: number(many)?.min(1 << 24) as u32,
                characters: Some(number(characters)?.clamp(1, 64) as u32),
                most: number(most)?.min(MOST as u64) as usize,
            };
            Ok(paths::search(&inputs, Some(only), plan.threads))
        }
        ["store", file] => {
            let write = || store::write(&mut BufWriter::new(File::create(file)?));
            write().map_err(|e| format!("{file}: {e}"))?;
            Ok(ExitCode::SUCCESS)
        }
        ["store-distances", file] => {
            let write = || store::write_distances(&mut BufWriter::new(File::create(file)?));
            write().map_err(|e| format!("{file}: {e}"))?;
            Ok(ExitCode::SUCCESS)
        }
        ["input", kind, seed, length] => {
            let kind = Kind::named(kind).ok_or(format!("there is no kind {kind}"))?;
            let input = Input::new(kind, number(seed)?, number(length)? as usize);
            io::stdout().write_all(&input.bytes).map_err(|e| e.to_string())?;
            Ok(ExitCode::SUCCESS)
        }
        ["help"] => {
            println!("{HELP}");
            Ok(ExitCode::SUCCESS)
        }
        _ => Err(format!("cannot make sense of: {}\n{HELP}", words.join(" "))),
    }
}

fn main() -> ExitCode {
    act().unwrap_or_else(|why| {
        eprintln!("beside: {why}");
        ExitCode::from(2)
    })
}
