//! The comparison: sections of cases, run by several threads, and the verdict.
mod check;
pub mod huge;
mod known;
mod sections;
mod tally;

use beside::judge;
use beside::random::Random;
use sections::{SECTIONS, Section};
use std::process::ExitCode;
use std::sync::Mutex;
use std::sync::atomic::{AtomicU64, Ordering};
use std::thread;
use std::time::Instant;
use tally::{PRINTED, Tally};

/// How a comparison is run.
pub struct Plan {
    /// All random numbers come from it.
    pub seed: u64,
    /// How many times the default.
    pub scale: u64,
    /// How many threads.
    pub threads: usize,
    /// The only section, where there is one.
    pub only: Option<String>,
    /// Say each job before it is run.
    pub trace: bool,
}

/// The section of that name.
fn section(name: &str) -> Option<&'static Section> {
    SECTIONS.iter().find(|section| section.name == name)
}

/// Runs one job.
fn run(plan: &Plan, section: &Section, job: u64) -> Tally {
    if plan.trace {
        println!("again {} {job} --seed {}", section.name, plan.seed);
    }
    let mut tally = Tally::default();
    (section.run)(job, &mut Random::at(plan.seed, section.name, job), &mut tally);
    tally
}

/// Prints what the list of differences says.
pub fn print_known() {
    for (which, number, about) in known::LIST {
        println!("{} {which:?}: {about}", known::name(number));
    }
}

/// Runs one job alone.
pub fn again(plan: &Plan, name: &str, job: u64) -> ExitCode {
    let Some(section) = section(name) else {
        eprintln!("beside: there is no section {name}");
        return ExitCode::from(2);
    };
    let tally = run(plan, section, job);
    tally.print_differences(PRINTED, &head(plan, section, job));
    println!("{name} {job}: {tally}, {} differences", tally.differences);
    verdict(tally.differences == 0)
}

fn head(plan: &Plan, section: &Section, job: u64) -> String {
    format!("in {}; again by: host/beside.sh again {} {job} --seed {}", section.name, section.name, plan.seed)
}

fn verdict(good: bool) -> ExitCode {
    if good { ExitCode::SUCCESS } else { ExitCode::FAILURE }
}

/// Runs all sections, or the only one, and prints what they came to.
pub fn all(plan: &Plan) -> ExitCode {
    let chosen: Vec<&Section> =
        SECTIONS.iter().filter(|section| plan.only.as_deref().is_none_or(|name| name == section.name)).collect();
    if chosen.is_empty() {
        eprintln!("beside: there is no section {}", plan.only.as_deref().unwrap_or_default());
        return ExitCode::from(2);
    }
    println!("beside: seed {}, {} times the default, {} threads", plan.seed, plan.scale, plan.threads);

    let begun = Instant::now();
    let queue: Vec<(usize, u64)> = chosen
        .iter()
        .enumerate()
        .flat_map(|(place, section)| (0..(section.jobs)(plan.scale)).map(move |job| (place, job)))
        .collect();
    let (next, printed) = (AtomicU64::new(0), AtomicU64::new(0));
    let tallies = Mutex::new(vec![Tally::default(); chosen.len()]);
    thread::scope(|scope| {
        for _ in 0..plan.threads {
            scope.spawn(|| {
                let mut own = vec![Tally::default(); chosen.len()];
                while let Some(&(place, job)) = queue.get(next.fetch_add(1, Ordering::Relaxed) as usize) {
                    let tally = run(plan, chosen[place], job);
                    if tally.differences > 0 {
                        let before = printed.fetch_add(tally.differences, Ordering::Relaxed) as usize;
                        tally.print_differences(PRINTED.saturating_sub(before), &head(plan, chosen[place], job));
                    }
                    own[place].add(tally);
                }
                let mut tallies = tallies.lock().expect("no thread stops while it holds the tallies");
                for (all, own) in tallies.iter_mut().zip(own) {
                    all.add(own);
                }
            });
        }
    });

    let mut total = Tally::default();
    let mut skipped = "";
    let tallies = tallies.into_inner().expect("no thread stops while it holds the tallies");
    for (section, tally) in chosen.iter().zip(tallies) {
        println!("{:<8} {}", section.name, section.about);
        match judge::MISSING {
            Some(why) if [sections::SECOND, sections::SECOND_DISTANCE].contains(&section.name) => {
                println!("         SKIPPED: {why}");
                skipped = "; the C++ was SKIPPED";
            }
            _ => println!("         {tally}"),
        }
        total.add(tally);
    }
    if total.cases == 0 {
        println!("beside: SKIPPED, no case was run");
        return ExitCode::from(77);
    }
    let mut good = total.differences == 0;
    println!("listed differences:");
    for (which, number, about) in known::LIST {
        let met = total.known.get(&which).copied().unwrap_or(0);
        println!("{met:>9} times {}: {about}", known::name(number));
        if met == 0 && plan.only.is_none() {
            println!("          NOT MET: the listed difference {which:?} has no test in this run");
            good = false;
        }
    }
    println!(
        "beside: {} cases, {} differences that are not listed, {:.1} s{skipped}",
        total.cases,
        total.differences,
        begun.elapsed().as_secs_f64()
    );
    verdict(good)
}
