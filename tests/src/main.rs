//! The tests of the library. Each group calls the archives, or runs the bench program, and compares what they answer,
//! store and write with published values, or with arithmetic that shares nothing with the library. A line is printed for
//! each group; the program stops at the first failure, with status 1. Arguments name the groups that are to run; all do
//! without any.

mod arrays;
mod bench;
mod calls;
mod examples;
mod field;
mod model;
mod pages;
mod products;
mod published;
mod random;
mod readme;
mod recovery;
mod refusals;
mod shelf;
mod stripes;

use std::env;
use std::process::ExitCode;

/// What a group hands back: what it covered, or what went wrong.
pub type Outcome = Result<String, String>;

/// A group: a function of the seed of its random bytes.
type Group = fn(u64) -> Outcome;

/// The groups in the order in which they run.
const GROUPS: [(&str, Group); 26] = [
    ("field", field::group),
    ("products", products::group),
    ("examples", examples::group),
    ("stripes", stripes::group),
    ("recovery", recovery::group),
    ("refusals", refusals::group),
    ("arrays", arrays::group),
    ("printed session", shelf::cases::printed::group),
    ("marked examples", shelf::cases::marked::group),
    ("list order", shelf::cases::order::group),
    ("rotating rows", shelf::cases::rows::group),
    ("rotating rebuilds", shelf::cases::rotation::group),
    ("rebuilds in turn", shelf::cases::rebuilds::group),
    ("one parity", shelf::cases::single::group),
    ("put back", shelf::cases::returned::group),
    ("sessions", shelf::cases::sessions::group),
    ("tiny shelves", shelf::cases::tiny::group),
    ("random shelves", shelf::cases::random::group),
    ("walks", shelf::cases::walks::group),
    ("sequences", shelf::cases::sequences::group),
    ("cuts", shelf::cases::cuts::group),
    ("steps", shelf::cases::steps::group),
    ("limits", shelf::cases::limits::group),
    ("bench program", bench::group),
    ("README", readme::group),
    ("pages", pages::group),
];

/// Runs the groups that are named, or all, one after another, up to the first that fails.
fn run() -> Result<(), String> {
    let seed = random::seed()?;
    let named: Vec<String> = env::args().skip(1).collect();
    if let Some(unknown) = named.iter().find(|name| !GROUPS.iter().any(|(known, _)| known == name)) {
        return Err(format!("there is no group {unknown}"));
    }
    for (name, group) in GROUPS.iter().filter(|(name, _)| named.is_empty() || named.iter().any(|other| other == name)) {
        match group(seed) {
            Ok(covered) => println!("{name}: {covered}"),
            Err(fault) => return Err(format!("{name}: FAILED: {fault}; seed {seed}")),
        }
    }
    Ok(())
}

/// Prints the failure, if there is one, and turns it into the exit status.
fn main() -> ExitCode {
    match run() {
        Ok(()) => ExitCode::SUCCESS,
        Err(fault) => {
            println!("{fault}");
            ExitCode::FAILURE
        }
    }
}
