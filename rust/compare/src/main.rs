//! Calls the proved library and the paper crate with the same problems, sheets
//! and buffers, and compares everything that comes back: answers, counts,
//! lists, workspaces, output bytes, and what must be left as it was.
//!
//! `compare [PERCENT] [SEED]`: how many of the random cases, and which. Prints
//! a line for each group and each disagreement. The status is 1 if anything
//! disagrees, or if some answer or refusal never came up.

#![forbid(unsafe_code)]

mod both;
mod groups;
mod guarded;
mod lists;
mod texts;

use std::collections::BTreeMap;
use std::process::ExitCode;

use brute::random::Random;

use both::Kind;
use groups::{Group, GROUPS};

fn main() -> ExitCode {
    let percent = argument(1).unwrap_or(100);
    let seed = argument(2).unwrap_or(0);
    let mut seen = BTreeMap::new();
    let mut differing = groups::files(&mut seen);
    for (group, index) in GROUPS.iter().zip(1..) {
        differing += run(group, group.cases * percent / 100, first_case(seed, index), &mut seen);
    }
    let missing: Vec<String> = Kind::expected()
        .filter(|kind| !seen.contains_key(kind))
        .map(|kind| kind.to_string())
        .collect();
    println!("{} cases, {differing} disagreements", seen.values().sum::<u64>() + differing);
    if !missing.is_empty() {
        println!("never came up: {}", missing.join(", "));
    }
    ExitCode::from(u8::from(differing > 0 || !missing.is_empty()))
}

fn argument(place: usize) -> Option<u64> {
    std::env::args().nth(place)?.parse().ok()
}

/// Where the random cases of a group start: far from those of every other
/// group, and of the same group with another seed.
fn first_case(seed: u64, group: u64) -> u64 {
    seed.wrapping_mul(64).wrapping_add(group) << 40
}

/// Runs a group, prints its line, and gives the number of disagreements.
fn run(group: &Group, cases: u64, first: u64, seen: &mut BTreeMap<Kind, u64>) -> u64 {
    let mut kinds = BTreeMap::new();
    let mut differing = 0;
    for case in 0..cases {
        match (group.check)(&mut Random::new(first + case)) {
            Ok(kind) => *kinds.entry(kind).or_insert(0) += 1,
            Err(difference) => {
                differing += 1;
                println!("  {}, case {case}: {difference}", group.name);
            }
        }
    }
    report(group.name, cases, differing, &kinds);
    for (kind, count) in kinds {
        *seen.entry(kind).or_insert(0) += count;
    }
    differing
}

/// The line of a group, with how often each kind of outcome came.
fn report(name: &str, cases: u64, differing: u64, kinds: &BTreeMap<Kind, u64>) {
    let kinds: Vec<String> = kinds.iter().map(|(kind, count)| format!("{kind} {count}")).collect();
    println!("{name}: {cases} cases, {differing} disagreements ({})", kinds.join(", "));
}
