//! Makes calls of `dbtg_run` on threads, as its first word says: `chance` runs units by chance, `meetings` lets two units meet, and one
//! wait in vain, `alone CAPACITY SCHEMA SCRIPT` makes a script with no tries, `refused` makes calls again that found no memory, and
//! `pace HOW CAPACITY SCHEMA SCRIPT..` is to be measured. See tests/program/run-threads, tests/program/refuse-threads and tests/tools/pace.
#![tactic(auto)]

mod alone;
mod chance;
mod meeting;
mod pace;
mod refused;
mod shop;
mod texts;

use alone::run_alone;
use chance::{Chance, is_sound_run};
use meeting::{AS_IT_MUST, IN_VAIN, meeting, waiting_in_vain};
use pace::pace;
use refused::refused;
use std::env;
use std::io;
use std::process::ExitCode;
use std::sync::Wait;
use std::thread::Threads;

const RUNS: usize = 2000;

const MEETINGS: usize = 10;

// The status where there was no memory for the command's words.
const UNREAD: u8 = 3;

// The runs of this many units, and a line that counts them. A run is known again by its place: the scripts are the same each time.
fn run_so_many<R: Threads + Wait + Sync>(rt: &HostRuntime, threads: &R, units: u8, runs: usize) -> Option<()> {
    let mut chance = Chance::of(1971 + units as u64);
    let mut sound = 0;
    for place in 0..runs {
        if is_sound_run(threads, rt.alloc(), &mut chance, units) == Some(true) {
            sound += 1;
        } else {
            let _ = eprintln!(rt; "run {place} of {units} units is not sound");
        }
    }
    println!(rt; "{units} units: {runs} runs, {sound} sound").ok()
}

// All runs, as evenly spread as they can be over 2 to 8 units.
fn run_by_chance<R: Threads + Wait + Sync>(rt: &HostRuntime, threads: &R) -> Option<()> {
    for units in 2..9u8 {
        run_so_many(rt, threads, units, (RUNS + units as usize - 2) / 7)?;
    }
    Some(())
}

fn meet<R: Threads + Wait + Sync>(rt: &HostRuntime, threads: &R) -> Option<()> {
    let mut right = 0;
    for _ in 0..MEETINGS {
        if meeting(threads, rt.alloc()) == Some(AS_IT_MUST) {
            right += 1;
        }
    }
    println!(rt; "meetings: {MEETINGS} runs, {right} sound").ok()?;
    let in_vain = if waiting_in_vain(threads, rt.alloc()) == Some(IN_VAIN) { 1 } else { 0 };
    println!(rt; "waits in vain: 1 runs, {in_vain} sound").ok()
}

fn words_of(rt: &HostRuntime) -> io::Result<Vec<String>> {
    let mut words = Vec::new(rt.alloc());
    for word in env::args(rt)? {
        words.push(word)?;
    }
    Ok(words)
}

fn carry_out<R: Threads + Wait + Sync>(rt: &HostRuntime, threads: &R, words: &[String]) -> Option<()> {
    match words.get(1)?.as_str() {
        "chance" => run_by_chance(rt, threads),
        "meetings" => meet(rt, threads),
        "alone" => run_alone(rt, words.get(2..)?),
        "refused" => refused(rt, threads),
        "pace" => pace(rt, threads, words.get(2..)?),
        _ => None,
    }
}

fn main(rt: HostRuntime) -> ExitCode {
    let Ok(words) = words_of(&rt) else {
        return ExitCode::from(UNREAD);
    };
    match carry_out(&rt, &rt, words.as_slice()) {
        Some(()) => ExitCode::SUCCESS,
        None => ExitCode::FAILURE,
    }
}
