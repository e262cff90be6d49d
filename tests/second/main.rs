//! The second program: the library, through C, against the model.
//!   second gate SEED [GROUP]   every group once; with a name, that group alone
//!   second soak SECONDS SEED   a round of questions for SEED, for SEED + 1 and so on until the time is up, one at least
//! Each difference is printed with its seed, the call, both answers and the command that repeats it.
#![allow(dead_code)]
mod calls;
mod cases;
mod cases_archive;
mod cases_fewest;
mod cases_merge;
mod cases_user;
mod cases_writes;
mod compare_archive;
mod compare_axi3;
mod compare_bursts;
mod compare_fewest;
mod compare_merge;
mod compare_report;
mod compare_streams;
mod compare_user;
mod compare_user_report;
mod compare_writes;
mod least;
mod library_axi3;
mod library_burst;
mod library_merge;
mod library_report;
mod library_stream;
mod library_writes;
mod masks;
mod merge_lists;
mod model;
mod model_axi3;
mod model_fewest;
mod model_merge;
mod model_writes;
#[path = "../report/model.rs"]
mod report_model;
mod tally;
mod write_takes;
use model as stream; // the report's model has it by this name
use std::time::{Duration, Instant, SystemTime};
use tally::{Random, Tally};

const PROGRESS: Duration = Duration::from_secs(5);

fn gate(seed: u64, only: Option<String>) -> ! {
    println!("library and model, seed {seed:#x}");
    let mut t = Tally::default();
    (t.seed, t.only, t.least) = (Some(seed), only, least::COMPARE);
    compare_bursts::all(&mut t);
    compare_axi3::all(&mut t);
    compare_writes::all(&mut t);
    compare_streams::all(&mut t);
    compare_user::all(&mut t);
    compare_report::all(&mut t);
    compare_user_report::all(&mut t);
    compare_fewest::all(&mut t);
    compare_merge::all(&mut t);
    compare_archive::all(&mut t);
    calls::show();
    t.seed = None; // the last two groups are about the run as a whole
    let bursts = [&compare_bursts::VERDICTS[..], &compare_axi3::VERDICTS, &compare_writes::VERDICTS];
    let streams = [compare_streams::verdicts(), compare_merge::verdicts(), compare_archive::verdicts()].concat();
    let streams = streams.iter().map(String::as_str).chain(compare_report::VERDICTS).collect();
    t.show_verdicts(&[bursts.concat(), streams].concat());
    t.every_group_ran();
    println!("{} calls in all", calls::all());
    t.finish()
}

fn progress(t: &Tally, began: Instant, seed: u64) {
    let seconds = began.elapsed().as_secs_f64();
    let calls = calls::all();
    println!("soak: {seconds:.0} s, {calls} calls, {:.0} calls a second, {} differences, at seed {seed:#x}", calls as f64 / seconds, t.wrong);
}

fn soak(seconds: u64, first: u64) -> ! {
    println!("soak: library and model for {seconds} s, seed {first:#x}");
    let began = Instant::now();
    let mut shown = began;
    let mut t = Tally::default();
    let mut seed = first;
    loop {
        t.seed = Some(seed);
        let mut r = Random::of_seed(seed);
        compare_bursts::round(&mut t, &mut r);
        compare_axi3::round(&mut t, &mut r);
        compare_writes::round(&mut t, &mut r);
        compare_streams::round(&mut t, &mut r);
        compare_report::round(&mut t, &mut r);
        compare_fewest::round(&mut t, &mut r);
        compare_merge::round(&mut t, &mut r);
        compare_archive::round(&mut t, &mut r);
        if began.elapsed() >= Duration::from_secs(seconds) { break; }
        if shown.elapsed() >= PROGRESS {
            shown = Instant::now();
            progress(&t, began, seed);
        }
        seed = seed.wrapping_add(1);
    }
    progress(&t, began, seed);
    calls::show();
    if t.wrong > 5 { println!("soak: {} differences; the first 5 are printed above", t.wrong); }
    std::process::exit(i32::from(t.wrong != 0))
}

/// Decimal, or hexadecimal after 0x.
fn number(text: &str) -> Option<u64> {
    match text.strip_prefix("0x") { Some(hex) => u64::from_str_radix(hex, 16).ok(), None => text.parse().ok() }
}

fn clock() -> u64 {
    SystemTime::now().duration_since(SystemTime::UNIX_EPOCH).map_or(tally::SEED, |d| d.as_nanos() as u64)
}

fn main() {
    let args: Vec<String> = std::env::args().skip(1).collect();
    let args: Vec<&str> = args.iter().map(String::as_str).collect();
    match args[..] {
        ["gate"] => gate(tally::SEED, None),
        ["gate", seed] => if let Some(seed) = number(seed) { gate(seed, None) },
        ["gate", seed, only] => if let Some(seed) = number(seed) { gate(seed, Some(only.to_string())) },
        ["soak", seconds, ""] => if let Some(n) = number(seconds) { soak(n, clock()) },
        ["soak", seconds, seed] => if let (Some(n), Some(seed)) = (number(seconds), number(seed)) { soak(n, seed) },
        _ => {}
    }
    println!("second gate [SEED [GROUP]], or second soak SECONDS SEED; a seed is decimal, or hexadecimal after 0x");
    std::process::exit(2)
}
