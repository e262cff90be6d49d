//! How often each function of the library was called.
use std::sync::atomic::{AtomicU64, Ordering::Relaxed};

pub const NAMES: [&str; 13] = [
    "urd_burst_judge", "urd_burst_beat", "urd_burst_step", "urd_axi3_cut", "urd_judge_writes",
    "urd_judge", "urd_harvest", "urd_fill_in", "urd_data_octets", "urd_repack", "urd_downsize",
    "urd_merge", "urd_report",
];

static COUNTS: [AtomicU64; NAMES.len()] = [const { AtomicU64::new(0) }; NAMES.len()];

/// One call more. A name that is not listed is counted nowhere, and then fails as never called.
pub fn count(name: &str) {
    if let Some(i) = NAMES.iter().position(|n| *n == name) { COUNTS[i].fetch_add(1, Relaxed); }
}

pub fn all() -> u64 { COUNTS.iter().map(|c| c.load(Relaxed)).sum() }

pub fn show() {
    for (name, count) in NAMES.iter().zip(&COUNTS) { println!("calls {name} {}", count.load(Relaxed)); }
}
