//! The report program against the model, on many folders.
//!     compare PROGRAM PLACE SEED [NUMBER]
//! makes each folder in PLACE, runs PROGRAM in it, and compares standard output,
//! standard error, out.bin and everything else in the folder with the model's
//! answer. With a number only that folder is tried, and it is left in PLACE.
#![allow(dead_code)]
mod folders;
mod model;
#[path = "../second/model.rs"]
mod stream;
#[path = "../second/tally.rs"]
mod tally;
use folders::{Entry, Folder};
use std::fs;
use std::os::unix::{fs::symlink, process::ExitStatusExt};
use std::path::Path;
use std::process::{Command, Stdio};

const NAMES: [&str; 4] = ["setup.txt", "take.bin", "out.bin", "out.bin.part"];

/// What a run shows: standard output, whether standard error is as it has to be,
/// the four entries afterwards, and names that nobody knows.
#[derive(PartialEq)]
struct Shown { printed: String, error_lines: usize, entries: [Entry; 4], others: Vec<String> }

fn make(dir: &Path, entries: &[Entry; 4]) -> std::io::Result<()> {
    if dir.exists() { fs::remove_dir_all(dir)?; }
    fs::create_dir_all(dir)?;
    for (name, entry) in NAMES.iter().zip(entries) {
        match entry {
            Entry::Missing => {}
            Entry::Folder => fs::create_dir(dir.join(name))?,
            Entry::Link(to) => symlink(to, dir.join(name))?,
            Entry::File(octets) => fs::write(dir.join(name), octets)?,
        }
    }
    Ok(())
}

/// A link stays what it was, where it is still a link.
fn look(path: &Path, before: &Entry) -> Entry {
    match fs::symlink_metadata(path) {
        Err(_) => Entry::Missing,
        Ok(found) if found.is_dir() => Entry::Folder,
        Ok(found) if found.is_symlink() => before.clone(),
        Ok(_) => Entry::File(fs::read(path).unwrap_or_default()),
    }
}

fn run(program: &str, dir: &Path, before: &[Entry; 4]) -> std::io::Result<Shown> {
    make(dir, before)?;
    let done = Command::new(program).current_dir(dir).stdin(Stdio::null()).output()?;
    let mut printed = String::from_utf8_lossy(&done.stdout).to_string();
    if let Some(signal) = done.status.signal() { printed += &format!("(killed by signal {signal})"); }
    let error = String::from_utf8_lossy(&done.stderr);
    let whole = error.is_empty() || error.ends_with('\n');
    let mut others: Vec<String> = fs::read_dir(dir)?.flatten().map(|e| e.file_name().to_string_lossy().to_string()).collect();
    others.retain(|name| !NAMES.contains(&name.as_str()));
    let entries = std::array::from_fn(|i| look(&dir.join(NAMES[i]), &before[i]));
    Ok(Shown { printed, error_lines: if whole { error.lines().count() } else { 99 }, entries, others })
}

/// What a read of this gives; none where it can't be opened or read.
fn contents(entry: &Entry) -> Option<Vec<u8>> {
    match entry {
        Entry::File(octets) => Some(octets.clone()),
        Entry::Link("/dev/null") => Some(Vec::new()),
        Entry::Link("/dev/zero") => Some(vec![0; stream::MOST_OCTETS + 1]), // endless
        _ => None,
    }
}

/// The model's report, and what it does to the folder. Where out.bin can't be
/// written, nothing is printed and out.bin is as it was: one line says so.
fn expected(before: &[Entry; 4]) -> Shown {
    let report = model::report(contents(&before[0]).as_deref(), contents(&before[1]).as_deref());
    let mut shown = Shown { printed: report.text, error_lines: 0, entries: before.clone(), others: Vec::new() };
    let Some(octets) = report.out else { return shown };
    let blocked = before[3] == Entry::Folder;
    if !blocked { shown.entries[3] = Entry::Missing; }
    if blocked || before[2] == Entry::Folder || before[3] == Entry::Link("/dev/full") {
        shown.printed = String::new();
        shown.error_lines = 1;
    } else {
        shown.entries[2] = Entry::File(octets);
    }
    shown
}

fn show(entries: &[Entry; 4]) -> String {
    let mut text = String::new();
    for (name, entry) in NAMES.iter().zip(entries) {
        text += &match entry {
            Entry::Missing => format!("\n      {name}: not there"),
            Entry::Folder => format!("\n      {name}: a folder"),
            Entry::Link(to) => format!("\n      {name}: a link to {to}"),
            Entry::File(octets) if *name == "setup.txt" => format!("\n      {name}: {:?}", String::from_utf8_lossy(&octets[..octets.len().min(80)])),
            Entry::File(octets) => format!("\n      {name}: {} octets {:02x?}", octets.len(), &octets[..octets.len().min(80)]),
        };
    }
    text
}

fn answer(s: &Shown) -> String {
    let Shown { printed, error_lines, entries, others } = s;
    format!("{printed:?}, {error_lines} lines of error, other files {others:?}{}", show(entries))
}

/// Which verdict the model gives, to see that each one occurs.
fn verdict(s: &Shown) -> String {
    let of = |key| s.printed.lines().find_map(|line| line.strip_prefix(key)).unwrap_or("");
    match of("verdict=") {
        "" => "nothing printed, out.bin can't be written".to_string(),
        "broken" => format!("broken by rule {}", of("rule=")),
        "refused" => format!("refused {}", of("refusal=")),
        _ if matches!(&s.entries[2], Entry::File(octets) if octets.len() == stream::MOST_OCTETS) => "clean with 65536 octets".to_string(),
        other => other.to_string(),
    }
}

fn main() {
    let args: Vec<String> = std::env::args().collect();
    let (program, place) = (&args[1], Path::new(&args[2]));
    let seed: u64 = args[3].parse().unwrap_or(tally::SEED);
    let only: Option<usize> = args.get(4).and_then(|n| n.parse().ok());
    let all: Vec<Folder> = folders::all(seed);
    println!("report: {} folders, seed {seed}", all.len());
    let mut t = tally::Tally::default();
    let groups = all.chunk_by(|a, b| a.group == b.group);
    let mut number = 0;
    for group in groups {
        let numbers = number..number + group.len();
        number = numbers.end;
        if only.is_some_and(|n| !numbers.contains(&n)) { continue; }
        t.group(group[0].group, |t| for (n, f) in numbers.zip(group) {
            if only.is_some_and(|only| only != n) { continue; }
            let before = [f.setup.clone(), f.take.clone(), f.out.clone(), f.part.clone()];
            let model = expected(&before);
            t.verdict(verdict(&model));
            let dir = place.join(format!("folder{n}"));
            let about = || format!("folder {n}, seed {seed}; again with: sh tests/report/run {seed} {n}\n    before{}", show(&before));
            match run(program, &dir, &before) {
                Err(e) => t.check(false, || format!("{}\n    cannot be tried: {e}", about())),
                Ok(shown) => t.check(shown == model, || format!("{}\n    program  {}\n    model    {}", about(), answer(&shown), answer(&model))),
            }
            if only.is_none() { let _ = fs::remove_dir_all(&dir); }
        });
    }
    if only.is_none() {
        let rules = [1, 2, 3, 4].map(|n| format!("broken by rule {n}"));
        let refusals = [1, 2, 3, 5, 6, 15, 16].map(|n| format!("refused {n}"));
        let others = ["clean", "clean with 65536 octets", "nothing printed, out.bin can't be written"].map(String::from);
        let every: Vec<&str> = rules.iter().chain(&refusals).chain(&others).map(String::as_str).collect();
        t.show_verdicts(&every);
    }
    t.finish()
}
