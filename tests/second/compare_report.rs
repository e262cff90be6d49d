//! The library's report against the report's model (tests/report/model.rs), on many sheets and takes.
use crate::compare_streams::{cycles, damage, show, some_user};
use crate::library_report::{self as library, File, ReportAnswer};
use crate::model::{MOST_OCTETS, ROOM, record_octets};
use crate::report_model::{self, Report};
use crate::tally::{Random, Tally};
use crate::{cases, library_stream};
use std::fmt::Display;

const GUARD: usize = 24; // octets before and after each lent room
const READ: [u32; 6] = [1, 1, 2, 256, 0x8000_0000, u32::MAX]; // each says that a file was read
pub const WORDS: [&str; 3] = ["wired", "none", "low"]; // T-03's
const NO_WORDS: [&str; 9] = ["high", "Low", "LOW", "lows", "lo", "low ", "nonelow", "wire", ""];
const NO_USERS: [&str; 9] = ["5", "9", "10", "00", "04", "", "a", " 0", "0 "]; // T-06's line: the first two are USERBITS, the rest SHEET

fn octets<'a>(file: File<'a>) -> Option<&'a [u8]> { if file.1 == 0 { None } else { Some(file.0) } }

/// The model's report into a room, which is never above the model's own of 65,536 octets.
fn model(sheet: File, take: File, room: usize) -> Report {
    let report = report_model::report(octets(sheet), octets(take));
    if report.out.as_ref().is_none_or(|out| out.len() <= room) { return report; }
    Report { text: format!("verdict=refused\nrefusal={ROOM}\nat=0\n"), out: None }
}

/// The numbers of an answer, read from the model's text; a line that is not there counts 0.
fn numbers(report: &Report, told: &str) -> ReportAnswer {
    let line = |key| report.text.lines().find_map(|line| line.strip_prefix(key)).unwrap_or("0");
    let of = |key| line(key).parse::<u64>().expect("a number");
    let verdict = ["clean", "broken", "refused"].iter().position(|v| *v == line("verdict=")).expect("a verdict");
    ReportAnswer {
        verdict: verdict as u32, refusal: of("refusal=") as u32, rule: of("rule=") as u32, place: of("at=") + of("cycle="),
        transfers: of("transfers="), packets: of("packets="), records: of("records="),
        text: told.len() as u64, octets: report.out.as_ref().map_or(0, |out| out.len() as u64),
    }
}

fn note(t: &mut Tally, a: ReportAnswer) {
    t.verdict(match a.verdict {
        0 => "report clean".to_string(),
        1 => format!("report broken rule {}", a.rule),
        _ => format!("report refusal {}", a.refusal),
    });
}

/// A lent room between guards: as it is, and as it must be with these octets at its front.
fn lend(room: usize, front: &[u8]) -> [Vec<u8>; 2] {
    let before: Vec<u8> = (0..room + 2 * GUARD).map(|i| (i * 37 + 11) as u8).collect();
    let mut after = before.clone();
    after[GUARD..GUARD + front.len()].copy_from_slice(front);
    [before, after]
}

/// One report into one pair of rooms, the text's longer or shorter than the text by `more`: the numbers, every octet of the
/// rooms and of the guards around them, and sheet and take afterwards.
pub fn compare(t: &mut Tally, sheet: File, take: File, room: usize, more: isize) {
    let expected = model(sheet, take, room);
    let text_room = expected.text.len().saturating_add_signed(more);
    let told = if more < 0 { "" } else { &expected.text };
    let [mut out, out_after] = lend(room, expected.out.as_deref().unwrap_or(&[]));
    let [mut text, text_after] = lend(text_room, told.as_bytes());
    let kept = (sheet.0.to_vec(), take.0.to_vec());
    let answer = library::report(sheet, take, &mut out[GUARD..GUARD + room], &mut text[GUARD..GUARD + text_room]);
    let inputs = || format!("report, rooms {room} and {text_room}, sheet read {} {:?}, take read {} {}", sheet.1, String::from_utf8_lossy(sheet.0), take.1, show(take.0));
    note(t, numbers(&expected, told));
    t.same(answer, numbers(&expected, told), inputs);
    t.check(text == text_after, || format!("{}\n    library  {:?}\n    expected {:?}", inputs(), String::from_utf8_lossy(&text), String::from_utf8_lossy(&text_after)));
    t.check(out == out_after, || format!("{}\n    library  {}\n    expected {}", inputs(), show(&out), show(&out_after)));
    t.check(kept.0 == sheet.0 && kept.1 == take.0, || format!("{}: input changed", inputs()));
}

/// Rooms: exact, one octet less, larger, none, and the program's own.
fn compare_all(t: &mut Tally, sheet: File, take: File) {
    let need = model(sheet, take, MOST_OCTETS).out.map_or(40, |out| out.len());
    let rooms = [need, need.saturating_sub(1), (need + 31).min(MOST_OCTETS), 0, MOST_OCTETS];
    for (room, more) in rooms.into_iter().zip([0, 25, -1, 1, -1_000]) { compare(t, sheet, take, room, more); }
}

pub fn sheet(w: usize, v: usize, mode: &str, tlast: &str, user: impl Display) -> Vec<u8> {
    format!("width_in={w}\nwidth_out={v}\nmode={mode}\ntlast={tlast}\nuser={user}\n").into_bytes()
}

/// A sheet for takes of width w with m user bits, or nearly one.
fn random_sheet(r: &mut Random, w: usize, m: usize) -> Vec<u8> {
    let any = 1 + r.below(16);
    let v = if r.one_in(12) { r.pick(&[0, 17, 99]) } else { r.pick(&[w, 1, (w + 1) / 2, any]) };
    let w = if r.one_in(16) { r.pick(&[0, 17, 99]) } else { w };
    let tlast = if r.one_in(24) { r.pick(&NO_WORDS) } else { r.pick(&WORDS) };
    let user = if r.one_in(24) { r.pick(&NO_USERS).to_string() } else { m.to_string() };
    let mut sheet = sheet(w, v, r.pick(&["pack", "lanes"]), tlast, user);
    let at = r.below(sheet.len());
    match r.below(24) {
        0 => sheet[at] ^= 1 << r.below(8),
        1 => sheet.truncate(at),
        2 => sheet.insert(at, r.pick(b"\n0 1\r")),
        3 => { sheet.remove(at); }
        _ => {}
    }
    sheet
}

/// TLAST of each cycle at random, as of a port without the wire: clean where it is filled in, and else R3 if it moves during a wait.
pub fn move_tlast(r: &mut Random, w: usize, m: usize, take: &mut [u8]) {
    for cycle in take.chunks_mut(record_octets(w, m)) { cycle[0] ^= r.below(2) as u8; }
}

/// A file that can't be read hands over octets all the same, and they count for nothing.
fn random_report(t: &mut Tally, r: &mut Random, w: usize, m: usize, records: usize) {
    let sheet = random_sheet(r, w, m);
    let mut take = cycles(r, w, m, records);
    if r.one_in(3) { move_tlast(r, w, m, &mut take); }
    if r.one_in(2) { damage(r, w, m, &mut take); }
    if r.one_in(12) { take.truncate(take.len().saturating_sub(1)); }
    let sheet_read = if r.one_in(20) { 0 } else { r.pick(&READ) };
    let take_read = if r.one_in(20) { 0 } else { r.pick(&READ) };
    compare_all(t, (&sheet, sheet_read), (&take, take_read));
}

/// As many records as fit into 65,536 octets, one less or more.
fn longest_report(t: &mut Tally, r: &mut Random) {
    let (w, m) = r.pick(&[(1, 0), (2, 0), (4, 0), (9, 0), (16, 0), (1, 1), (8, 1), (7, 2), (6, 3), (16, 4)]);
    let records = MOST_OCTETS / record_octets(w, m) + r.below(3) - 1;
    random_report(t, r, w, m, records);
}

/// The library's report into the program's own room: its numbers, text and records.
pub fn ask(sheet: File, take: File) -> (ReportAnswer, String, Vec<u8>) {
    let (mut out, mut text) = (vec![0; MOST_OCTETS], vec![0; 200]);
    let answer = library::report(sheet, take, &mut out, &mut text);
    out.truncate(answer.octets as usize);
    text.truncate(answer.text as usize);
    (answer, String::from_utf8_lossy(&text).to_string(), out)
}

/// A take whose TLAST moves while the first transfer waits; the second transfer is all null, the third a position.
const MOVING: &str = "0A 05 02 01 00 01 00 AA 0F 05 02 01 00 01 00 AA 0E 05 02 00 00 00 00 99 0F 05 02 01 00 00 00 BB";
const NULLS: &str = "0E 05 02 00 00 00 00 11 0E 05 02 00 00 00 00 22 0E 06 02 00 00 00 00 33";

/// Change request T-03, worked out by hand from its text: sheet, take, the verdict with its numbers, and out.bin.
fn by_hand(t: &mut Tally) {
    let low_p1 = format!("0E{}", &cases::P1_TAKE[2..]);
    for (w, v, mode, tlast, take, told, out) in [
        (4, 2, "pack", "wired", cases::P1_TAKE, "clean 1 1 2", "00 01 02 03 00 01 00 11 00 01 01 02 01 00 01 00 44 00"),
        (4, 2, "pack", "none", &low_p1, "clean 1 1 2", "00 01 02 03 00 01 00 11 00 01 01 02 01 00 01 00 44 00"),
        (4, 2, "pack", "low", cases::P1_TAKE, "clean 1 0 2", "00 01 02 03 00 01 00 11 00 00 01 02 01 00 01 00 44 00"),
        (4, 2, "lanes", "none", &low_p1, "clean 1 1 2", "00 01 02 01 00 01 00 11 00 01 01 02 03 00 02 00 00 44"),
        (4, 2, "lanes", "low", cases::P1_TAKE, "clean 1 0 2", "00 01 02 01 00 01 00 11 00 00 01 02 03 00 02 00 00 44"),
        (1, 2, "pack", "wired", MOVING, "broken 1 3", ""),
        (1, 2, "pack", "none", MOVING, "clean 3 3 3", "01 05 02 01 00 01 00 AA 00 01 05 02 00 00 00 00 00 00 01 05 02 01 00 00 00 00 00"),
        (1, 2, "pack", "low", MOVING, "clean 3 0 1", "00 05 02 03 00 01 00 AA 00"),
        (1, 2, "pack", "wired", NULLS, "clean 3 0 0", ""),
        (1, 2, "pack", "none", NULLS, "clean 3 3 3", "01 05 02 00 00 00 00 00 00 01 05 02 00 00 00 00 00 00 01 06 02 00 00 00 00 00 00"),
        (1, 2, "pack", "low", NULLS, "clean 3 0 0", ""),
        (1, 1, "lanes", "low", NULLS, "clean 3 0 3", "00 05 02 00 00 00 00 00 00 05 02 00 00 00 00 00 00 06 02 00 00 00 00 00"),
    ] {
        told_by_hand(t, (&sheet(w, v, mode, tlast, 0), 1), (&cases::hex(take), 1), told, Some(&cases::hex(out)));
    }
    for tlast in NO_WORDS { told_by_hand(t, (&sheet(4, 2, "pack", tlast, 0), 1), (&cases::hex(cases::P1_TAKE), 1), "refused 15 0", Some(&[])); }
}

/// The library's text, and its records where they are given; then all rooms, against the model.
pub fn told_by_hand(t: &mut Tally, sheet: File, take: File, told: &str, records: Option<&[u8]>) {
    let keys = [["verdict", "transfers", "packets", "records"], ["verdict", "cycle", "rule", ""], ["verdict", "refusal", "at", ""]];
    let keys = keys[["clean", "broken", "refused"].iter().position(|v| told.starts_with(v)).expect("a verdict")];
    let expected: String = keys.iter().zip(told.split(' ')).map(|(key, value)| format!("{key}={value}\n")).collect();
    let (_, text, out) = ask(sheet, take);
    let inputs = || format!("report by hand, sheet read {} {:?}, take read {} {}", sheet.1, String::from_utf8_lossy(sheet.0), take.1, show(take.0));
    t.same(text, expected, inputs);
    t.check(records.is_none_or(|records| out == records), || format!("{}\n    library  {}\n    expected {records:02x?}", inputs(), show(&out)));
    compare_all(t, sheet, take);
}

/// Packing around the room of 65,536 octets: widths, transfers, whether their lanes are all data or all null, the word, and the
/// number of records, or none where it is ROOM. With `none` a transfer of one lane takes a record of any width for itself.
const BOUNDS: [(usize, usize, usize, bool, &str, Option<usize>); 24] = [
    (1, 16, 2_849, true, "none", Some(2_849)), (1, 16, 2_850, true, "none", None), (1, 16, 8_192, true, "none", None),
    (1, 16, 2_849, true, "low", Some(179)), (1, 16, 2_850, true, "low", Some(179)), (1, 16, 8_192, true, "low", Some(512)),
    (1, 9, 4_096, true, "none", Some(4_096)), (1, 9, 4_097, true, "none", None),
    (1, 9, 4_096, true, "low", Some(456)), (1, 9, 4_097, true, "low", Some(456)),
    (1, 1, 8_192, true, "none", Some(8_192)), (1, 1, 8_192, true, "low", Some(8_192)),
    (1, 16, 2_849, false, "none", Some(2_849)), (1, 16, 2_850, false, "none", None), (1, 16, 2_850, false, "low", Some(0)),
    (1, 9, 4_096, false, "none", Some(4_096)), (1, 9, 4_097, false, "none", None), (1, 9, 4_097, false, "low", Some(0)),
    (1, 1, 8_192, false, "none", Some(8_192)), (1, 1, 8_192, false, "low", Some(0)),
    // three records of a transfer, the last half full; packed across, 7,281 records of two lanes are the most
    (5, 2, 2_427, true, "none", Some(7_281)), (5, 2, 2_428, true, "none", None),
    (5, 2, 2_912, true, "low", Some(7_280)), (5, 2, 2_913, true, "low", None),
];

/// The take says the other level than the word, so that only a filled take gives these numbers.
fn bounds(t: &mut Tally) {
    for (w, v, transfers, data, tlast, records) in BOUNDS {
        let keep = if data { (1u8 << w) - 1 } else { 0 };
        let mut transfer = vec![if tlast == "none" { 0x0E } else { 0x0F }, 5, 2, keep, 0, keep, 0];
        transfer.resize(7 + w, 0x77);
        let packets = if tlast == "none" { transfers } else { 0 };
        let told = records.map_or("refused 5 0".to_string(), |records| format!("clean {transfers} {packets} {records}"));
        told_by_hand(t, (&sheet(w, v, "pack", tlast, 0), 1), (&transfer.repeat(transfers), 1), &told, None);
    }
}

/// How many records packing writes, counted without a packed form: kept lanes add up while the pair stays, and an end makes
/// one record at least.
fn packed_records(v: usize, transfers: &[&[u8]], ends: impl Fn(&[u8]) -> bool) -> usize {
    let (mut records, mut held, mut pair) = (0, 0usize, [0, 0]);
    for c in transfers {
        let kept = (c[3].count_ones() + c[4].count_ones()) as usize;
        if kept == 0 && !ends(c) { continue; } // it vanishes
        if pair != c[1..3] { (records, held) = (records + held.div_ceil(v), 0); }
        (pair, held) = ([c[1], c[2]], held + kept);
        if ends(c) { (records, held) = (records + held.div_ceil(v).max(1), 0); }
    }
    records + held.div_ceil(v)
}

/// These transfers one by one with TLAST high, each converted by the library alone, and joined.
fn one_by_one(w: usize, m: usize, v: usize, mode: &str, transfers: &[&[u8]]) -> Vec<u8> {
    let convert = if mode == "lanes" { library_stream::downsize } else { library_stream::repack };
    let mut room = vec![0; 144]; // 16 records of one lane are the most
    let mut alone = |c: &&[u8]| {
        let answer = convert(w, m, v, &[&[1], &c[1..]].concat(), &mut room);
        room[..(answer.count as usize).saturating_mul(record_octets(v, m)).min(144)].to_vec()
    };
    transfers.iter().flat_map(&mut alone).collect()
}

/// T-03 without a packed form of the whole: what each word makes of a clean take is counted on its cycles, and the packets once
/// more on the result. With `none` the result is also made from each transfer alone. Where there is no wire, TLAST moves.
fn each_word(t: &mut Tally, r: &mut Random, w: usize, m: usize, records: usize) {
    let wired = cycles(r, w, m, records);
    let mut moving = wired.clone();
    move_tlast(r, w, m, &mut moving);
    let slices: Vec<usize> = (1..=w).filter(|v| w % v == 0).collect();
    for (mode, v) in [("pack", 1 + r.below(16)), ("lanes", r.pick(&slices))] {
        for tlast in WORDS {
            let take = if tlast == "wired" { &wired } else { &moving };
            let transfers: Vec<&[u8]> = take.chunks(record_octets(w, m)).filter(|c| c[0] & 14 == 14).collect();
            let ends = |c: &[u8]| match tlast { "none" => true, "low" => false, _ => c[0] & 1 == 1 };
            let packets = transfers.iter().filter(|c| ends(c)).count() as u64;
            let count = if mode == "lanes" { transfers.len() * (w / v) } else { packed_records(v, &transfers, ends) };
            let fits = count * record_octets(v, m) <= MOST_OCTETS;
            let expected = if fits { (0, transfers.len() as u64, packets, count as u64, packets) } else { (ROOM, 0, 0, 0, 0) };
            let sheet = sheet(w, v, mode, tlast, m);
            let (a, _, out) = ask((&sheet, 1), (take, 1));
            let last = out.chunks(record_octets(v, m)).filter(|r| r[0] & 1 == 1).count() as u64;
            let inputs = || format!("report {mode} {w} to {v}, tlast={tlast}, user={m}, {}", show(take));
            t.same((a.refusal, a.transfers, a.packets, a.records, last), expected, inputs);
            if tlast == "none" {
                let joined = if fits { one_by_one(w, m, v, mode, &transfers) } else { Vec::new() };
                t.check(out == joined, || format!("{}\n    library  {}\n    alone    {}", inputs(), show(&out), show(&joined)));
            }
            compare(t, (&sheet, 1), (take, 1), MOST_OCTETS, 0);
        }
    }
}

/// One round of the soak; one in a few hundred has a long take.
pub fn round(t: &mut Tally, r: &mut Random) {
    if r.one_in(600) { longest_report(t, r); }
    let (w, m, records) = (1 + r.below(16), some_user(r), r.below(14));
    random_report(t, r, w, m, records);
    if r.one_in(6) { each_word(t, r, w, m, records); }
}

/// What the gate asks.
pub fn all(t: &mut Tally) {
    t.group("T-03 reports by hand", by_hand);
    t.group("T-03 reports at the room's bound", bounds);
    t.seeded_group("T-03 word by word", |t, r| for round in 0..600 {
        let (w, m) = (1 + r.below(16), some_user(r));
        let records = if round % 40 == 0 { r.below(MOST_OCTETS / record_octets(w, m)) } else { r.below(14) };
        each_word(t, r, w, m, records);
    });
    t.seeded_group("reports", |t, r| for _ in 0..2_000 { let (w, m, n) = (1 + r.below(16), some_user(r), r.below(14)); random_report(t, r, w, m, n) });
    t.seeded_group("reports on longest takes", |t, r| for _ in 0..12 { longest_report(t, r) });
}

/// What must have occurred by then.
pub const VERDICTS: [&str; 12] = [
    "report clean", "report broken rule 1", "report broken rule 2", "report broken rule 3", "report broken rule 4",
    "report refusal 1", "report refusal 2", "report refusal 3", "report refusal 5", "report refusal 6", "report refusal 15", "report refusal 16",
];
