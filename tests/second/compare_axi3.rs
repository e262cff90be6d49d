//! The library's cut for AXI3 boards (T-02) against the model, on many bursts and rows; and what the
//! request says of the list, asked of the library's own judging and beats.
use crate::compare_bursts::{damaged, random_of_kind, wild};
use crate::model::{Burst, FIXED, INCR, WRAP};
use crate::model_axi3::{self as model, CutAnswer, MOST_BEATS, NUMBERS, Plan};
use crate::tally::{Random, Tally};
use crate::{cases, library_axi3 as library, library_burst};

const GUARD: usize = 11; // numbers before and after each lent row
const BLOCK: u64 = 4096;
const MOST_INCR: u32 = 256; // beats
const LONGEST: usize = NUMBERS * (MOST_INCR / MOST_BEATS) as usize; // numbers that a cut needs at most
const OFTEN: [u32; 9] = [1, 15, 16, 17, 31, 32, 33, 255, 256]; // beats

fn note(t: &mut Tally, a: CutAnswer) {
    t.verdict(match a.refusal { 0 => "cut accepted".to_string(), n => format!("cut refusal {n}") });
}

/// Where two rows begin to differ, counted from the lent row's first number on (the guard before it is negative),
/// and some numbers of both from there.
fn difference(got: &[u64], expected: &[u64]) -> String {
    let at = got.iter().zip(expected).take_while(|(x, y)| x == y).count();
    let to = got.len().min(at + 2 * NUMBERS);
    let from = at as isize - GUARD as isize;
    format!("from number {from} on\n    library  {:?}\n    expected {:?}", &got[at..to], &expected[at..to])
}

/// The bursts that a row has at its front; a number too large for a burst becomes the largest.
fn read(row: &[u64], count: u64) -> Vec<Burst> {
    let number = |n: u64| u32::try_from(n).unwrap_or(u32::MAX);
    row.chunks_exact(NUMBERS).take(count as usize).map(|d| Burst {
        start: number(d[0]), len: number(d[1]), size: number(d[2]), kind: number(d[3]), bus: number(d[4]),
    }).collect()
}

/// One row, full of junk: the answer, and every number of the row and of the guards around it.
/// Answers what the library wrote, where it accepted.
fn cut_into(t: &mut Tally, r: &mut Random, b: Burst, plan: &Plan, room: usize) -> Option<Vec<Burst>> {
    let mut lent: Vec<u64> = (0..room + 2 * GUARD).map(|_| r.next()).collect();
    let mut modelled = lent.clone();
    let answer = library::cut(b, &mut lent[GUARD..GUARD + room]);
    let expected = model::write(plan, &mut modelled[GUARD..GUARD + room]);
    note(t, expected);
    t.same(answer, expected, || format!("cut {b:?}, row of {room}"));
    t.check(lent == modelled, || format!("cut {b:?}, row of {room}, {}", difference(&lent, &modelled)));
    if answer.refusal == 0 { Some(read(&lent[GUARD..GUARD + room], answer.count)) } else { None }
}

/// Long lists are shown by their beginning only.
fn show(list: &[Burst]) -> String { format!("{} bursts {:?}", list.len(), &list[..list.len().min(17)]) }

/// What the request says of the list's own numbers, and that the library accepts every burst in it.
fn list_is_right(t: &mut Tally, b: Burst, list: &[Burst]) {
    let says = |what: &str| format!("{what}: {b:?} cut into {}", show(list));
    let beats = b.len.saturating_add(1);
    let count = if b.kind == INCR { beats.div_ceil(MOST_BEATS) } else { 1 };
    t.same(list.len(), count as usize, || says("how many bursts"));
    if beats <= MOST_BEATS || b.kind != INCR { t.check(list == [b], || says("itself")); }
    let Some((last, others)) = list.split_last() else { return };
    t.check(others.iter().all(|p| p.len == MOST_BEATS - 1), || says("16 beats but the last"));
    t.check(last.len < MOST_BEATS, || says("the last has 1 to 16"));
    t.same(list[0].start, b.start, || says("the first at the old start"));
    t.check(list[1..].iter().all(|p| p.start % (1 << b.size) == 0), || says("the later ones aligned"));
    t.check(list.iter().all(|p| (p.size, p.kind, p.bus) == (b.size, b.kind, b.bus)), || says("size, kind and bus"));
    for p in list { t.same(library_burst::judge(*p).refusal, 0, || says("every burst accepted")); }
}

/// The library's beats of the list, one burst after another, are its beats of the old burst.
fn beats_are_the_old(t: &mut Tally, b: Burst, list: &[Burst]) {
    let beats: Vec<(Burst, u32)> = list.iter().flat_map(|p| (0..=p.len.min(MOST_INCR)).map(|k| (*p, k))).collect();
    t.same(beats.len(), b.len as usize + 1, || format!("how many beats: {b:?} cut into {}", show(list)));
    for (k, (p, of_p)) in (0..=b.len).zip(beats) {
        let (new, old) = (library_burst::beat(p, of_p), library_burst::beat(b, k));
        t.same(new, old, || format!("beat {k} of {b:?}, as beat {of_p} of {p:?}"));
    }
}

/// Rows: none, one description less, one number less, exact, up to four numbers more. Then one with a description
/// for each beat and more: whatever list the library makes fits in, and must be as the request says.
fn compare(t: &mut Tally, r: &mut Random, b: Burst) {
    let plan = model::cut_plan(b);
    let need = NUMBERS * plan.as_ref().map_or(1, Vec::len);
    let remainder = 1 + r.below(NUMBERS - 1);
    for room in [0, need - NUMBERS, need - 1, need, need + remainder] { cut_into(t, r, b, &plan, room); }
    let plenty = NUMBERS * (1 + b.len.min(MOST_INCR) as usize) + r.below(4 * NUMBERS);
    if let Some(list) = cut_into(t, r, b, &plan, plenty) {
        list_is_right(t, b, &list);
        beats_are_the_old(t, b, &list);
    }
}

/// As `compare`, with the library's refusal typed by the caller; 0 where it is accepted.
fn refusal_is(t: &mut Tally, r: &mut Random, b: Burst, refusal: u32) {
    let mut lent = [r.next(); LONGEST + 2 * GUARD];
    let answer = library::cut(b, &mut lent[GUARD..GUARD + LONGEST]);
    t.same(answer.refusal, refusal, || format!("cut {b:?}, row of {LONGEST}"));
    compare(t, r, b);
}

fn random_bus(r: &mut Random, size: u32) -> u32 { 1 << (size as usize + r.below(8 - size as usize)) }

/// An INCR with N often at a multiple of 16 or beside one. It fits into its block, but for one in eight that may not.
fn random_incr(r: &mut Random) -> Burst {
    let size = r.below(8) as u32;
    let bytes = 1usize << size;
    let any = 1 + r.below(MOST_INCR as usize) as u32;
    let beats = if r.one_in(2) { any } else { r.pick(&OFTEN) };
    let most = (BLOCK as u32) >> size;
    let beats = if r.one_in(8) { beats } else { beats.min(most) };
    let places = 1 + most.saturating_sub(beats) as usize; // of the aligned first beat
    let into = if r.one_in(2) { 0 } else { r.below(bytes) };
    let any = r.next() as u32 & 0xFFFF_F000;
    let block = r.pick(&[0, 0x1000, 0x7FFF_F000, 0x8000_0000, 0xFFFF_F000, any]);
    let start = block + (r.below(places) * bytes + into) as u32;
    Burst { start, len: beats - 1, size, kind: INCR, bus: random_bus(r, size) }
}

/// For a start, the most beats that still end below the boundary, and one beat less and more.
fn at_the_edge(t: &mut Tally, r: &mut Random) {
    let size = r.below(8) as u32;
    let boundary = r.pick(&[0x1000u64, 0x7FFF_F000, 0x8000_0000, 1 << 32]);
    let start = boundary - 1 - r.below(((MOST_INCR as usize) << size).min(BLOCK as usize)) as u64;
    let most = ((boundary - (start >> size << size)) >> size) as u32;
    for beats in most.saturating_sub(1).max(1)..=most + 1 {
        let b = Burst { start: start as u32, len: beats - 1, size, kind: INCR, bus: random_bus(r, size) };
        let refusal = if beats > MOST_INCR { 10 } else if beats > most { 12 } else { 0 };
        refusal_is(t, r, b, refusal);
    }
}

/// One N at one size and bus: the last start from which it ends in its block, that start's beat entered
/// at its last byte, and one beat later. Where N beats are more than a block, its first byte.
fn exact_bounds(t: &mut Tally, r: &mut Random, size: u32, bus: u32, beats: u32) {
    let (bytes, block) = (1u64 << size, if beats % 2 == 0 { 0x7000u64 } else { 0xFFFF_F000 });
    let of = |start: u64| Burst { start: start as u32, len: beats - 1, size, kind: INCR, bus };
    let total = bytes * u64::from(beats);
    if beats > MOST_INCR || total > BLOCK {
        let refusal = if beats > MOST_INCR { 10 } else { 12 };
        return refusal_is(t, r, of(block), refusal);
    }
    let last = block + BLOCK - total;
    refusal_is(t, r, of(last), 0);
    refusal_is(t, r, of(last + bytes - 1), 0);
    if beats > 1 { refusal_is(t, r, of(last + bytes), 12); }
}

/// Every row up to two descriptions and a remainder more than needed.
fn every_row(t: &mut Tally, r: &mut Random, b: Burst) {
    let plan = model::cut_plan(b);
    for room in 0..NUMBERS * (plan.as_ref().map_or(0, Vec::len) + 3) { cut_into(t, r, b, &plan, room); }
}

/// Each N, at a size at which it fits into a block; and every FIXED and WRAP length.
fn rows(t: &mut Tally, r: &mut Random) {
    for beats in 1..=MOST_INCR {
        let size = beats % 5;
        every_row(t, r, Burst { start: 0x5000 + beats % (1 << size), len: beats - 1, size, kind: INCR, bus: 1 << (size + beats % 3) });
    }
    for beats in 1..=MOST_BEATS {
        every_row(t, r, Burst { start: 0x5007, len: beats - 1, size: 2, kind: FIXED, bus: 8 });
        if [2, 4, 8, 16].contains(&beats) { every_row(t, r, Burst { start: 0x5008, len: beats - 1, size: 2, kind: WRAP, bus: 8 }); }
    }
}

/// Each of 7 to 12: alone, then with as many later ones as can be broken with it.
pub const REFUSED: [(u32, [u32; 5]); 18] = [
    (7, [0x1000, 16, 0, INCR, 3]), (7, [0x1000, 16, 0, INCR, 256]), (7, [0x1FFF, 256, 8, 3, 0]),
    (8, [0x1000, 16, 3, INCR, 4]), (8, [0x1000, 16, 8, INCR, 128]), (8, [0x1FFF, 256, 2, 3, 2]),
    (9, [0x1000, 16, 2, 3, 4]), (9, [0x1000, 16, 2, u32::MAX, 4]), (9, [0x1FFF, 256, 2, 3, 4]),
    (10, [0x1000, 256, 0, INCR, 4]), (10, [0x1000, 16, 2, FIXED, 4]), (10, [0x1000, 31, 2, WRAP, 4]), (10, [0x1FFF, 16, 2, WRAP, 4]),
    (10, [0x1FFF, u32::MAX, 2, INCR, 4]),
    (11, [0x1002, 15, 2, WRAP, 4]), (11, [0x1FFF, 15, 7, WRAP, 128]),
    (12, [0x1FC1, 16, 2, INCR, 4]), (12, [0xFFFF_FFFF, 255, 7, INCR, 128]),
];

/// 7 to 12 into every row up to 17 descriptions: also where ROOM would be given if they were not.
fn refusals_before_room(t: &mut Tally, r: &mut Random) {
    for (refusal, [start, len, size, kind, bus]) in REFUSED {
        let b = Burst { start, len, size, kind, bus };
        refusal_is(t, r, b, refusal);
        for room in 0..=17 * NUMBERS { cut_into(t, r, b, &Err(refusal), room); }
    }
}

/// Each place of the start in its beat, N as often asked, where that fits into a block.
fn unaligned_starts(t: &mut Tally, r: &mut Random) {
    for size in 0..8 {
        for (into, beats) in (0..1 << size).flat_map(|into| OFTEN.map(|beats| (into, beats))) {
            if beats << size > BLOCK as u32 { continue; }
            let bus = random_bus(r, size);
            refusal_is(t, r, Burst { start: 0x3000 + into, len: beats - 1, size, kind: INCR, bus }, 0);
        }
    }
}

/// From each start of the last block: as many beats as there are up to 2^32, and one more.
fn last_block(t: &mut Tally, r: &mut Random) {
    for start in 0xFFFF_F000u32..=0xFFFF_FFFF {
        let size = r.below(8) as u32;
        let most = ((((1u64 << 32) - u64::from(start)) + (1 << size) - 1) >> size).min(MOST_INCR.into()) as u32;
        let b = Burst { start, len: most - 1, size, kind: INCR, bus: random_bus(r, size) };
        refusal_is(t, r, b, 0);
        refusal_is(t, r, Burst { len: most, ..b }, if most == MOST_INCR { 10 } else { 12 });
    }
}

/// One round of the soak.
pub fn round(t: &mut Tally, r: &mut Random) {
    for _ in 0..3 { let b = random_incr(r); compare(t, r, b); }
    for kind in [FIXED, WRAP] { let b = random_of_kind(r, kind); compare(t, r, b); }
    for b in [damaged(r), damaged(r), wild(r)] { compare(t, r, b); }
    at_the_edge(t, r);
}

/// What the gate asks.
pub fn all(t: &mut Tally) {
    cases::cuts(t, library::cut);
    t.seeded_group("cut incr random", |t, r| for _ in 0..15_000 { let b = random_incr(r); compare(t, r, b) });
    for (name, kind) in [("cut fixed random", FIXED), ("cut wrap random", WRAP)] {
        t.seeded_group(name, |t, r| for _ in 0..4_000 { let b = random_of_kind(r, kind); compare(t, r, b) });
    }
    t.seeded_group("cut damaged", |t, r| for _ in 0..30_000 { let b = damaged(r); compare(t, r, b) });
    t.seeded_group("cut all arguments wild", |t, r| for _ in 0..10_000 { let b = wild(r); compare(t, r, b) });
    t.seeded_group("cut refusals before room", refusals_before_room);
    t.seeded_group("cut into every row", rows);
    t.seeded_group("cut exact bounds", |t, r| for size in 0..8 { for bus in (size..8).map(|n| 1 << n) {
        for beats in 1..=MOST_INCR + 1 { exact_bounds(t, r, size, bus, beats); }
    } });
    t.seeded_group("cut unaligned starts", unaligned_starts);
    t.seeded_group("cut 4KB edge", |t, r| for _ in 0..3_000 { at_the_edge(t, r) });
    t.seeded_group("cut every start of the last block", last_block);
}

/// What must have occurred by then.
pub const VERDICTS: [&str; 8] = [
    "cut accepted", "cut refusal 5", "cut refusal 7", "cut refusal 8", "cut refusal 9", "cut refusal 10", "cut refusal 11", "cut refusal 12",
];
