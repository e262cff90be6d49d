//! The library's burst calls against the model, on many bursts.
use crate::model::{self, Burst, FIXED, INCR, WRAP};
use crate::tally::{Random, Tally};
use crate::{cases, library_burst as library, masks};

/// Judging, then each beat and step up to the last, and indexes beyond.
fn compare(t: &mut Tally, b: Burst) {
    let judged = model::judge_burst(b);
    t.same(library::judge(b), model::burst_answer(&judged), || format!("judge {b:?}"));
    t.verdict(match judged.refusal { 0 => "burst accepted".to_string(), n => format!("burst refusal {n}") });
    let n = judged.beats.len() as u32; // 0 where refused
    for k in (0..n).chain([n, n + 1, u32::MAX]) {
        let (beat, step) = (model::beat(&judged, k), model::step(&judged, k));
        t.same(library::beat(b, k), beat, || format!("beat {k} of {b:?}"));
        t.same(library::step(b, k), step, || format!("step {k} of {b:?}"));
        if beat.refusal == model::INDEX { t.verdict("burst refusal 13".to_string()); }
    }
}

/// Any start, but often close to a 4KB boundary, in the lowest or the last block.
fn random_start(r: &mut Random) -> u32 {
    let near = (r.below(601) as u32).wrapping_sub(300);
    match r.below(5) {
        0 => r.next() as u32,
        1 => near.wrapping_add((r.next() as u32) & 0xFFFF_F000),
        2 => 0xFFFF_F000 | r.next() as u32,
        3 => (r.next() as u32) & 0xFFF,
        _ => (r.next() as u32) & 0xFFFF_FF80,
    }
}

pub fn random_of_kind(r: &mut Random, kind: u32) -> Burst {
    let size = r.below(8) as u32;
    let bus = 1 << (size as usize + r.below(8 - size as usize));
    let len = match kind {
        FIXED => r.below(16) as u32,
        INCR if r.one_in(4) => r.below(256) as u32,
        INCR => r.below(20) as u32,
        _ => r.pick(&[1, 3, 7, 15]),
    };
    let aligned = if kind == WRAP { !((1 << size) - 1) } else { u32::MAX };
    Burst { start: random_start(r) & aligned, len, size, kind, bus }
}

/// One argument of a good burst replaced, or several.
pub fn damaged(r: &mut Random) -> Burst {
    let kind = r.below(3) as u32;
    let mut b = random_of_kind(r, kind);
    for _ in 0..1 + r.below(3) {
        match r.below(5) {
            0 => b.start = b.start.wrapping_add(r.below(129) as u32),
            1 => b.len = r.pick(&[0, 1, 2, 3, 4, 14, 15, 16, 17, 254, 255, 256, 257, 511, 0x1_0001, 0xFFFF_FFFE, u32::MAX]),
            2 => b.size = r.pick(&[0, 1, 2, 3, 4, 5, 6, 7, 8, 9, 31, 32, 33, 64, 0x8000_0000, u32::MAX]),
            3 => b.kind = r.pick(&[0, 1, 2, 3, 4, 5, 256, 257, 258, u32::MAX]),
            _ => b.bus = r.pick(&[0, 1, 2, 3, 4, 5, 8, 12, 16, 24, 32, 48, 64, 96, 127, 128, 129, 255, 256, 512, 0x8000_0000, u32::MAX]),
        }
    }
    b
}

pub fn wild(r: &mut Random) -> Burst {
    let mut number = || { let n = r.next() as u32; n >> r.below(32) };
    Burst { len: number(), size: number(), kind: number(), bus: number(), start: r.next() as u32 }
}

/// For a start, the most beats that still end below the boundary, and one
/// beat less and more: the answer is typed here too, not only the model's.
fn at_the_edge(t: &mut Tally, r: &mut Random) {
    let size = r.below(8) as u32;
    let boundary = r.pick(&[0x1000u64, 0x7FFF_F000, 0x8000_0000, 1 << 32]);
    let start = boundary - 1 - r.below(4096) as u64;
    let most = ((boundary - (start >> size << size)) >> size) as u32;
    for beats in most.saturating_sub(1).max(1)..=most + 1 {
        let b = Burst { start: start as u32, len: beats - 1, size, kind: INCR, bus: 1 << (size as usize + r.below(8 - size as usize)) };
        let expected = if beats > 256 { 10 } else if beats > most { 12 } else { 0 };
        t.same(library::judge(b).refusal, expected, || format!("judge {b:?}"));
        compare(t, b);
    }
}

/// Each size from each offset in a block, the upper bits random: every value of the bits that a mask takes away or keeps.
fn every_offset(t: &mut Tally, r: &mut Random) {
    for (offset, size) in (0..4096).flat_map(|offset| (0..8).map(move |size| (offset, size))) {
        let start = (r.next() as u32 & 0xFFFF_F000) + offset;
        let bus = 1 << (size as usize + r.below(8 - size as usize));
        for (kind, lengths) in [(FIXED, &[1][..]), (INCR, &[0, 1, 4]), (WRAP, &[1, 3, 7, 15])] {
            for &len in lengths { compare(t, Burst { start, len, size, kind, bus }); }
        }
    }
}

/// One round of the soak.
pub fn round(t: &mut Tally, r: &mut Random) {
    for kind in [FIXED, INCR, WRAP] { let b = random_of_kind(r, kind); compare(t, b); }
    for _ in 0..4 { let b = damaged(r); compare(t, b); }
    let b = wild(r);
    compare(t, b);
    at_the_edge(t, r);
    let edge = (r.next() as u32) << r.below(32); // the gate has those with a single bit
    compare(t, r.pick(&masks::at_edge(edge)));
}

/// What the gate asks.
pub fn all(t: &mut Tally) {
    cases::bursts(t, &cases::BurstCalls { judge: library::judge, beat: library::beat, step: library::step });
    for (name, kind) in [("fixed random", FIXED), ("incr random", INCR), ("wrap random", WRAP)] {
        t.seeded_group(name, |t, r| for _ in 0..15_000 { compare(t, random_of_kind(r, kind)) });
    }
    t.seeded_group("damaged", |t, r| for _ in 0..60_000 { compare(t, damaged(r)) });
    t.seeded_group("all arguments wild", |t, r| for _ in 0..20_000 { compare(t, wild(r)) });
    t.group("exact bounds", |t| for kind in 0..=3 { for size in 0..=8 { for bus in [0, 1, 2, 3, 4, 8, 16, 32, 64, 127, 128, 129, 256] {
        for len in [0, 1, 2, 3, 4, 5, 6, 7, 8, 9, 10, 11, 12, 13, 14, 15, 16, 31, 254, 255, 256] {
            for start in [0, 1, 0x1000, 0xFF8, 0xFFFF_F000, 0xFFFF_FFF8, 0xFFFF_FFFF] {
                compare(t, Burst { start, len, size, kind, bus });
            }
        }
    } } });
    t.seeded_group("4KB edge", |t, r| for _ in 0..3_000 { at_the_edge(t, r) });
    t.seeded_group("every start of the last block", |t, r| for start in 0xFFFF_F000..=0xFFFF_FFFF {
        let (size, len) = (r.below(8) as u32, r.pick(&[0, 1, 3, 7, 15]));
        for kind in 0..3 { compare(t, Burst { start, len, size, kind, bus: 128 }); }
    });
    t.group("each bit of a start", |t| for b in (0..32).flat_map(masks::at_bit) { compare(t, b) });
    t.group("each edge of a mask", |t| for b in masks::edges().flat_map(masks::at_edge) { compare(t, b) });
    t.seeded_group("every offset in a block", every_offset);
}

/// What must have occurred by then.
pub const VERDICTS: [&str; 8] = [
    "burst accepted", "burst refusal 7", "burst refusal 8", "burst refusal 9", "burst refusal 10", "burst refusal 11", "burst refusal 12", "burst refusal 13",
];
