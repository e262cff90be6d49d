//! The self test: the model against the papers' own cases and formulas.
#![allow(dead_code)]
mod cases;
mod cases_archive;
mod cases_fewest;
mod cases_merge;
mod cases_user;
mod cases_writes;
mod least;
mod masks;
mod merge_lists;
mod model;
mod model_axi3;
mod model_fewest;
mod model_merge;
mod model_writes;
mod tally;
use model::{Beat, Burst, FIXED, INCR, WRAP};
use model_writes::WriteAnswer;
use tally::{Random, Tally};

const AXI3_BEATS: u32 = 16; // at most, as T-02 says

/// Paper 01's formulas for beat k, to set against A3.4.2's pseudo code.
fn formula(b: Burst, k: u64) -> (u64, u64, u64) {
    let (s, bytes, n, bus) = (u64::from(b.start), 1u64 << b.size, u64::from(b.len) + 1, u64::from(b.bus));
    let a = s - s % bytes;
    let lowest = s - s % (bytes * n);
    let address = match b.kind {
        FIXED => s,
        INCR if k == 0 => s,
        INCR => a + k * bytes,
        _ => lowest + (s - lowest + k * bytes) % (bytes * n),
    };
    (address, address % bus, (address - address % bytes + bytes - 1) % bus)
}

/// Beat k of an accepted burst as T-04's engineer has it, on a core of 32 bits that cannot divide: the low bits of the beat,
/// of the container and of the bus are masks. Only WRAP rounds to a container, and there N is a power of two.
fn masked(b: Burst, k: u32) -> (u32, u32, u32) {
    let (beat, container, bus) = ((1 << b.size) - 1, ((b.len + 1) << b.size) - 1, b.bus - 1);
    let on = k << b.size;
    let address = match b.kind {
        FIXED => b.start,
        INCR if k == 0 => b.start,
        INCR => (b.start & !beat) + on,
        _ => (b.start & !container) + (((b.start & container) + on) & container),
    };
    (address, address & bus, ((address & !beat) + beat) & bus)
}

/// Each beat by masks, against A3.4.2's pseudo code, which divides.
fn masks_agree(t: &mut Tally, b: Burst) {
    for (k, beat) in (0..).zip(model::judge_burst(b).beats) {
        let (address, lower, upper) = masked(b, k);
        let got = Beat { address: address.into(), lower: lower.into(), upper: upper.into() };
        t.same(got, beat, || format!("{b:?} beat {k}"));
    }
}

fn masks_of_bursts(t: &mut Tally, r: &mut Random) {
    t.group("masks agree with the pseudo code", |t| {
        for b in (0..32).flat_map(masks::at_bit).chain(masks::edges().flat_map(masks::at_edge)) { masks_agree(t, b); }
        for _ in 0..20_000 {
            let (size, kind) = (r.below(8) as u32, r.below(3) as u32);
            let any = r.next() as u32;
            let start = if kind == WRAP { any - any % (1 << size) } else { any };
            masks_agree(t, Burst { start, len: r.pick(&[0, 1, 3, 7, 15]), size, kind, bus: 128 >> r.below(8 - size as usize) });
        }
    });
}

/// T-02's words and closed formulas, to set against the model's cut of an INCR.
fn cut_is_right(t: &mut Tally, b: Burst, list: &[Burst]) {
    let joined: Vec<Beat> = list.iter().flat_map(|p| model::judge_burst(*p).beats).collect();
    t.same(joined, model::judge_burst(b).beats, || format!("beats of {b:?} cut into {list:?}"));
    let (beats, bytes) = (b.len + 1, 1 << b.size);
    let count = beats.div_ceil(AXI3_BEATS);
    t.same(list.len() as u32, count, || format!("{b:?} cut into {list:?}"));
    for (j, p) in (0..count).zip(list) {
        let start = if j == 0 { b.start } else { b.start - b.start % bytes + AXI3_BEATS * j * bytes };
        let expected = Burst { start, len: (beats - AXI3_BEATS * j).min(AXI3_BEATS) - 1, ..b };
        t.same((*p, model::judge_burst(*p).refusal), (expected, 0), || format!("burst {j} of {b:?}"));
    }
}

fn cut_bursts(t: &mut Tally, r: &mut Random) {
    t.group("cut bursts have the old beats", |t| for _ in 0..20_000 {
        let (size, block) = (r.below(8) as u32, r.next() as u32 & 0xFFFF_F000);
        let start = block + if r.one_in(2) { r.below(1 << size) } else { r.below(4096) } as u32;
        let b = Burst { start, len: r.below(256.min(4096 >> size)) as u32, size, kind: INCR, bus: 128 >> r.below(8 - size as usize) };
        if let Ok(list) = model_axi3::cut_plan(b) { cut_is_right(t, b, &list); }
    });
}

/// Paper 01's lanes of beat k as bits.
fn lane_bits(b: Burst, k: usize) -> u128 {
    let (_, lower, upper) = formula(b, k as u64);
    u128::MAX >> (127 - upper) & u128::MAX << lower
}

/// T-05 in other words, for WLAST and strobes that are not FIELD: of all findings of all beats the least, else the strobes.
fn least_finding(b: Burst, beats: &[(bool, u128)]) -> WriteAnswer {
    let n = b.len as usize + 1;
    let mut findings = vec![(n, 4); usize::from(beats.len() > n)];
    findings.extend(vec![(beats.len(), 5); usize::from(beats.len() < n)]);
    for (k, &(last, strobes)) in beats.iter().enumerate().take(n) {
        if strobes & !lane_bits(b, k) != 0 { findings.push((k, 1)); }
        if last != (k == n - 1) { findings.push((k, if last { 2 } else { 3 })); }
    }
    match findings.iter().min() {
        Some(&(k, rule)) => WriteAnswer { rule, place: k as u64, ..Default::default() },
        None => WriteAnswer { strobes: beats.iter().map(|(_, strobes)| u64::from(strobes.count_ones())).sum(), ..Default::default() },
    }
}

/// Beats of an accepted burst, up to two too few or too many, now and then with a wrong WLAST or a stray strobe.
fn some_beats(r: &mut Random, b: Burst) -> Vec<(bool, u128)> {
    let (n, often) = (b.len as usize + 1, 1 + r.below(40));
    let given = if r.one_in(2) { n } else { (n + r.below(5)).saturating_sub(2) };
    (0..given).map(|k| {
        let any = (u128::from(r.next()) << 64 | u128::from(r.next())) & u128::MAX >> (128 - b.bus);
        let strobes = if r.one_in(often) { any } else { any & lane_bits(b, k.min(n - 1)) };
        (r.one_in(often) != (k == n - 1), strobes)
    }).collect()
}

fn write_beats(t: &mut Tally, r: &mut Random) {
    t.group("T-05 by its least finding", |t| for _ in 0..20_000 {
        let (size, kind) = (r.below(8) as u32, r.below(3) as u32);
        let b = Burst { start: r.next() as u32, len: r.pick(&[0, 1, 2, 3, 7, 15, 16, 99]), size, kind, bus: 128 >> r.below(8 - size as usize) };
        if model::judge_burst(b).refusal != 0 { continue; }
        let beats = some_beats(r, b);
        let octets = b.bus.div_ceil(8) as usize;
        let take: Vec<u8> = beats.iter().flat_map(|&(last, strobes)| [&[u8::from(last)], &strobes.to_le_bytes()[..octets]].concat()).collect();
        t.same(model_writes::judge(b, &take), least_finding(b, &beats), || format!("writes of {b:?}, {take:02x?}"));
    });
}

/// A stream of records with these user bits to a byte, packed, packed again, and sliced.
fn packing_twice(t: &mut Tally, r: &mut Random, m: usize) {
    let (w, v, u) = (1 + r.below(16), 1 + r.below(16), 1 + r.below(16));
    let mut stream = Vec::new();
    for _ in 0..r.below(9) {
        let keep = (r.next() & r.next()) as u16 & ((1u32 << w) - 1) as u16;
        let strb = keep & r.next() as u16;
        stream.extend([r.below(2) as u8, r.below(2) as u8, 0]);
        stream.extend(keep.to_le_bytes().into_iter().chain(strb.to_le_bytes()));
        stream.extend((0..w).map(|_| r.next() as u8));
        if m > 0 { stream.extend(&(r.next() & u64::MAX >> (64 - w * m)).to_le_bytes()[..(w * m).div_ceil(8)]); }
    }
    let list = model::items(w, m, &stream);
    let once = model::packed(v, m, &list);
    t.same(model::items(v, m, &once), list.clone(), || format!("items after packing, user bits {m}, {stream:02x?}"));
    t.same(model::packed(u, m, &model::items(v, m, &once)), model::packed(u, m, &list), || format!("{w} {v} {u}, user bits {m}, {stream:02x?}"));
    if let Ok(sliced) = model::downsize_plan(w, m, v, &stream) {
        t.same(model::items(v, m, &sliced), list, || format!("items after downsizing {w} to {v}, user bits {m}, {stream:02x?}"));
    }
}

fn main() {
    let mut t = Tally::default();
    t.least = least::SELF_TEST;
    let mut r = Random(tally::SEED);
    println!("self test of the model, seed {:#x}", tally::SEED);
    cases::bursts(&mut t, &cases::BurstCalls {
        judge: |b| model::burst_answer(&model::judge_burst(b)),
        beat: |b, k| model::beat(&model::judge_burst(b), k),
        step: |b, k| model::step(&model::judge_burst(b), k),
    });
    cases::cuts(&mut t, model_axi3::cut);
    cases_writes::writes(&mut t, |b, take| model_writes::judge(b, take));
    let calls = cases::StreamCalls {
        judge: model::judge,
        harvest: model::harvest,
        fill_in: |w, m, take, level| model::fill_in(w, m, take, level != 0),
        data_octets: model::data_octets,
        repack: model::repack,
        downsize: model::downsize,
    };
    cases::streams(&mut t, &calls);
    cases_user::users(&mut t, &calls);
    cases_archive::definition(&mut t, model::slices);
    cases_archive::files(&mut t, calls.repack);
    cases_fewest::all(&mut t, calls.repack);
    cases_merge::merges_of(&mut t, |w, m, [first, second], out| model_merge::merge(w, m, [first, second], out));
    t.group("pseudo code and formulas agree", |t| for _ in 0..20_000 {
        let b = Burst { start: r.next() as u32, len: r.below(256) as u32, size: r.below(8) as u32, kind: r.below(3) as u32, bus: 1 << r.below(8) };
        let judged = model::judge_burst(b);
        t.check(judged.refusal != model::FENCE || b.kind == INCR, || format!("{b:?}: only INCR can cross"));
        for (k, beat) in judged.beats.iter().enumerate() {
            t.same((beat.address, beat.lower, beat.upper), formula(b, k as u64), || format!("{b:?} beat {k}"));
            let step = model::step(&judged, k as u32).step;
            t.check((-1920..=128).contains(&step) && (step >= 0 || b.kind == WRAP), || format!("{b:?} step {step}"));
        }
    });
    t.group("packing twice, and downsizing first, change nothing", |t| for _ in 0..2_000 { packing_twice(t, &mut r, 0) });
    t.seeded_group("T-06 packing twice, and downsizing first, change nothing", |t, r| for round in 0..4_000 { packing_twice(t, r, 1 + round % 4) });
    cut_bursts(&mut t, &mut r);
    masks_of_bursts(&mut t, &mut r);
    write_beats(&mut t, &mut r);
    t.every_group_ran();
    t.finish()
}
