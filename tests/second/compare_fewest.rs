//! T-07, "no shorter stream": what the library's repacking answers, and a report shows, against the least number that is found by
//! dynamic programming over the items, and against other streams with the same items.
use crate::compare_report::{WORDS, ask, sheet};
use crate::compare_streams::{REPACK, cycles, damage, show, some_user, transfers, write_into};
use crate::tally::{Random, Tally};
use crate::{cases_fewest, library_stream, model, model_fewest};

/// The library's records are as many as the least number says, and fit into no less room. Another stream of that width with the
/// same items, a shortest one or any, has no fewer, and is repacked to the same octets where it is no longer than a take. The input
/// itself is such a stream where it has that width.
fn compare(t: &mut Tally, r: &mut Random, w: usize, m: usize, v: usize, input: &[u8]) {
    let list = model::items(w, m, input);
    let size = model::record_octets(v, m);
    let room = model_fewest::fewest(v, &list) * size;
    let packed = write_into(t, &REPACK, w, m, v, input, room);
    t.same(packed.as_ref().map(Vec::len), Some(room), || format!("octets of the shortest stream, {w} to {v}, user bits {m}, {}", show(input)));
    if w == v { t.check(room <= input.len(), || format!("records of the input, width {v}, user bits {m}, {}", show(input))); }
    if room > 0 { write_into(t, &REPACK, w, m, v, input, room - 1); }
    for shortest in [true, false] {
        let other = model_fewest::stream(r, v, m, &list, shortest);
        let says = || format!("another stream of width {v}, user bits {m}, {} for {} of width {w}", show(&other), show(input));
        t.check(model::items(v, m, &other) == list, says);
        t.check(if shortest { other.len() == room } else { other.len() >= room }, says);
        if other.len() > model::MOST_OCTETS { continue; }
        let again = write_into(t, &REPACK, v, m, v, &other, room);
        t.check(again == packed, says);
    }
}

/// Accepted or refused, as the model says.
fn compare_any(t: &mut Tally, r: &mut Random, w: usize, m: usize, v: usize, input: &[u8]) {
    match model::repack_plan(w, m, v, input) {
        Ok(_) => compare(t, r, w, m, v, input),
        Err(_) => { write_into(t, &REPACK, w, m, v, input, 70); }
    }
}

fn random(t: &mut Tally, r: &mut Random, n: usize) {
    let (w, m, v) = (1 + r.below(16), some_user(r), 1 + r.below(16));
    let mut input = transfers(r, w, m, n);
    if r.one_in(3) { damage(r, w, m, &mut input); }
    compare_any(t, r, w, m, v, &input);
}

/// Stretches of just so many bytes that the last record is full, or nearly so, with an end and without.
fn at_the_bound(t: &mut Tally, r: &mut Random, v: usize, m: usize) {
    for (bytes, last) in (0..=2 * v + 1).flat_map(|bytes| [0, 1].map(|last| (bytes, last))) {
        let mut input: Vec<u8> = (0..bytes).flat_map(|_| [vec![0, 1, 2, 1, 0, 1, 0, 5], vec![1; m.min(1)]].concat()).collect();
        input.extend([vec![last, 1, 2, 0, 0, 0, 0, 0], vec![1; m.min(1)]].concat());
        input.extend(transfers(r, 1, m, 2));
        compare(t, r, 1, m, v, &input);
    }
}

/// `records` of a clean report: with `mode=pack` the least number for the transfers as TLAST was filled in; with `mode=lanes` no fewer.
fn report(t: &mut Tally, r: &mut Random, n: usize) {
    let (w, m) = (1 + r.below(16), some_user(r));
    let take = cycles(r, w, m, n);
    let most = r.pick(&[w, 16]);
    let v = 1 + r.below(most);
    for (mode, word) in ["pack", "lanes"].into_iter().flat_map(|mode| WORDS.map(|word| (mode, word))) {
        let (answer, _, _) = ask((&sheet(w, v, mode, word, m), 1), (&take, 1));
        if answer.verdict != 0 { continue; }
        let mut filled = take.clone();
        if word != "wired" { model::fill_in(w, m, &mut filled, word == "none"); }
        let list = model::items(w, m, &model::harvest_plan(w, m, &filled).expect("a clean take"));
        let least = model_fewest::fewest(v, &list) as u64;
        let good = if mode == "pack" { answer.records == least } else { answer.records >= least };
        t.check(good, || format!("report {w} to {v}, {mode}, {word}, user bits {m}: {} records, at least {least}, {}", answer.records, show(&take)));
    }
}

/// One round of the soak.
pub fn round(t: &mut Tally, r: &mut Random) {
    let (a, b) = (r.below(20), r.below(20));
    random(t, r, a);
    report(t, r, b);
}

/// What the gate asks.
pub fn all(t: &mut Tally) {
    cases_fewest::all(t, library_stream::repack);
    t.seeded_group("T-07 every width to every width", |t, r| for (w, v) in (1..=16).flat_map(|w| (1..=16).map(move |v| (w, v))) {
        for (m, n) in (0..=4).flat_map(|m| [1, 3, 9, 40].map(|n| (m, n))) { let input = transfers(r, w, m, n); compare(t, r, w, m, v, &input); }
    });
    t.seeded_group("T-07 full records and an end", |t, r| for (v, m) in (1..=16).flat_map(|v| (0..=4).map(move |m| (v, m))) { at_the_bound(t, r, v, m) });
    t.seeded_group("T-07 random transfers", |t, r| for _ in 0..12_000 { let n = r.below(14); random(t, r, n) });
    t.seeded_group("T-07 longest takes", |t, r| for (w, v) in (1..=16).flat_map(|w| (1..=16).map(move |v| (w, v))) {
        let m = (w + v) % 5;
        let input = transfers(r, w, m, model::MOST_OCTETS / model::record_octets(w, m));
        compare(t, r, w, m, v, &input);
    });
    t.seeded_group("T-07 reports", |t, r| for _ in 0..4_000 { let n = r.below(14); report(t, r, n) });
}
