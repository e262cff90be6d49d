//! The library's judging of write beats (T-05) against the model, on many takes; and what the request says of them,
//! asked of the library's own lanes.
use crate::compare_axi3::REFUSED;
use crate::compare_bursts::{damaged, random_of_kind, wild};
use crate::compare_streams::show;
use crate::masks::sizes_and_buses;
use crate::model::{Burst, FIXED, INCR, MOST_OCTETS, WRAP};
use crate::model_writes::{self as model, W1, W2, W3, W4, W5, WriteAnswer, broken, clean, refused};
use crate::tally::{Random, Tally};
use crate::write_takes::{Asked, WLAST, any_record, any_records, counts, fitting, flip, flipped, random_burst, random_take};
use crate::write_takes::{right, right_take, some_beats, stray_lane, zero_bits};
use crate::{cases_writes, library_burst, library_writes as library};

const GUARD: usize = 24; // octets before and after each lent take
const OUTSIDE: u8 = 0x5A; // each of them: FIELD, if it were read as a record's first octet

fn note(t: &mut Tally, a: WriteAnswer) {
    t.verdict(match (a.refusal, a.rule) {
        (0, 0) => "writes clean".to_string(),
        (0, rule) => format!("writes broken rule {rule}"),
        (n, _) => format!("writes refusal {n}"),
    });
}

/// One take: the answer, and every octet of the take and of the guards afterwards. Answers what the library said.
fn compare(t: &mut Tally, a: &Asked, take: &[u8]) -> WriteAnswer {
    let mut lent = [&[OUTSIDE; GUARD], take, &[OUTSIDE; GUARD]].concat();
    let kept = lent.clone();
    let answer = library::judge(a.b, &mut lent[GUARD..GUARD + take.len()]);
    let expected = model::judge_take(&a.judged, a.b.bus, take);
    note(t, expected);
    let inputs = || format!("writes of {:?}, {}", a.b, show(take));
    t.same(answer, expected, inputs);
    t.check(lent == kept, || format!("{}: take or guard changed", inputs()));
    answer
}

/// As `compare`, with the answer said by the caller.
fn answer_is(t: &mut Tally, a: &Asked, take: &[u8], expected: WriteAnswer) {
    let answer = compare(t, a, take);
    t.same(answer, expected, || format!("said of the writes of {:?}, {}", a.b, show(take)));
}

/// What is asked with an accepted burst.
type Ask = fn(&mut Tally, &mut Random, &Asked);

/// Every kind, size and bus with every N.
fn every_burst(t: &mut Tally, r: &mut Random, ask: Ask) { bursts_of(t, r, |_| true, ask); }

/// Every kind, size and bus with some N of each.
fn many_bursts(t: &mut Tally, r: &mut Random, ask: Ask) {
    bursts_of(t, r, |beats| [1, 2, 3, 4, 5, 8, 15, 16, 17, 32, 64, 128, 255, 256].contains(&beats), ask);
}

fn bursts_of(t: &mut Tally, r: &mut Random, wanted: fn(u32) -> bool, ask: Ask) {
    for ((size, bus), kind) in sizes_and_buses().flat_map(|pair| [FIXED, INCR, WRAP].map(|kind| (pair, kind))) {
        for beats in counts(kind, size).into_iter().filter(|beats| wanted(*beats)) {
            let a = Asked::of(fitting(r, kind, size, bus, beats));
            ask(t, r, &a);
        }
    }
}

/// A right take, made of the library's own lanes: clean, with the strobes that were set.
fn right_is_clean(t: &mut Tally, r: &mut Random, a: &Asked) {
    let lanes = |k| { let beat = library_burst::beat(a.b, k as u32); (beat.lower as usize, (beat.upper.min(a.b.bus - 1) + 1) as usize) };
    let take = right_take(r, a, lanes);
    let ones: u32 = take.iter().map(|octet| octet.count_ones()).sum();
    answer_is(t, a, &take, clean(ones as usize - 1)); // WLAST is no strobe
}

/// One beat less and one more; WLAST missing, one beat late, one early; and a stray strobe in some beat.
fn count_is_exact(t: &mut Tally, r: &mut Random, a: &Asked) {
    let (take, n) = (right(r, a), a.beats());
    answer_is(t, a, &take[..(n - 1) * a.record()], broken(W5, n - 1));
    let mut more = [take.clone(), any_record(r, a)].concat();
    answer_is(t, a, &more, broken(W4, n));
    flip(a, &mut more, n - 1, WLAST);
    answer_is(t, a, &more[..n * a.record()], broken(W3, n - 1));
    more[n * a.record()] = 1;
    answer_is(t, a, &more, broken(W3, n - 1));
    if n > 1 { answer_is(t, a, &flipped(a, &take, &[(n - 2, WLAST)]), broken(W2, n - 2)); }
    let k = r.below(n);
    if let Some(lane) = stray_lane(r, a, k) { answer_is(t, a, &flipped(a, &take, &[(k, 8 + lane)]), broken(W1, k)); }
}

/// No strobe at all, and every strobe that may be high.
fn none_and_all(t: &mut Tally, a: &Asked) {
    let mut take = vec![0; a.beats() * a.record()];
    flip(a, &mut take, a.beats() - 1, WLAST);
    answer_is(t, a, &take, clean(0));
    let mut strobes = 0;
    for k in 0..a.beats() {
        let (from, to, _) = a.lanes(k);
        for lane in from..to { flip(a, &mut take, k, 8 + lane); }
        strobes += to - from;
    }
    answer_is(t, a, &take, clean(strobes));
}

/// Some beats of a right take, each lane that is the first or the last in the beat, in the bus, or next to those, flipped alone.
fn strobes_at_bounds(t: &mut Tally, r: &mut Random, a: &Asked) {
    let take = right(r, a);
    for k in some_beats(r, a.beats()) {
        let (from, to, bus) = a.lanes(k);
        let mut lanes: Vec<usize> = [Some(0), from.checked_sub(1), Some(from), Some(to - 1), Some(to), Some(bus - 1)].into_iter().flatten().collect();
        lanes.retain(|lane| *lane < bus);
        lanes.dedup();
        for lane in lanes { one_strobe(t, a, &take, k, lane); }
    }
}

/// One strobe of a right take flipped: W1 outside the library's own lanes, else clean.
fn one_strobe(t: &mut Tally, a: &Asked, take: &[u8], k: usize, lane: usize) {
    let beat = library_burst::beat(a.b, k as u32);
    let answer = compare(t, a, &flipped(a, take, &[(k, 8 + lane)]));
    let inside = (beat.lower..=beat.upper).contains(&(lane as u32));
    let (rule, place) = if inside { (0, 0) } else { (W1, k as u64) };
    let inputs = || format!("lane {lane} of beat {k} flipped, writes of {:?}, {}", a.b, show(take));
    t.same((answer.refusal, answer.rule, answer.place), (0, rule, place), inputs);
}

/// Each lane of the bus in each beat of short bursts.
fn each_strobe(t: &mut Tally, r: &mut Random) {
    for (size, bus) in sizes_and_buses() {
        for (kind, beats) in [(FIXED, 1), (FIXED, 3), (INCR, 1), (INCR, 2), (INCR, 4), (WRAP, 2), (WRAP, 4)] {
            let a = Asked::of(fitting(r, kind, size, bus, beats));
            let take = right(r, &a);
            for k in 0..a.beats() { for lane in 0..bus as usize { one_strobe(t, &a, &take, k, lane); } }
        }
    }
}

/// Each start of two bus widths, at each size and bus: the beats as they are, then a stray strobe next to the lanes of each.
fn every_start(t: &mut Tally, r: &mut Random) {
    for ((size, bus), start) in sizes_and_buses().flat_map(|pair| (0..2 * pair.1).map(move |start| (pair, start))) {
        let block = r.next() as u32 & 0xFFFF_F000;
        for (kind, len) in [(FIXED, 1), (INCR, 2), (WRAP, r.pick(&[1, 3, 7, 15]))] {
            let a = Asked::of(Burst { start: block + start, len, size, kind, bus });
            if a.beats() == 0 { continue; } // an unaligned WRAP
            none_and_all(t, &a);
            let take = right(r, &a);
            for k in 0..a.beats() {
                let (from, to, bus) = a.lanes(k);
                if from > 0 { answer_is(t, &a, &flipped(&a, &take, &[(k, 8 + from - 1)]), broken(W1, k)); }
                if to < bus { answer_is(t, &a, &flipped(&a, &take, &[(k, 8 + to)]), broken(W1, k)); }
            }
        }
    }
}

/// WLAST missing, early, early and at the last, on a beat past the last; twice early.
fn wlasts(t: &mut Tally, r: &mut Random, a: &Asked) {
    let (take, n) = (right(r, a), a.beats());
    let missing = flipped(a, &take, &[(n - 1, WLAST)]);
    answer_is(t, a, &missing, broken(W3, n - 1));
    let more = [missing, any_record(r, a)].concat();
    answer_is(t, a, &more, broken(W3, n - 1));
    answer_is(t, a, &flipped(a, &more, &[(n, WLAST)]), broken(W3, n - 1));
    for k in some_beats(r, n) {
        if k + 1 == n { continue; }
        answer_is(t, a, &flipped(a, &take, &[(k, WLAST)]), broken(W2, k));
        answer_is(t, a, &flipped(a, &take, &[(k, WLAST), (n - 1, WLAST)]), broken(W2, k));
        answer_is(t, a, &flipped(a, &more, &[(k, WLAST), (n, WLAST)]), broken(W2, k));
        answer_is(t, a, &flipped(a, &take, &[(k, WLAST)])[..(k + 1) * a.record()], broken(W2, k));
        let other = r.below(n - 1);
        if other != k { answer_is(t, a, &flipped(a, &take, &[(k, WLAST), (other, WLAST)]), broken(W2, k.min(other))); }
    }
}

/// Too few beats, and too many: the ones past the last have any strobes and WLAST.
fn too_few_and_too_many(t: &mut Tally, r: &mut Random, a: &Asked) {
    let (take, n) = (right(r, a), a.beats());
    for given in some_beats(r, n) { answer_is(t, a, &take[..given * a.record()], broken(W5, given)); }
    let more = 2 + r.below(6);
    for more in [1, 1, more, n.min(40)] {
        let long = [take.clone(), any_records(r, a, more)].concat();
        answer_is(t, a, &long, broken(W4, n));
    }
    let strays = [[1].as_slice(), &u128::MAX.to_le_bytes()[..a.record() - 1]].concat(); // on a narrow bus that is FIELD
    let said = if a.b.bus < 8 { refused(3, n) } else { broken(W4, n) };
    answer_is(t, a, &[take, strays].concat(), said);
}

/// Two beats broken: the earlier one is named. W1 and a rule of WLAST in one beat: W1 is.
fn two_faults(t: &mut Tally, r: &mut Random, a: &Asked) {
    let (take, n) = (right(r, a), a.beats());
    let rule = |k: usize| if k + 1 == n { W3 } else { W2 };
    for _ in 0..8 {
        let (i, j) = (r.below(n), r.below(n));
        let first = i.min(j);
        if i != j { answer_is(t, a, &flipped(a, &take, &[(i, WLAST), (j, WLAST)]), broken(rule(first), first)); }
        let Some(lane) = stray_lane(r, a, i) else { continue };
        let both = flipped(a, &take, &[(i, 8 + lane), (j, WLAST)]);
        let said = if j < i { broken(rule(j), j) } else { broken(W1, i) };
        answer_is(t, a, &both, said);
        answer_is(t, a, &[both, any_record(r, a)].concat(), said);
        let one_beat = flipped(a, &take, &[(i, 8 + lane), (i, WLAST)]);
        answer_is(t, a, &one_beat, broken(W1, i));
        answer_is(t, a, &one_beat[..(i + 1) * a.record()], broken(W1, i));
        let Some(other) = stray_lane(r, a, j) else { continue };
        if i != j { answer_is(t, a, &flipped(a, &take, &[(i, 8 + lane), (j, 8 + other)]), broken(W1, first)); }
    }
}

/// Each bit that must be zero, in the first, a middle, the last record and in one past it; then also with a broken rule
/// before it or in it, and with another such bit after it.
fn field_bits(t: &mut Tally, r: &mut Random, a: &Asked) {
    let (n, more) = (a.beats(), 1 + r.below(3));
    let take = [right(r, a), any_records(r, a, more)].concat();
    for k in some_beats(r, n).into_iter().chain([n, n + more - 1]) {
        for bit in zero_bits(a.b.bus) {
            let given = (k + 1).max(if r.one_in(2) { n } else { n + more });
            let mut wrong = flipped(a, &take[..given * a.record()], &[(k, bit)]);
            answer_is(t, a, &wrong, refused(3, k));
            flip(a, &mut wrong, r.below(k + 1).min(n - 1), WLAST);
            answer_is(t, a, &wrong, refused(3, k));
            if let Some(lane) = stray_lane(r, a, 0) { flip(a, &mut wrong, 0, 8 + lane); }
            answer_is(t, a, &wrong, refused(3, k));
            let later = k + r.below(given - k);
            if later > k { flip(a, &mut wrong, later, r.pick(&zero_bits(a.b.bus))); }
            answer_is(t, a, &wrong, refused(3, k));
            answer_is(t, a, &wrong[..(k + 1) * a.record()], refused(3, k));
            answer_is(t, a, &wrong[..(k + 1) * a.record() - 1], refused(2, 0));
        }
    }
}

/// Every record of a short take of five sorts: right or with a stray strobe, each with and without WLAST; and FIELD.
fn every_short_take(t: &mut Tally, r: &mut Random, b: Burst, more: usize) {
    let a = Asked::of(b);
    let sorts: Vec<Vec<Vec<u8>>> = (0..a.beats() + more).map(|k| sorts_of(r, &a, k)).collect();
    for given in 0..=sorts.len() {
        for number in 0..5usize.pow(given as u32) {
            let take: Vec<u8> = (0..given).flat_map(|k| &sorts[k][number / 5usize.pow(k as u32) % 5]).copied().collect();
            compare(t, &a, &take);
        }
    }
}

/// A record of each of these sorts for beat k; past the last beat, as for that one.
fn sorts_of(r: &mut Random, a: &Asked, k: usize) -> Vec<Vec<u8>> {
    let (from, to, _) = a.lanes(k.min(a.beats() - 1));
    let inside = 8 + from + r.below(to - from);
    let stray = stray_lane(r, a, k.min(a.beats() - 1)).map_or(inside, |lane| 8 + lane);
    let field = r.pick(&zero_bits(a.b.bus));
    let sorts: [&[usize]; 5] = [&[inside], &[inside, WLAST], &[stray], &[stray, WLAST], &[stray, field]];
    sorts.map(|bits| bits.iter().fold(vec![0; a.record()], |o, bit| flipped(a, &o, &[(0, *bit)]))).to_vec()
}

fn short_takes(t: &mut Tally, r: &mut Random) {
    for (size, bus) in [(0, 1), (0, 2), (1, 2), (1, 4), (2, 4), (2, 8), (3, 16), (2, 32), (5, 64), (3, 128)] {
        for beats in [1, 2, 3] {
            for kind in [FIXED, INCR] { let b = fitting(r, kind, size, bus, beats); every_short_take(t, r, b, 2); }
        }
        let b = fitting(r, WRAP, size, bus, 2);
        every_short_take(t, r, b, 2);
    }
    for kind in [INCR, WRAP] { let b = fitting(r, kind, 1, 8, 4); every_short_take(t, r, b, 2); }
}

/// Every length up to some records more than a right take: only whole numbers of records are not LENGTH.
fn lengths(t: &mut Tally, r: &mut Random) {
    for (size, bus) in sizes_and_buses() {
        for kind in [FIXED, INCR, WRAP] {
            let beats = if kind == WRAP { 2 } else { 1 + r.below(4) as u32 };
            let a = Asked::of(fitting(r, kind, size, bus, beats));
            let take = [right(r, &a), any_records(r, &a, 3)].concat();
            let spoilt = flipped(&a, &take, &[(0, 1 + r.below(7))]);
            for octets in 0..=take.len() {
                let whole = octets % a.record() == 0;
                let answer = compare(t, &a, &take[..octets]);
                t.same(answer.refusal, if whole { 0 } else { 2 }, || format!("{octets} octets of the writes of {:?}", a.b));
                if octets > 0 { answer_is(t, &a, &spoilt[..octets], refused(if whole { 3 } else { 2 }, 0)); }
            }
        }
    }
}

/// At the most octets of a take: the most whole records, one octet and one record less and more, and twice as many.
fn longest(t: &mut Tally, r: &mut Random, a: &Asked) {
    let (n, most) = (a.beats(), MOST_OCTETS / a.record());
    let mut take = right(r, a);
    let one = [any_record(r, a), any_record(r, a)].concat();
    while take.len() < 2 * MOST_OCTETS + 40 * a.record() { take.extend(&one); }
    let upto = |records: usize| &take[..records * a.record()];
    answer_is(t, a, upto(most), broken(W4, n));
    answer_is(t, a, upto(most - 1), broken(W4, n));
    answer_is(t, a, &flipped(a, upto(most), &[(n - 1, WLAST)]), broken(W3, n - 1));
    answer_is(t, a, &flipped(a, upto(most), &[(most - 1, 1 + r.below(7))]), refused(3, most - 1));
    answer_is(t, a, &flipped(a, upto(most), &[(most / 2, r.pick(&zero_bits(a.b.bus))), (most - 1, 7)]), refused(3, most / 2));
    for records in [most + 1, most + 2, 2 * most, most + n, most + 1 + n] { answer_is(t, a, upto(records), refused(2, 0)); }
    for octets in [most * a.record() - 1, most * a.record() + 1, MOST_OCTETS + 1, MOST_OCTETS + n * a.record(), 2 * MOST_OCTETS] {
        if octets != MOST_OCTETS { answer_is(t, a, &take[..octets], refused(2, 0)); }
    }
    for octets in MOST_OCTETS - 3..=MOST_OCTETS + 3 { compare(t, a, &take[..octets]); }
}

fn longest_takes(t: &mut Tally, r: &mut Random) {
    for bus in (0..8).map(|n| 1u32 << n) {
        for (kind, beats) in [(FIXED, 1), (INCR, 256), (INCR, 7), (WRAP, 16)] {
            let size = r.below(1 + bus.min(16).ilog2() as usize) as u32; // 256 beats of 16 bytes are a block
            let a = Asked::of(fitting(r, kind, size, bus, beats));
            longest(t, r, &a);
        }
    }
}

/// 7 to 12 come before LENGTH and FIELD: takes of every length up to three records and near the most, zero octets and any.
fn refusals_first(t: &mut Tally, r: &mut Random) {
    for (refusal, [start, len, size, kind, bus]) in REFUSED {
        let a = Asked::of(Burst { start, len, size, kind, bus });
        let junk: Vec<u8> = (0..MOST_OCTETS + 18).map(|_| r.next() as u8).collect();
        for octets in (0..=54).chain(MOST_OCTETS - 1..=MOST_OCTETS + 18) {
            answer_is(t, &a, &vec![0; octets], refused(refusal, 0));
            answer_is(t, &a, &junk[..octets], refused(refusal, 0));
        }
    }
}

fn random(t: &mut Tally, r: &mut Random, b: Burst, takes: usize) {
    let a = Asked::of(b);
    for _ in 0..takes { let take = random_take(r, &a); compare(t, &a, &take); }
}

/// One round of the soak.
pub fn round(t: &mut Tally, r: &mut Random) {
    for _ in 0..4 { let b = random_burst(r); random(t, r, b, 4); }
    for b in [damaged(r), damaged(r), wild(r)] { random(t, r, b, 2); }
    let a = Asked::of(random_burst(r));
    let asks: [Ask; 7] = [right_is_clean, count_is_exact, strobes_at_bounds, wlasts, too_few_and_too_many, two_faults, field_bits];
    r.pick(&asks)(t, r, &a);
}

/// What the gate asks.
pub fn all(t: &mut Tally) {
    cases_writes::writes(t, library::judge);
    t.seeded_group("writes right", |t, r| every_burst(t, r, right_is_clean));
    t.seeded_group("writes of one beat less and more", |t, r| every_burst(t, r, count_is_exact));
    t.seeded_group("writes with no strobe and with all", |t, r| many_bursts(t, r, |t, _, a| none_and_all(t, a)));
    t.seeded_group("writes with each strobe", each_strobe);
    t.seeded_group("writes with strobes at bounds", |t, r| many_bursts(t, r, strobes_at_bounds));
    t.seeded_group("writes from every start", every_start);
    t.seeded_group("writes with other WLASTs", |t, r| many_bursts(t, r, wlasts));
    t.seeded_group("writes too few and too many", |t, r| many_bursts(t, r, too_few_and_too_many));
    t.seeded_group("writes with two faults", |t, r| many_bursts(t, r, two_faults));
    t.seeded_group("writes with each field bit", |t, r| many_bursts(t, r, field_bits));
    t.seeded_group("every short take of writes", short_takes);
    t.seeded_group("writes of every length", lengths);
    t.seeded_group("longest takes of writes", longest_takes);
    t.seeded_group("writes of refused bursts", refusals_first);
    t.seeded_group("writes random", |t, r| for _ in 0..12_000 { let b = random_burst(r); random(t, r, b, 4) });
    t.seeded_group("writes damaged", |t, r| for _ in 0..20_000 { let b = if r.one_in(4) { wild(r) } else { damaged(r) }; random(t, r, b, 2) });
    t.seeded_group("writes at any start", |t, r| for kind in [FIXED, INCR, WRAP] {
        for _ in 0..4_000 { let b = random_of_kind(r, kind); random(t, r, b, 3); }
    });
}

/// What must have occurred by then.
pub const VERDICTS: [&str; 14] = [
    "writes clean", "writes broken rule 1", "writes broken rule 2", "writes broken rule 3", "writes broken rule 4", "writes broken rule 5",
    "writes refusal 2", "writes refusal 3", "writes refusal 7", "writes refusal 8", "writes refusal 9", "writes refusal 10",
    "writes refusal 11", "writes refusal 12",
];
