//! The library's merging of two transfer lists (T-08) against the model, on many lists and rooms; and what the request says of the
//! merged list, asked of the library's own answers and of its repacking.
use crate::cases_merge::{self, claims, share};
use crate::compare_streams::{WIDTHS, WITH_USER_BITS, damage, show, some_user};
use crate::compare_user::ABOVE;
use crate::merge_lists::{Asked, ENDS, Fault, every_fault, list, record, shapes, spoil, zero_bits};
use crate::model::{FIELD, MOST_OCTETS, RESERVED, TAGS, record_octets};
use crate::model_merge::{self as model, MergeAnswer, counted, refused};
use crate::tally::{Random, Tally};
use crate::{library_merge as library, library_stream};

const GUARD: usize = 24; // octets before and after each list and each lent room
const OUTSIDE: u8 = 0x5A; // each of them beside a list: FIELD, if it were read as a record's first octet

fn note(t: &mut Tally, m: usize, a: MergeAnswer) {
    let with = if (1..=4).contains(&m) { WITH_USER_BITS } else { "" };
    t.verdict(match a.refusal { 0 => format!("merge accepted{with}"), n => format!("merge refusal {n} of port {}{with}", a.port) });
}

/// A lent room with guards, full of a pattern. Behind a room that is too short the guard has all octets of the lists, so that a call
/// that does not see that is found and does no harm.
fn pattern(a: &Asked) -> Vec<u8> {
    let need = a.lists[0].len() + a.lists[1].len();
    (0..need.max(a.room) + 2 * GUARD).map(|i| (i * 37 + 11) as u8).collect()
}

/// One call: the answer, every octet of the room, of the lists, and of the guards around them; and of a merged list what the request
/// says of it. Answers what the library said, and the merged list where it is accepted as expected.
pub fn compare(t: &mut Tally, a: &Asked) -> (MergeAnswer, Vec<u8>) {
    let mut lent = a.lent().map(|list| [&[OUTSIDE; GUARD], list, &[OUTSIDE; GUARD]].concat());
    let (kept, mut out) = (lent.clone(), pattern(a));
    let mut modelled = out.clone();
    let [first, second] = &mut lent;
    let lists = [&mut first[GUARD..GUARD + a.lists[0].len()], &mut second[GUARD..GUARD + a.lists[1].len()]];
    let answer = library::merge(a.w, a.m, lists, &mut out[GUARD..GUARD + a.room]);
    let expected = model::merge(a.w, a.m, a.lent(), &mut modelled[GUARD..GUARD + a.room]);
    note(t, a.m, expected);
    let inputs = || says("merge", a);
    t.same(answer, expected, inputs);
    t.check(out == modelled, || format!("{}\n    library  {}\n    expected {}", inputs(), show(&out), show(&modelled)));
    t.check(lent == kept, || format!("{}: a list changed", inputs()));
    if answer.refusal != 0 || answer != expected { return (answer, Vec::new()); }
    let merged = out[GUARD..GUARD + a.lists[0].len() + a.lists[1].len()].to_vec();
    claims(t, a.size(), a.lent(), &merged);
    (answer, merged)
}

fn says(what: &str, a: &Asked) -> String {
    format!("{what} {}, user bits {}, room {}, port 0 {}, port 1 {}", a.w, a.m, a.room, show(&a.lists[0]), show(&a.lists[1]))
}

/// As `compare`, with the answer said by the caller.
fn answer_is(t: &mut Tally, a: &Asked, expected: MergeAnswer) {
    let (answer, _) = compare(t, a);
    t.same(answer, expected, || says("said of merge", a));
}

/// Sound lists with these faults: the least of them is answered.
fn faults_are(t: &mut Tally, r: &mut Random, sound: &Asked, faults: &[Fault]) {
    let mut a = sound.clone();
    spoil(r, &mut a, faults);
    if let Some(least) = faults.iter().min() { answer_is(t, &a, least.answer()); }
}

/// Rooms: exact, one octet less, larger, none.
fn into_rooms(t: &mut Tally, a: &Asked) {
    let mut rooms = vec![a.room, a.room.saturating_sub(1), a.room + 31, 0];
    rooms.dedup();
    for room in rooms { compare(t, &a.into_room(room)); }
}

/// At every shape lists with TLAST as often as each of `ENDS`, one or both of them empty too.
fn every_shape(t: &mut Tally, r: &mut Random) {
    for (w, m) in shapes() {
        compare(t, &Asked::of(w, m, [Vec::new(), Vec::new()]));
        for (first, second) in ENDS.into_iter().flat_map(|first| ENDS.map(|second| (first, second))) {
            for [n, k] in [[0, 4], [4, 0], [1, 1], [3, 6], [6, 3]] {
                let lists = [list(r, w, m, n, first), list(r, w, m, k, second)];
                into_rooms(t, &Asked::of(w, m, lists));
            }
        }
    }
}

/// Every way in which up to six records on each port have TLAST or not, each at one of the shapes.
fn every_turn(t: &mut Tally, r: &mut Random) {
    let ways: Vec<(usize, usize)> = (0..=6).flat_map(|n| (0..1 << n).map(move |bits| (n, bits))).collect();
    let shapes: Vec<(usize, usize)> = shapes().collect();
    for (i, [first, second]) in ways.iter().flat_map(|first| ways.iter().map(move |second| [first, second])).enumerate() {
        let (w, m) = shapes[i % shapes.len()];
        let lists = [first, second].map(|&(n, bits)| (0..n).flat_map(|k| record(r, w, m, bits >> k & 1 == 1)).collect());
        compare(t, &Asked::of(w, m, lists));
    }
}

/// Lists of one lane, each record one of six sorts: a data item of one pair or of another, or all null, each with TLAST or without.
fn every_short_list(most: u32, m: usize) -> Vec<Vec<u8>> {
    let sort = |k: usize, sort: usize| {
        let [tid, dest, keep] = [[9, 0, 1], [9, 1, 1], [8, 0, 0]][sort / 2];
        [vec![sort as u8 % 2, tid, dest, keep, 0, keep, 0, 0xA0 + k as u8], vec![1; m.min(1)]].concat()
    };
    let numbers = (0..=most).flat_map(|n| (0..6usize.pow(n)).map(move |number| (n, number)));
    numbers.map(|(n, number)| (0..n).flat_map(|k| sort(k as usize, number / 6usize.pow(k) % 6)).collect()).collect()
}

fn short_lists(t: &mut Tally) {
    for (most, m) in [([2, 3], 0), ([3, 2], 1)] {
        let [first, second] = most.map(|most| every_short_list(most, m));
        for (first, second) in first.iter().flat_map(|first| second.iter().map(move |second| (first, second))) {
            compare(t, &Asked::of(1, m, [first.clone(), second.clone()]));
        }
    }
}

/// Every TID on each port in each of three records, which has items, or is all null, or has TLAST alone: 128 and more is TAGS.
fn every_tid(t: &mut Tally, r: &mut Random) {
    for ((w, m), tid) in [(1, 0), (8, 3), (16, 4)].into_iter().flat_map(|shape| (0..=255u8).map(move |tid| (shape, tid))) {
        for (port, k, kind) in (0..2).flat_map(|port| (0..3).flat_map(move |k| (0..3).map(move |kind| (port, k, kind)))) {
            let mut a = Asked::any(r, w, m, [3, 3]);
            *a.octet(port, k, 1) = tid;
            if kind > 0 { for at in 3..7 { *a.octet(port, k, at) = 0; } *a.octet(port, k, 0) = kind - 1; }
            answer_is(t, &a, if tid >= 128 { refused(TAGS, port, k) } else { counted(6) });
        }
    }
}

/// Each bit of a record changed, on each port, in one of three records; what must be zero is FIELD.
fn every_bit(t: &mut Tally, r: &mut Random) {
    for (w, m) in shapes() {
        let zeros = zero_bits(w, m);
        for (port, bit) in (0..2).flat_map(|port| (0..8 * record_octets(w, m)).map(move |bit| (port, bit))) {
            let (mut a, k) = (Asked::any(r, w, m, [3, 3]), r.below(3));
            a.flip(port, k, bit);
            if zeros.contains(&bit) { answer_is(t, &a, refused(FIELD, port, k)); } else { compare(t, &a); }
        }
        for (port, lane) in (0..2).flat_map(|port| (0..w).map(move |lane| (port, lane))) {
            let (mut a, k) = (Asked::any(r, w, m, [3, 3]), r.below(3));
            a.reserve(port, k, lane);
            answer_is(t, &a, refused(RESERVED, port, k));
        }
    }
}

/// At every shape each fault alone, and each with each other one: in one record, in another one before or behind it, on either port.
fn two_faults(t: &mut Tally, r: &mut Random) {
    let all = every_fault(3);
    for (w, m) in shapes() {
        for i in 0..all.len() {
            let sound = Asked::any(r, w, m, [3, 3]);
            faults_are(t, r, &sound, &all[i..=i]);
            for j in 0..i { faults_are(t, r, &sound, &[all[i], all[j]]); }
        }
    }
}

/// Up to five faults in lists of one to five records.
fn many_faults(t: &mut Tally, r: &mut Random) {
    let (w, m, n) = (1 + r.below(16), r.below(5), 1 + r.below(5));
    let sound = Asked::any(r, w, m, [n, n]);
    let mut faults: Vec<Fault> = (0..1 + r.below(5)).map(|_| r.pick(&every_fault(n))).collect();
    faults.sort();
    faults.dedup();
    faults_are(t, r, &sound, &faults);
}

/// Every room up to some octets more than are needed.
fn every_room(t: &mut Tally, r: &mut Random) {
    for (w, m) in shapes() {
        let n = r.pick(&[[0, 1], [1, 0], [1, 1], [2, 1], [1, 2]]);
        let a = Asked::any(r, w, m, n);
        for room in 0..=a.room + 9 {
            answer_is(t, &a.into_room(room), if room < a.room { Fault::Room.answer() } else { counted(n[0] + n[1]) });
        }
    }
}

/// Every length of port 0's list up to three records, of port 1's, and of both.
fn every_length(t: &mut Tally, r: &mut Random) {
    for (w, m) in shapes() {
        let sound = Asked::any(r, w, m, [3, 3]);
        let all = sound.lists[0].len();
        for [first, second] in (0..all).flat_map(|n| [[n, all], [all, n], [n, all - 1 - n], [all - 1, n]]) {
            let mut a = sound.clone();
            a.lists[0].truncate(first);
            a.lists[1].truncate(second);
            let odd = [first, second].into_iter().position(|n| n % a.size() != 0);
            answer_is(t, &a, odd.map_or(counted((first + second) / a.size()), |port| refused(2, port, 0)));
        }
    }
}

/// Widths and user bits, good ones and others, with lists of zero octets of good lengths and others.
fn every_width(t: &mut Tally, r: &mut Random) {
    for (w, m) in WIDTHS.into_iter().flat_map(|w| (0..=4).chain(ABOVE).map(move |m| (w, m))) {
        let wrong = if w == 0 || w > 16 { Some(Fault::Width) } else if m > 4 { Some(Fault::User) } else { None };
        let any = [r.below(70), r.below(70)];
        for [first, second] in [[0, 0], [8, 8], [31, 16], [0, 1], [1, 0], any, [MOST_OCTETS, 8], [9, MOST_OCTETS + 1]] {
            let a = Asked { w, m, lists: [vec![0; first], vec![0; second]], room: 80 };
            let (answer, _) = compare(t, &a);
            if let Some(fault) = wrong { t.same(answer, fault.answer(), || says("said of merge", &a)); }
        }
    }
}

/// As many records on each port as fit into 65,536 octets: into just the room, an octet less and some more; with a fault in the last
/// record and in any; and lists of an octet less, of an octet more and of a record more.
fn longest(t: &mut Tally, r: &mut Random, w: usize, m: usize) {
    let n = MOST_OCTETS / record_octets(w, m);
    let pairs = [[0, 0], [2, 9], [9, 1], [1, 1]];
    for ends in pairs {
        let a = Asked::of(w, m, ends.map(|ends| list(r, w, m, n, ends)));
        for room in [a.room, a.room + 31] { answer_is(t, &a.into_room(room), counted(2 * n)); }
        answer_is(t, &a.into_room(a.room - 1), Fault::Room.answer());
    }
    let sound = Asked::any(r, w, m, [n, n]);
    for fault in every_fault(1) {
        let Fault::Record { port, refusal, .. } = fault else { faults_are(t, r, &sound, &[fault]); continue };
        for k in [n - 1, r.below(n)] { faults_are(t, r, &sound, &[Fault::Record { port, k, refusal }]); }
    }
    for ports in [&[0][..], &[1], &[0, 1]] {
        let mut a = sound.clone();
        for port in ports { a.lists[*port].extend(record(r, w, m, false)); }
        answer_is(t, &a.into_room(a.room + 62), Fault::Length { port: ports[0] }.answer());
        for port in ports { let octets = n * a.size() + 1; a.lists[*port].truncate(octets); }
        answer_is(t, &a, Fault::Length { port: ports[0] }.answer());
        for port in ports { a.lists[*port].truncate(n * record_octets(w, m) - 1); }
        answer_is(t, &a, Fault::Length { port: ports[0] }.answer());
        for port in ports { a.lists[*port].clear(); }
        answer_is(t, &a, counted(n * (2 - ports.len())));
    }
}

/// Shapes of which a whole number of records has just 65,536 octets, so that two lists have 131,072; then others.
const FULL: [(usize, usize); 6] = [(1, 0), (9, 0), (8, 1), (7, 2), (6, 3), (6, 4)];

fn longest_lists(t: &mut Tally, r: &mut Random) {
    for (w, m) in FULL {
        t.same(MOST_OCTETS % record_octets(w, m), 0, || format!("records of width {w}, user bits {m}"));
        longest(t, r, w, m);
    }
    for (w, m) in [(2, 0), (16, 0), (1, 4), (16, 4)] { longest(t, r, w, m); }
}

fn random_room(r: &mut Random, need: usize) -> usize {
    let (less, more) = (r.below(need + 1), need + r.below(60));
    r.pick(&[need, need, need, need.saturating_sub(1), less, more])
}

/// Lists of any lengths; with `damaged`, some bits of one or both are flipped, and now and then octets are lost.
fn random(t: &mut Tally, r: &mut Random, n: [usize; 2], damaged: bool) {
    let (w, m) = (1 + r.below(16), some_user(r));
    let mut a = Asked::any(r, w, m, n);
    a.room = random_room(r, a.room);
    for list in a.lists.iter_mut().filter(|_| damaged) {
        if r.one_in(2) { damage(r, w, m, list); }
        if r.one_in(8) { list.truncate(r.below(list.len() + 1)); }
    }
    compare(t, &a);
}

/// Octets, widths and user bits that fit only by chance.
fn random_octets(t: &mut Tally, r: &mut Random) {
    let (w, m) = (r.pick(&WIDTHS), if r.one_in(16) { r.pick(&ABOVE) } else { some_user(r) });
    let few = !r.one_in(4);
    let mut octets = || (0..r.below(50)).map(|_| if few { r.pick(&[0, 0, 0, 0, 1, 3]) } else { r.next() as u8 }).collect();
    let lists = [octets(), octets()];
    compare(t, &Asked { w, m, lists, room: r.below(120) });
}

/// Both ports are lent the very same octets.
fn with_itself(t: &mut Tally, r: &mut Random) {
    for ((w, m), n) in shapes().flat_map(|shape| [0, 1, 2, 3, 7].map(|n| (shape, n))) {
        let ends = r.pick(&ENDS);
        let mut octets = list(r, w, m, n, ends);
        if n > 0 && r.one_in(8) { damage(r, w, m, &mut octets); }
        let a = Asked::of(w, m, [octets.clone(), octets.clone()]);
        let (mut out, mut modelled) = (pattern(&a), pattern(&a));
        let answer = library::merge_with_itself(w, m, &mut octets, &mut out[GUARD..GUARD + a.room]);
        let expected = model::merge(w, m, a.lent(), &mut modelled[GUARD..GUARD + a.room]);
        t.same(answer, expected, || says("merge with itself", &a));
        t.check(out == modelled && octets == a.lists[0], || says("octets of merge with itself", &a));
    }
}

/// The library's packed form of a list that is no longer than a take.
fn packed(t: &mut Tally, w: usize, m: usize, v: usize, list: &[u8]) -> Vec<u8> {
    let (records, size) = (list.len() / record_octets(w, m), record_octets(v, m));
    let mut out = vec![0; records * w * size];
    let answer = library_stream::repack(w, m, v, list, &mut out);
    t.same(answer.refusal, 0, || format!("repack {w} to {v}, user bits {m}, merged {}", show(list)));
    out.truncate((answer.count as usize).saturating_mul(size));
    out
}

/// The list, which has TLAST now and then, in parts that are no longer than a take, each but the last one up to a TLAST.
fn parts(size: usize, mut list: &[u8]) -> Vec<&[u8]> {
    let (most, mut parts) = (MOST_OCTETS / size * size, Vec::new());
    while list.len() > most {
        let ended = list[..most].chunks(size).rposition(|record| record[0] & 1 == 1);
        let (part, rest) = list.split_at(ended.map_or(most, |k| (k + 1) * size));
        parts.push(part);
        list = rest;
    }
    parts.push(list);
    parts
}

/// Demand 3 on the merged list: of its packed form, in parts where it is longer than a take, each port has as its share the packed
/// form of its own list. Lists that are packed first, where they then fit into a take, are merged to the same octets.
fn repacked(t: &mut Tally, a: &Asked, v: usize) {
    let (_, merged) = compare(t, a);
    let size = record_octets(v, a.m);
    let whole: Vec<u8> = parts(a.size(), &merged).into_iter().flat_map(|part| packed(t, a.w, a.m, v, part)).collect();
    let own = a.lent().map(|list| packed(t, a.w, a.m, v, list));
    for port in 0..2 {
        t.check(share(size, &whole, port) == own[port], || format!("share of port {port}, repacked to {v}, {}", says("merge", a)));
    }
    if own.iter().any(|list| list.len() > MOST_OCTETS) { return; }
    let (_, first) = compare(t, &Asked::of(v, a.m, own));
    t.check(first == whole, || format!("repacked to {v} and merged, {}", says("merge", a)));
}

fn then_repacked(t: &mut Tally, r: &mut Random) {
    for ((w, m), v) in shapes().flat_map(|shape| (1..=16).map(move |v| (shape, v))) {
        let n = [r.below(9), r.below(9)];
        repacked(t, &Asked::any(r, w, m, n), v);
    }
    for (w, m) in FULL {
        let (n, v) = (MOST_OCTETS / record_octets(w, m), 1 + r.below(16));
        let lists = [3, 9].map(|ends| list(r, w, m, n, ends));
        repacked(t, &Asked::of(w, m, lists), v);
    }
}

/// One round of the soak; one in a few hundred has long lists.
pub fn round(t: &mut Tally, r: &mut Random) {
    let long = r.one_in(400);
    let mut records = || if long { r.below(2_200) } else { r.below(20) };
    let [a, b, c, d] = [[records(), records()], [records(), records()], [records(), records()], [records(), records()]];
    random(t, r, a, false);
    random(t, r, b, true);
    random_octets(t, r);
    many_faults(t, r);
    let (w, m, v) = (1 + r.below(16), some_user(r), 1 + r.below(16));
    for n in [c, d] { repacked(t, &Asked::any(r, w, m, n.map(|n| n % 1_000)), v); }
}

/// What the gate asks.
pub fn all(t: &mut Tally) {
    cases_merge::merges_of(t, library::merge);
    t.seeded_group("T-08 every shape", every_shape);
    t.seeded_group("T-08 every turn", every_turn);
    t.group("T-08 every short list", short_lists);
    t.seeded_group("T-08 every TID", every_tid);
    t.seeded_group("T-08 each bit and each reserved lane", every_bit);
    t.seeded_group("T-08 two faults", two_faults);
    t.seeded_group("T-08 many faults", |t, r| for _ in 0..8_000 { many_faults(t, r) });
    t.seeded_group("T-08 every room", every_room);
    t.seeded_group("T-08 wrong lengths", every_length);
    t.seeded_group("T-08 widths and user bits", every_width);
    t.seeded_group("T-08 longest lists", longest_lists);
    t.seeded_group("T-08 random lists", |t, r| for _ in 0..16_000 { let n = [r.below(14), r.below(14)]; random(t, r, n, false) });
    t.seeded_group("T-08 damaged lists", |t, r| for _ in 0..12_000 { let n = [r.below(14), r.below(14)]; random(t, r, n, true) });
    t.seeded_group("T-08 random octets", |t, r| for _ in 0..12_000 { random_octets(t, r) });
    t.seeded_group("T-08 a list with itself", with_itself);
    t.seeded_group("T-08 merged, then repacked", then_repacked);
}

/// What must have occurred by then; each but 16, which comes with more than 4, also with 1 to 4 user bits.
pub fn verdicts() -> Vec<String> {
    let of_ports = [2, 3, 4, 17].into_iter().flat_map(|n| [0, 1].map(|port| format!("merge refusal {n} of port {port}")));
    let others = ["merge accepted", "merge refusal 1 of port 0", "merge refusal 5 of port 0"].into_iter().map(String::from);
    let names: Vec<String> = of_ports.chain(others).collect();
    let tagged = names.iter().map(|name| format!("{name}{WITH_USER_BITS}"));
    names.iter().cloned().chain(tagged).chain(["merge refusal 16 of port 0".to_string()]).collect()
}
