//! The library's stream calls against the model, on many takes.
use crate::model::{self, StreamAnswer};
use crate::tally::{Random, Tally};
use crate::{cases, cases::ConvertCall, cases_user, library_stream as library};

const GUARD: usize = 24; // octets before and after each lent room
pub const REFUSED_ROOM: usize = 40; // octets lent where a refusal is expected in any room
const HIGH: [u32; 7] = [1, 2, 255, 256, 0x1_0000, 0x8000_0000, u32::MAX]; // each says that TLAST is filled in high

/// A call that writes into a lent room, by width, user bits and output width; `plan` is the model's whole answer.
pub struct Writer {
    name: &'static str,
    library: ConvertCall,
    model: ConvertCall,
    plan: fn(usize, usize, usize, &[u8]) -> Result<Vec<u8>, StreamAnswer>,
}

pub const HARVEST: Writer = Writer {
    name: "harvest",
    library: |w, m, _, take, out| library::harvest(w, m, take, out),
    model: |w, m, _, take, out| model::harvest(w, m, take, out),
    plan: |w, m, _, take| model::harvest_plan(w, m, take),
};
pub const REPACK: Writer = Writer { name: "repack", library: library::repack, model: model::repack, plan: model::repack_plan };
pub const DOWNSIZE: Writer = Writer { name: "downsize", library: library::downsize, model: model::downsize, plan: model::downsize_plan };

/// Long inputs are shown by their beginning only.
pub fn show(octets: &[u8]) -> String {
    format!("{} octets {:02x?}", octets.len(), &octets[..octets.len().min(200)])
}

/// Counted from the lent room's first octet on; the guard before it is negative.
fn first_other(a: &[u8], b: &[u8]) -> isize {
    a.iter().zip(b).take_while(|(x, y)| x == y).count() as isize - GUARD as isize
}

/// With 1 to 4 user bits a verdict is another one than without.
pub fn note(t: &mut Tally, call: &str, m: usize, a: StreamAnswer) {
    let with = if (1..=4).contains(&m) { WITH_USER_BITS } else { "" };
    t.verdict(match (a.refusal, a.rule) {
        (0, 0) => format!("{call} accepted{with}"),
        (0, rule) => format!("{call} broken rule {rule}{with}"),
        (n, _) => format!("{call} refusal {n}{with}"),
    });
}

/// A writing call into a room full of a pattern: its answer, and the room with the guards around it afterwards.
pub fn lend_to(call: ConvertCall, w: usize, m: usize, v: usize, input: &[u8], room: usize) -> (StreamAnswer, Vec<u8>) {
    let mut lent: Vec<u8> = (0..room + 2 * GUARD).map(|i| (i * 37 + 11) as u8).collect();
    let answer = call(w, m, v, input, &mut lent[GUARD..GUARD + room]);
    (answer, lent)
}

/// A writing call into one room: the answer, every octet of the room and of
/// the guards around it, and the input afterwards. Answers what was written,
/// where accepted (and as expected; a difference has been counted by then).
pub fn write_into(t: &mut Tally, c: &Writer, w: usize, m: usize, v: usize, input: &[u8], room: usize) -> Option<Vec<u8>> {
    let kept = input.to_vec();
    let (answer, lent) = lend_to(c.library, w, m, v, input, room);
    let (expected, modelled) = lend_to(c.model, w, m, v, &kept, room);
    note(t, c.name, m, expected);
    let inputs = || format!("{} {w} to {v}, user bits {m}, room {room}, input {}", c.name, show(&kept));
    t.same(answer, expected, inputs);
    t.check(lent == modelled, || format!("{}\n    first other octet {}\n    library  {}\n    expected {}", inputs(), first_other(&lent, &modelled), show(&lent), show(&modelled)));
    t.check(input == kept, || format!("{}: input changed", inputs()));
    if answer.refusal != 0 || answer != expected { return None; }
    Some(lent[GUARD..GUARD + answer.count as usize * model::record_octets(v, m)].to_vec())
}

/// Rooms: exact, one octet less, larger, none.
pub fn rooms(need: usize) -> Vec<usize> {
    let mut rooms = vec![need, need.saturating_sub(1), need + 31, 0];
    rooms.dedup();
    rooms
}

pub fn write_all(t: &mut Tally, c: &Writer, w: usize, m: usize, v: usize, input: &[u8]) {
    let need = (c.plan)(w, m, v, input).map_or(REFUSED_ROOM, |octets| octets.len());
    for room in rooms(need) { write_into(t, c, w, m, v, input, room); }
}

pub fn compare_judge(t: &mut Tally, w: usize, m: usize, take: &[u8]) {
    let kept = take.to_vec();
    let expected = model::judge(w, m, take);
    note(t, "judge", m, expected);
    t.same(library::judge(w, m, take), expected, || format!("judge {w}, user bits {m}, {}", show(&kept)));
    t.check(take == kept, || format!("judge {w}, user bits {m}, {}: take changed", show(&kept)));
}

/// One level, said by this number: 0 is low, each other one high. The guards have the other level in bit 0, so that a change shows.
fn compare_fill_in(t: &mut Tally, w: usize, m: usize, take: &[u8], level: u32) {
    let high = level != 0;
    let guard = vec![if high { 0x5A } else { 0x5B }; GUARD];
    let mut lent = [&guard, take, &guard].concat();
    let mut modelled = lent.clone();
    let answer = library::fill_in(w, m, &mut lent[GUARD..GUARD + take.len()], level);
    let expected = model::fill_in(w, m, &mut modelled[GUARD..GUARD + take.len()], high);
    note(t, if high { "fill-in high" } else { "fill-in low" }, m, expected);
    let inputs = || format!("fill-in {w}, user bits {m}, level {level:#x}, {}", show(take));
    t.same(answer, expected, inputs);
    t.check(lent == modelled, || format!("{}\n    first other octet {}\n    library  {}\n    expected {}", inputs(), first_other(&lent, &modelled), show(&lent), show(&modelled)));
}

fn compare_data_octets(t: &mut Tally, w: usize, m: usize, take: &[u8]) {
    let n = if w > 16 || m > 4 { 1 } else { take.len() / model::record_octets(w, m) };
    let kept = take.to_vec();
    for k in (0..n.min(40)).chain([n.saturating_sub(1), n, n + 1, usize::MAX / 8 + 1, usize::MAX]) {
        let expected = model::data_octets(w, m, take, k);
        note(t, "data octets", m, expected.0);
        t.same(library::data_octets(w, m, take, k), expected, || format!("data octets {w}, user bits {m}, record {k}, {}", show(take)));
    }
    t.check(take == kept, || format!("data octets {w}, user bits {m}, {}: take changed", show(&kept)));
}

/// All calls that read cycles; then all that read transfer records.
pub fn cycle_calls(t: &mut Tally, w: usize, m: usize, take: &[u8]) {
    compare_judge(t, w, m, take);
    write_all(t, &HARVEST, w, m, w, take);
    for level in [0, HIGH[take.len() % HIGH.len()]] { compare_fill_in(t, w, m, take, level); }
    compare_data_octets(t, w, m, take);
}

pub fn transfer_calls(t: &mut Tally, w: usize, m: usize, v: usize, input: &[u8]) {
    write_all(t, &REPACK, w, m, v, input);
    write_all(t, &DOWNSIZE, w, m, v, input);
}

/// T-06's user octets of a record: any bits, none or all, on null lanes too; the padding is zero.
pub fn user_octets(r: &mut Random, w: usize, m: usize) -> Vec<u8> {
    if m == 0 { return Vec::new(); }
    let bits = match r.below(8) { 0 => 0, 1 => u64::MAX, _ => r.next() } & u64::MAX >> (64 - w * m);
    bits.to_le_bytes()[..model::record_octets(w, m) - 7 - w].to_vec()
}

/// As good as half of the takes have no user bits.
pub fn some_user(r: &mut Random) -> usize { r.pick(&[0, 0, 0, 0, 1, 2, 3, 4]) }

/// A legal record: flags, one of few pairs, lanes full, empty or mixed, any user bits.
pub fn record(r: &mut Random, w: usize, m: usize, flags: u8) -> Vec<u8> {
    let all = ((1u32 << w) - 1) as u16;
    let keep = match r.below(4) { 0 => all, 1 => 0, _ => r.next() as u16 & all };
    let strb = if r.one_in(2) { keep } else { keep & r.next() as u16 };
    let mut octets = vec![flags, r.pick(&[0, 0, 0, 1, 255]), r.pick(&[0, 0, 0, 15])];
    octets.extend(keep.to_le_bytes().into_iter().chain(strb.to_le_bytes()));
    octets.extend((0..w).map(|_| r.next() as u8));
    octets.extend(user_octets(r, w, m));
    octets
}

pub fn transfers(r: &mut Random, w: usize, m: usize, n: usize) -> Vec<u8> {
    let ends = 1 + r.below(6);
    (0..n).flat_map(|_| { let last = u8::from(r.one_in(ends)); record(r, w, m, last) }).collect()
}

/// Cycles that keep the handshake rules, with waits and resets; in reset, and at the first sample out of it, TVALID is low.
pub fn cycles(r: &mut Random, w: usize, m: usize, n: usize) -> Vec<u8> {
    let mut take: Vec<u8> = Vec::new();
    let size = model::record_octets(w, m);
    let mut before = 8; // the flags of the cycle before; at first an idle cycle's, since there is none
    for _ in 0..n {
        let resets = r.one_in(9);
        let flags = if resets { r.pick(&[0, 1, 4, 5]) }
            else if before & 8 == 0 { r.pick(&[8, 9, 12, 13]) }
            else { r.pick(&[8, 9, 12, 10, 11, 14, 15, 15]) };
        if before & 14 == 10 && !resets {
            let mut again = take[take.len() - size..].to_vec(); // all as before, but TREADY is free
            again[0] = (again[0] & !4) | r.pick(&[0, 4]);
            take.extend(&again);
        } else {
            let mut now = record(r, w, m, flags);
            if flags & 2 == 0 && r.one_in(3) { now[5] = now[3] ^ ((1u32 << w) - 1) as u8; } // reserved, but no valid cycle
            take.extend(&now);
        }
        before = take[take.len() - size];
    }
    take
}

/// Flip some bits: of the flags and fields mostly, of the last octet, where padding is, or anywhere.
pub fn damage(r: &mut Random, w: usize, m: usize, octets: &mut [u8]) {
    if octets.is_empty() { return; }
    let size = model::record_octets(w, m);
    for _ in 0..1 + r.below(2) {
        let octet = if r.one_in(4) { r.below(size) } else { r.pick(&[0, 0, 1, 2, 3, 4, 5, 6]) };
        let octet = if m > 0 && r.one_in(4) { size - 1 } else { octet };
        octets[r.below(octets.len() / size) * size + octet] ^= 1 << r.below(8);
    }
}

/// Places (in records) where a stream may be divided: where the last item before
/// is a packet end (demand 3) or, with `pairs`, the item after has another pair.
fn division_places(w: usize, m: usize, stream: &[u8], pairs: bool) -> Vec<usize> {
    let lists: Vec<Vec<model::Item>> = stream.chunks(model::record_octets(w, m)).map(|r| model::items(w, m, r)).collect();
    (0..=lists.len()).filter(|&k| {
        let before = lists[..k].iter().rev().find_map(|list| list.last());
        let after = lists[k..].iter().find_map(|list| list.first());
        let end = before.is_some_and(|item| item.what == model::What::End);
        let change = matches!((before, after), (Some(a), Some(b)) if a.pair != b.pair);
        end || (pairs && change)
    }).collect()
}

pub const WIDTHS: [usize; 23] = [0, 1, 2, 3, 4, 5, 6, 7, 8, 9, 10, 11, 12, 13, 14, 15, 16, 17, 18, 19, 20, usize::MAX - 6, usize::MAX];

fn random_cycles(t: &mut Tally, r: &mut Random, n: usize) {
    let (w, m) = (1 + r.below(16), some_user(r));
    let mut take = cycles(r, w, m, n);
    if r.one_in(2) { damage(r, w, m, &mut take); }
    cycle_calls(t, w, m, &take);
}

fn random_transfers(t: &mut Tally, r: &mut Random, n: usize) {
    let (w, m) = (1 + r.below(16), some_user(r));
    let v = if r.one_in(2) { 1 + r.below(16) } else { r.pick(&[w, 1, (w + 1) / 2, w / 2 + 1]) };
    let mut input = transfers(r, w, m, n);
    if r.one_in(3) { damage(r, w, m, &mut input); }
    transfer_calls(t, w, m, v, &input);
}

/// Octets, widths and user bits that fit only by chance.
fn random_shapes(t: &mut Tally, r: &mut Random) {
    let (w, v, n) = (r.pick(&WIDTHS), r.pick(&WIDTHS), r.below(60));
    let m = if r.one_in(16) { r.pick(&[5, 6, 7, 8, usize::MAX]) } else { some_user(r) };
    let few = r.one_in(2);
    let octets: Vec<u8> = (0..n).map(|_| if few { r.pick(&[0, 0, 0, 1, 3]) } else { r.next() as u8 }).collect();
    cycle_calls(t, w, m, &octets);
    transfer_calls(t, w, m, v, &octets);
}

/// Demand 3, lists of calls with one m: each call gets the last accepted result.
pub fn list_of_calls(t: &mut Tally, r: &mut Random, m: usize, n: usize) {
    let w = 1 + r.below(16);
    let first = transfers(r, w, m, n);
    let (mut standing, mut width, mut accepted) = (first.clone(), w, false);
    for _ in 0..r.below(7) {
        let v = if r.one_in(5) { r.pick(&[0, 17, 18, usize::MAX]) } else { 1 + r.below(16) };
        let need = model::repack_plan(width, m, v, &standing).map_or(50, |o| o.len());
        let room = r.pick(&[need, need, need + 5, need.saturating_sub(1), 0]);
        if let Some(result) = write_into(t, &REPACK, width, m, v, &standing, room) {
            (standing, width, accepted) = (result, v, true);
        }
    }
    let expected = if accepted { model::packed(width, m, &model::items(w, m, &first)) } else { first.clone() };
    t.check(standing == expected, || format!("list of repack calls from {w} to {width}, user bits {m}, {}\n    library  {}\n    expected {}", show(&first), show(&standing), show(&expected)));
}

/// Demand 3, parts: results joined are the whole's packed form, counts add up.
pub fn parts(t: &mut Tally, r: &mut Random, m: usize, n: usize, pairs: bool) {
    let (w, v) = (1 + r.below(16), 1 + r.below(16));
    let (size, size_out) = (model::record_octets(w, m), model::record_octets(v, m));
    let whole = transfers(r, w, m, n);
    let (mut joined, mut count, mut from, mut accepted) = (Vec::new(), 0, 0, true);
    let mut places = division_places(w, m, &whole, pairs);
    places.retain(|_| r.one_in(if n > 100 { 40 } else { 2 }));
    for to in places.into_iter().chain([n]) {
        accepted &= to - from <= model::MOST_OCTETS / size;
        let part = &whole[from * size..to * size];
        let room = model::repack_plan(w, m, v, part).map_or(0, |o| o.len()) + r.below(20);
        match write_into(t, &REPACK, w, m, v, part, room) {
            Some(result) => { count += result.len() / size_out; joined.extend(result) }
            None => accepted = false,
        }
        from = to;
    }
    let expected = model::packed(v, m, &model::items(w, m, &whole));
    let good = joined == expected && count == expected.len() / size_out;
    t.check(!accepted || good, || format!("repack in parts {w} to {v}, user bits {m}, {}\n    library  {}\n    expected {}", show(&whole), show(&joined), show(&expected)));
    if accepted { t.verdict(format!("parts all accepted{}", if m > 0 { WITH_USER_BITS } else { "" })); }
}

/// As many records as fit into 65,536 octets, one less or more, and perhaps some octets of another.
fn longest_take(t: &mut Tally, r: &mut Random) {
    let (w, m) = r.pick(&[(1, 0), (1, 0), (9, 0), (9, 0), (2, 0), (4, 0), (8, 0), (16, 0), (8, 1), (7, 2), (6, 3), (6, 4), (16, 4), (1, 1)]);
    let (v, size) = (1 + r.below(16), model::record_octets(w, m));
    let records = model::MOST_OCTETS / size + r.below(3) - 1;
    let extra = r.pick(&[0, 0, 0, 1, size - 1]);
    of_this_length(t, r, w, m, &[v], records, extra);
}

/// Every call on so many records, and some octets of another.
pub fn of_this_length(t: &mut Tally, r: &mut Random, w: usize, m: usize, to: &[usize], records: usize, extra: usize) {
    let (mut take, mut input) = (cycles(r, w, m, records), transfers(r, w, m, records));
    take.resize(take.len() + extra, 0);
    input.resize(input.len() + extra, 0);
    cycle_calls(t, w, m, &take);
    for v in to { transfer_calls(t, w, m, *v, &input); }
}

/// One round of the soak; one in a few hundred has long takes.
pub fn round(t: &mut Tally, r: &mut Random) {
    let (long, longest, pairs) = (r.one_in(300), r.one_in(600), r.one_in(2));
    if longest { longest_take(t, r); }
    let mut records = || if long { 1_000 + r.below(6_000) } else { r.below(20) };
    let [a, b, c, d] = [records(), records(), records(), records()];
    random_cycles(t, r, a);
    random_transfers(t, r, b);
    random_shapes(t, r);
    let m = some_user(r);
    list_of_calls(t, r, m, c);
    parts(t, r, m, d, pairs);
}

/// T-03's level, said by 0, by each bit alone, by all but that one, and by any number: on any octets of a good length
/// or one octet beside it, at good widths and others.
fn fill_in_levels(t: &mut Tally) {
    t.seeded_group("fill-in levels", |t, r| for w in WIDTHS {
        let size = if w == 0 || w > 16 { 8 } else { 7 + w };
        for octets in [0, 1, size - 1, size, size + 1, 5 * size - 1, 5 * size, 5 * size + 1] {
            let take: Vec<u8> = (0..octets).map(|_| r.next() as u8).collect();
            compare_fill_in(t, w, 0, &take, 0);
            for bit in 0..32 {
                for level in [1 << bit, !(1 << bit), r.next() as u32] { compare_fill_in(t, w, 0, &take, level); }
            }
        }
    });
}

/// Every length of a take up to so many records.
pub fn every_length(t: &mut Tally, r: &mut Random, w: usize, m: usize, records: usize) {
    let (take, input) = (cycles(r, w, m, records), transfers(r, w, m, records));
    for octets in 0..take.len() {
        cycle_calls(t, w, m, &take[..octets]);
        transfer_calls(t, w, m, 1, &input[..octets]);
    }
}

/// Bits of each of three records changed, one after the other; what is expected is the model's business.
pub fn change_bits(t: &mut Tally, r: &mut Random, w: usize, m: usize, bits: std::ops::Range<usize>) {
    for (at, bit) in (0..3).flat_map(|record| bits.clone().map(move |bit| (record * model::record_octets(w, m), bit))) {
        let (mut take, mut input) = (cycles(r, w, m, 3), transfers(r, w, m, 3));
        take[at + bit / 8] ^= 1 << (bit % 8);
        input[at + bit / 8] ^= 1 << (bit % 8);
        cycle_calls(t, w, m, &take);
        transfer_calls(t, w, m, 1 + bit % w, &input);
    }
}

/// This lane of the record at the front of these octets becomes a reserved one.
pub fn reserve(record: &mut [u8], lane: usize) {
    record[3 + lane / 8] &= !(1 << (lane % 8));
    record[5 + lane / 8] |= 1 << (lane % 8);
}

pub fn reserve_lanes(t: &mut Tally, r: &mut Random, w: usize, m: usize) {
    let size = model::record_octets(w, m);
    for (at, lane) in (0..3).flat_map(|record| (0..w).map(move |lane| (record * size, lane))) {
        let (mut take, mut input) = (cycles(r, w, m, 3), transfers(r, w, m, 3));
        for octets in [&mut take, &mut input] { reserve(&mut octets[at..], lane); }
        cycle_calls(t, w, m, &take);
        transfer_calls(t, w, m, w, &input);
    }
}

/// Waiting, then one bit of the waiting cycle differs: each octet, TLAST too. The two cycles may stand later in the take.
pub fn each_bit_while_waiting(t: &mut Tally, r: &mut Random, w: usize, m: usize) {
    let mut wait = record(r, w, m, 10);
    wait[2] = 3;
    for (bit, before) in (0..8 * wait.len()).flat_map(|bit| [0, 1, 5].map(|before| (bit, before))) {
        let mut next = wait.clone();
        next[bit / 8] ^= 1 << (bit % 8);
        let take = [wait.repeat(before), wait.clone(), next].concat();
        compare_judge(t, w, m, &take);
        write_into(t, &HARVEST, w, m, w, &take, take.len());
    }
}

/// What the gate asks.
pub fn all(t: &mut Tally) {
    let calls = cases::StreamCalls {
        judge: library::judge, harvest: library::harvest, fill_in: library::fill_in,
        data_octets: library::data_octets, repack: library::repack, downsize: library::downsize,
    };
    cases::streams(t, &calls);
    cases_user::users(t, &calls);
    fill_in_levels(t);
    t.seeded_group("widths", |t, r| for w in WIDTHS {
        for octets in [0, 1, 7, 8, 23, 24, 27, 65_536, 65_537] {
            let input = vec![0; octets];
            cycle_calls(t, w, 0, &input);
            for v in WIDTHS { write_into(t, &REPACK, w, 0, v, &input, 70); write_into(t, &DOWNSIZE, w, 0, v, &input, 70); }
        }
        if w >= 1 && w <= 16 { // a good stream of three records, to every width
            let input = transfers(r, w, 0, 3);
            for v in WIDTHS { transfer_calls(t, w, 0, v, &input); }
        }
    });
    t.seeded_group("longest takes", |t, r| for (w, most) in [(1, 8192), (9, 4096), (16, 2849), (4, 5957)] {
        for records in [most - 1, most, most + 1] {
            for extra in [0, 1, 7 + w - 1] { of_this_length(t, r, w, 0, &[1, 3, 9, 16], records, extra); }
        }
    });
    t.seeded_group("wrong lengths", |t, r| for w in 1..=16 { every_length(t, r, w, 0, 3) });
    // Each bit of octets 0 to 6 of each record flipped, and each lane reserved.
    t.seeded_group("each field bit", |t, r| for w in 1..=16 {
        change_bits(t, r, w, 0, 0..56);
        reserve_lanes(t, r, w, 0);
    });
    // All flags of three cycles, with payloads equal or different and the lane of
    // the middle one reserved or not: every rule, and every way into reset and out.
    t.group("all flags of three cycles", |t| for flags in 0..4096u32 {
        for payload in 0..8u8 {
            let take: Vec<u8> = (0..3).flat_map(|c| {
                let (id, keep) = [(0, 1), (payload & 1, 1 - payload / 4), (payload / 2 & 1, 1)][c];
                [(flags >> (4 * c)) as u8 & 15, id, 0, keep, 0, 1, 0, 0x55]
            }).collect();
            compare_judge(t, 1, 0, &take);
            write_into(t, &HARVEST, 1, 0, 1, &take, 24);
        }
    });
    // T-01 at each width: cycles before or none, none to two in reset, none to
    // two idle samples out of it, then TVALID, with a lane reserved or not.
    t.seeded_group("out of reset", |t, r| for w in 1..=16 {
        for (before, way) in [0, 1, 5].into_iter().flat_map(|before| (0..18).map(move |way| (before, way))) {
            let mut take = cycles(r, w, 0, before);
            for _ in 0..way % 3 { let flags = r.pick(&[0, 1, 4, 5]); take.extend(record(r, w, 0, flags)); }
            for _ in 0..way / 3 % 3 { let flags = r.pick(&[8, 9, 12, 13]); take.extend(record(r, w, 0, flags)); }
            let (flags, lane) = (r.pick(&[2, 10, 11, 14, 15]), r.below(w));
            let mut valid = record(r, w, 0, flags);
            if way >= 9 { reserve(&mut valid, lane); }
            take.extend(valid);
            cycle_calls(t, w, 0, &take);
        }
    });
    t.seeded_group("each bit while waiting", |t, r| for w in 1..=16 { each_bit_while_waiting(t, r, w, 0) });
    t.seeded_group("random cycles", |t, r| for _ in 0..12_000 { let n = r.below(14); random_cycles(t, r, n) });
    t.seeded_group("random transfers", |t, r| for _ in 0..12_000 { let n = r.below(14); random_transfers(t, r, n) });
    t.seeded_group("random shapes", |t, r| for _ in 0..12_000 { random_shapes(t, r) });
    t.seeded_group("lists of repacking calls", |t, r| for round in 0..3_000 {
        let n = if round % 100 == 0 { 2_000 + r.below(3_000) } else { r.below(12) };
        let m = some_user(r);
        list_of_calls(t, r, m, n);
    });
    for (name, pairs) in [("parts after packet ends", false), ("parts after ends and at pair changes", true)] {
        t.seeded_group(name, |t, r| for round in 0..1_500 {
            let n = if round % 100 == 0 { 6_000 } else { r.below(25) };
            let m = some_user(r);
            parts(t, r, m, n, pairs);
        });
    }
}

/// What must have occurred by then; each but 16, which comes with more than 4, also with 1 to 4 user bits.
pub fn verdicts() -> Vec<String> {
    let tagged = VERDICTS.iter().filter(|name| !name.ends_with(" 16")).map(|name| format!("{name}{WITH_USER_BITS}"));
    VERDICTS.iter().map(|name| name.to_string()).chain(tagged).collect()
}

pub const WITH_USER_BITS: &str = ", with user bits";

const VERDICTS: [&str; 45] = [
    "judge accepted", "judge broken rule 1", "judge broken rule 2", "judge broken rule 3", "judge broken rule 4",
    "judge refusal 1", "judge refusal 16", "judge refusal 2", "judge refusal 3",
    "harvest accepted", "harvest refusal 1", "harvest refusal 16", "harvest refusal 2", "harvest refusal 3", "harvest refusal 5", "harvest refusal 14",
    "fill-in low accepted", "fill-in low refusal 1", "fill-in low refusal 16", "fill-in low refusal 2",
    "fill-in high accepted", "fill-in high refusal 1", "fill-in high refusal 16", "fill-in high refusal 2",
    "data octets accepted", "data octets refusal 1", "data octets refusal 16", "data octets refusal 2", "data octets refusal 13",
    "repack accepted", "repack refusal 1", "repack refusal 16", "repack refusal 2", "repack refusal 3", "repack refusal 4", "repack refusal 5",
    "downsize accepted", "downsize refusal 1", "downsize refusal 16", "downsize refusal 2", "downsize refusal 3", "downsize refusal 4", "downsize refusal 5", "downsize refusal 6",
    "parts all accepted",
];
