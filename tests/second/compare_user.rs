//! T-06's user bits in the library's stream calls, against the model, at every width with every number of them.
use crate::compare_streams::{self as streams, DOWNSIZE, HARVEST, REPACK, WIDTHS};
use crate::model;
use crate::tally::{Random, Tally};

/// Above 4; some are 0 or 4 in 8, 16 or 32 bits, and by some a width times them is 0 in 64 bits.
pub const ABOVE: [usize; 19] = [5, 6, 7, 8, 9, 16, 255, 256, 260, 65_536, 65_540, 1 << 32, (1 << 32) + 4, 1 << 60, 1 << 61, 1 << 62, 1 << 63, usize::MAX - 7, usize::MAX];

/// Every width with every number of user bits but 0.
fn shapes() -> impl Iterator<Item = (usize, usize)> { (1..=16).flat_map(|w| (1..=4).map(move |m| (w, m))) }

/// All calls at all widths with 4 user bits, which are good, and with more.
fn above_four(t: &mut Tally) {
    for (w, m) in WIDTHS.into_iter().flat_map(|w| [4].into_iter().chain(ABOVE).map(move |m| (w, m))) {
        for octets in [0, 1, 8, 9, 31, 65_536, 65_537] {
            let input = vec![0; octets];
            streams::cycle_calls(t, w, m, &input);
            for v in [0, 1, 2, w, 16, 17, usize::MAX] {
                for call in [&REPACK, &DOWNSIZE] { streams::write_into(t, call, w, m, v, &input, 70); }
            }
        }
    }
}

/// Shapes of which so many records have just 65,536 octets, and the smallest and the largest one: these, and one record or octet more.
fn longest(t: &mut Tally, r: &mut Random) {
    for (w, m, most, octets) in [(8, 1, 4096, 65_536), (7, 2, 4096, 65_536), (6, 3, 4096, 65_536), (6, 4, 4096, 65_536), (1, 4, 7281, 65_529), (16, 4, 2114, 65_534)] {
        t.same(streams::transfers(r, w, m, most).len(), octets, || format!("{most} records of width {w}, user bits {m}"));
        for (records, extra) in [(most, 0), (most, 1), (most + 1, 0)] { streams::of_this_length(t, r, w, m, &[1, w, 9], records, extra); }
    }
}

/// A record with one lane of this kind and one bit of it high; the other lanes are null, or data, with no bit high.
fn one_bit(w: usize, m: usize, lane: usize, bit: usize, kind: usize, others: bool) -> Vec<u8> {
    let all = if others { u16::MAX >> (16 - w) } else { 0 };
    let [keep, strb] = [kind > 0, kind > 1].map(|high| if high { all | 1 << lane } else { all & !(1 << lane) });
    let mut octets = vec![1, 9, 3];
    octets.extend(keep.to_le_bytes().into_iter().chain(strb.to_le_bytes()));
    octets.extend((0..w).map(|lane| 0xA0 + lane as u8));
    octets.extend(&(1u64 << (lane * m + bit)).to_le_bytes()[..model::record_octets(w, m) - 7 - w]);
    octets
}

/// Each bit of each lane, which is null, a position or data, to every width; and as a handshaken cycle.
fn each_bit_alone(t: &mut Tally, w: usize, m: usize) {
    for (lane, bit, way) in (0..w).flat_map(|lane| (0..m).flat_map(move |bit| (0..6).map(move |way| (lane, bit, way)))) {
        let mut octets = one_bit(w, m, lane, bit, way % 3, way > 2);
        for v in 1..=16 {
            let room = 16 * model::record_octets(v, m);
            streams::write_into(t, &REPACK, w, m, v, &octets, room);
            if w % v == 0 { streams::write_into(t, &DOWNSIZE, w, m, v, &octets, room); }
        }
        octets[0] = 0x0F;
        streams::write_into(t, &HARVEST, w, m, w, &octets, octets.len());
    }
}

/// R3 at every shape. Records of these sizes are among them: to compare so many octets from 1 on takes words of 8 and 4, and what is left.
fn while_waiting(t: &mut Tally, r: &mut Random) {
    for size in [9, 17, 18, 24, 25, 26, 31] {
        t.check(shapes().any(|(w, m)| model::record_octets(w, m) == size), || format!("no shape of {size} octets"));
    }
    for (w, m) in shapes() { streams::each_bit_while_waiting(t, r, w, m); }
}

/// What the gate asks.
pub fn all(t: &mut Tally) {
    t.group("T-06 user bits above four", above_four);
    t.seeded_group("T-06 longest takes", longest);
    t.seeded_group("T-06 wrong lengths", |t, r| for (w, m) in shapes() { streams::every_length(t, r, w, m, 2) });
    t.seeded_group("T-06 each field bit", |t, r| for w in 1..=16 {
        streams::change_bits(t, r, w, 1 + w % 4, 0..56);
        streams::reserve_lanes(t, r, w, 1 + w % 4);
    });
    t.seeded_group("T-06 each user and padding bit", |t, r| for (w, m) in shapes() {
        streams::change_bits(t, r, w, m, 8 * (7 + w)..8 * model::record_octets(w, m));
    });
    t.group("T-06 each bit alone", |t| for (w, m) in shapes() { each_bit_alone(t, w, m) });
    t.seeded_group("T-06 each bit while waiting", while_waiting);
    t.seeded_group("T-06 every width to every width", |t, r| for (w, m) in shapes() {
        let input = streams::transfers(r, w, m, 3);
        for v in 1..=16 { streams::transfer_calls(t, w, m, v, &input); }
    });
    t.seeded_group("T-06 lists of repacking calls", |t, r| for round in 0..2_000 {
        let n = if round % 100 < 4 { 500 + r.below(1_500) } else { r.below(12) };
        streams::list_of_calls(t, r, 1 + round % 4, n);
    });
    for (name, pairs) in [("T-06 parts after packet ends", false), ("T-06 parts after ends and at pair changes", true)] {
        t.seeded_group(name, |t, r| for round in 0..1_000 {
            let n = if round % 200 < 4 { 6_000 } else { r.below(25) };
            streams::parts(t, r, 1 + round % 4, n, pairs);
        });
    }
}
