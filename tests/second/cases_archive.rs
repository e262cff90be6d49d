//! Archived files: what lane-keeping mode wrote. Cases of the slices' definition, for the self test; and such files, worked out by hand,
//! for any repacking call: the model's in the self test, the library's in the comparison.
use crate::cases::{ConvertCall, P1_TRANSFER, S1};
use crate::cases_user::{Hand, Lane, SLICED, converts, lanes, octets, result, size};
use crate::merge_lists::{ENDS, list, shapes};
use crate::model::{self, StreamAnswer};
use crate::tally::{Random, Tally};

/// The definition: width, user bits, output width, which divides the width, and a legal stream.
pub type Slices = fn(usize, usize, usize, &[u8]) -> Vec<u8>;

/// A width, a number of user bits, and the width of slices.
pub type Cut = (usize, usize, usize);

/// Each that there is.
pub fn cuts() -> impl Iterator<Item = Cut> {
    shapes().flat_map(|(w, m)| divisors(w).map(move |v| (w, m, v)))
}

pub fn divisors(w: usize) -> impl Iterator<Item = usize> { (1..=w).filter(move |v| w % v == 0) }

// S2's records of width 2, and what becomes of them where they are sliced again, to width 1.
const S2: &str = "00 01 02 01 00 01 00 11 00 | 01 01 02 03 00 02 00 00 44";
const S2_TWICE: &str = "00 01 02 01 00 01 00 11 | 00 01 02 00 00 00 00 00 | 00 01 02 01 00 00 00 00 | 01 01 02 01 00 01 00 44";
const S2_BITS: &str = "00 01 02 01 00 01 00 11 00 07 | 01 01 02 03 00 02 00 00 44 32"; // with T-06's bits 7 5 2 6 of three each
const S2_TWICE_BITS: &str = "00 01 02 01 00 01 00 11 08 | 00 01 02 00 00 00 00 00 00 | 00 01 02 01 00 00 00 00 04 | 01 01 02 01 00 01 00 44 01"; // 8 F 4 1
// The out.bin of examples/archive: P1's transfer, and a packet of two transfers, data data null null and null null data data.
const EXAMPLE: &str = "00 01 02 01 00 01 00 11 00 | 01 01 02 03 00 02 00 00 44 | 00 01 02 03 00 03 00 21 22 | \
    00 01 02 00 00 00 00 00 00 | 00 01 02 00 00 00 00 00 00 | 01 01 02 03 00 03 00 23 24";
// Slices of one lane: of two nulls and an end, twice; of data, null and an end, as in S3; of one stretch, with nulls of another pair
// inside it; and of S7, each transfer with a null behind its data.
const ENDS_ONLY: &str = "00 07 00 00 00 00 00 00 | 01 07 00 00 00 00 00 00 | 00 07 00 00 00 00 00 00 | 01 07 00 00 00 00 00 00";
const LATE_END: &str = "00 00 00 01 00 01 00 AA | 01 00 00 00 00 00 00 00";
const NULLS_BETWEEN: &str = "00 01 00 01 00 01 00 5A | 00 01 00 00 00 00 00 00 | 00 02 00 00 00 00 00 00 | \
    00 02 00 00 00 00 00 00 | 00 01 00 00 00 00 00 00 | 00 01 00 01 00 01 00 5B";
const S7: &str = "00 01 00 01 00 01 00 5A | 00 01 00 00 00 00 00 00 | 00 02 00 01 00 01 00 5A | \
    00 02 00 00 00 00 00 00 | 00 01 00 01 00 01 00 5A | 00 01 00 00 00 00 00 00";

/// The records that these are slices of.
const MADE_FROM: [Hand; 7] = [
    (4, 0, 1, P1_TRANSFER, S2_TWICE),
    (2, 0, 1, S2, S2_TWICE),
    (4, 0, 2, "01 01 02 0D 00 09 00 11 22 33 44 | 00 01 02 03 00 03 00 21 22 00 00 | 01 01 02 0C 00 0C 00 00 00 23 24", EXAMPLE),
    (2, 0, 1, "01 07 00 00 00 00 00 98 99 | 01 07 00 00 00 00 00 00 00", ENDS_ONLY),
    (2, 0, 1, "01 00 00 01 00 01 00 AA BB", LATE_END),
    (2, 0, 1, "00 01 00 01 00 01 00 5A 98 | 00 02 00 00 00 00 00 98 99 | 00 01 00 02 00 02 00 99 5B", NULLS_BETWEEN),
    (2, 0, 1, "00 01 00 01 00 01 00 5A 98 | 00 02 00 01 00 01 00 5A 99 | 00 01 00 01 00 01 00 5A 00", S7),
];

const P1_OUT: &str = "00 01 02 03 00 01 00 11 00 | 01 01 02 01 00 01 00 44 00"; // the out.bin of case P1

/// What archived files are repacked to.
const BY_HAND: [Hand; 17] = [
    (2, 0, 4, S2, S1),
    (2, 0, 2, S2, P1_OUT),
    (2, 0, 1, S2, "00 01 02 01 00 01 00 11 | 00 01 02 01 00 00 00 00 | 01 01 02 01 00 01 00 44"),
    (2, 0, 3, S2, "01 01 02 07 00 05 00 11 00 44"),
    (1, 0, 4, S2_TWICE, S1),
    (1, 0, 2, S2_TWICE, P1_OUT),
    (2, 3, 3, S2_BITS, "01 01 02 07 00 05 00 11 00 44 97 01"),
    (1, 4, 2, S2_TWICE_BITS, "00 01 02 03 00 01 00 11 00 48 | 01 01 02 01 00 01 00 44 00 01"),
    (2, 0, 4, EXAMPLE, "01 01 02 07 00 05 00 11 00 44 00 | 01 01 02 0F 00 0F 00 21 22 23 24"),
    (2, 0, 2, EXAMPLE, "00 01 02 03 00 01 00 11 00 | 01 01 02 01 00 01 00 44 00 | 00 01 02 03 00 03 00 21 22 | 01 01 02 03 00 03 00 23 24"),
    (2, 0, 3, EXAMPLE, "01 01 02 07 00 05 00 11 00 44 | 00 01 02 07 00 07 00 21 22 23 | 01 01 02 01 00 01 00 24 00 00"),
    (1, 0, 1, ENDS_ONLY, "01 07 00 00 00 00 00 00 | 01 07 00 00 00 00 00 00"),
    (1, 0, 2, ENDS_ONLY, "01 07 00 00 00 00 00 00 00 | 01 07 00 00 00 00 00 00 00"),
    (1, 0, 1, LATE_END, "01 00 00 01 00 01 00 AA"),
    (1, 0, 2, NULLS_BETWEEN, "00 01 00 03 00 03 00 5A 5B"),
    (1, 0, 1, S7, "00 01 00 01 00 01 00 5A | 00 02 00 01 00 01 00 5A | 00 01 00 01 00 01 00 5A"),
    (1, 0, 2, S7, "00 01 00 01 00 01 00 5A 00 | 00 02 00 01 00 01 00 5A 00 | 00 01 00 01 00 01 00 5A 00"),
];

/// An archived file that is not repacked: its width, user bits, output width, its octets, the octets lent, the refusal and its place.
type Refused = (usize, usize, usize, &'static str, usize, u32, u64);

const REFUSED: [Refused; 19] = [
    (2, 0, 4, "00 01 02 01 00 01 00 11 00 | 01 01 02 01 00 02 00 00 44", 40, 4, 1), // a lane became reserved
    (2, 0, 4, "00 01 02 01 00 01 00 11 00 | 02 01 02 03 00 02 00 00 44", 40, 3, 1), // a flag of a cycle
    (2, 0, 4, "00 01 10 01 00 01 00 11 00 | 01 01 02 03 00 02 00 00 44", 40, 3, 0),
    (2, 0, 4, "00 01 02 05 00 01 00 11 00 | 01 01 02 03 00 02 00 00 44", 40, 3, 0), // a third lane
    (2, 3, 4, "00 01 02 01 00 01 00 11 00 07 | 01 01 02 03 00 02 00 00 44 72", 40, 3, 1), // padding
    (2, 0, 4, "00 01 02 01 00 01 00 11 00 | 02 01 02 01 00 02 00 00 44", 40, 3, 1), // 3 before 4
    (2, 0, 4, "00 01 02 00 00 01 00 11 00 | 02 01 02 03 00 02 00 00 44", 40, 4, 0), // but an earlier record first
    (2, 0, 4, "00 01 02 01 00 01 00 11 00 | 01 01 02 03 00 02 00 00", 40, 2, 0), // cut
    (2, 0, 4, "00 01 02 01 00 01 00 11", 40, 2, 0),
    (2, 0, 4, "02 01 02 01 00 01 00 11 00 | 01", 40, 2, 0), // 2 before 3
    (4, 0, 4, S2, 40, 2, 0), // the take's width, not the file's
    (2, 1, 4, S2, 40, 2, 0),
    (2, 3, 4, S2, 40, 2, 0),
    (2, 5, 4, S2, 40, 16, 0),
    (2, 0, 0, S2, 40, 1, 0),
    (2, 5, 17, S2, 40, 1, 0),
    (0, 0, 4, S2, 40, 1, 0),
    (2, 0, 4, S2, 10, 5, 0), // S1 has 11 octets
    (2, 0, 2, S2, 0, 5, 0),
];

const UNTOUCHED: u8 = 0xC3;

fn refuses(t: &mut Tally, repack: ConvertCall, (v, m, u, file, room, refusal, place): Refused) {
    let mut lent = vec![UNTOUCHED; room];
    let answer = repack(v, m, u, &octets(file), &mut lent);
    let expected = StreamAnswer { refusal, place, ..Default::default() };
    t.same((answer, lent), (expected, vec![UNTOUCHED; room]), || format!("repack {v} to {u}, user bits {m}, room {room}, {file}"));
}

/// Records and their slices, both by hand: at every width they are packed to the same.
fn packed_alike(t: &mut Tally, repack: ConvertCall, (w, m, v, input, sliced): Hand) {
    for u in 1..=16 {
        let [original, file] = [(w, input), (v, sliced)].map(|(w, records)| result(repack, w, m, u, &octets(records)));
        t.same((file.0.refusal, file), (0, original), || format!("slices {w} to {v}, user bits {m}, repacked to {u}, {sliced}"));
    }
}

/// Archived files repacked.
pub fn files(t: &mut Tally, repack: ConvertCall) {
    t.group("archives by hand", |t| for hand in BY_HAND { converts(t, repack, hand) });
    t.group("archive refusals by hand", |t| for refused in REFUSED { refuses(t, repack, refused) });
    t.group("slices by hand are packed alike", |t| for hand in SLICED.into_iter().chain(MADE_FROM) { packed_alike(t, repack, hand) });
}

/// The text read lane by lane: each stays what it was, with its octet where it has data, with its bits where it is kept. Each slice has
/// its record's TID and TDEST, the last one its TLAST, and no bit is set that must be zero.
fn lane_by_lane(t: &mut Tally, slices: Slices, (w, m, v): Cut, stream: &[u8]) {
    let file = slices(w, m, v, stream);
    let says = || format!("slices {w} to {v}, user bits {m}, {stream:02x?}, got {file:02x?}");
    let carries = |(keep, strb, octet, bits): Lane| (keep, strb, if keep && strb { octet } else { 0 }, if keep { bits } else { 0 });
    let kept: Vec<Lane> = lanes(w, m, stream).into_iter().map(carries).collect();
    t.check(lanes(v, m, &file) == kept, says);
    let heads = stream.chunks(size(w, m)).flat_map(|r| (1..=w / v).map(move |k| [if k == w / v { r[0] } else { 0 }, r[1], r[2]]));
    t.check(file.chunks(size(v, m)).map(|s| [s[0], s[1], s[2]]).eq(heads), says);
    t.check(file.chunks(size(v, m)).all(|s| !model::field_is_wrong(v, m, s, 0x01)), says);
}

/// Sliced once more they are the narrower slices at once; and they carry what their stream carries.
fn twice(t: &mut Tally, slices: Slices, (w, m, v): Cut, stream: &[u8]) {
    let file = slices(w, m, v, stream);
    for u in divisors(v) {
        t.same(slices(v, m, u, &file), slices(w, m, u, stream), || format!("slices {w} to {v} to {u}, user bits {m}, {stream:02x?}"));
    }
    t.same(model::items(v, m, &file), model::items(w, m, stream), || format!("items of slices {w} to {v}, user bits {m}, {stream:02x?}"));
}

/// Something said of the slices of a stream.
type Claim = fn(&mut Tally, Slices, Cut, &[u8]);

/// At every cut, of lists with TLAST as often as each of `ENDS` says.
fn at_every_cut(t: &mut Tally, r: &mut Random, slices: Slices, claim: Claim) {
    for (cut, ends) in cuts().flat_map(|cut| ENDS.map(|ends| (cut, ends))) {
        for n in 0..8 { let stream = list(r, cut.0, cut.1, n, ends); claim(t, slices, cut, &stream); }
    }
}

fn sliced(t: &mut Tally, slices: Slices, (w, m, v, input, sliced): Hand) {
    t.same(slices(w, m, v, &octets(input)), octets(sliced), || format!("slices {w} to {v}, user bits {m}, {input}"));
}

/// Paper 01's lane-keeping, as a definition.
pub fn definition(t: &mut Tally, slices: Slices) {
    t.group("slices by hand", |t| for hand in [(4, 0, 2, P1_TRANSFER, S2)].into_iter().chain(SLICED).chain(MADE_FROM) { sliced(t, slices, hand) });
    t.seeded_group("slices lane by lane", |t, r| at_every_cut(t, r, slices, lane_by_lane));
    t.seeded_group("slices of slices, and their items", |t, r| at_every_cut(t, r, slices, twice));
}
