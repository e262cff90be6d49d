//! Change request T-08, two cameras on one link: cases worked out by hand from its text and typed literally, and what it says of
//! every merged list. They run against the model in the self test, and against the library in the comparison.
use crate::cases::hex;
use crate::merge_lists::{Asked, shapes};
use crate::model_merge::MergeAnswer;
use crate::tally::{Random, Tally};

/// Width, user bits, the lists of port 0 and of port 1, which stay as they are, and the lent output.
pub type MergeCall = fn(usize, usize, [&mut [u8]; 2], &mut [u8]) -> MergeAnswer;

/// A merging: width, user bits, the two lists, and the merged one. A `|` stands between records.
type Hand = (usize, usize, &'static str, &'static str, &'static str);

// Records of one lane: a data item of the pair (5, 2), without and with TLAST.
const A1: &str = "00 05 02 01 00 01 00 A1";
const ALONE: &str = "00 05 02 01 00 01 00 A1 | 00 05 02 01 00 01 00 A2 | 01 05 02 01 00 01 00 A3 | 00 05 02 01 00 01 00 A4";
// Sixteen lanes with four bits each, and nine lanes, of which lane 8 is the second octet's.
const SIXTEEN: &str = "00 7F 0F FF FF FF FF 60 61 62 63 64 65 66 67 68 69 6A 6B 6C 6D 6E 6F 10 32 54 76 98 BA DC FE";
const NINE: &str = "01 00 00 00 01 00 01 90 91 92 93 94 95 96 97 98";

const BY_HAND: [Hand; 27] = [
    (1, 0, "", "", ""),
    (1, 0, A1, "", A1),
    (1, 0, ALONE, "", ALONE), // port 1 has nothing, and is skipped
    (1, 0, "", A1, "00 85 02 01 00 01 00 A1"),
    (1, 0, "", "01 05 02 01 00 01 00 B1 | 00 00 0F 01 00 00 00 B2 | 01 00 0F 01 00 00 00 B3",
        "01 85 02 01 00 01 00 B1 | 00 80 0F 01 00 00 00 B2 | 01 80 0F 01 00 00 00 B3"),
    (1, 0, A1, A1, "00 05 02 01 00 01 00 A1 | 00 85 02 01 00 01 00 A1"), // the same pair on both ports
    // No TLAST at all: the turn goes over at the list's end.
    (1, 0, "00 01 00 01 00 01 00 A1 | 00 02 00 01 00 01 00 A2", "00 01 00 01 00 01 00 B1 | 00 02 00 01 00 01 00 B2",
        "00 01 00 01 00 01 00 A1 | 00 02 00 01 00 01 00 A2 | 00 81 00 01 00 01 00 B1 | 00 82 00 01 00 01 00 B2"),
    // TLAST on each.
    (1, 0, "01 01 00 01 00 01 00 A1 | 01 01 00 01 00 01 00 A2", "01 01 00 01 00 01 00 B1 | 01 01 00 01 00 01 00 B2",
        "01 01 00 01 00 01 00 A1 | 01 81 00 01 00 01 00 B1 | 01 01 00 01 00 01 00 A2 | 01 81 00 01 00 01 00 B2"),
    // Packets of two and one on port 0, of one and two on port 1.
    (1, 0, "00 01 00 01 00 01 00 A1 | 01 01 00 01 00 01 00 A2 | 01 01 00 01 00 01 00 A3",
        "01 01 00 01 00 01 00 B1 | 00 01 00 01 00 01 00 B2 | 01 01 00 01 00 01 00 B3",
        "00 01 00 01 00 01 00 A1 | 01 01 00 01 00 01 00 A2 | 01 81 00 01 00 01 00 B1 | 01 01 00 01 00 01 00 A3 | 00 81 00 01 00 01 00 B2 | 01 81 00 01 00 01 00 B3"),
    // A TLAST of another TID, or of another TDEST, ends the turn in the middle of the first pair's packet.
    (1, 0, "00 01 00 01 00 01 00 A1 | 01 02 00 01 00 01 00 A2 | 01 01 00 01 00 01 00 A3", "01 01 00 01 00 01 00 B1",
        "00 01 00 01 00 01 00 A1 | 01 02 00 01 00 01 00 A2 | 01 81 00 01 00 01 00 B1 | 01 01 00 01 00 01 00 A3"),
    (1, 0, "00 01 00 01 00 01 00 A1 | 01 01 0F 01 00 01 00 A2 | 01 01 00 01 00 01 00 A3", "00 01 01 01 00 01 00 B1 | 01 01 02 01 00 01 00 B2 | 00 01 01 01 00 01 00 B3",
        "00 01 00 01 00 01 00 A1 | 01 01 0F 01 00 01 00 A2 | 00 81 01 01 00 01 00 B1 | 01 81 02 01 00 01 00 B2 | 01 01 00 01 00 01 00 A3 | 00 81 01 01 00 01 00 B3"),
    // All-null records are passed on too, with their octets and in their turn; and end none.
    (1, 0, "00 07 01 00 00 00 00 C1 | 01 01 00 01 00 01 00 A1 | 00 07 01 00 00 00 00 C2", "00 06 02 00 00 00 00 D1 | 00 06 02 00 00 00 00 D2 | 01 01 00 01 00 01 00 B1",
        "00 07 01 00 00 00 00 C1 | 01 01 00 01 00 01 00 A1 | 00 86 02 00 00 00 00 D1 | 00 86 02 00 00 00 00 D2 | 01 81 00 01 00 01 00 B1 | 00 07 01 00 00 00 00 C2"),
    (1, 0, "00 07 01 00 00 00 00 C1", "00 7F 0F 00 00 00 00 D1", "00 07 01 00 00 00 00 C1 | 00 FF 0F 00 00 00 00 D1"),
    // A record with TLAST alone ends a turn.
    (1, 0, "00 01 00 01 00 01 00 A1 | 01 01 00 00 00 00 00 EE | 00 01 00 01 00 01 00 A2", "01 01 00 00 00 00 00 EF | 00 01 00 01 00 01 00 B1",
        "00 01 00 01 00 01 00 A1 | 01 01 00 00 00 00 00 EE | 01 81 00 00 00 00 00 EF | 00 01 00 01 00 01 00 A2 | 00 81 00 01 00 01 00 B1"),
    (1, 0, "01 01 00 00 00 00 00 EE | 01 01 00 00 00 00 00 ED", "01 01 00 00 00 00 00 EF",
        "01 01 00 00 00 00 00 EE | 01 81 00 00 00 00 00 EF | 01 01 00 00 00 00 00 ED"),
    // Once a port has nothing left the other one has every turn; first port 0's list is the shorter one, then port 1's.
    (1, 0, "01 01 00 01 00 01 00 A1", "01 01 00 01 00 01 00 B1 | 01 01 00 01 00 01 00 B2 | 00 01 00 01 00 01 00 B3 | 01 01 00 01 00 01 00 B4 | 00 01 00 01 00 01 00 B5",
        "01 01 00 01 00 01 00 A1 | 01 81 00 01 00 01 00 B1 | 01 81 00 01 00 01 00 B2 | 00 81 00 01 00 01 00 B3 | 01 81 00 01 00 01 00 B4 | 00 81 00 01 00 01 00 B5"),
    (1, 0, "01 01 00 01 00 01 00 A1 | 01 01 00 01 00 01 00 A2 | 01 01 00 01 00 01 00 A3 | 00 01 00 01 00 01 00 A4", "00 01 00 01 00 01 00 B1",
        "01 01 00 01 00 01 00 A1 | 00 81 00 01 00 01 00 B1 | 01 01 00 01 00 01 00 A2 | 01 01 00 01 00 01 00 A3 | 00 01 00 01 00 01 00 A4"),
    // A list that ends without TLAST ends its turn, and the other one goes on from there.
    (1, 0, "01 01 00 01 00 01 00 A1 | 00 01 00 01 00 01 00 A2", "01 01 00 01 00 01 00 B1 | 01 01 00 01 00 01 00 B2 | 00 01 00 01 00 01 00 B3",
        "01 01 00 01 00 01 00 A1 | 01 81 00 01 00 01 00 B1 | 00 01 00 01 00 01 00 A2 | 01 81 00 01 00 01 00 B2 | 00 81 00 01 00 01 00 B3"),
    // TIDs 0, 1, 126 and 127: port 0's go out as they are, port 1's as 128, 129, 254 and 255.
    (1, 0, "00 00 00 01 00 01 00 A1 | 00 01 00 01 00 01 00 A2 | 00 7E 00 01 00 01 00 A3 | 00 7F 00 01 00 01 00 A4",
        "00 00 00 01 00 01 00 B1 | 00 01 00 01 00 01 00 B2 | 00 7E 00 01 00 01 00 B3 | 00 7F 00 01 00 01 00 B4",
        "00 00 00 01 00 01 00 A1 | 00 01 00 01 00 01 00 A2 | 00 7E 00 01 00 01 00 A3 | 00 7F 00 01 00 01 00 A4 | \
         00 80 00 01 00 01 00 B1 | 00 81 00 01 00 01 00 B2 | 00 FE 00 01 00 01 00 B3 | 00 FF 00 01 00 01 00 B4"),
    // P1's transfer, its null and position octets kept; with three user bits, those of null lanes kept too.
    (4, 0, "01 01 02 0D 00 09 00 11 22 33 44", "01 01 02 0D 00 09 00 11 22 33 44", "01 01 02 0D 00 09 00 11 22 33 44 | 01 81 02 0D 00 09 00 11 22 33 44"),
    (4, 3, "01 01 02 0D 00 09 00 11 22 33 44 AF 0C", "00 01 02 00 00 00 00 55 66 77 88 FF 0F | 01 7F 0F 0F 00 00 00 01 02 03 04 10 08",
        "01 01 02 0D 00 09 00 11 22 33 44 AF 0C | 00 81 02 00 00 00 00 55 66 77 88 FF 0F | 01 FF 0F 0F 00 00 00 01 02 03 04 10 08"),
    (1, 1, "00 03 00 00 00 00 00 DD 01", "00 03 00 01 00 00 00 DE 01", "00 03 00 00 00 00 00 DD 01 | 00 83 00 01 00 00 00 DE 01"),
    (2, 4, "01 03 00 02 00 02 00 C0 C1 F0 | 01 03 00 03 00 00 00 C2 C3 0F", "00 03 00 01 00 01 00 E0 E1 FF",
        "01 03 00 02 00 02 00 C0 C1 F0 | 00 83 00 01 00 01 00 E0 E1 FF | 01 03 00 03 00 00 00 C2 C3 0F"),
    (16, 4, SIXTEEN, SIXTEEN, "00 7F 0F FF FF FF FF 60 61 62 63 64 65 66 67 68 69 6A 6B 6C 6D 6E 6F 10 32 54 76 98 BA DC FE | \
        00 FF 0F FF FF FF FF 60 61 62 63 64 65 66 67 68 69 6A 6B 6C 6D 6E 6F 10 32 54 76 98 BA DC FE"),
    (16, 0, "", "01 40 08 00 80 00 80 60 61 62 63 64 65 66 67 68 69 6A 6B 6C 6D 6E 6F", "01 C0 08 00 80 00 80 60 61 62 63 64 65 66 67 68 69 6A 6B 6C 6D 6E 6F"),
    (9, 0, NINE, NINE, "01 00 00 00 01 00 01 90 91 92 93 94 95 96 97 98 | 01 80 00 00 01 00 01 90 91 92 93 94 95 96 97 98"),
    (9, 1, "00 01 00 FF 01 FE 01 90 91 92 93 94 95 96 97 98 00 01", "00 01 00 00 01 00 00 90 91 92 93 94 95 96 97 98 01 00",
        "00 01 00 FF 01 FE 01 90 91 92 93 94 95 96 97 98 00 01 | 00 81 00 00 01 00 00 90 91 92 93 94 95 96 97 98 01 00"),
];

const LENT: u8 = 0xC2; // the octet on either side of a list: FIELD, if it were read as a record's first
const TAIL: u8 = 0xC3; // each octet of the output before

fn octets(text: &str) -> Vec<u8> { hex(&text.replace('|', " ")) }

/// The answer, these octets at the front of the output, and all else as it was: the rest of it, the lists, and an octet on
/// either side of each.
fn leaves(t: &mut Tally, merge: MergeCall, (w, m): (usize, usize), lists: [&[u8]; 2], room: usize, answer: MergeAnswer, front: &[u8]) {
    let mut lent = lists.map(|list| [&[LENT], list, &[LENT]].concat());
    let need = lists[0].len() + lists[1].len();
    let (kept, mut out) = (lent.clone(), vec![TAIL; room.max(need) + 2]); // what does not see that the room is too short does no harm
    let mut expected = out.clone();
    expected[1..=front.len()].copy_from_slice(front);
    let [first, second] = &mut lent;
    let got = merge(w, m, [&mut first[1..=lists[0].len()], &mut second[1..=lists[1].len()]], &mut out[1..=room]);
    let begins = |octets: &[u8]| format!("{} octets {:02x?}", octets.len(), &octets[..octets.len().min(60)]);
    let inputs = || format!("merge {w}, user bits {m}, room {room}, {} and {}", begins(lists[0]), begins(lists[1]));
    t.same(got, answer, inputs);
    t.check(out == expected, || format!("{}\n    written  {}\n    expected {}", inputs(), begins(&out), begins(&expected)));
    t.check(lent == kept, || format!("{}: a list changed", inputs()));
}

/// Into just the room, into more, and with an octet less, which is ROOM, as no room at all is.
fn merges(t: &mut Tally, merge: MergeCall, shape: (usize, usize), lists: [&[u8]; 2], count: u64, merged: &[u8]) {
    let need = merged.len();
    for room in [need, need + 1, need + 40] { leaves(t, merge, shape, lists, room, MergeAnswer { count, ..Default::default() }, merged); }
    if need == 0 { return; }
    for room in [need - 1, 0] { leaves(t, merge, shape, lists, room, MergeAnswer { refusal: 5, ..Default::default() }, &[]); }
}

fn by_hand(t: &mut Tally, merge: MergeCall) {
    for (w, m, first, second, merged) in BY_HAND {
        let count = merged.split('|').filter(|record| !record.is_empty()).count() as u64;
        merges(t, merge, (w, m), [&octets(first), &octets(second)], count, &octets(merged));
    }
}

// Records of two lanes with a user bit each: good, of TID 127; with a tag alone; all null with a tag; with a reserved lane and a tag;
// with a bit set that must be zero, a reserved lane and a tag: one of the padding, one of octet 0.
const GOOD: &str = "01 7F 00 03 00 03 00 11 22 03";
const TAG: &str = "01 80 00 03 00 03 00 11 22 03";
const NULL_TAG: &str = "00 FF 00 00 00 00 00 11 22 03";
const RESERVED: &str = "01 80 00 01 00 03 00 11 22 03";
const PADDING: &str = "01 80 00 01 00 03 00 11 22 07";
const FIELD: &str = "02 80 00 01 00 03 00 11 22 03";

/// The lists, and (refusal, port, place).
type Refused<'a> = (&'a [&'static str], &'a [&'static str], (u32, u32, u64));

const REFUSED: [Refused; 30] = [
    (&[FIELD, "00"], &[FIELD, "00"], (2, 0, 0)), // LENGTH of port 0 first, then of port 1, then all else
    (&["00"], &[], (2, 0, 0)),
    (&[FIELD], &[FIELD, "00"], (2, 1, 0)),
    (&[], &["00 00 00 00 00 00 00 00 00"], (2, 1, 0)),
    (&[FIELD], &[FIELD], (3, 0, 0)), // port 0's records first, each with 3, 4, 17
    (&[PADDING], &[FIELD], (3, 0, 0)),
    (&[RESERVED, FIELD], &[FIELD], (4, 0, 0)),
    (&[TAG, RESERVED, FIELD], &[FIELD], (17, 0, 0)),
    (&[NULL_TAG, FIELD], &[FIELD], (17, 0, 0)),
    (&[GOOD, FIELD, TAG], &[TAG], (3, 0, 1)),
    (&[GOOD, RESERVED], &[RESERVED], (4, 0, 1)),
    (&[GOOD, GOOD, TAG], &[GOOD, TAG], (17, 0, 2)),
    (&[GOOD, GOOD, NULL_TAG], &[FIELD], (17, 0, 2)),
    (&[GOOD, TAG], &[FIELD, "00"], (2, 1, 0)),
    (&[GOOD], &[FIELD], (3, 1, 0)), // then port 1's; the place is the record in its own list
    (&[GOOD, GOOD], &[GOOD, PADDING, TAG], (3, 1, 1)),
    (&[GOOD], &[RESERVED, FIELD], (4, 1, 0)),
    (&[GOOD, GOOD, GOOD], &[GOOD, RESERVED], (4, 1, 1)),
    (&[GOOD], &[TAG, FIELD], (17, 1, 0)),
    (&[GOOD], &[NULL_TAG, RESERVED], (17, 1, 0)),
    (&[GOOD, GOOD], &[GOOD, GOOD, GOOD, TAG], (17, 1, 3)),
    (&[GOOD], &[GOOD, NULL_TAG], (17, 1, 1)),
    (&[], &[TAG], (17, 1, 0)),
    (&[TAG], &[], (17, 0, 0)),
    (&[], &["01 80 00 00 00 00 00 00 00 00"], (17, 1, 0)), // TLAST alone
    (&["01 80 00 00 00 00 00 00 00 00"], &[GOOD], (17, 0, 0)),
    (&["01 7F 10 03 00 03 00 11 22 03"], &[TAG], (3, 0, 0)), // TDEST 16
    (&["01 7F 0F 07 00 03 00 11 22 03"], &[GOOD], (3, 0, 0)), // lane 2
    (&[GOOD], &["01 7F 0F 07 00 07 00 11 22 03"], (3, 1, 0)),
    (&[GOOD], &["01 7F 0F 03 00 07 00 11 22 03"], (3, 1, 0)),
];

/// Each is refused whatever the room; a bad width, then user bits, come before all of it, and ROOM after all.
fn refusals(t: &mut Tally, merge: MergeCall) {
    let refused = |refusal, port, place| MergeAnswer { refusal, port, place, count: 0 };
    for (first, second, (refusal, port, place)) in REFUSED {
        let [first, second] = [first, second].map(|list| octets(&list.join(" ")));
        let lists: [&[u8]; 2] = [&first, &second];
        for room in [0, 9, 10, 70] {
            leaves(t, merge, (2, 1), lists, room, refused(refusal, port, place), &[]);
            for w in [0, 17, usize::MAX] { for m in [1, 5] { leaves(t, merge, (w, m), lists, room, refused(1, 0, 0), &[]); } }
            for m in [5, 257, usize::MAX] { leaves(t, merge, (2, m), lists, room, refused(16, 0, 0), &[]); }
        }
    }
    let good = octets(&[GOOD, GOOD].join(" "));
    for room in [0, 10, 20, 29, 30, 39] { leaves(t, merge, (2, 1), [&good, &good], room, refused(5, 0, 0), &[]); }
}

/// Lists of 65,536 octets, all-null records of one lane with TID 0, are 131,072 octets together. One record or octet more is LENGTH,
/// also where port 0's list has FIELD.
fn longest(t: &mut Tally, merge: MergeCall) {
    let [none, field] = ["00", "02"].map(|flags| octets(&format!("{flags} 00 00 00 00 00 00 00 ")));
    let (most, more) = (none.repeat(8_192), none.repeat(8_193));
    let merged = [most.clone(), octets("00 80 00 00 00 00 00 00").repeat(8_192)].concat();
    merges(t, merge, (1, 0), [&most, &most], 16_384, &merged);
    merges(t, merge, (1, 0), [&most, &[]], 8_192, &most);
    let ends = octets("01 00 00 00 00 00 00 00").repeat(8_192);
    let taken = octets("01 00 00 00 00 00 00 00 01 80 00 00 00 00 00 00").repeat(8_192);
    merges(t, merge, (1, 0), [&ends, &ends], 16_384, &taken);
    let odd = &more[..65_537];
    for (first, second, port) in [(&more[..], &more[..], 0), (&more, &most, 0), (&most, &more, 1), (&field, &more, 1), (odd, &field, 0), (&field, odd, 1)] {
        for room in [0, 131_072, 131_088] {
            leaves(t, merge, (1, 0), [first, second], room, MergeAnswer { refusal: 2, port, ..Default::default() }, &[]);
        }
    }
}

// ---- what the request says of an accepted answer, read off the merged list by its TIDs ----

fn port_of(record: &[u8]) -> usize { usize::from(record[1] >> 7) }

/// A port's share of merged or repacked records, in order, its TIDs restored.
pub fn share(size: usize, merged: &[u8], port: usize) -> Vec<u8> {
    let mut octets: Vec<u8> = merged.chunks(size).filter(|record| port_of(record) == port).flatten().copied().collect();
    for record in octets.chunks_mut(size) { record[1] &= 0x7F; }
    octets
}

/// Behind each record stands, where both ports have some left, one of the same port just where it has no TLAST; else one of the port
/// that has some left. The first is port 0's unless it has none. So neither gets two turns running while both have transfers.
fn turns_go_over(size: usize, lists: [&[u8]; 2], merged: &[u8]) -> bool {
    let ports: Vec<usize> = merged.chunks(size).map(port_of).collect();
    let mut left = lists.map(|list| list.len() / size);
    if ports.first().is_some_and(|port| *port == 1 && left[0] > 0) { return false; }
    ports.windows(2).zip(merged.chunks(size)).all(|(pair, record)| {
        let (port, other) = (pair[0], 1 - pair[0]);
        left[port] = left[port].saturating_sub(1);
        let stays = if left[other] == 0 { true } else if left[port] == 0 { false } else { record[0] & 1 == 0 };
        stays == (pair[1] == port)
    })
}

pub fn claims(t: &mut Tally, size: usize, lists: [&[u8]; 2], merged: &[u8]) {
    let begins = |octets: &[u8]| format!("{:02x?}", &octets[..octets.len().min(99)]);
    let says = |what: &str| format!("{what}, records of {size} octets, {:?}\n    merged   {}", lists.map(begins), begins(merged));
    for port in 0..2 { t.check(share(size, merged, port) == lists[port], || says(&format!("share of port {port}"))); }
    t.check(turns_go_over(size, lists, merged), || says("turns"));
}

fn some_claims(t: &mut Tally, r: &mut Random, merge: MergeCall, w: usize, m: usize) {
    let n = [r.below(9), r.below(9)];
    let mut a = Asked::any(r, w, m, n);
    let (mut out, kept, size) = (vec![TAIL; a.room + 1], a.lists.clone(), a.size());
    let [first, second] = &mut a.lists;
    let answer = merge(w, m, [first, second], &mut out[..a.room]);
    t.same(answer, MergeAnswer { count: (n[0] + n[1]) as u64, ..Default::default() }, || format!("merge {w}, user bits {m}, {kept:02x?}"));
    t.same(out.pop(), Some(TAIL), || format!("the octet behind merge {w}, user bits {m}, {kept:02x?}"));
    claims(t, size, [&kept[0], &kept[1]], &out);
}

pub fn merges_of(t: &mut Tally, merge: MergeCall) {
    t.group("T-08 by hand", |t| by_hand(t, merge));
    t.group("T-08 refusals in order", |t| refusals(t, merge));
    t.group("T-08 longest lists by hand", |t| longest(t, merge));
    t.seeded_group("T-08 each port's share, and turns", |t, r| for (w, m) in shapes() { for _ in 0..60 { some_claims(t, r, merge, w, m) } });
}
