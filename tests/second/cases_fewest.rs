//! Change request T-07, "no shorter stream": least numbers worked out by hand, and every short stream there is. The cases run
//! against any repacking call: the model's in the self test, and the library's in the comparison.
use crate::cases::ConvertCall;
use crate::model::{self, Item};
use crate::model_fewest;
use crate::tally::Tally;
use std::collections::HashMap;

const WIDTHS: [usize; 6] = [1, 2, 3, 4, 5, 16];

/// A record of width 1 for each letter: a and b are data bytes of two pairs, p is a position byte of a's pair, A and B are the
/// ends of the pairs, - is an all-null record of a third pair. Then the least number of records at each of `WIDTHS`.
type Hand = (&'static str, [usize; 6]);

const BY_HAND: [Hand; 27] = [
    ("", [0, 0, 0, 0, 0, 0]),
    ("-", [0, 0, 0, 0, 0, 0]),
    ("a", [1, 1, 1, 1, 1, 1]),
    ("A", [1, 1, 1, 1, 1, 1]),
    ("AA", [2, 2, 2, 2, 2, 2]), // a record has one TLAST
    ("aA", [1, 1, 1, 1, 1, 1]),
    ("-a--A-", [1, 1, 1, 1, 1, 1]),
    ("Aa", [2, 2, 2, 2, 2, 2]), // TLAST ends its record
    ("ab", [2, 2, 2, 2, 2, 2]), // and a record has one pair
    ("aB", [2, 2, 2, 2, 2, 2]),
    ("aBA", [3, 3, 3, 3, 3, 3]),
    ("aba", [3, 3, 3, 3, 3, 3]),
    ("aAbB", [2, 2, 2, 2, 2, 2]),
    ("aaAaaA", [4, 2, 2, 2, 2, 2]),
    ("aaAAaaA", [5, 3, 3, 3, 3, 3]),
    ("aa", [2, 1, 1, 1, 1, 1]),
    ("aap", [3, 2, 1, 1, 1, 1]),
    ("aapA", [3, 2, 1, 1, 1, 1]),
    ("a-a-p-A", [3, 2, 1, 1, 1, 1]),
    ("aaaa", [4, 2, 2, 1, 1, 1]),
    ("aaaaA", [4, 2, 2, 1, 1, 1]), // the end needs no record of its own behind full ones
    ("aaaaAA", [5, 3, 3, 2, 2, 2]),
    ("aaaaaA", [5, 3, 2, 2, 1, 1]),
    ("aabbaa", [6, 3, 3, 3, 3, 3]),
    ("aaabaaaA", [7, 5, 3, 3, 3, 3]),
    ("aaaaaaaaaaaaaaaaA", [16, 8, 6, 4, 4, 1]),
    ("aaaaaaaaaaaaaaaaaA", [17, 9, 6, 5, 4, 2]),
];

fn letter(c: char, m: usize, k: usize) -> Vec<u8> {
    let (last, pair, keep, strb) = match c {
        'a' => (0, [1, 2], 1, 1),
        'p' => (0, [1, 2], 1, 0),
        'A' => (1, [1, 2], 0, 0),
        'b' => (0, [1, 3], 1, 1),
        'B' => (1, [1, 3], 0, 0),
        _ => (0, [9, 9], 0, 0),
    };
    let mut octets = vec![last, pair[0], pair[1], keep, 0, strb, 0, 0x60 + k as u8];
    if m > 0 { octets.push((k % (1 << m)) as u8); }
    octets
}

/// The call answers this number, in just the room for it; with an octet less it is ROOM.
fn answers(t: &mut Tally, repack: ConvertCall, (w, m, v): (usize, usize, usize), input: &[u8], least: usize) {
    let mut room = vec![0; least * model::record_octets(v, m)];
    let answer = repack(w, m, v, input, &mut room);
    t.same((answer.refusal, answer.count), (0, least as u64), || format!("repack {w} to {v}, user bits {m}, {input:02x?}"));
    if least == 0 { return; }
    room.pop();
    t.same(repack(w, m, v, input, &mut room).refusal, model::ROOM, || format!("repack {w} to {v}, user bits {m}, an octet less, {input:02x?}"));
}

fn by_hand(t: &mut Tally, repack: ConvertCall) {
    for ((letters, numbers), m) in BY_HAND.into_iter().flat_map(|hand| (0..=4).map(move |m| (hand, m))) {
        let input: Vec<u8> = letters.chars().enumerate().flat_map(|(k, c)| letter(c, m, k)).collect();
        let list = model::items(1, m, &input);
        for (v, least) in WIDTHS.into_iter().zip(numbers) {
            t.same(model_fewest::fewest(v, &list), least, || format!("the least number at width {v} for {letters:?}"));
            answers(t, repack, (1, m, v), &input, least);
        }
    }
}

/// Record number k of all that there are at width v, with two pairs and one octet of data: TLAST, the pair, and each lane null, a position or data.
fn numbered(v: usize, k: usize) -> Vec<u8> {
    let kinds = (0..v as u32).map(|lane| k / 4 / 3usize.pow(lane) % 3);
    let mask = |from| kinds.clone().enumerate().filter(|(_, kind)| *kind >= from).map(|(lane, _)| 1u8 << lane).sum();
    let mut octets = vec![k as u8 & 1, k as u8 >> 1 & 1, 0, mask(1), 0, mask(2), 0];
    octets.extend(kinds.clone().map(|kind| if kind == 2 { 7 } else { 99 }));
    octets
}

/// All streams of width v of up to `most` records.
fn every_stream(v: usize, most: usize) -> Vec<Vec<u8>> {
    let mut all = vec![Vec::new()];
    let mut from = 0;
    for _ in 0..most {
        let to = all.len();
        for i in from..to { for k in 0..4 * 3usize.pow(v as u32) { all.push([all[i].clone(), numbered(v, k)].concat()); } }
        from = to;
    }
    all
}

/// Of all streams with the same items the shortest one's records: nothing is computed, they are all looked at. A shortest one is among
/// them, since it has no more records than this one, and no other pair or octet.
fn every_short_stream(t: &mut Tally, repack: ConvertCall, v: usize, most: usize) {
    let all: Vec<(Vec<u8>, Vec<Item>)> = every_stream(v, most).into_iter().map(|s| (s.clone(), model::items(v, 0, &s))).collect();
    let mut fewest: HashMap<&[Item], usize> = HashMap::new();
    for (stream, list) in &all {
        let records = stream.len() / model::record_octets(v, 0);
        fewest.entry(list).and_modify(|n| *n = records.min(*n)).or_insert(records);
    }
    for (stream, list) in &all {
        let least = fewest[&list[..]];
        t.same(model_fewest::fewest(v, list), least, || format!("the least number at width {v} for {list:?}"));
        answers(t, repack, (v, 0, v), stream, least);
    }
}

pub fn all(t: &mut Tally, repack: ConvertCall) {
    t.group("T-07 by hand", |t| by_hand(t, repack));
    t.group("T-07 every short stream", |t| for (v, most) in [(1, 4), (2, 3), (3, 2), (4, 2)] { every_short_stream(t, repack, v, most) });
}
