//! Change request T-07, "no shorter stream": the least number of records of width v that carry these items in this order, by
//! dynamic programming over the items. Written from the request's text and paper 01's 'What a stream carries' alone: how a
//! stream is packed is not known here.
use crate::model::{self, Item, What};
use crate::tally::Random;
use std::ops::RangeInclusive;

/// How many items, from the front of this list, one record may carry: bytes of one pair, v at most, and with TLAST that pair's end
/// behind them. A record that carries none is legal too, and never helps.
fn one_record(v: usize, list: &[Item]) -> RangeInclusive<usize> {
    let mut same = list.iter().take_while(|item| item.pair == list[0].pair).map(|item| item.what);
    let bytes = same.clone().take(v).take_while(|what| *what != What::End).count();
    let ended = same.nth(bytes) == Some(What::End);
    1..=bytes + usize::from(ended)
}

/// At i the least number of records that carry the items from i on: one, and the least for what it leaves.
fn table(v: usize, list: &[Item]) -> Vec<usize> {
    let mut least = vec![0; list.len() + 1];
    for i in (0..list.len()).rev() {
        let left = one_record(v, &list[i..]).map(|n| least[i + n]).min();
        least[i] = 1 + left.expect("a record carries one item at least");
    }
    least
}

pub fn fewest(v: usize, list: &[Item]) -> usize { table(v, list)[0] }

/// A legal record with these items, its bytes on any lanes, in order. Null lanes have any octet and any user bits, position
/// lanes any octet.
fn record(r: &mut Random, v: usize, m: usize, pair: (u8, u8), list: &[Item]) -> Vec<u8> {
    let bytes: Vec<What> = list.iter().map(|item| item.what).filter(|what| *what != What::End).collect();
    let (mut keep, mut strb, mut lane, mut spare) = (0u16, 0u16, 0, v - bytes.len());
    let mut data: Vec<u8> = (0..v).map(|_| r.next() as u8).collect();
    let mut users: Vec<u8> = (0..v).map(|_| r.below(1 << m) as u8).collect();
    for what in &bytes {
        let skipped = r.below(spare + 1);
        (lane, spare) = (lane + skipped, spare - skipped);
        keep |= 1 << lane;
        match *what {
            What::Data(octet, user) => { strb |= 1 << lane; data[lane] = octet; users[lane] = user }
            What::Position(user) => users[lane] = user,
            What::End => {}
        }
        lane += 1;
    }
    let user = users.iter().enumerate().fold(0u64, |all, (lane, user)| all | u64::from(*user) << (lane * m));
    let mut octets = vec![u8::from(bytes.len() < list.len()), pair.0, pair.1];
    octets.extend(keep.to_le_bytes().into_iter().chain(strb.to_le_bytes()).chain(data));
    octets.extend(&user.to_le_bytes()[..model::record_octets(v, m) - 7 - v]);
    octets
}

/// A legal stream of width v with these items: a shortest one, or any, with all-null records of any pair in front, between and behind.
pub fn stream(r: &mut Random, v: usize, m: usize, list: &[Item], shortest: bool) -> Vec<u8> {
    let least = table(v, list);
    let (mut octets, mut at) = (Vec::new(), 0);
    loop {
        while !shortest && r.one_in(4) {
            let pair = (r.next() as u8, r.below(16) as u8);
            octets.extend(record(r, v, m, pair, &[]));
        }
        if at == list.len() { return octets; }
        let ways: Vec<usize> = one_record(v, &list[at..]).filter(|n| !shortest || least[at] == 1 + least[at + n]).collect();
        let n = r.pick(&ways);
        octets.extend(record(r, v, m, list[at].pair, &list[at..at + n]));
        at += n;
    }
}
