//! Lists for two ports (T-08), sound ones and others, for the self test and for the comparison; and what may be wrong with them, in
//! the order in which it is refused. How lists are merged is not known here.
use crate::model::{FIELD, LENGTH, MOST_OCTETS, RESERVED, ROOM, TAGS, USERBITS, WIDTH, record_octets};
use crate::model_merge::{MergeAnswer, refused};
use crate::tally::Random;

/// How often a record has TLAST: never, one in so many, each.
pub const ENDS: [usize; 5] = [0, 9, 3, 2, 1];

/// Every width with every number of user bits.
pub fn shapes() -> impl Iterator<Item = (usize, usize)> { (1..=16).flat_map(|w| (0..=4).map(move |m| (w, m))) }

/// Any user bits, on null lanes too; the padding is zero.
fn user_octets(r: &mut Random, w: usize, m: usize) -> Vec<u8> {
    if m == 0 { return Vec::new(); }
    let bits = match r.below(4) { 0 => 0, 1 => u64::MAX, _ => r.next() } & u64::MAX >> (64 - w * m);
    bits.to_le_bytes()[..record_octets(w, m) - 7 - w].to_vec()
}

/// A record that is not refused: one of few pairs, lanes full, all null or mixed, and any octets on all of them.
pub fn record(r: &mut Random, w: usize, m: usize, last: bool) -> Vec<u8> {
    let all = u16::MAX >> (16 - w);
    let keep = match r.below(4) { 0 => all, 1 => 0, _ => r.next() as u16 & all };
    let strb = if r.one_in(2) { keep } else { keep & r.next() as u16 };
    let any = r.below(128) as u8;
    let mut octets = vec![u8::from(last), r.pick(&[0, 0, 1, 2, 64, 127, any]), r.pick(&[0, 0, 0, 1, 15])];
    octets.extend(keep.to_le_bytes().into_iter().chain(strb.to_le_bytes()));
    octets.extend((0..w).map(|_| r.next() as u8));
    octets.extend(user_octets(r, w, m));
    octets
}

pub fn list(r: &mut Random, w: usize, m: usize, n: usize, ends: usize) -> Vec<u8> {
    (0..n).flat_map(|_| { let last = ends > 0 && r.one_in(ends); record(r, w, m, last) }).collect()
}

/// What a call is asked: the shape, the list of each port, and how many octets are lent for the answer.
#[derive(Clone)]
pub struct Asked { pub w: usize, pub m: usize, pub lists: [Vec<u8>; 2], pub room: usize }

impl Asked {
    /// The room is exact.
    pub fn of(w: usize, m: usize, lists: [Vec<u8>; 2]) -> Asked {
        let room = lists[0].len() + lists[1].len();
        Asked { w, m, lists, room }
    }
    /// Lists of so many records, each with TLAST as often as any of `ENDS` says.
    pub fn any(r: &mut Random, w: usize, m: usize, n: [usize; 2]) -> Asked {
        let lists = n.map(|n| { let ends = r.pick(&ENDS); list(r, w, m, n, ends) });
        Asked::of(w, m, lists)
    }
    pub fn into_room(&self, room: usize) -> Asked { Asked { room, ..self.clone() } }
    pub fn lent(&self) -> [&[u8]; 2] { [&self.lists[0], &self.lists[1]] }
    pub fn size(&self) -> usize { record_octets(self.w, self.m) }
    /// Octet `at` of record k of a port.
    pub fn octet(&mut self, port: usize, k: usize, at: usize) -> &mut u8 {
        let size = self.size();
        &mut self.lists[port][k * size + at]
    }
    pub fn flip(&mut self, port: usize, k: usize, bit: usize) { *self.octet(port, k, bit / 8) ^= 1 << (bit % 8); }
    pub fn reserve(&mut self, port: usize, k: usize, lane: usize) {
        *self.octet(port, k, 3 + lane / 8) &= !(1 << (lane % 8));
        *self.octet(port, k, 5 + lane / 8) |= 1 << (lane % 8);
    }
}

/// What a call is refused for. The least of several is what it answers: they are in the request's order, and so are the port,
/// the record and the refusal's number in those of records.
#[derive(Clone, Copy, PartialEq, Eq, PartialOrd, Ord, Debug)]
pub enum Fault { Width, User, Length { port: usize }, Record { port: usize, k: usize, refusal: u32 }, Room }

impl Fault {
    pub fn answer(self) -> MergeAnswer {
        match self {
            Fault::Width => refused(WIDTH, 0, 0),
            Fault::User => refused(USERBITS, 0, 0),
            Fault::Length { port } => refused(LENGTH, port, 0),
            Fault::Record { port, k, refusal } => refused(refusal, port, k),
            Fault::Room => refused(ROOM, 0, 0),
        }
    }
}

/// All that there are with lists of so many records each.
pub fn every_fault(n: usize) -> Vec<Fault> {
    let places = (0..2).flat_map(|port| (0..n).map(move |k| (port, k)));
    let records = places.flat_map(|(port, k)| [FIELD, RESERVED, TAGS].map(|refusal| Fault::Record { port, k, refusal }));
    let others = [Fault::Width, Fault::User, Fault::Length { port: 0 }, Fault::Length { port: 1 }, Fault::Room];
    others.into_iter().chain(records).collect()
}

/// The bits of a record that must be zero: of octet 0 all but TLAST, TDEST above 15, lanes at or above the width, the padding.
pub fn zero_bits(w: usize, m: usize) -> Vec<usize> {
    let padding = 8 * (7 + w) + w * m..8 * record_octets(w, m);
    (1..8).chain(20..24).chain(24 + w..40).chain(40 + w..56).chain(padding).collect()
}

/// A list that is no whole number of records, by octets more or fewer; one in forty is over-long instead.
fn spoil_length(r: &mut Random, a: &mut Asked, port: usize) {
    let (size, list) = (a.size(), a.lists[port].clone());
    let odd = 1 + r.below(size - 1);
    if r.one_in(40) {
        let one = if list.is_empty() { vec![0; size] } else { list };
        a.lists[port] = one.repeat(MOST_OCTETS / one.len() + 1);
    } else if list.is_empty() || r.one_in(2) {
        a.lists[port].extend((0..odd).map(|_| r.next() as u8));
    } else {
        a.lists[port].truncate(list.len() - odd);
    }
}

/// Sound lists with these faults, and no other. ROOM needs a record; a room that is too short may hold one list.
pub fn spoil(r: &mut Random, a: &mut Asked, faults: &[Fault]) {
    let (shape, need, first) = ((a.w, a.m), a.room, a.lists[0].len()); // as they were when sound
    for fault in faults {
        let (lane, bit, less) = (r.below(shape.0), r.pick(&zero_bits(shape.0, shape.1)), r.below(need));
        match *fault {
            Fault::Record { port, k, refusal: FIELD } => a.flip(port, k, bit),
            Fault::Record { port, k, refusal: RESERVED } => a.reserve(port, k, lane),
            Fault::Record { port, k, .. } => *a.octet(port, k, 1) |= 128,
            Fault::Room => a.room = r.pick(&[0, need - 1, need - 1, first.min(need - 1), less]),
            _ => {}
        }
    }
    for port in (0..2).filter(|port| faults.contains(&Fault::Length { port: *port })) { spoil_length(r, a, port); }
    if faults.contains(&Fault::User) { a.m = r.pick(&[5, 6, 8, 256 + a.m, (1 << 32) + a.m, usize::MAX]); }
    if faults.contains(&Fault::Width) { a.w = r.pick(&[0, 17, 18, 256 + a.w, (1 << 32) + a.w, usize::MAX]); }
}
