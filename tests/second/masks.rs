//! Bursts at which a wrong mask would show (T-04), sound ones and refused ones: for the self test and for the comparison.
//! Their starts are rounded with remainders, as in the model.
use crate::model::{Burst, FIXED, INCR, WRAP};

const BLOCK: u32 = 4096;

/// Each size, with each bus that takes it.
pub fn sizes_and_buses() -> impl Iterator<Item = (u32, u32)> { (0..8).flat_map(|size| (size..8).map(move |n| (size, 1 << n))) }

fn distinct(mut starts: Vec<u32>) -> Vec<u32> {
    starts.sort();
    starts.dedup();
    starts
}

/// Bit p alone, all bits below it, all but it, it and all above it; each also rounded down to the beat, so that WRAP takes it.
fn bit_starts(p: u32, size: u32) -> Vec<u32> {
    let bit = 1u32 << p;
    distinct([bit, bit - 1, !bit, !(bit - 1)].into_iter().flat_map(|s| [s, s - s % (1 << size)]).collect())
}

/// AxLEN: each count of WRAP, the bounds of each kind; and for INCR the last beat of the start's block, and one more.
fn lengths(kind: u32, start: u32, size: u32) -> Vec<u32> {
    let last = (BLOCK - 1 - start % BLOCK) >> size;
    match kind {
        FIXED => vec![0, 15, 16],
        INCR => vec![0, 1, 2, 15, 255, 256, last, last + 1],
        _ => vec![0, 1, 3, 7, 15, 16],
    }
}

/// Each kind, size, bus and such a length, at each start that bit p makes.
pub fn at_bit(p: u32) -> Vec<Burst> {
    let mut list = Vec::new();
    for (size, bus) in sizes_and_buses() {
        for start in bit_starts(p, size) {
            for kind in [FIXED, INCR, WRAP] {
                list.extend(lengths(kind, start, size).into_iter().map(|len| Burst { start, len, size, kind, bus }));
            }
        }
    }
    list
}

/// The edges with a single bit, and 0 for 2^32.
pub fn edges() -> impl Iterator<Item = u32> { (0..32).map(|p| 1 << p).chain([0]) }

/// Each kind, size, bus and count of WRAP: one byte below the edge, at it and one above it, and so too at the address that is
/// one beat, one container or one bus before it. From there on the addresses carry up to the edge's bit.
pub fn at_edge(edge: u32) -> Vec<Burst> {
    let mut list = Vec::new();
    for (size, bus) in sizes_and_buses() {
        for len in [1, 3, 7, 15] {
            let places = [0, 1 << size, (len + 1) << size, bus].map(|before| edge.wrapping_sub(before));
            let starts = distinct(places.into_iter().flat_map(|x| [x.wrapping_sub(1), x, x.wrapping_add(1)]).collect());
            for kind in [FIXED, INCR, WRAP] { list.extend(starts.iter().map(|&start| Burst { start, len, size, kind, bus })); }
        }
    }
    list
}
