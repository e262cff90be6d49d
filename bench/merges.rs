//! Merging two lists: safe-Rust yardsticks in three shapes, written from T-08, the check that they and the library answer and write
//! alike, and the times. `rust_us` is the faster of the two plain shapes, which copy a record or a whole turn, in that case;
//! `tuned_us` is the third, which copies a record and is compiled for each size of it. With the word `shapes`, each shape's time
//! stands below. A program of its own, for the reason that writes.rs has. Repack of what is merged is not here.
#[macro_use]
#[allow(dead_code)] // most of it is for repack
mod yardstick;
use std::{hint::black_box, time::Instant};
use yardstick::{HEAD, check_record, eight, refuse_if};

#[repr(C)]
#[derive(Clone, Copy, PartialEq, Eq, Debug)]
struct MergeAnswer { refusal: u32, port: u32, place: u64, count: u64 }

unsafe extern "C" {
    fn urd_merge(
        width: usize, user: usize, first: *const u8, first_len: usize, second: *const u8, second_len: usize, out: *mut u8, out_len: usize,
    ) -> MergeAnswer;
}

/// Port 0's list and port 1's.
type Lists<'a> = [&'a [u8]; 2];

/// Width, user bits a byte, the lists, output.
type Merger = fn(usize, usize, Lists, &mut [u8]) -> MergeAnswer;

/// The two plain shapes, the tuned one, and the library.
const ALL: [(&str, Merger); 4] = [
    ("records", |w, m, lists, out| answer(merge(w, m, lists, out, records))),
    ("turns", |w, m, lists, out| answer(merge(w, m, lists, out, turns))),
    ("sized", |w, m, lists, out| answer(merge(w, m, lists, out, sized))),
    ("ours", ours),
];

fn ours(w: usize, m: usize, [first, second]: Lists, out: &mut [u8]) -> MergeAnswer {
    // all slices are live for the whole call, and the output overlaps no list
    unsafe { urd_merge(w, m, first.as_ptr(), first.len(), second.as_ptr(), second.len(), out.as_mut_ptr(), out.len()) }
}

/// The number of records, or the refusal, its port and its place.
type Merged = Result<usize, (u32, usize, usize)>;

fn answer(merged: Merged) -> MergeAnswer {
    let (count, (refusal, port, place)) = merged.map_or_else(|refused| (0, refused), |count| (count, (0, 0, 0)));
    MergeAnswer { refusal, port: port as u32, place: place as u64, count: count as u64 }
}

/// The octets of a record of w lanes with m user bits each.
fn size(w: usize, m: usize) -> usize { 7 + w + (w * m).div_ceil(8) }

/// The first fault of a list: record by record FIELD, RESERVED, TAGS.
fn check_list(w: usize, m: usize, list: &[u8]) -> Result<(), (u32, usize)> {
    let (z, used) = (size(w, m), w * m % 8); // the bits that the last user octet has in use
    let padding = if used == 0 { 0 } else { !0u8 << used };
    for (k, rec) in list.chunks_exact(z).enumerate() {
        refuse_if(rec[z - 1] & padding != 0, 3, k)?; // check_record has the other bits of FIELD
        check_record(eight(rec) & HEAD, w, k)?;
        refuse_if(rec[1] >= 128, 17, k)?;
    }
    Ok(())
}

/// Every refusal, then the records as `put` writes them: it is given the size of a record, the lists, and as much output as they have.
#[inline(always)]
fn merge(w: usize, m: usize, lists: Lists, out: &mut [u8], put: impl FnOnce(usize, Lists, &mut [u8])) -> Merged {
    let of = |port| move |(refusal, place)| (refusal, port, place);
    refuse_if(!(1..=16).contains(&w), 1, 0).map_err(of(0))?;
    refuse_if(m > 4, 16, 0).map_err(of(0))?;
    for port in 0..2 { refuse_if(lists[port].len() > 65_536 || lists[port].len() % size(w, m) != 0, 2, 0).map_err(of(port))?; }
    for port in 0..2 { check_list(w, m, lists[port]).map_err(of(port))?; }
    let total = lists[0].len() + lists[1].len();
    refuse_if(out.len() < total, 5, 0).map_err(of(0))?;
    put(size(w, m), lists, &mut out[..total]);
    Ok(total / size(w, m))
}

/// The ports by turns. `turn` is given what is left of the port's list, what is added to its TIDs, and the output from there on; it
/// answers how many octets it has passed on, none where nothing is left.
#[inline(always)]
fn by_turns([first, second]: Lists, out: &mut [u8], turn: impl Fn(&[u8], u8, &mut [u8]) -> usize) {
    let (mut at0, mut at1) = (0, 0);
    while at0 + at1 < out.len() {
        at0 += turn(&first[at0..], 0, &mut out[at0 + at1..]);
        at1 += turn(&second[at1..], 128, &mut out[at0 + at1..]);
    }
}

/// The first shape: record by record.
#[inline(always)]
fn records(z: usize, lists: Lists, out: &mut [u8]) {
    by_turns(lists, out, |list, added, out| {
        let mut n = 0;
        while n < list.len() {
            let (rec, to) = (&list[n..n + z], &mut out[n..n + z]);
            to.copy_from_slice(rec);
            to[1] += added;
            n += z;
            if rec[0] == 1 { break; }
        }
        n
    });
}

/// The second: a turn is looked for, copied whole, and given its TIDs.
fn turns(z: usize, lists: Lists, out: &mut [u8]) {
    by_turns(lists, out, |list, added, out| {
        let (mut n, mut last) = (0, false);
        while n < list.len() && !last { (n, last) = (n + z, list[n] == 1); }
        out[..n].copy_from_slice(&list[..n]);
        let mut at = if added == 0 { n } else { 0 };
        while at < n {
            out[at + 1] += added;
            at += z;
        }
        n
    });
}

/// The third: the first one, as compiled for each size.
fn sized(z: usize, lists: Lists, out: &mut [u8]) {
    fn of<const Z: usize>(lists: Lists, out: &mut [u8]) { records(Z, lists, out) }
    by_width!(z, of(lists, out) 8 9 10 11 12 13 14 15 16 17 18 19 20 21 22 23 24 25 26 27 28 29 30 31)
}

/// A random number below n (splitmix64): the same ones in every run.
fn below(seed: &mut u64, n: u64) -> u64 {
    *seed = seed.wrapping_add(0x9E37_79B9_7F4A_7C15);
    let x = (*seed ^ *seed >> 30).wrapping_mul(0xBF58_476D_1CE4_E5B9);
    let x = (x ^ x >> 27).wrapping_mul(0x94D0_49BB_1331_11EB);
    (x ^ x >> 31) % n
}

/// A transfer record with random octets and user bits on its lanes, null and position lanes too.
fn put_record(list: &mut Vec<u8>, w: usize, m: usize, last: bool, pair: [u8; 2], keep: u64, strb: u64, seed: &mut u64) {
    list.extend([last as u8, pair[0], pair[1], keep as u8, (keep >> 8) as u8, strb as u8, (strb >> 8) as u8]);
    list.extend((0..w).map(|_| below(seed, 256) as u8));
    let user = (0..w).fold(0, |bits, j| bits | below(seed, 1 << m) << (j * m));
    list.extend(&user.to_le_bytes()[..(w * m).div_ceil(8)]);
}

/// All mergers on one call: the same answer, the same output from its first octet to its last.
fn agree(w: usize, m: usize, lists: Lists, room: usize) -> (MergeAnswer, Vec<u8>) {
    let mut first = None;
    for (name, merge) in ALL {
        let mut out: Vec<u8> = (0..room).map(|i| (i * 37 + 11) as u8).collect();
        let answer = merge(w, m, lists, &mut out);
        let first = first.get_or_insert((answer, out.clone()));
        if first.0 != answer || first.1 != out {
            let lengths = lists.map(<[u8]>::len);
            println!("{name} is not like {}: w={w} m={m} lists {lengths:?} room {room}: {answer:?} {:?}", ALL[0].0, first.0);
            std::process::exit(1);
        }
    }
    first.unwrap()
}

/// Lists with much room, with just enough, and with one octet too few. The first answer.
fn agree_at_rooms(w: usize, m: usize, lists: Lists) -> MergeAnswer {
    let need = lists[0].len() + lists[1].len();
    let answer = agree(w, m, lists, need + 50).0;
    assert!(agree(w, m, lists, need).0 == answer, "exact room is enough");
    let short = agree(w, m, lists, need.saturating_sub(1)).0.refusal;
    assert!(need == 0 || short == if answer.refusal == 0 { 5 } else { answer.refusal }, "one octet too few is ROOM, after all others");
    answer
}

/// The bounds of 1, 16 and 2, and lengths around 65,536 for either list, with zeros.
fn check_bounds() {
    let zeros = [0; 65_563];
    let lengths = [0, 1, 8, 9, 12, 17, 31, 65_520, 65_535, 65_536, 65_537, 65_544, 65_552, 65_563];
    for w in [0, 1, 4, 5, 8, 9, 16, 17, usize::MAX] {
        for m in [0, 1, 4, 5, 64, usize::MAX] {
            for (i, j) in (0..lengths.len()).flat_map(|i| [(i, 0), (0, i), (i, i), (i, 2), (3, i)]) {
                agree_at_rooms(w, m, [&zeros[..lengths[i]], &zeros[..lengths[j]]]);
            }
        }
    }
}

/// Each bit of a record, alone in the second one of either list: what is not allowed there, and what is.
fn check_bits() {
    for (w, m) in (1..=16).flat_map(|w| (0..=4).map(move |m| (w, m))) {
        for bit in 0..8 * size(w, m) {
            let (mut list, sound) = (vec![0; 2 * size(w, m)], vec![0; 3 * size(w, m)]);
            list[size(w, m) + bit / 8] = 1 << (bit % 8);
            let (one, two) = (agree(w, m, [&list, &sound], 200).0, agree(w, m, [&sound, &list], 200).0);
            assert!(one.refusal == two.refusal && two.port == (two.refusal != 0) as u32, "w={w} m={m} bit {bit}");
        }
    }
}

/// A random list of at most so many records: full, null and mixed ones, TLAST never or often, TIDs below 128.
fn random_list(w: usize, m: usize, most: u64, seed: &mut u64) -> Vec<u8> {
    let (mut list, full, ends) = (Vec::new(), (1 << w) - 1, 1 + below(seed, 5));
    for _ in 0..below(seed, most + 1) {
        let [keep, strb] = [0; 2].map(|_| [full, 0, below(seed, full + 1)][below(seed, 3) as usize]);
        let pair = [below(seed, 128) as u8, below(seed, 16) as u8];
        put_record(&mut list, w, m, below(seed, ends) == 1, pair, keep, keep & strb, seed);
    }
    list
}

/// Random lists, some of them long, and the same with a bit or two turned in headers and user octets: many of these are refused.
fn check_random() {
    let (seed, mut refused) = (&mut 1, [0; 18]);
    for round in 0..6_000 {
        let (w, m) = (1 + below(seed, 16) as usize, below(seed, 5) as usize);
        let (each, used) = (size(w, m), size(w, m) - w);
        let most = if round % 100 == 0 { 65_536 / each as u64 } else { 30 };
        let mut lists = [0; 2].map(|_| random_list(w, m, most, seed));
        refused[agree_at_rooms(w, m, [&lists[0], &lists[1]]).refusal as usize] += 1;
        for _ in 0..1 + below(seed, 2) {
            let list = &mut lists[below(seed, 2) as usize];
            let at = below(seed, used as u64) as usize; // an octet that is none of a lane's data
            let at = below(seed, 1 + (list.len() / each) as u64) as usize * each + if at < 7 { at } else { at + w };
            if let Some(octet) = list.get_mut(at) { *octet ^= 1 << below(seed, 8); }
        }
        refused[agree_at_rooms(w, m, [&lists[0], &lists[1]]).refusal as usize] += 1;
    }
    assert!([0, 3, 4, 17].iter().all(|n| refused[*n] > 50), "all are met: {refused:?}");
}

/// T-08 worked by hand, so that they are not all wrong alike: a turn of two records, one of one, the rest of port 0, then two turns
/// of port 1, since port 0 has nothing left.
fn check_worked() {
    let record = |last, tid, data| [last, tid, 2, 1, 0, 1, 0, data];
    let first = [record(0, 5, 10), record(1, 6, 11), record(0, 7, 12)].concat();
    let second = [record(1, 5, 20), record(1, 0, 21), record(0, 127, 22)].concat();
    let turns = [record(0, 5, 10), record(1, 6, 11), record(1, 133, 20)].concat();
    let wanted = [turns, [record(0, 7, 12), record(1, 128, 21), record(0, 255, 22)].concat()].concat();
    assert!(agree(1, 0, [&first, &second], 48) == (MergeAnswer { refusal: 0, port: 0, place: 0, count: 6 }, wanted), "worked");
}

/// Both lists of a case, one behind the other: in each as many whole records as fit in 65,536 octets, one pair, every lane data.
/// TLAST on each `every`-th record.
fn lists_of(w: usize, m: usize, every: usize) -> Vec<u8> {
    let (mut both, full, each, seed) = (Vec::new(), (1 << w) - 1, 65_536 / size(w, m), &mut 42);
    for k in (0..each).chain(0..each) {
        put_record(&mut both, w, m, every > 0 && (k + 1) % every == 0, [1, 2], full, full, seed);
    }
    both
}

fn halves(both: &[u8]) -> Lists<'_> { both.split_at(both.len() / 2).into() }

const ROUNDS: usize = 201;

/// The median time of each merger in microseconds. They take turns in each round, another one first each time; the output is
/// cleared before each call, outside the timing. It and the lists stand in one array, in each case and run equally far apart:
/// the time of a long copy moves with that.
fn measure(w: usize, m: usize, both: &[u8]) -> [f64; ALL.len()] {
    let (mut times, mut array) = (ALL.map(|_| Vec::new()), vec![0; 4 * 65_536]);
    let (out, place) = array.split_at_mut(2 * 65_536);
    let place = &mut place[..both.len()];
    place.copy_from_slice(both);
    let lists = halves(place);
    for round in 0..ROUNDS {
        for i in (0..ALL.len()).map(|turn| (round + turn) % ALL.len()) {
            out.fill(0);
            let begin = Instant::now();
            black_box(ALL[i].1(w, m, black_box(lists), black_box(&mut *out)));
            times[i].push(begin.elapsed().as_nanos() as f64 / 1000.0);
        }
    }
    times.each_mut().map(|t| { t.sort_by(f64::total_cmp); t[ROUNDS / 2] })
}

fn main() {
    let shapes = std::env::args().any(|word| word == "shapes");
    check_worked();
    check_bounds();
    check_bits();
    check_random();
    let mut cases = Vec::new();
    for (w, m) in [(1, 0), (4, 0), (8, 0), (16, 0), (8, 1), (16, 4)] {
        for (tlast, every) in [("1", 1), ("4", 4), ("64", 64), ("never", 0)] {
            let both = lists_of(w, m, every);
            assert!(agree_at_rooms(w, m, halves(&both)).refusal == 0, "what is measured is accepted");
            cases.push((w, m, tlast, both));
        }
    }
    println!("merge: the library and {} yardstick shapes write the same octets in every case", ALL.len() - 1);
    let (mut worst, mut tuned_worst) = (0f64, 0f64);
    for (w, m, tlast, both) in &cases {
        let times = measure(*w, *m, both);
        let [records, turns, tuned, ours] = times;
        let best = records.min(turns);
        println!("merge w={w} m={m} tlast={tlast} rust_us={best:.1} ours_us={ours:.1} ratio={:.2} tuned_us={tuned:.1}", ours / best);
        for (shape, time) in ALL.iter().zip(&times[..3]).filter(|_| shapes) {
            println!("    {}_us={time:.1}", shape.0);
        }
        (worst, tuned_worst) = (worst.max(ours / best), tuned_worst.max(ours / tuned));
    }
    println!("merge: worst {worst:.2}; against the tuned shape {tuned_worst:.2}");
}
