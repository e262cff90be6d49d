//! The library's repack against the yardstick, in one process. First all must agree, in the answer and in the whole of
//! the lent output: on edge cases, on random takes and on every take that is measured. Then the times, a line a case;
//! `rust_us` is the fastest yardstick shape in that case. With the word `shapes`, each shape's time stands below.
//! cycles.rs does the same for judge and harvest, before repack's lines; writes.rs, users.rs and merges.rs, programs of their
//! own, for write beats, for repack with user bits and for merging: here there are none.
#[macro_use]
mod yardstick;
mod cycles;
use std::{hint::black_box, time::Instant};
use yardstick::{Answer, Converter, SHAPES};

#[repr(C)]
#[derive(Clone, Copy, PartialEq, Eq, Debug)]
pub struct StreamAnswer { refusal: u32, rule: u32, place: u64, count: u64 }

unsafe extern "C" {
    fn urd_repack(width: usize, user: usize, v: usize, input: *const u8, input_len: usize, out: *mut u8, out_len: usize) -> StreamAnswer;
}

/// The library's call, as a converter.
fn ours(width: usize, v: usize, input: &[u8], out: &mut [u8]) -> Answer {
    // both slices are live for the whole call, and they do not overlap
    let a = unsafe { urd_repack(width, 0, v, input.as_ptr(), input.len(), out.as_mut_ptr(), out.len()) };
    assert!(a.rule == 0, "a repack never names a rule");
    Answer { refusal: a.refusal, place: a.place, count: a.count }
}

/// A random number below n (splitmix64): the same ones in every run.
fn below(seed: &mut u64, n: u64) -> u64 {
    *seed = seed.wrapping_add(0x9E37_79B9_7F4A_7C15);
    let x = (*seed ^ *seed >> 30).wrapping_mul(0xBF58_476D_1CE4_E5B9);
    let x = (x ^ x >> 27).wrapping_mul(0x94D0_49BB_1331_11EB);
    (x ^ x >> 31) % n
}

/// A transfer record with random octets on its lanes, null and position lanes too.
fn put_record(take: &mut Vec<u8>, w: usize, last: bool, pair: [u8; 2], keep: u64, strb: u64, seed: &mut u64) {
    take.extend([last as u8, pair[0], pair[1], keep as u8, (keep >> 8) as u8, strb as u8, (strb >> 8) as u8]);
    take.extend((0..w).map(|_| below(seed, 256) as u8));
}

/// All converters on one call: the same answer, the same output from its first octet to its last.
fn agree(all: &[(&str, Converter)], w: usize, v: usize, input: &[u8], room: usize) -> (Answer, Vec<u8>) {
    let mut first = None;
    for (name, convert) in all {
        let mut out: Vec<u8> = (0..room).map(|i| (i * 37 + 11) as u8).collect();
        let answer = convert(w, v, input, &mut out);
        let first = first.get_or_insert((answer, out.clone()));
        if first.0 != answer || first.1 != out {
            println!("{name} is not like {}: w={w} v={v} take {} room {room}: {answer:?} {:?}", all[0].0, input.len(), first.0);
            std::process::exit(1);
        }
    }
    first.unwrap()
}

/// A take with much room (no answer is six times its length), with just enough, and with one octet too few.
fn agree_at_rooms(all: &[(&str, Converter)], w: usize, v: usize, input: &[u8]) {
    let answer = agree(all, w, v, input, 6 * input.len() + 50).0;
    let need = answer.count as usize * v.saturating_add(7);
    assert!(agree(all, w, v, input, need).0 == answer, "exact room is enough");
    assert!(need == 0 || agree(all, w, v, input, need - 1).0.refusal == 5, "one octet too few is ROOM");
}

fn check(all: &[(&str, Converter)]) {
    // paper 01's S1, so that they are not all wrong alike; then the bounds of 1 and 2, and lengths around 65,536
    let s1 = agree(all, 4, 4, &[1, 1, 2, 0x0D, 0, 9, 0, 0x11, 0x22, 0x33, 0x44], 11);
    assert!(s1.1 == [1, 1, 2, 7, 0, 5, 0, 0x11, 0, 0x44, 0], "S1");
    for (w, v) in [(0, 1), (17, 1), (1, 0), (1, 17), (usize::MAX, 1), (1, usize::MAX), (9, 9), (1, 1), (16, 1), (5, 16)] {
        for length in [0, 1, 7, 8, 12, 23, 65_527, 65_528, 65_535, 65_536, 65_537, 65_544, 65_550, 65_552] {
            agree_at_rooms(all, w, v, &vec![0; length]);
        }
    }
    let seed = &mut 1;
    for round in 0..3_000 {
        let (w, v) = (1 + below(seed, 16) as usize, 1 + below(seed, 16) as usize);
        let records = if round % 100 == 0 { 65_536 / (7 + w as u64) } else { below(seed, 60) };
        // full, null and mixed records; position lanes in half of the takes; TLAST never or often; one pair or more
        let (kinds, positions) = (1 + below(seed, 3), below(seed, 2) == 1);
        let (ends, pairs) = (1 + below(seed, 5), 1 + below(seed, 4));
        let (mut take, full) = (Vec::new(), (1 << w) - 1);
        for _ in 0..records {
            let mut lanes = |kinds| [full, 0, below(seed, full + 1)][below(seed, kinds) as usize];
            let keep = lanes(kinds);
            let strb = keep & if positions { lanes(3) } else { full };
            let pair = (below(seed, pairs * pairs) / pairs) as u8;
            put_record(&mut take, w, below(seed, ends) == 1, [pair, 15 * (pair & 1)], keep, strb, seed);
        }
        agree_at_rooms(all, w, v, &take);
        // the same with one or two header bits turned: most of these are refused
        for _ in 0..if records > 0 { 1 + below(seed, 2) } else { 0 } {
            let at = below(seed, records) as usize * (7 + w) + below(seed, 7) as usize;
            take[at] ^= 1 << below(seed, 8);
        }
        agree_at_rooms(all, w, v, &take);
    }
}

/// The take of a case: as many whole records as fit in 65,536 octets, one pair. Three lanes in four are null by their
/// number over the whole take (periodic), or at random from a fixed seed. TLAST on each `every`-th record.
fn take_of(w: usize, lanes: &str, every: usize) -> Vec<u8> {
    let (mut take, seed) = (Vec::new(), &mut 42);
    for k in 0..65_536 / (7 + w) {
        let mut data = |j| lanes == "data" || if lanes == "periodic" { (k * w + j) % 4 == 0 } else { below(seed, 4) == 0 };
        let keep = (0..w).fold(0, |keep, j| keep | (data(j) as u64) << j);
        put_record(&mut take, w, every > 0 && (k + 1) % every == 0, [1, 2], keep, keep, seed);
    }
    take
}

const ROUNDS: usize = 201;

/// The median time of each converter in microseconds. They take turns in each round, another one first each time.
fn measure(all: &[(&str, Converter)], w: usize, v: usize, take: &[u8], out: &mut [u8]) -> Vec<f64> {
    let mut times = vec![Vec::new(); all.len()];
    for round in 0..ROUNDS {
        for i in (0..all.len()).map(|turn| (round + turn) % all.len()) {
            // The output is cleared before each call, outside the timing, alike for all: each finds it in the cache in
            // the same state, and none gains from what the call before has written.
            out.fill(0);
            let begin = Instant::now();
            black_box(all[i].1(w, v, black_box(take), black_box(&mut *out)));
            times[i].push(begin.elapsed().as_nanos() as f64 / 1000.0);
        }
    }
    times.iter_mut().for_each(|t| t.sort_by(f64::total_cmp));
    times.iter().map(|t| t[ROUNDS / 2]).collect()
}

fn main() {
    let shapes = std::env::args().any(|word| word == "shapes");
    let all = [&SHAPES[..], &[("ours", ours)]].concat();
    cycles::run();
    check(&all);
    let mut cases = Vec::new();
    for i in 0..81 {
        let (w, v, lanes) = ([1, 4, 16][i / 9 % 3], [1, 4, 16][i / 3 % 3], ["data", "periodic", "random"][i / 27]);
        let (tlast, every) = [("never", 0), ("16", 16), ("1", 1)][i % 3];
        let take = take_of(w, lanes, every);
        agree_at_rooms(&all, w, v, &take);
        cases.push((w, v, lanes, tlast, take));
    }
    println!("repack: the library and {} yardstick shapes write the same octets in every case", SHAPES.len());
    let (mut out, mut worst) = (vec![0; 45_584 * 8], 0f64); // room for the longest answer, width 16 to 1
    for (w, v, lanes, tlast, take) in &cases {
        let times = measure(&all, *w, *v, take, &mut out);
        let (ours, rust) = times.split_last().unwrap();
        let best = rust.iter().copied().fold(f64::MAX, f64::min);
        println!("w={w} v={v} lanes={lanes} tlast={tlast} rust_us={best:.1} ours_us={ours:.1} ratio={:.2}", ours / best);
        for (shape, time) in all.iter().zip(rust).filter(|_| shapes) {
            println!("    {}_us={time:.1}", shape.0);
        }
        worst = worst.max(ours / best);
    }
    println!("worst={worst:.2}");
}
