//! Repack with user bits: safe-Rust yardsticks in three shapes, written from T-06, the check that they and the library answer and
//! write alike at every m from 0 to 4, and the times at m = 2. `rust_us` is the faster of the two plain shapes, which go lane by
//! lane, in that case; `tuned_us` is the third, which moves full records whole and is compiled for each width. With the word
//! `shapes`, each shape's time stands below. A program of its own, for the reason that writes.rs has.
#[macro_use]
#[allow(dead_code)] // repack without user bits is measured by main.rs
mod yardstick;
use std::{hint::black_box, time::Instant};
use yardstick::{Answer, Counted, HEAD, KEEP, LAST, PAIR, Stretches};
use yardstick::{answer, check_record, eight, filled, finish, keep_of, records_of, refuse_if, strb_of};

#[repr(C)]
struct StreamAnswer { refusal: u32, rule: u32, place: u64, count: u64 }

unsafe extern "C" {
    fn urd_repack(width: usize, user: usize, v: usize, input: *const u8, input_len: usize, out: *mut u8, out_len: usize) -> StreamAnswer;
}

/// Width, user bits a byte, output width, input, output.
type Converter = fn(usize, usize, usize, &[u8], &mut [u8]) -> Answer;

/// The two plain shapes, the tuned one, and the library.
const ALL: [(&str, Converter); 4] = [
    ("direct", |w, m, v, input, out| answer(lane_by_lane(w, m, v, input, out))),
    ("codes", |w, m, v, input, out| answer(codes(w, m, v, input, out))),
    ("arrays", |w, m, v, input, out| answer(arrays(w, m, v, input, out))),
    ("ours", ours),
];

fn ours(w: usize, m: usize, v: usize, input: &[u8], out: &mut [u8]) -> Answer {
    // both slices are live for the whole call, and they do not overlap
    let a = unsafe { urd_repack(w, m, v, input.as_ptr(), input.len(), out.as_mut_ptr(), out.len()) };
    assert!(a.rule == 0, "a repack never names a rule");
    Answer { refusal: a.refusal, place: a.place, count: a.count }
}

/// The octets of a record of w lanes with m user bits each.
fn size(w: usize, m: usize) -> usize { 7 + w + (w * m).div_ceil(8) }

/// A mask of the n lowest of 64 bits.
fn low_bits(n: usize) -> u64 { !u64::MAX.checked_shl(n as u32).unwrap_or(0) }

/// The refusals that come before any record is read.
fn check_take(w: usize, m: usize, v: usize, input: &[u8]) -> Result<(), (u32, usize)> {
    refuse_if(!(1..=16).contains(&w) || !(1..=16).contains(&v), 1, 0)?;
    refuse_if(m > 4, 16, 0)?;
    refuse_if(input.len() > 65_536 || input.len() % size(w, m) != 0, 2, 0)
}

/// Record k of a take: its header as one number, its lanes, and their user bits, lane 0 in the lowest. Or its fault.
#[inline]
fn read(rec: &[u8], w: usize, m: usize, k: usize) -> Result<(u64, &[u8], u64), (u32, usize)> {
    let (head, (lanes, user)) = (eight(rec) & HEAD, rec[7..].split_at(w));
    let user = user.iter().rev().fold(0, |bits, &octet| bits << 8 | octet as u64);
    refuse_if(user & !low_bits(w * m) != 0, 3, k)?; // the padding; check_record has the other bits of FIELD
    check_record(head, w, k)?;
    Ok((head, lanes, user))
}

/// A record whose n items stand on its lanes: header, null lanes, user bits.
#[inline]
fn complete(rec: &mut [u8], v: usize, n: usize, head: u64, user: u64) {
    finish(rec, v, n, head);
    for (octet, bits) in rec[7 + v..].iter_mut().zip(user.to_le_bytes()) { *octet = bits; }
}

// The first shape: a pass for the refusals and the number of records, then lane by lane straight to the output.

fn judge(w: usize, m: usize, v: usize, input: &[u8], out: &[u8]) -> Counted {
    check_take(w, m, v, input)?;
    let (mut count, mut open, mut pair) = (0, 0usize, 0);
    for (k, rec) in input.chunks_exact(size(w, m)).enumerate() {
        let (head, ..) = read(rec, w, m, k)?;
        if head & PAIR != pair && head & (KEEP | LAST) != 0 {
            count += open.div_ceil(v);
            (open, pair) = (0, head & PAIR);
        }
        open += keep_of(head).count_ones() as usize;
        if head & LAST == 1 { (count, open) = (count + records_of(open, v), 0); }
    }
    count += open.div_ceil(v);
    refuse_if(out.len() < count * size(v, m), 5, 0)?;
    Ok(count)
}

/// The output from the open record on, and what that record has so far.
struct Open<'a> { out: &'a mut [u8], m: usize, v: usize, pair: u64, n: usize, strb: u64, user: u64 }

impl Open<'_> {
    fn close(&mut self, last: u64) {
        let (rec, rest) = std::mem::take(&mut self.out).split_at_mut(size(self.v, self.m));
        complete(rec, self.v, self.n, last | self.pair | self.strb << 40, self.user);
        (self.out, self.n, self.strb, self.user) = (rest, 0, 0, 0);
    }

    fn add(&mut self, octet: u8, data: usize, bits: u64) {
        if self.n == self.v { self.close(0); }
        self.out[7 + self.n] = octet * data as u8;
        self.strb |= (data as u64) << self.n;
        self.user |= bits << (self.n * self.m);
        self.n += 1;
    }
}

fn lane_by_lane(w: usize, m: usize, v: usize, input: &[u8], out: &mut [u8]) -> Counted {
    let count = judge(w, m, v, input, out)?;
    let mut open = Open { out, m, v, pair: 0, n: 0, strb: 0, user: 0 };
    for (k, rec) in input.chunks_exact(size(w, m)).enumerate() {
        let (head, lanes, mut user) = read(rec, w, m, k)?;
        if head & PAIR != open.pair && head & (KEEP | LAST) != 0 {
            if open.n > 0 { open.close(0); }
            open.pair = head & PAIR;
        }
        for (j, &octet) in lanes.iter().enumerate() {
            if keep_of(head) >> j & 1 == 1 { open.add(octet, strb_of(head) >> j & 1, user & low_bits(m)); }
            user >>= m;
        }
        if head & LAST == 1 { open.close(1); }
    }
    if open.n > 0 { open.close(0); }
    Ok(count)
}

// The other two: one pass into items and a table of stretches, then the records.

/// The number of records that the stretches of a table give, where there is room for them.
fn count_of(table: &[u32], m: usize, v: usize, out: &[u8]) -> Counted {
    let count = table.iter().map(|e| records_of((e & 0xFFFF) as usize, v)).sum();
    refuse_if(out.len() < count * size(v, m), 5, 0)?;
    Ok(count)
}

/// Each record of the packed form in turn, as `put` writes it: it is given the record, its first item, the number of its
/// items, and TLAST and the pair.
#[inline(always)]
fn put_all(table: &[u32], m: usize, v: usize, out: &mut [u8], mut put: impl FnMut(&mut [u8], usize, usize, u64)) {
    let (mut recs, mut from) = (out.chunks_exact_mut(size(v, m)), 0);
    for e in table {
        let (mut left, pair) = ((e & 0xFFFF) as usize, (e >> 9) as u64 & PAIR);
        while left > v {
            put(recs.next().unwrap(), from, v, pair);
            (from, left) = (from + v, left - v);
        }
        put(recs.next().unwrap(), from, left, pair | (e >> 16) as u64 & LAST);
        from += left;
    }
}

/// An item as one number: octet + 256 * strobe + 512 * bits.
fn codes(w: usize, m: usize, v: usize, input: &[u8], out: &mut [u8]) -> Counted {
    check_take(w, m, v, input)?;
    let records = input.len() / size(w, m);
    let (mut items, mut table) = (vec![0u16; records * w + 1], vec![0; records + 1]);
    let (mut n, mut st) = (0, Stretches { table: &mut table, m: 0, start: 0, pair: 0 });
    for (k, rec) in input.chunks_exact(size(w, m)).enumerate() {
        let (head, lanes, mut user) = read(rec, w, m, k)?;
        st.turn(n, head);
        let (mut keep, mut strb) = (keep_of(head), strb_of(head));
        for &octet in lanes {
            items[n] = octet as u16 + 256 * (strb & 1) as u16 + 512 * (user & low_bits(m)) as u16;
            n += keep & 1;
            (keep, strb, user) = (keep >> 1, strb >> 1, user >> m);
        }
        if head & LAST == 1 { st.close(n, 1); }
    }
    let table = { let closed = st.cut(n); &table[..closed] };
    let count = count_of(table, m, v, out)?;
    put_all(table, m, v, out, |rec, from, n, head| {
        let (mut strb, mut user) = (0, 0);
        for (j, item) in items[from..from + n].iter().enumerate() {
            let data = item >> 8 & 1;
            rec[7 + j] = (item * data) as u8;
            strb |= (data as u64) << j;
            user |= ((item >> 9) as u64) << (j * m);
        }
        complete(rec, v, n, head | strb << 40, user);
    });
    Ok(count)
}

/// Numbers of a few bits each without gaps, in words. What is behind those that were put is zero.
struct Bits(Vec<u64>);

impl Bits {
    fn of(bits: usize) -> Self { Bits(vec![0; bits / 64 + 2]) }

    fn put(&mut self, at: usize, x: u64) {
        self.0[at / 64] |= x << (at % 64);
        self.0[at / 64 + 1] |= x >> 1 >> (63 - at % 64);
    }

    /// The n bits from `at` on.
    fn get(&self, at: usize, n: usize) -> u64 {
        (self.0[at / 64] >> (at % 64) | self.0[at / 64 + 1] << 1 << (63 - at % 64)) & low_bits(n)
    }
}

/// Octets, strobes and user bits of the items, each for themselves: those of a full record are moved whole.
struct Items { octets: Vec<u8>, strobes: Bits, users: Bits }

/// Reads the take, as compiled for its width: the number of its stretches, or the fault and its record.
#[inline(never)] // apart, so that the compiler knows the slices do not overlap
fn parse<const W: usize>(m: usize, input: &[u8], items: &mut Items, table: &mut [u32]) -> Counted {
    let (mut n, mut st) = (0, Stretches { table, m: 0, start: 0, pair: 0 });
    for (k, rec) in input.chunks_exact(size(W, m)).enumerate() {
        let (head, lanes, user) = read(rec, W, m, k)?;
        let (keep, strb) = (keep_of(head), strb_of(head));
        st.turn(n, head);
        if head & filled(16) == filled(W) {
            items.octets[n..n + W].copy_from_slice(lanes);
            items.strobes.put(n, strb as u64);
            items.users.put(n * m, user);
            n += W;
        } else {
            for (j, octet) in lanes.iter().enumerate().filter(|(j, _)| keep >> j & 1 == 1) {
                let data = strb >> j & 1;
                items.octets[n] = octet * data as u8;
                items.strobes.put(n, data as u64);
                items.users.put(n * m, user >> (j * m) & low_bits(m));
                n += 1;
            }
        }
        if head & LAST == 1 { st.close(n, 1); }
    }
    Ok(st.cut(n))
}

#[inline(never)]
fn emit<const V: usize>(m: usize, items: &Items, table: &[u32], out: &mut [u8]) {
    put_all(table, m, V, out, |rec, from, n, head| {
        rec[7..7 + V].copy_from_slice(&items.octets[from..from + V]);
        complete(rec, V, n, head | items.strobes.get(from, n) << 40, items.users.get(from * m, n * m));
    });
}

fn arrays(w: usize, m: usize, v: usize, input: &[u8], out: &mut [u8]) -> Counted {
    check_take(w, m, v, input)?;
    let records = input.len() / size(w, m);
    let most = records * w;
    let mut items = Items { octets: vec![0; most + 16], strobes: Bits::of(most), users: Bits::of(most * m) };
    let mut table = vec![0; records + 1];
    let closed = by_width!(w, parse(m, input, &mut items, &mut table))?;
    let count = count_of(&table[..closed], m, v, out)?;
    by_width!(v, emit(m, &items, &table[..closed], out));
    Ok(count)
}

/// A random number below n (splitmix64): the same ones in every run.
fn below(seed: &mut u64, n: u64) -> u64 {
    *seed = seed.wrapping_add(0x9E37_79B9_7F4A_7C15);
    let x = (*seed ^ *seed >> 30).wrapping_mul(0xBF58_476D_1CE4_E5B9);
    let x = (x ^ x >> 27).wrapping_mul(0x94D0_49BB_1331_11EB);
    (x ^ x >> 31) % n
}

/// A transfer record with random octets and user bits on its lanes, null and position lanes too.
fn put_record(take: &mut Vec<u8>, w: usize, m: usize, last: bool, pair: [u8; 2], keep: u64, strb: u64, seed: &mut u64) {
    take.extend([last as u8, pair[0], pair[1], keep as u8, (keep >> 8) as u8, strb as u8, (strb >> 8) as u8]);
    take.extend((0..w).map(|_| below(seed, 256) as u8));
    let user = (0..w).fold(0, |bits, j| bits | below(seed, 1 << m) << (j * m));
    take.extend(&user.to_le_bytes()[..(w * m).div_ceil(8)]);
}

/// All converters on one call: the same answer, the same output from its first octet to its last.
fn agree(w: usize, m: usize, v: usize, input: &[u8], room: usize) -> (Answer, Vec<u8>) {
    let mut first = None;
    for (name, convert) in ALL {
        let mut out: Vec<u8> = (0..room).map(|i| (i * 37 + 11) as u8).collect();
        let answer = convert(w, m, v, input, &mut out);
        let first = first.get_or_insert((answer, out.clone()));
        if first.0 != answer || first.1 != out {
            println!("{name} is not like {}: w={w} m={m} v={v} take {} room {room}: {answer:?} {:?}", ALL[0].0, input.len(), first.0);
            std::process::exit(1);
        }
    }
    first.unwrap()
}

/// A take with much room (no answer is six times its length), with just enough, and with one octet too few. The first answer.
fn agree_at_rooms(w: usize, m: usize, v: usize, input: &[u8]) -> Answer {
    let answer = agree(w, m, v, input, 6 * input.len() + 50).0;
    let need = if answer.count > 0 { answer.count as usize * size(v, m) } else { 0 };
    assert!(agree(w, m, v, input, need).0 == answer, "exact room is enough");
    assert!(need == 0 || agree(w, m, v, input, need - 1).0.refusal == 5, "one octet too few is ROOM");
    answer
}

/// The bounds of 1, 16 and 2, and lengths around 65,536, with zeros.
fn check_bounds() {
    for (w, v) in [(0, 1), (17, 1), (1, 0), (1, 17), (usize::MAX, 1), (1, usize::MAX), (8, 1), (7, 16), (6, 6), (16, 1), (5, 16)] {
        for m in [0, 1, 2, 3, 4, 5, 8, 64, usize::MAX] {
            for length in [0, 1, 8, 9, 12, 17, 31, 65_519, 65_520, 65_534, 65_535, 65_536, 65_537, 65_552, 65_563] {
                agree_at_rooms(w, m, v, &vec![0; length]);
            }
        }
    }
}

/// Two records of null lanes. Each bit of the second one's user octets, alone: a lane's is dropped, one of the padding is FIELD.
fn check_padding() {
    for (w, m) in (1..=16usize).flat_map(|w| (1..=4).map(move |m| (w, m))) {
        for bit in 0..8 * (w * m).div_ceil(8) {
            let mut take = vec![0; 2 * size(w, m)];
            take[size(w, m) + 7 + w + bit / 8] = 1 << (bit % 8);
            let wanted = if bit < w * m { Answer { refusal: 0, place: 0, count: 0 } } else { Answer { refusal: 3, place: 1, count: 0 } };
            assert!(agree(w, m, 17 - w, &take, 50).0 == wanted, "w={w} m={m} bit {bit}");
        }
    }
}

/// Random takes, and the same with a bit or two turned in headers and user octets: most of these are refused.
fn check_random() {
    let (seed, mut refused) = (&mut 1, [0; 17]);
    for round in 0..6_000 {
        let (w, m, v) = (1 + below(seed, 16) as usize, below(seed, 5) as usize, 1 + below(seed, 16) as usize);
        let (each, used) = (size(w, m), size(w, m) - w);
        let records = if round % 100 == 0 { 65_536 / each as u64 } else { below(seed, 60) };
        // full, null and mixed records; position lanes in half of the takes; TLAST never or often; one pair or more
        let (kinds, positions) = (1 + below(seed, 3), below(seed, 2) == 1);
        let (ends, pairs) = (1 + below(seed, 5), 1 + below(seed, 4));
        let (mut take, full) = (Vec::new(), (1 << w) - 1);
        for _ in 0..records {
            let mut lanes = |kinds| [full, 0, below(seed, full + 1)][below(seed, kinds) as usize];
            let keep = lanes(kinds);
            let strb = keep & if positions { lanes(3) } else { full };
            let pair = (below(seed, pairs * pairs) / pairs) as u8;
            put_record(&mut take, w, m, below(seed, ends) == 1, [pair, 15 * (pair & 1)], keep, strb, seed);
        }
        refused[agree_at_rooms(w, m, v, &take).refusal as usize] += 1;
        for _ in 0..if records > 0 { 1 + below(seed, 2) } else { 0 } {
            let at = below(seed, used as u64) as usize; // an octet that is none of a lane's data
            let at = below(seed, records) as usize * each + if at < 7 { at } else { at + w };
            take[at] ^= 1 << below(seed, 8);
        }
        refused[agree_at_rooms(w, m, v, &take).refusal as usize] += 1;
    }
    assert!([0, 3, 4].iter().all(|n| refused[*n] > 100), "all are met: {refused:?}");
}

const M: usize = 2; // user bits a byte in what is measured
const ROUNDS: usize = 201;

/// The take of a case: as many whole records as fit in 65,536 octets, one pair, TLAST on each 16th. Every lane is data, or
/// null, position and data at random from a fixed seed.
fn take_of(w: usize, data: bool) -> Vec<u8> {
    let (mut take, seed) = (Vec::new(), &mut 42);
    for k in 0..65_536 / size(w, M) {
        let full = (1 << w) - 1;
        let keep = if data { full } else { below(seed, full + 1) };
        let strb = if data { full } else { keep & below(seed, full + 1) };
        put_record(&mut take, w, M, (k + 1) % 16 == 0, [1, 2], keep, strb, seed);
    }
    take
}

/// The median time of each converter in microseconds. They take turns in each round, another one first each time; the output
/// is cleared before each call, outside the timing.
fn measure(w: usize, v: usize, take: &[u8], out: &mut [u8]) -> [f64; ALL.len()] {
    let mut times = ALL.map(|_| Vec::new());
    for round in 0..ROUNDS {
        for i in (0..ALL.len()).map(|turn| (round + turn) % ALL.len()) {
            out.fill(0);
            let begin = Instant::now();
            black_box(ALL[i].1(w, M, v, black_box(take), black_box(&mut *out)));
            times[i].push(begin.elapsed().as_nanos() as f64 / 1000.0);
        }
    }
    times.each_mut().map(|t| { t.sort_by(f64::total_cmp); t[ROUNDS / 2] })
}

fn main() {
    let shapes = std::env::args().any(|word| word == "shapes");
    // T-06 worked by hand, so that they are not all wrong alike: data 11 with bits 1, null with 3, position with 2, data 44 with 3
    let worked = agree(4, 2, 2, &[1, 1, 2, 0x0D, 0, 9, 0, 0x11, 0x22, 0x33, 0x44, 0xED], 20).1;
    assert!(worked == [0, 1, 2, 3, 0, 1, 0, 0x11, 0, 9, 1, 1, 2, 1, 0, 1, 0, 0x44, 0, 3], "worked");
    check_bounds();
    check_padding();
    check_random();
    let cases = [true, false].map(|data| [1, 4, 16].map(|w| (data, w, take_of(w, data))));
    for (_, w, take) in cases.iter().flatten() {
        for v in [1, 4, 16] { agree_at_rooms(*w, M, v, take); }
    }
    println!("repack with user bits: the library and {} yardstick shapes write the same octets in every case", ALL.len() - 1);
    let (mut out, mut worst, mut tuned_worst) = (vec![0; 6 * 65_536], 0f64, 0f64);
    for (data, w, take) in cases.iter().flatten() {
        for v in [1, 4, 16] {
            let times = measure(*w, v, take, &mut out);
            let [direct, codes, tuned, ours] = times;
            let best = direct.min(codes);
            let lanes = if *data { "data" } else { "random" };
            println!("users m={M} w={w} v={v} lanes={lanes} rust_us={best:.1} ours_us={ours:.1} ratio={:.2} tuned_us={tuned:.1}", ours / best);
            for (shape, time) in ALL.iter().zip(&times[..3]).filter(|_| shapes) {
                println!("    {}_us={time:.1}", shape.0);
            }
            (worst, tuned_worst) = (worst.max(ours / best), tuned_worst.max(ours / tuned));
        }
    }
    println!("repack with user bits: worst {worst:.2}; against the tuned shape {tuned_worst:.2}");
}
