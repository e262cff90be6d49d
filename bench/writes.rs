//! Judging write beats: the plain safe-Rust yardstick, the check that it and the library answer alike, and the times. The
//! yardstick has a beat's strobes and its lanes as numbers of 128 bits, and makes the next beat's address from the last.
//! A program of its own: beside repack's loops it would move them to other places, which alone costs some a tenth.
use std::{hint::black_box, time::Instant};

#[repr(C)]
#[derive(Clone, Copy, PartialEq, Eq, Debug)]
struct WriteAnswer { refusal: u32, rule: u32, place: u64, strobes: u64 }

unsafe extern "C" {
    fn urd_judge_writes(start: u32, len: u32, size: u32, kind: u32, bus: u32, beats: *const u8, beats_len: usize) -> WriteAnswer;
}

/// Start address, AxLEN, AxSIZE, AxBURST, bus.
type Burst = [u32; 5];

const FIXED: u32 = 0;
const INCR: u32 = 1;
const WRAP: u32 = 2;
const ROUNDS: usize = 201;
const CALLS: usize = 50; // that are timed together, since one is short

fn answer(refusal: u32, rule: u32, place: usize, strobes: usize) -> WriteAnswer {
    WriteAnswer { refusal, rule, place: place as u64, strobes: strobes as u64 }
}

/// A random number below n (xorshift): the same ones in every run.
fn below(seed: &mut u64, n: u64) -> u64 {
    *seed ^= *seed << 13;
    *seed ^= *seed >> 7;
    *seed ^= *seed << 17;
    *seed % n
}

fn ours(b: Burst, take: &[u8]) -> WriteAnswer {
    // the slice is live for the whole call
    unsafe { urd_judge_writes(b[0], b[1], b[2], b[3], b[4], take.as_ptr(), take.len()) }
}

/// The first of refusals 7 to 12, or 0.
fn refusal([start, len, size, kind, bus]: Burst) -> u32 {
    if !bus.is_power_of_two() || bus > 128 { return 7; }
    if size > 7 || 1 << size > bus { return 8; }
    if kind > WRAP { return 9; }
    let allowed = match kind { FIXED => len < 16, INCR => len < 256, _ => [1, 3, 7, 15].contains(&len) };
    if !allowed { return 10; }
    if kind == WRAP && start % (1 << size) != 0 { return 11; }
    let first = start % 4096 >> size << size;
    if kind == INCR && first + ((len + 1) << size) > 4096 { 12 } else { 0 }
}

/// The address of the beat after one at `address`.
fn next([start, len, size, kind, _]: Burst, address: u32) -> u32 {
    let (bytes, all) = (1 << size, (len + 1) << size);
    match kind {
        FIXED => address,
        INCR => (address & !(bytes - 1)).wrapping_add(bytes),
        _ => start & !(all - 1) | address.wrapping_add(bytes) & (all - 1),
    }
}

fn strobes(record: &[u8]) -> u128 { record[1..].iter().rev().fold(0, |x, octet| x << 8 | u128::from(*octet)) }

fn plain(b: Burst, take: &[u8]) -> WriteAnswer {
    let [start, len, size, _, bus] = b;
    let refused = refusal(b);
    if refused != 0 { return answer(refused, 0, 0, 0); }
    let each = 1 + bus.div_ceil(8) as usize;
    if take.len() > 65_536 || take.len() % each != 0 { return answer(2, 0, 0, 0); }
    let unused = if bus < 8 { !0 << bus } else { 0u8 };
    let bad = |r: &[u8]| r[0] > 1 || r[1] & unused != 0;
    if let Some(k) = take.chunks_exact(each).position(bad) { return answer(3, 0, k, 0); }
    let (mut high, mut address) = (0, start);
    for (k, r) in take.chunks_exact(each).enumerate() {
        if k > len as usize { return answer(0, 4, k, 0); }
        let (lower, upper) = (address % bus, (address | ((1 << size) - 1)) % bus);
        let x = strobes(r);
        if x & !(!0 >> (127 - upper) & !0 << lower) != 0 { return answer(0, 1, k, 0); }
        let (wlast, is_last) = (r[0] == 1, k == len as usize);
        if wlast != is_last { return answer(0, if wlast { 2 } else { 3 }, k, 0); }
        high += x.count_ones() as usize;
        address = next(b, address);
    }
    let given = take.len() / each;
    if given <= len as usize { answer(0, 5, given, 0) } else { answer(0, 0, 0, high) }
}

/// So many beats of a burst that is accepted, every lane of each beat high, WLAST on the last one.
fn full_take(b: Burst, beats: usize) -> Vec<u8> {
    let [start, len, size, _, bus] = b;
    let (each, mut address) = (1 + bus.div_ceil(8) as usize, start);
    let mut take = vec![0; beats * each];
    for (k, r) in take.chunks_exact_mut(each).enumerate() {
        r[0] = u8::from(k == len as usize);
        for lane in address % bus..=(address | ((1 << size) - 1)) % bus { r[1 + lane as usize / 8] |= 1 << (lane % 8); }
        address = next(b, address);
    }
    take
}

/// Random bursts, most of them accepted; their beats, some too few or too many, or an octet short; and these with bits turned.
fn check() {
    let (seed, mut refused, mut rules) = (&mut 11, [0; 13], [0; 6]);
    for round in 0..30_000 {
        let (size, kind) = (below(seed, 8) as u32, below(seed, 3) as u32);
        let len = [below(seed, 16), below(seed, 256 >> (size / 2)), (2 << below(seed, 4)) - 1][kind as usize] as u32;
        let mut b = [below(seed, 1 << 32) as u32 >> size << size, len, size, kind, 1 << (size + below(seed, u64::from(8 - size)) as u32)];
        if kind != WRAP { b[0] |= below(seed, 1 << size) as u32; }
        let beats = len as usize + below(seed, 3) as usize; // one less than the burst has, to one more
        let mut take = if refusal(b) == 0 { full_take(b, beats) } else { Vec::new() };
        for _ in 0..if take.is_empty() { 0 } else { below(seed, 3) } {
            let at = below(seed, take.len() as u64) as usize;
            take[at] ^= 1 << below(seed, 8);
        }
        match round % 16 {
            0 => b[below(seed, 5) as usize] = below(seed, 300) as u32,
            1 => { take.pop(); }
            _ => {}
        }
        let (mine, theirs) = (ours(b, &take), plain(b, &take));
        if mine != theirs {
            println!("judge_writes is not like the yardstick: {b:?} take {}: {mine:?} {theirs:?}", take.len());
            std::process::exit(1);
        }
        refused[mine.refusal as usize] += 1;
        rules[mine.rule as usize] += 1;
    }
    let met = [0, 2, 3, 7, 8, 9, 10, 11, 12].iter().all(|n| refused[*n] > 5) && rules.iter().all(|n| *n > 20);
    assert!(met, "all are met: {refused:?} {rules:?}");
}

/// The median time of a call of both sides in microseconds; they take turns.
fn times(b: Burst, take: &[u8]) -> [f64; 2] {
    let both: [fn(Burst, &[u8]) -> WriteAnswer; 2] = [ours, plain];
    let mut times = [Vec::new(), Vec::new()];
    for turn in 0..2 * ROUNDS {
        let i = (turn + turn / 2) % 2;
        let begin = Instant::now();
        for _ in 0..CALLS { black_box(both[i](black_box(b), black_box(take))); }
        times[i].push(begin.elapsed().as_nanos() as f64 / 1000.0 / CALLS as f64);
    }
    times.each_mut().map(|t| { t.sort_by(f64::total_cmp); t[ROUNDS / 2] })
}

/// Whole bursts, every lane high, by bus and by bytes in a beat; then the longest take, which ends in W4 at beat 256.
const CASES: [(Burst, usize); 8] = [
    ([0x1000, 15, 2, INCR, 4], 16), ([0x1000, 255, 2, INCR, 4], 256), ([0x1000, 255, 3, INCR, 8], 256),
    ([0x1000, 255, 4, INCR, 16], 256), ([0x1000, 63, 6, INCR, 64], 64), ([0x1000, 31, 7, INCR, 128], 32),
    ([0x1000, 255, 4, INCR, 128], 256), ([0x1000, 255, 3, INCR, 8], 32_768),
];

fn main() {
    check();
    println!("judge_writes: the library and the yardstick answer alike in every case");
    let mut worst = 0f64;
    for (b, beats) in CASES {
        let take = full_take(b, beats);
        let [mine, rust] = times(b, &take);
        println!("writes bus={} bytes={} beats={beats} rust_us={rust:.2} ours_us={mine:.2} ratio={:.2}", b[4], 1 << b[2], mine / rust);
        worst = worst.max(mine / rust);
    }
    println!("judge_writes: worst {worst:.2}");
}
