//! Counting by named groups, and a small pseudo-random generator.
use std::collections::BTreeMap;
use std::io::Write;

pub const SEED: u64 = 0x5EED_0001_2026_0051;

/// xorshift64: the same numbers in every run.
pub struct Random(pub u64);

impl Random {
    /// A start for every seed, 0 too; neighbouring seeds give unlike numbers (splitmix64).
    pub fn of_seed(seed: u64) -> Random {
        let mut z = seed.wrapping_add(0x9E37_79B9_7F4A_7C15);
        z = (z ^ (z >> 30)).wrapping_mul(0xBF58_476D_1CE4_E5B9);
        z = (z ^ (z >> 27)).wrapping_mul(0x94D0_49BB_1331_11EB);
        Random((z ^ (z >> 31)).max(1))
    }
    pub fn next(&mut self) -> u64 {
        self.0 ^= self.0 << 13;
        self.0 ^= self.0 >> 7;
        self.0 ^= self.0 << 17;
        self.0
    }
    pub fn below(&mut self, n: usize) -> usize { ((self.next() >> 11) % n as u64) as usize }
    pub fn one_in(&mut self, n: usize) -> bool { self.below(n) == 0 }
    pub fn pick<T: Copy>(&mut self, from: &[T]) -> T { from[self.below(from.len())] }
}

/// Each group of a program, with the least number of comparisons that it must make.
pub type Least = &'static [(&'static str, u64)];

/// With a seed, a difference is printed with it and with the command that repeats it. `only` is a group to run alone.
/// With a list `least`, a group fails that compares less than it says there, or is not listed; with none, one is enough.
#[derive(Default)]
pub struct Tally {
    pub seed: Option<u64>, pub only: Option<String>, pub wrong: u64, pub least: Least,
    passed: u64, failed: u64, checks: u64, all: u64, group: String, ran: Vec<String>, verdicts: BTreeMap<String, u64>,
}

impl Tally {
    /// A group with random numbers of its own, so that it can be repeated alone.
    pub fn seeded_group(&mut self, name: &str, run: impl FnOnce(&mut Tally, &mut Random)) {
        let named = name.bytes().fold(0u64, |h, b| h.wrapping_mul(31).wrapping_add(u64::from(b)));
        let mut r = Random::of_seed(self.seed.unwrap_or(SEED) ^ named);
        self.group(name, |t| run(t, &mut r));
    }

    /// One group is one count of the last line, however many inputs it has.
    pub fn group(&mut self, name: &str, run: impl FnOnce(&mut Tally)) {
        if self.only.as_ref().is_some_and(|only| only != name) { return; }
        self.group = name.to_string();
        self.checks = 0;
        self.wrong = 0;
        print!("{name}: ");
        let _ = std::io::stdout().flush(); // so that a crash shows its group
        run(self);
        self.ran.push(name.to_string());
        self.all += self.checks;
        let few = self.too_few(name);
        let good = self.wrong == 0 && few.is_empty();
        if good { self.passed += 1 } else { self.failed += 1 }
        println!("{} compared, {} differ{few}{}", self.checks, self.wrong, if good { "" } else { "  FAILED" });
    }

    /// What is wrong with the number of comparisons of this group, or nothing.
    fn too_few(&self, name: &str) -> String {
        let listed = self.least.iter().find(|(listed, _)| *listed == name);
        let least = listed.map_or(1, |(_, least)| *least);
        if listed.is_none() && !self.least.is_empty() { return ", and its least number is not listed".to_string(); }
        if self.checks < least { format!(", fewer than its {least}") } else { String::new() }
    }

    /// The last group: none of the list was left out.
    pub fn every_group_ran(&mut self) {
        let others = self.least.iter().map(|(name, _)| *name).filter(|name| *name != "every group ran");
        let left_out: Vec<&str> = others.filter(|name| !self.ran.iter().any(|ran| ran == name)).collect();
        self.group("every group ran", |t| t.check(left_out.is_empty(), || format!("left out: {left_out:?}")));
    }

    /// One comparison; only the first five differences of a group are printed.
    pub fn check(&mut self, good: bool, say: impl FnOnce() -> String) {
        self.checks += 1;
        if good { return; }
        self.wrong += 1;
        if self.wrong > 5 { return; }
        match self.seed {
            None => println!("\n  DIFFERS {}", say()),
            Some(seed) => println!("\n  DIFFERS seed {seed:#x}, {}\n    repeat   {}", say(), self.repeat(seed)),
        }
    }

    /// The command that asks the same again: a group of the gate, or one round of the soak.
    fn repeat(&self, seed: u64) -> String {
        if self.group.is_empty() { return format!("make soak SECONDS=0 SEED={seed:#x}"); }
        format!("sh tests/second/run {seed:#x} \"{}\"", self.group)
    }

    pub fn same<T: PartialEq + std::fmt::Debug>(&mut self, got: T, expected: T, inputs: impl FnOnce() -> String) {
        let good = got == expected;
        let who = if self.seed.is_some() { "library" } else { "got" };
        self.check(good, || format!("{}\n    {who:<8} {got:?}\n    expected {expected:?}", inputs()));
    }

    pub fn verdict(&mut self, name: String) { *self.verdicts.entry(name).or_insert(0) += 1; }

    /// The verdicts that occurred; one that never occurs leaves its rule untested.
    pub fn show_verdicts(&mut self, expected: &[&str]) {
        for (name, times) in &self.verdicts { println!("verdict {name}: {times} times"); }
        let missing: Vec<String> = expected.iter().filter(|e| !self.verdicts.contains_key(**e)).map(|e| e.to_string()).collect();
        self.group("every verdict occurs", |t| t.check(missing.is_empty(), || format!("never: {missing:?}")));
    }

    pub fn finish(&self) -> ! {
        if let (Some(only), 0) = (&self.only, self.passed + self.failed) { println!("there is no group {only:?}\n0 passed, 1 failed"); std::process::exit(1) }
        println!("{} comparisons in all", self.all);
        println!("{} passed, {} failed", self.passed, self.failed);
        std::process::exit(i32::from(self.failed != 0))
    }
}
