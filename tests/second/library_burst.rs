//! The library's burst calls in C, and safe wrappers answering in the model's terms.
use crate::{calls, model};

#[repr(C)]
#[derive(Clone, Copy, PartialEq, Eq, Debug)]
pub struct BurstAnswer { pub refusal: u32, pub lower: u32, pub upper: u32, pub step: i32, pub address: u64 }

unsafe extern "C" {
    fn urd_burst_judge(start: u32, len: u32, size: u32, kind: u32, bus: u32) -> BurstAnswer;
    fn urd_burst_beat(start: u32, len: u32, size: u32, kind: u32, bus: u32, k: u32) -> BurstAnswer;
    fn urd_burst_step(start: u32, len: u32, size: u32, kind: u32, bus: u32, k: u32) -> BurstAnswer;
}

fn plain(a: BurstAnswer) -> model::BurstAnswer {
    model::BurstAnswer { refusal: a.refusal, lower: a.lower, upper: a.upper, step: a.step, address: a.address }
}

pub fn judge(b: model::Burst) -> model::BurstAnswer {
    calls::count("urd_burst_judge");
    plain(unsafe { urd_burst_judge(b.start, b.len, b.size, b.kind, b.bus) })
}

pub fn beat(b: model::Burst, k: u32) -> model::BurstAnswer {
    calls::count("urd_burst_beat");
    plain(unsafe { urd_burst_beat(b.start, b.len, b.size, b.kind, b.bus, k) })
}

pub fn step(b: model::Burst, k: u32) -> model::BurstAnswer {
    calls::count("urd_burst_step");
    plain(unsafe { urd_burst_step(b.start, b.len, b.size, b.kind, b.bus, k) })
}
