//! The library's judging of write beats in C, and a safe wrapper answering in the model's terms.
use crate::{calls, model, model_writes};

#[repr(C)]
#[derive(Clone, Copy, PartialEq, Eq, Debug)]
pub struct WriteAnswer { pub refusal: u32, pub rule: u32, pub place: u64, pub strobes: u64 }

unsafe extern "C" {
    fn urd_judge_writes(start: u32, len: u32, size: u32, kind: u32, bus: u32, beats: *const u8, beats_length: usize) -> WriteAnswer;
}

/// The library only reads the take. It is lent as one that may change, so that a change would be seen by the caller.
pub fn judge(b: model::Burst, beats: &mut [u8]) -> model_writes::WriteAnswer {
    calls::count("urd_judge_writes");
    let a = unsafe { urd_judge_writes(b.start, b.len, b.size, b.kind, b.bus, beats.as_mut_ptr(), beats.len()) };
    model_writes::WriteAnswer { refusal: a.refusal, rule: a.rule, place: a.place, strobes: a.strobes }
}
