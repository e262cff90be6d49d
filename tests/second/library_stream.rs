//! The library's stream calls in C, and safe wrappers answering in the model's terms. T-06's user bits stand straight after the width.
use crate::{calls, model};

#[repr(C)]
#[derive(Clone, Copy, PartialEq, Eq, Debug)]
pub struct StreamAnswer { pub refusal: u32, pub rule: u32, pub place: u64, pub count: u64 }

#[repr(C)]
pub struct PartAnswer { pub refusal: u32, pub start: u64, pub length: u64 }

unsafe extern "C" {
    fn urd_judge(width: usize, user: usize, take: *const u8, take_len: usize) -> StreamAnswer;
    fn urd_harvest(width: usize, user: usize, take: *const u8, take_len: usize, out: *mut u8, out_len: usize) -> StreamAnswer;
    fn urd_fill_in(width: usize, user: usize, take: *mut u8, take_len: usize, level: u32) -> StreamAnswer;
    fn urd_data_octets(width: usize, user: usize, take: *const u8, take_len: usize, k: usize) -> PartAnswer;
    fn urd_repack(width: usize, user: usize, v: usize, input: *const u8, input_len: usize, out: *mut u8, out_len: usize) -> StreamAnswer;
    fn urd_downsize(width: usize, user: usize, v: usize, input: *const u8, input_len: usize, out: *mut u8, out_len: usize) -> StreamAnswer;
}

fn plain(a: StreamAnswer) -> model::StreamAnswer {
    model::StreamAnswer { refusal: a.refusal, rule: a.rule, place: a.place, count: a.count }
}

pub fn judge(w: usize, m: usize, take: &[u8]) -> model::StreamAnswer {
    calls::count("urd_judge");
    plain(unsafe { urd_judge(w, m, take.as_ptr(), take.len()) })
}

pub fn harvest(w: usize, m: usize, take: &[u8], out: &mut [u8]) -> model::StreamAnswer {
    calls::count("urd_harvest");
    plain(unsafe { urd_harvest(w, m, take.as_ptr(), take.len(), out.as_mut_ptr(), out.len()) })
}

/// Level 0 is low, each other number high.
pub fn fill_in(w: usize, m: usize, take: &mut [u8], level: u32) -> model::StreamAnswer {
    calls::count("urd_fill_in");
    plain(unsafe { urd_fill_in(w, m, take.as_mut_ptr(), take.len(), level) })
}

/// Its refusals have place and rule 0, and the library shows none.
pub fn data_octets(w: usize, m: usize, take: &[u8], k: usize) -> (model::StreamAnswer, [u64; 2]) {
    calls::count("urd_data_octets");
    let a = unsafe { urd_data_octets(w, m, take.as_ptr(), take.len(), k) };
    (model::StreamAnswer { refusal: a.refusal, rule: 0, place: 0, count: 0 }, [a.start, a.length])
}

pub fn repack(w: usize, m: usize, v: usize, input: &[u8], out: &mut [u8]) -> model::StreamAnswer {
    calls::count("urd_repack");
    plain(unsafe { urd_repack(w, m, v, input.as_ptr(), input.len(), out.as_mut_ptr(), out.len()) })
}

pub fn downsize(w: usize, m: usize, v: usize, input: &[u8], out: &mut [u8]) -> model::StreamAnswer {
    calls::count("urd_downsize");
    plain(unsafe { urd_downsize(w, m, v, input.as_ptr(), input.len(), out.as_mut_ptr(), out.len()) })
}
