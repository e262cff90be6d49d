//! The library's cut for AXI3 boards in C, and a safe wrapper answering in the model's terms.
use crate::{calls, model, model_axi3};

#[repr(C)]
#[derive(Clone, Copy, PartialEq, Eq, Debug)]
pub struct CutAnswer { pub refusal: u32, pub count: u64 }

unsafe extern "C" {
    fn urd_axi3_cut(start: u32, len: u32, size: u32, kind: u32, bus: u32, row: *mut u64, row_len: usize) -> CutAnswer;
}

/// The row's length is said in numbers, five a description.
pub fn cut(b: model::Burst, row: &mut [u64]) -> model_axi3::CutAnswer {
    calls::count("urd_axi3_cut");
    let a = unsafe { urd_axi3_cut(b.start, b.len, b.size, b.kind, b.bus, row.as_mut_ptr(), row.len()) };
    model_axi3::CutAnswer { refusal: a.refusal, count: a.count }
}
