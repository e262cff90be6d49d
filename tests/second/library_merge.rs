//! The library's merging of two transfer lists in C, and safe wrappers answering in the model's terms.
use crate::{calls, model_merge};

#[repr(C)]
#[derive(Clone, Copy, PartialEq, Eq, Debug)]
pub struct MergeAnswer { pub refusal: u32, pub port: u32, pub place: u64, pub count: u64 }

unsafe extern "C" {
    fn urd_merge(
        width: usize, user: usize, first: *const u8, first_length: usize, second: *const u8, second_length: usize,
        out: *mut u8, out_length: usize,
    ) -> MergeAnswer;
}

fn plain(a: MergeAnswer) -> model_merge::MergeAnswer {
    model_merge::MergeAnswer { refusal: a.refusal, port: a.port, place: a.place, count: a.count }
}

/// The library only reads the lists. They are lent as ones that may change, so that a change would be seen by the caller.
pub fn merge(w: usize, m: usize, [first, second]: [&mut [u8]; 2], out: &mut [u8]) -> model_merge::MergeAnswer {
    calls::count("urd_merge");
    plain(unsafe { urd_merge(w, m, first.as_mut_ptr(), first.len(), second.as_mut_ptr(), second.len(), out.as_mut_ptr(), out.len()) })
}

/// Both ports have the very same octets.
pub fn merge_with_itself(w: usize, m: usize, list: &mut [u8], out: &mut [u8]) -> model_merge::MergeAnswer {
    calls::count("urd_merge");
    let (octets, length) = (list.as_mut_ptr(), list.len());
    plain(unsafe { urd_merge(w, m, octets, length, octets, length, out.as_mut_ptr(), out.len()) })
}
