//! The library's report in C, and a safe wrapper.
use crate::calls;

#[repr(C)]
#[derive(Clone, Copy, PartialEq, Eq, Debug, Default)]
pub struct ReportAnswer {
    pub verdict: u32, pub refusal: u32, pub rule: u32, pub place: u64,
    pub transfers: u64, pub packets: u64, pub records: u64, pub text: u64, pub octets: u64,
}

unsafe extern "C" {
    fn urd_report(
        sheet: *const u8, sheet_len: usize, sheet_read: u32, take: *const u8, take_len: usize, take_read: u32,
        out: *mut u8, out_len: usize, text: *mut u8, text_len: usize,
    ) -> ReportAnswer;
}

/// A file: its octets, and the number that says whether it was read.
pub type File<'a> = (&'a [u8], u32);

pub fn report(sheet: File, take: File, out: &mut [u8], text: &mut [u8]) -> ReportAnswer {
    calls::count("urd_report");
    unsafe {
        urd_report(
            sheet.0.as_ptr(), sheet.0.len(), sheet.1, take.0.as_ptr(), take.0.len(), take.1,
            out.as_mut_ptr(), out.len(), text.as_mut_ptr(), text.len(),
        )
    }
}
