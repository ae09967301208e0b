//! The proved library, through its C interface (c/sundrixa.h).

use crate::plain::Ending;

#[repr(C)]
struct Listed {
    length: u64,
    refusal: u64,
    offset: u64,
    inner: u64,
    position: u64,
}

#[repr(C)]
struct Written {
    length: u64,
    refusal: u64,
}

unsafe extern "C" {
    fn sundrixa_list(file: *const u8, file_length: usize, out: *mut u8, out_length: usize) -> Listed;
    fn sundrixa_stop_line(refusal: u64, offset: u64, inner: u64, out: *mut u8, out_length: usize) -> Written;
}

pub fn list(file: &[u8], out: &mut [u8]) -> Ending {
    // a slice's pointer is not null, even where the slice is empty
    let Listed { length, refusal, offset, inner, position } =
        unsafe { sundrixa_list(file.as_ptr(), file.len(), out.as_mut_ptr(), out.len()) };
    Ending { length, refusal, offset, inner, position }
}

pub fn stop_line(refusal: u64, offset: u64, inner: u64, out: &mut [u8]) -> Option<usize> {
    let written = unsafe { sundrixa_stop_line(refusal, offset, inner, out.as_mut_ptr(), out.len()) };
    (written.refusal == 0).then_some(written.length as usize)
}
