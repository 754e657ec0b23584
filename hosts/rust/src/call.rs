//! The boundary: the C call, as a safe function.

pub const NO_ROOM: i64 = -19;
pub const NO_SUCH_KIND: i64 = -22;

unsafe extern "C" {
    fn wickerheron_certify(trace: *const u8, trace_len: usize, kind: u32, out: *mut u8, out_len: usize) -> i64;
}

/// Writes the trace's certificate to the front of the buffer, and answers its length or a negative number.
pub fn certify(trace: &[u8], kind: u32, out: &mut [u8]) -> i64 {
    // SAFETY: both slices stand for the whole call and don't overlap, and each length is its slice's own; the call
    // keeps neither pointer.
    unsafe { wickerheron_certify(trace.as_ptr(), trace.len(), kind, out.as_mut_ptr(), out.len()) }
}
