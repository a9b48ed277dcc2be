//! The proved checker, through its C call, and the proved slips.

#![allow(unsafe_code)]

pub mod slip;

use crate::report::report_bound;

unsafe extern "C" {
    fn skovarnek_check(log: *const u8, log_len: usize, report: *mut u8, report_len: usize)
    -> usize;
}

/// A log or a slip to be read, as a C program lends it.
#[derive(Clone, Copy, Debug)]
pub enum LentLog<'a> {
    Bytes(&'a [u8]),
    /// A length of 0, and any pointer with it.
    NoBytes(*const u8),
}

/// A buffer as a C program lends it.
#[derive(Debug)]
pub enum LentBuffer<'a> {
    Bytes(&'a mut [u8]),
    /// A length of 0, and any pointer with it.
    NoBytes(*mut u8),
}

impl LentLog<'_> {
    /// Pointer and length.
    fn parts(&self) -> (*const u8, usize) {
        match *self {
            LentLog::Bytes(bytes) => (bytes.as_ptr(), bytes.len()),
            LentLog::NoBytes(pointer) => (pointer, 0),
        }
    }
}

impl LentBuffer<'_> {
    /// Pointer and length.
    fn parts(self) -> (*mut u8, usize) {
        match self {
            LentBuffer::Bytes(bytes) => (bytes.as_mut_ptr(), bytes.len()),
            LentBuffer::NoBytes(pointer) => (pointer, 0),
        }
    }
}

/// Writes the report on a log into the buffer and gives its length; later bytes
/// are untouched. If the report doesn't fit: 0, and the whole buffer is zero.
pub fn check_into(log: &[u8], buffer: &mut [u8]) -> usize {
    check_lent(LentLog::Bytes(log), LentBuffer::Bytes(buffer))
}

/// The same with what a C program may lend.
pub fn check_lent(log: LentLog, buffer: LentBuffer) -> usize {
    let ((log, log_len), (report, report_len)) = (log.parts(), buffer.parts());
    // SAFETY: a pointer with a length above 0 comes from a borrow that outlives
    // the call, and the exclusive one of the buffer keeps it apart from the log.
    // With a length of 0 the call takes any pointer.
    let length = unsafe { skovarnek_check(log, log_len, report, report_len) };
    assert!(length <= report_len, "a length beyond the lent buffer");
    length
}

/// The report on a log, written into a buffer of the header's bound.
pub fn check(log: &[u8]) -> Vec<u8> {
    let mut report = vec![0; report_bound(log.len())];
    let length = check_into(log, &mut report);
    assert!(length > 0, "the report is longer than its bound");
    report.truncate(length);
    report
}
