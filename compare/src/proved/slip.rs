//! The proved slips, through their C calls. Each call reads the packed log, takes
//! all its steps and works on the register after the last one.

use super::{LentBuffer, LentLog};

unsafe extern "C" {
    fn skovarnek_slip_check(
        log: *const u8,
        log_len: usize,
        slip: *const u8,
        slip_len: usize,
    ) -> u32;

    fn skovarnek_slip_write(
        log: *const u8,
        log_len: usize,
        office: u8,
        block: u8,
        slip: *mut u8,
        slip_len: usize,
    ) -> u32;
}

/// What a call gives: 0 or the number of a refusal, of the log or of the slip; and
/// the answer, which is a block or a length in bytes.
pub type Answer = (u32, usize);

/// An answer is given as value + 65,536 × refusal.
fn answer(given: u32) -> Answer {
    (given >> 16, (given & 0xFFFF) as usize)
}

/// Checks a slip; the answer is the parent of the block that it names.
pub fn check(log: &[u8], slip: &[u8]) -> Answer {
    check_lent(LentLog::Bytes(log), LentLog::Bytes(slip))
}

/// The same with what a C program may lend.
pub fn check_lent(log: LentLog, slip: LentLog) -> Answer {
    let ((log, log_len), (slip, slip_len)) = (log.parts(), slip.parts());
    // SAFETY: a pointer with a length above 0 comes from a borrow that outlives
    // the call. With a length of 0 the call takes any pointer.
    answer(unsafe { skovarnek_slip_check(log, log_len, slip, slip_len) })
}

/// Writes a slip of a block from an office's view into the buffer; the answer is
/// the slip's length. Later bytes are untouched, and where it refuses all bytes.
pub fn write_into(log: &[u8], office: u8, block: u8, buffer: &mut [u8]) -> Answer {
    write_lent(
        LentLog::Bytes(log),
        office,
        block,
        LentBuffer::Bytes(buffer),
    )
}

/// The same with what a C program may lend.
pub fn write_lent(log: LentLog, office: u8, block: u8, buffer: LentBuffer) -> Answer {
    let ((log, log_len), (slip, slip_len)) = (log.parts(), buffer.parts());
    // SAFETY: as above, and the exclusive borrow of the buffer keeps it apart from
    // the log.
    let given = unsafe { skovarnek_slip_write(log, log_len, office, block, slip, slip_len) };
    let (refusal, length) = answer(given);
    assert!(length <= slip_len, "a length beyond the lent buffer");
    (refusal, length)
}

/// The calls to measure with: the log is read and its steps are taken once, and
/// then a slip is checked or written so many times. The answer is the last one.
#[cfg(slip_timing)]
pub mod timing {
    use super::{Answer, answer};

    unsafe extern "C" {
        fn slip_timing_check(
            log: *const u8,
            log_len: usize,
            slip: *const u8,
            slip_len: usize,
            times: u32,
        ) -> u32;

        fn slip_timing_write(
            log: *const u8,
            log_len: usize,
            office: u8,
            block: u8,
            slip: *mut u8,
            slip_len: usize,
            times: u32,
        ) -> u32;
    }

    pub fn check(log: &[u8], slip: &[u8], times: u32) -> Answer {
        // SAFETY: both borrows outlive the call.
        answer(unsafe {
            slip_timing_check(log.as_ptr(), log.len(), slip.as_ptr(), slip.len(), times)
        })
    }

    pub fn write_into(log: &[u8], office: u8, block: u8, buffer: &mut [u8], times: u32) -> Answer {
        let (slip, slip_len) = (buffer.as_mut_ptr(), buffer.len());
        // SAFETY: both borrows outlive the call, and the exclusive one of the
        // buffer keeps it apart from the log.
        answer(unsafe {
            slip_timing_write(
                log.as_ptr(),
                log.len(),
                office,
                block,
                slip,
                slip_len,
                times,
            )
        })
    }
}
