//! How long a program may compute. Time that it waits for a processor does not count, so a busy
//! machine changes nothing.

use std::ffi::{c_int, c_ulong};
use std::os::unix::process::ExitStatusExt;
use std::process::{Child, ExitStatus};
use std::ptr;

/// Seconds; a right program takes some hundredths of one.
pub const SECONDS: c_ulong = 2;

/// As Linux has them.
const PROCESSOR_TIME: c_int = 0;
const TIME_IS_OVER: c_int = 24;

#[repr(C)]
struct Limit {
    signal: c_ulong,
    end: c_ulong,
}

unsafe extern "C" {
    fn prlimit(process: c_int, resource: c_int, new: *const Limit, old: *mut Limit) -> c_int;
}

/// Lets the system end a program when it has computed so long.
pub fn set(child: &Child) {
    let limit = Limit {
        signal: SECONDS,
        end: SECONDS + 1,
    };
    // SAFETY: the call reads the limit and writes nothing. It fails if the program has ended already,
    // and then nothing is to be limited.
    unsafe { prlimit(child.id() as c_int, PROCESSOR_TIME, &limit, ptr::null_mut()) };
}

/// Whether a program was ended for that.
pub fn is_over(status: ExitStatus) -> bool {
    status.signal() == Some(TIME_IS_OVER)
}
