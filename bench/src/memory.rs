//! The memory of the program.

use std::ffi::c_int;

extern "C" {
    fn mallopt(what: c_int, value: c_int) -> c_int;
}

/// Makes the C library keep freed memory. Otherwise it returns large blocks to the system, which
/// makes them anew of zeros, page by page, at the first use. Archives and std's maps allocate by the
/// same functions, so this applies to both sides.
pub fn keep() {
    const M_TRIM_THRESHOLD: c_int = -1;
    const M_MMAP_MAX: c_int = -4;
    // SAFETY: both are glibc's own settings; `mallopt` returns 0 for an unknown one.
    let kept = unsafe { mallopt(M_TRIM_THRESHOLD, c_int::MAX) != 0 && mallopt(M_MMAP_MAX, 0) != 0 };
    assert!(kept, "this C library has no such settings");
}
