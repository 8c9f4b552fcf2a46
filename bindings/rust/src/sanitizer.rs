//! That an engine ends after its ports, as the borrow checker has it, told to ThreadSanitizer: a standard library that was built without it
//! hides how threads are joined. It is a thing of bindings/check.sh, which sets `worzsunab_tsan`.

use crate::engine::Engine;

/// A port of this engine has ended.
#[cfg(worzsunab_tsan)]
pub(crate) fn port_ended(engine: &Engine) {
    // SAFETY: the sanitizer only compares the address.
    unsafe { __tsan_release(engine.shared().cast()) };
}

/// All ports of this engine have ended.
#[cfg(worzsunab_tsan)]
pub(crate) fn ports_ended(engine: &Engine) {
    // SAFETY: the sanitizer only compares the address.
    unsafe { __tsan_acquire(engine.shared().cast()) };
}

#[cfg(worzsunab_tsan)]
extern "C" {
    fn __tsan_acquire(at: *mut std::ffi::c_void);
    fn __tsan_release(at: *mut std::ffi::c_void);
}

#[cfg(not(worzsunab_tsan))]
pub(crate) fn port_ended(_engine: &Engine) {}

#[cfg(not(worzsunab_tsan))]
pub(crate) fn ports_ended(_engine: &Engine) {}
