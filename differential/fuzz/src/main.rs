//! Reads what libFuzzer makes with the library and with the reference, whose branches guide it.

#![no_main]

use std::{panic, slice, sync::Once};

static QUIET: Once = Once::new();

/// # Safety
/// libFuzzer hands over a live slice.
#[unsafe(no_mangle)]
pub unsafe extern "C" fn LLVMFuzzerTestOneInput(data: *const u8, len: usize) -> i32 {
    // The reference's own panics are part of what is compared.
    QUIET.call_once(|| panic::set_hook(Box::new(|_| {})));
    let text = if len == 0 { &[] } else { unsafe { slice::from_raw_parts(data, len) } };
    if let Some(difference) = compare::difference_in_reading(text) {
        eprintln!("{:?}\n{difference}", String::from_utf8_lossy(text));
        std::process::abort();
    }
    0
}
