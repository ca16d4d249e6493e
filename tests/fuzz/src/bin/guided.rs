//! What libFuzzer calls with each input that it makes. Where the readers differ
//! the program ends, and libFuzzer keeps the input in a file.
#![no_main]

use fuzz::one_input;
use support::tally::Tally;

/// # Safety
///
/// `data` points to `size` bytes, which nothing changes during the call.
#[no_mangle]
pub unsafe extern "C" fn LLVMFuzzerTestOneInput(data: *const u8, size: usize) -> i32 {
    // Without bytes libFuzzer's pointer may be null.
    let input = if size == 0 { &[] } else { std::slice::from_raw_parts(data, size) };
    if let Err(difference) = one_input(input, &mut Tally::default()) {
        println!("{difference}");
        std::process::abort();
    }
    0
}
