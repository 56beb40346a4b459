//! What is below the program: two functions of the C library, and a panic handler that
//! cannot be linked.

use core::ffi::{c_int, c_void};
use core::panic::PanicInfo;

extern "C" {
    fn read(from: c_int, to: *mut c_void, room: usize) -> isize;
    fn write(to: c_int, from: *const c_void, size: usize) -> isize;
    /// Nobody has this function.
    fn this_program_can_panic() -> !;
}

/// Names a function that is not there, so that a program with a panic in it is not linked.
#[panic_handler]
fn panic(_: &PanicInfo<'_>) -> ! {
    // SAFETY: never linked, and so never called.
    unsafe { this_program_can_panic() }
}

/// Rust's own library for a host asks for it by name; without unwinding nobody calls it.
#[no_mangle]
extern "C" fn rust_eh_personality() {}

/// All of standard input; none if a read fails, or if there is no room for more.
pub fn read_all(room: &mut [u8]) -> Option<&[u8]> {
    let mut filled: usize = 0;
    loop {
        let rest = room.get_mut(filled..)?;
        if rest.is_empty() {
            return None;
        }
        // SAFETY: so many bytes may be written there.
        let got = unsafe { read(0, rest.as_mut_ptr().cast(), rest.len()) };
        match usize::try_from(got) {
            Ok(0) => break,
            Ok(got) => filled = filled.saturating_add(got),
            Err(_) => return None,
        }
    }
    room.get(..filled)
}

/// Writes a text to standard output.
pub fn say(text: &str) {
    say_bytes(text.as_bytes());
}

/// Writes a number in decimal to standard output.
pub fn say_number(number: u32) {
    let mut digits = [0; 10];
    let (mut rest, mut count) = (number, 0_usize);
    for digit in digits.iter_mut().rev() {
        if rest > 0 || count == 0 {
            *digit = b"0123456789"
                .get((rest % 10) as usize)
                .copied()
                .unwrap_or_default();
            count = count.saturating_add(1);
        }
        rest /= 10;
    }
    say_bytes(
        digits
            .get(digits.len().saturating_sub(count)..)
            .unwrap_or_default(),
    );
}

/// Writes bytes to standard output.
fn say_bytes(bytes: &[u8]) {
    let mut rest = bytes;
    while !rest.is_empty() {
        // SAFETY: so many bytes may be read there.
        let put = unsafe { write(1, rest.as_ptr().cast(), rest.len()) };
        match usize::try_from(put).ok().and_then(|put| rest.get(put..)) {
            Some(behind) if put > 0 => rest = behind,
            _ => break,
        }
    }
}
