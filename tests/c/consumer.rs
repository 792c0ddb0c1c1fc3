//! A user in Rust: its linker, lld, meets Rust's own library twice, in the program and in a static library that Cargo made.

extern "C" {
    fn subsetter_version() -> u32;
    fn subsetter_error_text(status: u32, out: *mut u8, room: usize, length: *mut usize) -> u32;
}

fn main() {
    let (mut text, mut length) = ([0; 64], 0);
    // SAFETY: the buffer has so much room.
    let (version, status) = unsafe { (subsetter_version(), subsetter_error_text(2, text.as_mut_ptr(), 64, &mut length)) };
    let said = String::from_utf8_lossy(&text[..length]);
    assert!(version > 0 && status == 0 && said == "malformed font", "{version} {said}");
}
