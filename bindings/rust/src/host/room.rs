//! Room for what Rust's `std` asks for by itself. Where `std` is refused it, the process ends; so as much is asked for before,
//! by a call that can fail, and given back for `std` to take.

use crate::rattle::io::{ErrorKind, Result};
use std::sync::Mutex;

/// Bytes that are given back with their value.
type Room = ::alloc::vec::Vec<u8>;

/// Room for `bytes` bytes.
fn take(bytes: usize) -> Result<Room> {
    let mut room = Room::new();
    room.try_reserve_exact(bytes)
        .map_err(|_| ErrorKind::OutOfMemory)?;
    Ok(room)
}

/// `OutOfMemory` where there is no room for `bytes` bytes now.
pub fn ask(bytes: usize) -> Result<()> {
    take(bytes).map(drop)
}

/// From this length on `std` asks for room for a name; a shorter one it copies to the stack (since about Rust 1.67).
const LONG_NAME: usize = 384;

/// Whether `std` asks for room for a name.
pub fn is_long(name: &str) -> bool {
    name.len() >= LONG_NAME
}

/// `OutOfMemory` where there is no room for a long name as the system wants it: with a final zero.
pub fn ask_for_name(name: &str) -> Result<()> {
    if !is_long(name) {
        return Ok(());
    }
    ask(name.len().saturating_add(1))
}

/// Room for two names of a file, the first of which has its name.
type Kept = (Room, Room);

/// The room of each new file, from before it is made until it is renamed or removed: neither may fail for want of memory. (With
/// `--jobs` there are several such files at a time.)
static KEPT: Mutex<::alloc::vec::Vec<Kept>> = Mutex::new(::alloc::vec::Vec::new());

/// Keeps room to rename and to remove the file of a name.
pub fn keep_for_name(name: &str) -> Result<()> {
    let bytes = name.len().saturating_add(1);
    let (mut one, other) = (take(bytes)?, take(bytes)?);
    one.extend_from_slice(name.as_bytes());
    if let Ok(mut kept) = KEPT.lock() {
        kept.try_reserve(1).map_err(|_| ErrorKind::OutOfMemory)?;
        kept.push((one, other));
    }
    Ok(())
}

/// Gives back the room that is kept for the file of a name, if any is.
pub fn give_back(name: &str) {
    if let Ok(mut kept) = KEPT.lock() {
        kept.retain(|(one, _)| one != name.as_bytes());
    }
}

#[cfg(test)]
mod tests {
    use super::*;

    /// How many bytes the smaller one of the two rooms has that are kept for a name.
    fn kept(name: &str) -> Option<usize> {
        let all = KEPT.lock().unwrap();
        let of_name = all.iter().find(|(one, _)| one == name.as_bytes());
        of_name.map(|(one, other)| one.capacity().min(other.capacity()))
    }

    #[test]
    fn room_for_two_names_is_kept_until_it_is_given_back() {
        assert_eq!(kept("name"), None);
        keep_for_name("name").unwrap();
        keep_for_name("another").unwrap();
        assert!(kept("name") >= Some("name\0".len()), "{:?}", kept("name"));
        give_back("name");
        assert_eq!(kept("name"), None);
        assert!(kept("another") >= Some("another\0".len()));
        give_back("another");
        assert_eq!(kept("another"), None);
    }
}
