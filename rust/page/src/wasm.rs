//! The module's exports. It has no imports, so it can do nothing but answer.

use std::sync::Mutex;

/// The room of a request, and the last answer.
static ROOMS: Mutex<(Vec<u8>, Vec<u8>)> = Mutex::new((vec![], vec![]));

/// The address of a room for so many bytes; 0 if there is no such room.
#[no_mangle]
pub extern "C" fn input(length: usize) -> *mut u8 {
    let Ok(mut rooms) = ROOMS.lock() else {
        return std::ptr::null_mut();
    };
    *rooms = (vec![], vec![]);
    if rooms.0.try_reserve_exact(length).is_err() {
        return std::ptr::null_mut();
    }
    rooms.0.resize(length, 0);
    rooms.0.as_mut_ptr()
}

/// Answers the request of so many bytes in the room, and gives the answer's length.
#[no_mangle]
pub extern "C" fn ask(length: usize) -> usize {
    let Ok(mut rooms) = ROOMS.lock() else {
        return 0;
    };
    let answer = crate::ask(&rooms.0[..length.min(rooms.0.len())]);
    rooms.1 = answer;
    rooms.1.len()
}

/// The address of the last answer.
#[no_mangle]
pub extern "C" fn output() -> *const u8 {
    ROOMS.lock().map_or(std::ptr::null(), |rooms| rooms.1.as_ptr())
}
