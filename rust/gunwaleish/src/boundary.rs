//! The functions of the library as C declares them, and one safe call of each, which gives
//! the library's packed number as it is. The functions at the crate's root take it apart.
//!
//! This is the only file with `unsafe`. Every call is sound for the same four reasons. A Rust
//! slice passes as its pointer and its length, in elements, as the library asks: a length has 64
//! bits there on every target, also where a pointer has 32. The pointer of a Rust slice is never
//! null and is aligned, also that of an empty one. A `&[T]` and a `&mut [T]` never overlap; two
//! `&[T]` may, since they are only read. And the library is proved to read and write inside the
//! slices alone, to keep nothing of them, and to end.

extern "C" {
    fn gunwaleish_version() -> u32;
    fn gunwaleish_run_trace(
        trace: *const u8,
        trace_len: u64,
        answers: *mut u8,
        answers_len: u64,
    ) -> u64;
    fn gunwaleish_address_of(ad3: u8, ad2: u8, ad1: u8, ad0: u8) -> u32;
    fn gunwaleish_pins_of(address: u8) -> u64;
    fn gunwaleish_listing(trace: *const u8, trace_len: u64, text: *mut u8, text_len: u64) -> u64;
    fn gunwaleish_write_trace(
        ad3: u8,
        ad2: u8,
        ad1: u8,
        ad0: u8,
        kind: u8,
        events: *const u8,
        events_len: u64,
        trace: *mut u8,
        trace_len: u64,
    ) -> u64;
    fn gunwaleish_convert_trace(
        old: *const u8,
        old_len: u64,
        trace: *mut u8,
        trace_len: u64,
    ) -> u64;
    fn gunwaleish_import_capture(
        samples: *const u8,
        samples_len: u64,
        address: u8,
        events: *mut u8,
        events_len: u64,
    ) -> u64;
    fn gunwaleish_sheet_box(
        board: *const u8,
        board_len: u64,
        house: *const u8,
        house_len: u64,
        section: u8,
        controller: u8,
    ) -> u64;
    fn gunwaleish_sheet_events(
        board: *const u8,
        board_len: u64,
        house: *const u8,
        house_len: u64,
        events: *mut u8,
        events_len: u64,
    ) -> u64;
    fn gunwaleish_sheet_wait(
        board: *const u8,
        board_len: u64,
        house: *const u8,
        house_len: u64,
        controller: u8,
        kind: u8,
    ) -> u64;
    fn gunwaleish_image_fresh(kind: u8, image: *mut u8, image_len: u64) -> u32;
    fn gunwaleish_image_step(event: u8, x: u8, y: u8, z: u8, image: *mut u8, image_len: u64)
        -> u32;
    fn gunwaleish_image_advance(ticks: u32, image: *mut u8, image_len: u64) -> u32;
    fn gunwaleish_image_read(master: u8, register: u8, image: *const u8, image_len: u64) -> u32;
    fn gunwaleish_shelf_step(
        name: u8,
        event: u8,
        x: u8,
        y: u8,
        z: u8,
        row: *mut u8,
        row_len: u64,
    ) -> u32;
    fn gunwaleish_shelf_show(place: u8, row: *const u8, row_len: u64) -> u32;
    fn gunwaleish_shelf_fresh(slots: *const u8, slots_len: u64, row: *mut u8, row_len: u64) -> u32;
    fn gunwaleish_share_add(
        trace: *const u8,
        trace_len: u64,
        totals: *mut u64,
        totals_len: u64,
    ) -> u32;
    fn gunwaleish_share_join(
        other: *const u64,
        other_len: u64,
        totals: *mut u64,
        totals_len: u64,
    ) -> u32;
    fn gunwaleish_watch_fresh(
        kind: u8,
        address: u8,
        every: u32,
        below: u8,
        watch: *mut u8,
        watch_len: u64,
    ) -> u32;
    fn gunwaleish_watch_listen(
        samples: *const u8,
        samples_len: u64,
        watch: *mut u8,
        watch_len: u64,
    ) -> u64;
    fn gunwaleish_list_orders(
        script0: *const u8,
        script0_len: u64,
        script1: *const u8,
        script1_len: u64,
        limit: u64,
        listed: *mut u8,
        listed_len: u64,
    ) -> u64;
}

/// The version: 65536 times its major, 256 times its minor, and its patch.
pub fn version() -> u32 {
    // SAFETY: nothing passes but the result, a number.
    unsafe { gunwaleish_version() }
}

/// The number, then the address, the count of events and the kind of part, packed as 1, 256, 65536
/// and 4294967296.
pub fn run_trace(trace: &[u8], answers: &mut [u8]) -> u64 {
    // SAFETY: see the head of this file.
    unsafe {
        gunwaleish_run_trace(
            trace.as_ptr(),
            trace.len() as u64,
            answers.as_mut_ptr(),
            answers.len() as u64,
        )
    }
}

/// The number, then the address.
pub fn address_of(pins: [u8; 4]) -> u32 {
    let [ad3, ad2, ad1, ad0] = pins;
    // SAFETY: only numbers pass.
    unsafe { gunwaleish_address_of(ad3, ad2, ad1, ad0) }
}

/// The number, then the codes of AD3, AD2, AD1 and AD0, a byte each.
pub fn pins_of(address: u8) -> u64 {
    // SAFETY: only a number passes.
    unsafe { gunwaleish_pins_of(address) }
}

/// The length of the listing. It is in `text` only if it fits there.
pub fn listing(trace: &[u8], text: &mut [u8]) -> usize {
    let (trace, trace_len) = (trace.as_ptr(), trace.len() as u64);
    // SAFETY: see the head of this file.
    let length =
        unsafe { gunwaleish_listing(trace, trace_len, text.as_mut_ptr(), text.len() as u64) };
    // No listing is longer than 36,872 bytes, so this fits where a `usize` has 32 bits.
    length as usize
}

/// The number, then the trace's length, packed as 1 and 256.
pub fn write_trace(pins: [u8; 4], kind: u8, events: &[u8], trace: &mut [u8]) -> u64 {
    let [ad3, ad2, ad1, ad0] = pins;
    let (from, from_len) = (events.as_ptr(), events.len() as u64);
    // SAFETY: see the head of this file.
    unsafe {
        let (to, to_len) = (trace.as_mut_ptr(), trace.len() as u64);
        gunwaleish_write_trace(ad3, ad2, ad1, ad0, kind, from, from_len, to, to_len)
    }
}

/// The number, then the new trace's length, packed as 1 and 256.
pub fn convert_trace(old: &[u8], trace: &mut [u8]) -> u64 {
    // SAFETY: see the head of this file.
    unsafe {
        gunwaleish_convert_trace(
            old.as_ptr(),
            old.len() as u64,
            trace.as_mut_ptr(),
            trace.len() as u64,
        )
    }
}

/// The number, then the count of events, packed as 1 and 256.
pub fn import_capture(samples: &[u8], address: u8, events: &mut [u8]) -> u64 {
    let (from, from_len) = (samples.as_ptr(), samples.len() as u64);
    // SAFETY: see the head of this file.
    unsafe {
        let (to, to_len) = (events.as_mut_ptr(), events.len() as u64);
        gunwaleish_import_capture(from, from_len, address, to, to_len)
    }
}

/// The number, then the sheet (1 board, 2 house) and the byte of it at which the box starts, packed
/// as 1, 256 and 65536. A refusal has 0 above its number.
pub fn sheet_box(board: &[u8], house: &[u8], section: u8, controller: u8) -> u64 {
    let (board, board_len) = (board.as_ptr(), board.len() as u64);
    let (house, house_len) = (house.as_ptr(), house.len() as u64);
    // SAFETY: see the head of this file.
    unsafe { gunwaleish_sheet_box(board, board_len, house, house_len, section, controller) }
}

/// The number, then the count of events, packed as 1 and 256.
pub fn sheet_events(board: &[u8], house: &[u8], events: &mut [u8]) -> u64 {
    let (board, board_len) = (board.as_ptr(), board.len() as u64);
    let (house, house_len) = (house.as_ptr(), house.len() as u64);
    // SAFETY: see the head of this file.
    unsafe {
        let (to, to_len) = (events.as_mut_ptr(), events.len() as u64);
        gunwaleish_sheet_events(board, board_len, house, house_len, to, to_len)
    }
}

/// The number, then the grade (1 live, 2 silent, 3 unbounded) and the ticks, packed as 1, 256 and
/// 65536. A refusal has 0 above its number.
pub fn sheet_wait(board: &[u8], house: &[u8], controller: u8, kind: u8) -> u64 {
    let (board, board_len) = (board.as_ptr(), board.len() as u64);
    let (house, house_len) = (house.as_ptr(), house.len() as u64);
    // SAFETY: see the head of this file.
    unsafe { gunwaleish_sheet_wait(board, board_len, house, house_len, controller, kind) }
}

/// The number. The buffer has the image of a fresh device of this kind, or is as it was.
pub fn image_fresh(kind: u8, image: &mut [u8]) -> u32 {
    // SAFETY: see the head of this file.
    unsafe { gunwaleish_image_fresh(kind, image.as_mut_ptr(), image.len() as u64) }
}

/// The four answer bytes, the first lowest. The buffer has the image after the step.
pub fn image_step(event: [u8; 4], image: &mut [u8]) -> u32 {
    let [event, x, y, z] = event;
    // SAFETY: see the head of this file.
    unsafe { gunwaleish_image_step(event, x, y, z, image.as_mut_ptr(), image.len() as u64) }
}

/// The number, then how many of the ticks changed anything but counts, packed as 1 and 256. The
/// buffer has the image after the ticks, or is as it was.
pub fn image_advance(ticks: u32, image: &mut [u8]) -> u32 {
    // SAFETY: see the head of this file.
    unsafe { gunwaleish_image_advance(ticks, image.as_mut_ptr(), image.len() as u64) }
}

/// The number, then the byte, packed as 1 and 256.
pub fn image_read(master: u8, register: u8, image: &[u8]) -> u32 {
    // SAFETY: see the head of this file.
    unsafe { gunwaleish_image_read(master, register, image.as_ptr(), image.len() as u64) }
}

/// The four answer bytes, the first lowest. The buffer has the row after the event.
pub fn shelf_step(name: u8, event: [u8; 4], row: &mut [u8]) -> u32 {
    let [event, x, y, z] = event;
    // SAFETY: see the head of this file.
    unsafe { gunwaleish_shelf_step(name, event, x, y, z, row.as_mut_ptr(), row.len() as u64) }
}

/// The four answer bytes of the device at a place, the first lowest.
pub fn shelf_show(place: u8, row: &[u8]) -> u32 {
    // SAFETY: see the head of this file.
    unsafe { gunwaleish_shelf_show(place, row.as_ptr(), row.len() as u64) }
}

/// The number. The buffer has the row of fresh devices, an address and a kind of part each, or is as
/// it was.
pub fn shelf_fresh(slots: &[u8], row: &mut [u8]) -> u32 {
    let (slots, slots_len) = (slots.as_ptr(), slots.len() as u64);
    // SAFETY: see the head of this file.
    unsafe { gunwaleish_shelf_fresh(slots, slots_len, row.as_mut_ptr(), row.len() as u64) }
}

/// The number. The buffer has the totals with this trace, or is as it was.
pub fn share_add(trace: &[u8], totals: &mut [u64]) -> u32 {
    let (trace, trace_len) = (trace.as_ptr(), trace.len() as u64);
    // SAFETY: see the head of this file.
    unsafe { gunwaleish_share_add(trace, trace_len, totals.as_mut_ptr(), totals.len() as u64) }
}

/// The number. The buffer has the totals with the others joined, or is as it was.
pub fn share_join(other: &[u64], totals: &mut [u64]) -> u32 {
    let (other, other_len) = (other.as_ptr(), other.len() as u64);
    // SAFETY: see the head of this file.
    unsafe { gunwaleish_share_join(other, other_len, totals.as_mut_ptr(), totals.len() as u64) }
}

/// The number. The buffer has a listener before its first sample, or is as it was.
pub fn watch_fresh(kind: u8, address: u8, every: u32, below: u8, watch: &mut [u8]) -> u32 {
    let (to, to_len) = (watch.as_mut_ptr(), watch.len() as u64);
    // SAFETY: see the head of this file.
    unsafe { gunwaleish_watch_fresh(kind, address, every, below, to, to_len) }
}

/// The number, then how many samples were taken, packed as 1 and 256. The buffer has the listener after
/// them, or is as it was.
pub fn watch_listen(samples: &[u8], watch: &mut [u8]) -> u64 {
    let (from, from_len) = (samples.as_ptr(), samples.len() as u64);
    // SAFETY: see the head of this file.
    unsafe { gunwaleish_watch_listen(from, from_len, watch.as_mut_ptr(), watch.len() as u64) }
}

/// The number, then the count of listed orders, packed as 1 and 256.
pub fn list_orders(script0: &[u8], script1: &[u8], limit: usize, listed: &mut [u8]) -> u64 {
    let (script0, script0_len) = (script0.as_ptr(), script0.len() as u64);
    let (script1, script1_len) = (script1.as_ptr(), script1.len() as u64);
    // SAFETY: see the head of this file.
    unsafe {
        let (to, to_len, limit) = (listed.as_mut_ptr(), listed.len() as u64, limit as u64);
        gunwaleish_list_orders(script0, script0_len, script1, script1_len, limit, to, to_len)
    }
}
