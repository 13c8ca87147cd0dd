//! The functions of the proved archive that are timed, and nothing else: the
//! one place where the compiler takes our word (include/hingedrift.h).

#![allow(unsafe_code)]

unsafe extern "C" {
    fn hd_handle_request(
        store: *mut u8,
        store_len: usize,
        table: *mut u8,
        table_len: usize,
        cluster: u16,
        unicast: u8,
        request: *const u8,
        request_len: usize,
        reply: *mut u8,
        reply_len: usize,
        reply_used: *mut usize,
    ) -> u8;

    fn hd_report(
        store: *const u8,
        store_len: usize,
        sequence: u8,
        ids: *const u16,
        ids_len: usize,
        frame: *mut u8,
        frame_len: usize,
        frame_used: *mut usize,
    ) -> u8;

    fn hd_ask(
        table: *const u8,
        table_len: usize,
        cluster: u16,
        attribute: u16,
        now: u32,
        value: i64,
        due: *mut u8,
    ) -> u8;

    fn hd_mark(
        table: *mut u8,
        table_len: usize,
        cluster: u16,
        attribute: u16,
        now: u32,
        value: i64,
    ) -> u8;
}

/// The number, and the reply's length. The request is unicast.
pub fn handle_request(
    store: &mut [u8],
    table: &mut [u8],
    cluster: u16,
    request: &[u8],
    reply: &mut [u8],
) -> (u8, usize) {
    let mut used = 0;
    // SAFETY: every pointer is a slice's, lent with that slice's length, or that
    // of a local; the borrows keep them apart and alive.
    let number = unsafe {
        hd_handle_request(
            store.as_mut_ptr(),
            store.len(),
            table.as_mut_ptr(),
            table.len(),
            cluster,
            1,
            request.as_ptr(),
            request.len(),
            reply.as_mut_ptr(),
            reply.len(),
            &mut used,
        )
    };
    (number, used)
}

/// The number, and the frame's length.
pub fn report(store: &[u8], sequence: u8, ids: &[u16], frame: &mut [u8]) -> (u8, usize) {
    let mut used = 0;
    // SAFETY: as above; the function only reads what is lent as const.
    let number = unsafe {
        hd_report(
            store.as_ptr(),
            store.len(),
            sequence,
            ids.as_ptr(),
            ids.len(),
            frame.as_mut_ptr(),
            frame.len(),
            &mut used,
        )
    };
    (number, used)
}

/// The number, and 1 where a report is due.
pub fn ask(table: &[u8], cluster: u16, attribute: u16, now: u32, value: i64) -> (u8, u8) {
    let mut due = 0;
    // SAFETY: as above.
    let number = unsafe {
        hd_ask(
            table.as_ptr(),
            table.len(),
            cluster,
            attribute,
            now,
            value,
            &mut due,
        )
    };
    (number, due)
}

/// The number.
pub fn mark(table: &mut [u8], cluster: u16, attribute: u16, now: u32, value: i64) -> u8 {
    // SAFETY: as above.
    unsafe {
        hd_mark(
            table.as_mut_ptr(),
            table.len(),
            cluster,
            attribute,
            now,
            value,
        )
    }
}
