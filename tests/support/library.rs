//! The proved library's C functions, as `crates/abi` has them, and those of the
//! box and its journal a second time with what is lent in Rust's types.

use crate::numbers::{Numbers, Orders, Sizes, Terms};

#[link(name = "abi", kind = "static")]
unsafe extern "C" {
    pub fn frame_read(text: *const u8, text_len: usize, fields: *mut u64) -> u8;
    pub fn frame_write(fields: *const u64, room: *mut u8, room_len: usize) -> u8;
    pub fn box_start(me: u8, mask: u8, numbers: *mut u64, room: *mut u8, room_len: usize) -> u64;
    pub fn box_timeout(
        numbers: *mut u64,
        terms: *mut u32,
        orders: *mut u64,
        journal: *mut u8,
        journal_len: usize,
        room: *mut u8,
        room_len: usize,
        sizes: *mut u64,
    ) -> u8;
    pub fn box_prompt(
        numbers: *mut u64,
        terms: *const u32,
        orders: *const u64,
        journal: *mut u8,
        journal_len: usize,
        room: *mut u8,
        room_len: usize,
        sizes: *mut u64,
    ) -> u8;
    pub fn box_order(
        order: u64,
        numbers: *mut u64,
        terms: *mut u32,
        orders: *mut u64,
        journal: *mut u8,
        journal_len: usize,
        room: *mut u8,
        room_len: usize,
        sizes: *mut u64,
    ) -> u8;
    pub fn box_receive(
        text: *const u8,
        text_len: usize,
        numbers: *mut u64,
        terms: *mut u32,
        orders: *mut u64,
        journal: *mut u8,
        journal_len: usize,
        room: *mut u8,
        room_len: usize,
        sizes: *mut u64,
    ) -> u8;
    pub fn box_handed_out(
        numbers: *const u64,
        terms: *const u32,
        orders: *const u64,
        count: *mut u64,
    ) -> u8;
    pub fn journal_open(
        me: u8,
        text: *const u8,
        text_len: usize,
        numbers: *mut u64,
        terms: *mut u32,
        orders: *mut u64,
        sizes: *mut u64,
    ) -> u8;
    pub fn journal_replay(
        text: *const u8,
        text_len: usize,
        numbers: *mut u64,
        terms: *mut u32,
        orders: *mut u64,
    ) -> u8;
    pub fn order_from_bytes(bytes: *const u8) -> u64;
    pub fn order_to_bytes(order: u64, bytes: *mut u8);
}

/// The refusal and 256 times the bytes written.
pub fn start(me: u8, mask: u8, numbers: &mut Numbers, room: &mut [u8]) -> u64 {
    unsafe {
        box_start(
            me,
            mask,
            numbers.as_mut_ptr(),
            room.as_mut_ptr(),
            room.len(),
        )
    }
}

pub fn timeout(
    numbers: &mut Numbers,
    terms: &mut Terms,
    orders: &mut Orders,
    journal: &mut [u8],
    room: &mut [u8],
    sizes: &mut Sizes,
) -> u8 {
    unsafe {
        box_timeout(
            numbers.as_mut_ptr(),
            terms.as_mut_ptr(),
            orders.as_mut_ptr(),
            journal.as_mut_ptr(),
            journal.len(),
            room.as_mut_ptr(),
            room.len(),
            sizes.as_mut_ptr(),
        )
    }
}

pub fn prompt(
    numbers: &mut Numbers,
    terms: &Terms,
    orders: &Orders,
    journal: &mut [u8],
    room: &mut [u8],
    sizes: &mut Sizes,
) -> u8 {
    unsafe {
        box_prompt(
            numbers.as_mut_ptr(),
            terms.as_ptr(),
            orders.as_ptr(),
            journal.as_mut_ptr(),
            journal.len(),
            room.as_mut_ptr(),
            room.len(),
            sizes.as_mut_ptr(),
        )
    }
}

pub fn order(
    order: u64,
    numbers: &mut Numbers,
    terms: &mut Terms,
    orders: &mut Orders,
    journal: &mut [u8],
    room: &mut [u8],
    sizes: &mut Sizes,
) -> u8 {
    unsafe {
        box_order(
            order,
            numbers.as_mut_ptr(),
            terms.as_mut_ptr(),
            orders.as_mut_ptr(),
            journal.as_mut_ptr(),
            journal.len(),
            room.as_mut_ptr(),
            room.len(),
            sizes.as_mut_ptr(),
        )
    }
}

pub fn receive(
    text: &[u8],
    numbers: &mut Numbers,
    terms: &mut Terms,
    orders: &mut Orders,
    journal: &mut [u8],
    room: &mut [u8],
    sizes: &mut Sizes,
) -> u8 {
    unsafe {
        box_receive(
            text.as_ptr(),
            text.len(),
            numbers.as_mut_ptr(),
            terms.as_mut_ptr(),
            orders.as_mut_ptr(),
            journal.as_mut_ptr(),
            journal.len(),
            room.as_mut_ptr(),
            room.len(),
            sizes.as_mut_ptr(),
        )
    }
}

pub fn handed_out(numbers: &Numbers, terms: &Terms, orders: &Orders, count: &mut u64) -> u8 {
    unsafe { box_handed_out(numbers.as_ptr(), terms.as_ptr(), orders.as_ptr(), count) }
}

/// 0 with the record and the first of the sizes, 10 with the second, or 11.
pub fn open(
    me: u8,
    text: &[u8],
    numbers: &mut Numbers,
    terms: &mut Terms,
    orders: &mut Orders,
    sizes: &mut Sizes,
) -> u8 {
    unsafe {
        journal_open(
            me,
            text.as_ptr(),
            text.len(),
            numbers.as_mut_ptr(),
            terms.as_mut_ptr(),
            orders.as_mut_ptr(),
            sizes.as_mut_ptr(),
        )
    }
}

/// One whole line over the record so far: 0 with the next one, 10 or 12.
pub fn replay(text: &[u8], numbers: &mut Numbers, terms: &mut Terms, orders: &mut Orders) -> u8 {
    unsafe {
        journal_replay(
            text.as_ptr(),
            text.len(),
            numbers.as_mut_ptr(),
            terms.as_mut_ptr(),
            orders.as_mut_ptr(),
        )
    }
}

/// The order that 8 bytes are.
pub fn order_of(bytes: &[u8; 8]) -> u64 {
    unsafe { order_from_bytes(bytes.as_ptr()) }
}

/// Stores the 8 bytes that an order is.
pub fn put_order(order: u64, bytes: &mut [u8; 8]) {
    unsafe { order_to_bytes(order, bytes.as_mut_ptr()) }
}
