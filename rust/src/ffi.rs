//! The functions of the static library, as `include/gellunka.h` declares them, in safe form. Nothing checks
//! these declarations against their source, `crates/exports`: the tests do.

use crate::Trial;

/// `struct gellunka_refused`.
#[repr(C)]
#[derive(Clone, Copy)]
pub struct Refused {
    pub number: usize,
    pub place: usize,
    pub start: usize,
    pub length: usize,
}

/// `struct gellunka_listed`.
#[repr(C)]
pub struct Listed {
    pub refused: Refused,
    pub pairs: usize,
    pub ordered: usize,
    pub commuting: usize,
    pub listed: usize,
}

/// `struct gellunka_paged`.
#[repr(C)]
pub struct Paged {
    pub refused: Refused,
    pub length: usize,
}

/// `struct gellunka_shared`.
#[repr(C)]
pub struct Shared {
    pub refused: Refused,
    pub quotient: usize,
    pub remainder: usize,
    pub divisor: usize,
}

/// `struct gellunka_normalised`.
#[repr(C)]
pub struct Normalised {
    pub refused: Refused,
    pub length: usize,
}

/// `struct gellunka_replayed`.
#[repr(C)]
pub struct Replayed {
    pub refused: Refused,
    pub tables: usize,
    pub answers: usize,
}

/// `struct gellunka_tried`.
#[repr(C)]
pub struct Tried {
    pub refused: Refused,
    pub orders: usize,
}

extern "C" {
    fn gellunka_list_races(
        trace: *const u8,
        trace_length: usize,
        delay: u32,
        out: *mut u8,
        out_length: usize,
    ) -> Listed;
    fn gellunka_page(
        trace: *const u8,
        trace_length: usize,
        delay: u32,
        out: *mut u8,
        out_length: usize,
    ) -> Paged;
    fn gellunka_share(trace: *const u8, trace_length: usize, delay: u32) -> Shared;
    fn gellunka_normalise(
        tables: *const u8,
        tables_length: usize,
        out: *mut u8,
        out_length: usize,
    ) -> Normalised;
    fn gellunka_replay(
        trace: *const u8,
        trace_length: usize,
        tables: *const u8,
        tables_length: usize,
        order: *const u8,
        order_length: usize,
        delay: u32,
        out: *mut u8,
        out_length: usize,
        answered: *mut u8,
        answered_length: usize,
    ) -> Replayed;
    fn gellunka_try_orders(
        trace: *const u8,
        trace_length: usize,
        tables: *const u8,
        tables_length: usize,
        orders: *const u8,
        orders_length: usize,
        delay: u32,
        out: *mut u8,
        out_length: usize,
    ) -> Tried;
}

pub fn list_races(trace: &[u8], delay: u32, out: &mut [u8]) -> Listed {
    // SAFETY: each pointer and length are those of a slice, and a `&mut` slice overlaps no other. The source
    // has no `requires`, so it asks nothing else.
    unsafe { gellunka_list_races(trace.as_ptr(), trace.len(), delay, out.as_mut_ptr(), out.len()) }
}

pub fn page(trace: &[u8], delay: u32, out: &mut [u8]) -> Paged {
    // SAFETY: as above.
    unsafe { gellunka_page(trace.as_ptr(), trace.len(), delay, out.as_mut_ptr(), out.len()) }
}

pub fn share(trace: &[u8], delay: u32) -> Shared {
    // SAFETY: as above.
    unsafe { gellunka_share(trace.as_ptr(), trace.len(), delay) }
}

pub fn normalise(tables: &[u8], out: &mut [u8]) -> Normalised {
    // SAFETY: as above.
    unsafe { gellunka_normalise(tables.as_ptr(), tables.len(), out.as_mut_ptr(), out.len()) }
}

pub fn replay(
    trace: &[u8],
    tables: &[u8],
    order: &[u8],
    delay: u32,
    tables_out: &mut [u8],
    answers_out: &mut [u8],
) -> Replayed {
    // SAFETY: as above.
    unsafe {
        gellunka_replay(
            trace.as_ptr(),
            trace.len(),
            tables.as_ptr(),
            tables.len(),
            order.as_ptr(),
            order.len(),
            delay,
            tables_out.as_mut_ptr(),
            tables_out.len(),
            answers_out.as_mut_ptr(),
            answers_out.len(),
        )
    }
}

pub fn try_orders(trace: &[u8], tables: &[u8], orders: &[u8], delay: u32, out: &mut [Trial]) -> Tried {
    // SAFETY: as above. A `Trial` is one byte, 0, 1 or 2, and the call is proved to write no other bytes there.
    unsafe {
        gellunka_try_orders(
            trace.as_ptr(),
            trace.len(),
            tables.as_ptr(),
            tables.len(),
            orders.as_ptr(),
            orders.len(),
            delay,
            out.as_mut_ptr().cast(),
            out.len(),
        )
    }
}
