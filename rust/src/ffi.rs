//! The C functions of `include/nzd.h` over slices and arrays, with their results as they are there.
//!
//! All `unsafe` of this crate is here. The C functions ask only that a pointer and its length name valid memory, and
//! that nothing else names what is written; a slice or an array says both. So each function here is safe for every
//! argument. The structs of `include/nzd.h` are arrays here: their numbers in a row; but for the receiver, which some
//! functions take by value. A list of stretches is numbers in a row there, and [`numbers_of`] makes it so.

#![allow(unsafe_code)]

/// `struct nzd_receiver`.
#[derive(Clone, Copy, Debug, Default, PartialEq, Eq, Hash)]
#[repr(C)]
pub struct Receiver {
    /// How many bytes at the buffer's front are held.
    pub held: usize,
    /// The place of the first unfinished field.
    pub place: usize,
    /// The ID of the field before it, 0 if there is none.
    pub prev: usize,
}

/// The instants from one on, in ticks, up to another, which isn't one of them.
#[derive(Clone, Copy, Debug, Default, PartialEq, Eq, Hash)]
#[repr(C)]
pub struct Stretch {
    /// The first instant.
    pub first: i64,
    /// The end: the instant behind the last.
    pub end: i64,
}

/// The numbers of lent stretches in a row: of each its first instant and its end.
pub fn numbers_of(stretches: &mut [Stretch]) -> &mut [i64] {
    // A stretch is two numbers without padding, and any two numbers are one.
    unsafe { core::slice::from_raw_parts_mut(stretches.as_mut_ptr().cast(), 2 * stretches.len()) }
}

mod c {
    use super::Receiver;

    extern "C" {
        pub fn nzd_ask(
            file: *const u8,
            n: usize,
            id: *const u8,
            id_n: usize,
            ticks: i64,
            more: bool,
            first_edition: bool,
            out: *mut [i64; 7],
        ) -> u64;
        pub fn nzd_ask_named(
            file: *const u8,
            n: usize,
            name: *const u8,
            name_n: usize,
            ticks: i64,
            more: bool,
            first_edition: bool,
            out: *mut [i64; 7],
        ) -> u64;
        pub fn nzd_ask_named_old(
            file: *const u8,
            n: usize,
            older: *const u8,
            older_n: usize,
            name: *const u8,
            name_n: usize,
            ticks: i64,
            first_edition: bool,
            out: *mut [i64; 7],
        ) -> u64;
        pub fn nzd_ask_plain(
            file: *const u8,
            n: usize,
            id: *const u8,
            id_n: usize,
            ticks: i64,
            first_edition: bool,
            out: *mut [i64; 7],
        ) -> u64;
        pub fn nzd_find_zone(file: *const u8, n: usize, id: *const u8, id_n: usize, out: *mut [u64; 5]) -> u64;
        pub fn nzd_ask_zone(
            file: *const u8,
            n: usize,
            zone: *const [u64; 5],
            ticks: i64,
            first_edition: bool,
            out: *mut [i64; 7],
        ) -> u64;
        pub fn nzd_list_answers(
            file: *const u8,
            n: usize,
            zone: *const [u64; 5],
            ticks: i64,
            first_edition: bool,
            rows: *mut i64,
            rows_n: usize,
            count: *mut [i64; 1],
        ) -> u64;
        pub fn nzd_ask_listed(
            file: *const u8,
            n: usize,
            zone: *const [u64; 5],
            rows: *const i64,
            rows_n: usize,
            ticks: i64,
            first_edition: bool,
            out: *mut [i64; 7],
        ) -> u64;
        pub fn nzd_map_local(
            file: *const u8,
            n: usize,
            id: *const u8,
            id_n: usize,
            local: i64,
            out: *mut [i64; 3],
        ) -> u64;
        pub fn nzd_map_zone_local(
            file: *const u8,
            n: usize,
            zone: *const [u64; 5],
            local: i64,
            out: *mut [i64; 3],
        ) -> u64;
        pub fn nzd_location(
            file: *const u8,
            n: usize,
            field: u64,
            number: u64,
            pin: *mut [f64; 2],
            out: *mut [u64; 8],
        ) -> u64;
        pub fn nzd_next_country(file: *const u8, n: usize, view: *mut [u64; 4], out: *mut [u64; 4]) -> bool;
        pub fn nzd_version_text(file: *const u8, n: usize, out: *mut [i64; 2]) -> u64;
        pub fn nzd_normalize(file: *const u8, n: usize, out: *mut u8, out_n: usize) -> u64;
        pub fn nzd_close_pool(file: *const u8, n: usize, out: *mut u8, out_n: usize) -> u64;
        pub fn nzd_difference(
            file: *const u8,
            n: usize,
            other: *const u8,
            other_n: usize,
            id: *const u8,
            id_n: usize,
            first: i64,
            last: i64,
            out: *mut i64,
            out_n: usize,
            count: *mut [i64; 1],
        ) -> u64;
        pub fn nzd_replay(file: *const u8, n: usize, trace: *const u8, trace_n: usize, record: *mut [i64; 1]) -> u64;
        pub fn nzd_interval_starts(
            file: *const u8,
            n: usize,
            id: *const u8,
            id_n: usize,
            out: *mut i64,
            out_n: usize,
            count: *mut [i64; 1],
        ) -> u64;
        pub fn nzd_find_start(table: *const i64, table_n: usize, instant: i64, out: *mut [i64; 2]) -> u64;
        pub fn nzd_receiver_reset(r: *mut Receiver);
        pub fn nzd_receiver_add(
            r: *mut Receiver,
            buffer: *mut u8,
            buffer_n: usize,
            piece: *const u8,
            piece_n: usize,
        ) -> u64;
        pub fn nzd_receiver_ask(
            r: Receiver,
            buffer: *const u8,
            buffer_n: usize,
            id: *const u8,
            id_n: usize,
            ticks: i64,
            more: bool,
            first_edition: bool,
            out: *mut [i64; 7],
        ) -> u64;
        pub fn nzd_receiver_ask_plain(
            r: Receiver,
            buffer: *const u8,
            buffer_n: usize,
            id: *const u8,
            id_n: usize,
            ticks: i64,
            first_edition: bool,
            out: *mut [i64; 7],
        ) -> u64;
        pub fn nzd_receiver_ask_named(
            r: Receiver,
            buffer: *const u8,
            buffer_n: usize,
            name: *const u8,
            name_n: usize,
            ticks: i64,
            more: bool,
            first_edition: bool,
            out: *mut [i64; 7],
        ) -> u64;
        pub fn nzd_receiver_map_local(
            r: Receiver,
            buffer: *const u8,
            buffer_n: usize,
            id: *const u8,
            id_n: usize,
            local: i64,
            out: *mut [i64; 3],
        ) -> u64;
        pub fn nzd_receiver_location(
            r: Receiver,
            buffer: *const u8,
            buffer_n: usize,
            field: u64,
            number: u64,
            pin: *mut [f64; 2],
            out: *mut [u64; 8],
        ) -> u64;
        pub fn nzd_receiver_version_text(r: Receiver, buffer: *const u8, buffer_n: usize, out: *mut [i64; 2]) -> u64;
        pub fn nzd_receiver_normalize(
            r: Receiver,
            buffer: *const u8,
            buffer_n: usize,
            out: *mut u8,
            out_n: usize,
        ) -> u64;
        pub fn nzd_read_count(s: *const u8, n: usize, out: *mut [i64; 2]) -> u64;
        pub fn nzd_read_signed_count(s: *const u8, n: usize, out: *mut [i64; 2]) -> u64;
        pub fn nzd_read_offset(s: *const u8, n: usize, out: *mut [i64; 2]) -> u64;
        pub fn nzd_read_text(s: *const u8, n: usize, out: *mut [i64; 2]) -> u64;
        pub fn nzd_read_transition(s: *const u8, n: usize, previous: i64, finite: bool, out: *mut [i64; 3]) -> u64;
        pub fn nzd_write_count(v: i64, out: *mut u8, out_n: usize) -> u64;
        pub fn nzd_write_signed_count(v: i64, out: *mut u8, out_n: usize) -> u64;
        pub fn nzd_write_offset(ms: i64, out: *mut u8, out_n: usize) -> u64;
        pub fn nzd_write_text(t: *const u8, t_n: usize, out: *mut u8, out_n: usize) -> u64;
        pub fn nzd_write_transition(
            kind: u8,
            ticks: i64,
            previous: i64,
            finite: bool,
            out: *mut u8,
            out_n: usize,
        ) -> u64;
        pub fn nzd_old_read_count(s: *const u8, n: usize, out: *mut [i64; 2]) -> u64;
        pub fn nzd_old_read_offset(s: *const u8, n: usize, out: *mut [i64; 2]) -> u64;
        pub fn nzd_old_read_string(s: *const u8, n: usize, out: *mut [i64; 2]) -> u64;
        pub fn nzd_old_read_dictionary(s: *const u8, n: usize, out: *mut [i64; 2]) -> u64;
        pub fn nzd_old_write_count(v: u64, out: *mut u8, out_n: usize) -> u64;
        pub fn nzd_old_write_offset(ms: i64, out: *mut u8, out_n: usize) -> u64;
        pub fn nzd_old_write_string(t: *const u8, t_n: usize, out: *mut u8, out_n: usize) -> u64;
        pub fn nzd_old_write_dictionary(
            count: u64,
            pairs: *const u8,
            pairs_n: usize,
            out: *mut u8,
            out_n: usize,
            length: *mut [u64; 1],
        ) -> u64;
    }
}

/// `nzd_ask`.
pub fn ask(file: &[u8], id: &[u8], ticks: i64, more: bool, first_edition: bool, out: &mut [i64; 7]) -> u64 {
    unsafe { c::nzd_ask(file.as_ptr(), file.len(), id.as_ptr(), id.len(), ticks, more, first_edition, out) }
}

/// `nzd_ask_named`.
pub fn ask_named(file: &[u8], name: &[u8], ticks: i64, more: bool, first_edition: bool, out: &mut [i64; 7]) -> u64 {
    unsafe { c::nzd_ask_named(file.as_ptr(), file.len(), name.as_ptr(), name.len(), ticks, more, first_edition, out) }
}

/// `nzd_ask_named_old`.
pub fn ask_named_old(
    file: &[u8],
    older: &[u8],
    name: &[u8],
    ticks: i64,
    first_edition: bool,
    out: &mut [i64; 7],
) -> u64 {
    unsafe {
        c::nzd_ask_named_old(
            file.as_ptr(),
            file.len(),
            older.as_ptr(),
            older.len(),
            name.as_ptr(),
            name.len(),
            ticks,
            first_edition,
            out,
        )
    }
}

/// `nzd_ask_plain`.
pub fn ask_plain(file: &[u8], id: &[u8], ticks: i64, first_edition: bool, out: &mut [i64; 7]) -> u64 {
    unsafe { c::nzd_ask_plain(file.as_ptr(), file.len(), id.as_ptr(), id.len(), ticks, first_edition, out) }
}

/// `nzd_find_zone`.
pub fn find_zone(file: &[u8], id: &[u8], out: &mut [u64; 5]) -> u64 {
    unsafe { c::nzd_find_zone(file.as_ptr(), file.len(), id.as_ptr(), id.len(), out) }
}

/// `nzd_ask_zone`.
#[inline]
pub fn ask_zone(file: &[u8], zone: &[u64; 5], ticks: i64, first_edition: bool, out: &mut [i64; 7]) -> u64 {
    unsafe { c::nzd_ask_zone(file.as_ptr(), file.len(), zone, ticks, first_edition, out) }
}

/// `nzd_list_answers`.
pub fn list_answers(
    file: &[u8],
    zone: &[u64; 5],
    ticks: i64,
    first_edition: bool,
    rows: &mut [i64],
    count: &mut [i64; 1],
) -> u64 {
    unsafe {
        c::nzd_list_answers(file.as_ptr(), file.len(), zone, ticks, first_edition, rows.as_mut_ptr(), rows.len(), count)
    }
}

/// `nzd_ask_listed`.
#[inline]
pub fn ask_listed(
    file: &[u8],
    zone: &[u64; 5],
    rows: &[i64],
    ticks: i64,
    first_edition: bool,
    out: &mut [i64; 7],
) -> u64 {
    unsafe { c::nzd_ask_listed(file.as_ptr(), file.len(), zone, rows.as_ptr(), rows.len(), ticks, first_edition, out) }
}

/// `nzd_map_local`.
pub fn map_local(file: &[u8], id: &[u8], local: i64, out: &mut [i64; 3]) -> u64 {
    unsafe { c::nzd_map_local(file.as_ptr(), file.len(), id.as_ptr(), id.len(), local, out) }
}

/// `nzd_map_zone_local`.
#[inline]
pub fn map_zone_local(file: &[u8], zone: &[u64; 5], local: i64, out: &mut [i64; 3]) -> u64 {
    unsafe { c::nzd_map_zone_local(file.as_ptr(), file.len(), zone, local, out) }
}

/// `nzd_location`.
pub fn location(file: &[u8], field: u64, number: u64, pin: &mut [f64; 2], out: &mut [u64; 8]) -> u64 {
    unsafe { c::nzd_location(file.as_ptr(), file.len(), field, number, pin, out) }
}

/// `nzd_next_country`.
pub fn next_country(file: &[u8], view: &mut [u64; 4], out: &mut [u64; 4]) -> bool {
    unsafe { c::nzd_next_country(file.as_ptr(), file.len(), view, out) }
}

/// `nzd_version_text`.
pub fn version_text(file: &[u8], out: &mut [i64; 2]) -> u64 {
    unsafe { c::nzd_version_text(file.as_ptr(), file.len(), out) }
}

/// `nzd_normalize`.
pub fn normalize(file: &[u8], out: &mut [u8]) -> u64 {
    unsafe { c::nzd_normalize(file.as_ptr(), file.len(), out.as_mut_ptr(), out.len()) }
}

/// `nzd_close_pool`.
pub fn close_pool(file: &[u8], out: &mut [u8]) -> u64 {
    unsafe { c::nzd_close_pool(file.as_ptr(), file.len(), out.as_mut_ptr(), out.len()) }
}

/// `nzd_difference`.
pub fn difference(
    file: &[u8],
    other: &[u8],
    id: &[u8],
    first: i64,
    last: i64,
    out: &mut [i64],
    count: &mut [i64; 1],
) -> u64 {
    unsafe {
        c::nzd_difference(
            file.as_ptr(),
            file.len(),
            other.as_ptr(),
            other.len(),
            id.as_ptr(),
            id.len(),
            first,
            last,
            out.as_mut_ptr(),
            out.len(),
            count,
        )
    }
}

/// `nzd_replay`.
pub fn replay(file: &[u8], trace: &[u8], record: &mut [i64; 1]) -> u64 {
    unsafe { c::nzd_replay(file.as_ptr(), file.len(), trace.as_ptr(), trace.len(), record) }
}

/// `nzd_interval_starts`.
pub fn interval_starts(file: &[u8], id: &[u8], out: &mut [i64], count: &mut [i64; 1]) -> u64 {
    unsafe {
        c::nzd_interval_starts(file.as_ptr(), file.len(), id.as_ptr(), id.len(), out.as_mut_ptr(), out.len(), count)
    }
}

/// `nzd_find_start`.
#[inline]
pub fn find_start(table: &[i64], instant: i64, out: &mut [i64; 2]) -> u64 {
    unsafe { c::nzd_find_start(table.as_ptr(), table.len(), instant, out) }
}

/// `nzd_receiver_reset`.
pub fn receiver_reset(r: &mut Receiver) {
    unsafe { c::nzd_receiver_reset(r) }
}

/// `nzd_receiver_add`.
#[inline]
pub fn receiver_add(r: &mut Receiver, buffer: &mut [u8], piece: &[u8]) -> u64 {
    unsafe { c::nzd_receiver_add(r, buffer.as_mut_ptr(), buffer.len(), piece.as_ptr(), piece.len()) }
}

/// `nzd_receiver_ask`.
pub fn receiver_ask(
    r: Receiver,
    buffer: &[u8],
    id: &[u8],
    ticks: i64,
    more: bool,
    first_edition: bool,
    out: &mut [i64; 7],
) -> u64 {
    unsafe {
        c::nzd_receiver_ask(r, buffer.as_ptr(), buffer.len(), id.as_ptr(), id.len(), ticks, more, first_edition, out)
    }
}

/// `nzd_receiver_ask_plain`.
pub fn receiver_ask_plain(
    r: Receiver,
    buffer: &[u8],
    id: &[u8],
    ticks: i64,
    first_edition: bool,
    out: &mut [i64; 7],
) -> u64 {
    unsafe {
        c::nzd_receiver_ask_plain(r, buffer.as_ptr(), buffer.len(), id.as_ptr(), id.len(), ticks, first_edition, out)
    }
}

/// `nzd_receiver_ask_named`.
pub fn receiver_ask_named(
    r: Receiver,
    buffer: &[u8],
    name: &[u8],
    ticks: i64,
    more: bool,
    first_edition: bool,
    out: &mut [i64; 7],
) -> u64 {
    unsafe {
        c::nzd_receiver_ask_named(
            r,
            buffer.as_ptr(),
            buffer.len(),
            name.as_ptr(),
            name.len(),
            ticks,
            more,
            first_edition,
            out,
        )
    }
}

/// `nzd_receiver_map_local`.
pub fn receiver_map_local(r: Receiver, buffer: &[u8], id: &[u8], local: i64, out: &mut [i64; 3]) -> u64 {
    unsafe { c::nzd_receiver_map_local(r, buffer.as_ptr(), buffer.len(), id.as_ptr(), id.len(), local, out) }
}

/// `nzd_receiver_location`.
pub fn receiver_location(
    r: Receiver,
    buffer: &[u8],
    field: u64,
    number: u64,
    pin: &mut [f64; 2],
    out: &mut [u64; 8],
) -> u64 {
    unsafe { c::nzd_receiver_location(r, buffer.as_ptr(), buffer.len(), field, number, pin, out) }
}

/// `nzd_receiver_version_text`.
pub fn receiver_version_text(r: Receiver, buffer: &[u8], out: &mut [i64; 2]) -> u64 {
    unsafe { c::nzd_receiver_version_text(r, buffer.as_ptr(), buffer.len(), out) }
}

/// `nzd_receiver_normalize`.
pub fn receiver_normalize(r: Receiver, buffer: &[u8], out: &mut [u8]) -> u64 {
    unsafe { c::nzd_receiver_normalize(r, buffer.as_ptr(), buffer.len(), out.as_mut_ptr(), out.len()) }
}

/// `nzd_read_count`.
pub fn read_count(s: &[u8], out: &mut [i64; 2]) -> u64 {
    unsafe { c::nzd_read_count(s.as_ptr(), s.len(), out) }
}

/// `nzd_read_signed_count`.
pub fn read_signed_count(s: &[u8], out: &mut [i64; 2]) -> u64 {
    unsafe { c::nzd_read_signed_count(s.as_ptr(), s.len(), out) }
}

/// `nzd_read_offset`.
pub fn read_offset(s: &[u8], out: &mut [i64; 2]) -> u64 {
    unsafe { c::nzd_read_offset(s.as_ptr(), s.len(), out) }
}

/// `nzd_read_text`.
pub fn read_text(s: &[u8], out: &mut [i64; 2]) -> u64 {
    unsafe { c::nzd_read_text(s.as_ptr(), s.len(), out) }
}

/// `nzd_read_transition`.
pub fn read_transition(s: &[u8], previous: i64, finite: bool, out: &mut [i64; 3]) -> u64 {
    unsafe { c::nzd_read_transition(s.as_ptr(), s.len(), previous, finite, out) }
}

/// `nzd_write_count`.
pub fn write_count(v: i64, out: &mut [u8]) -> u64 {
    unsafe { c::nzd_write_count(v, out.as_mut_ptr(), out.len()) }
}

/// `nzd_write_signed_count`.
pub fn write_signed_count(v: i64, out: &mut [u8]) -> u64 {
    unsafe { c::nzd_write_signed_count(v, out.as_mut_ptr(), out.len()) }
}

/// `nzd_write_offset`.
pub fn write_offset(ms: i64, out: &mut [u8]) -> u64 {
    unsafe { c::nzd_write_offset(ms, out.as_mut_ptr(), out.len()) }
}

/// `nzd_write_text`.
pub fn write_text(t: &[u8], out: &mut [u8]) -> u64 {
    unsafe { c::nzd_write_text(t.as_ptr(), t.len(), out.as_mut_ptr(), out.len()) }
}

/// `nzd_write_transition`.
pub fn write_transition(kind: u8, ticks: i64, previous: i64, finite: bool, out: &mut [u8]) -> u64 {
    unsafe { c::nzd_write_transition(kind, ticks, previous, finite, out.as_mut_ptr(), out.len()) }
}

/// `nzd_old_read_count`.
pub fn old_read_count(s: &[u8], out: &mut [i64; 2]) -> u64 {
    unsafe { c::nzd_old_read_count(s.as_ptr(), s.len(), out) }
}

/// `nzd_old_read_offset`.
pub fn old_read_offset(s: &[u8], out: &mut [i64; 2]) -> u64 {
    unsafe { c::nzd_old_read_offset(s.as_ptr(), s.len(), out) }
}

/// `nzd_old_read_string`.
pub fn old_read_string(s: &[u8], out: &mut [i64; 2]) -> u64 {
    unsafe { c::nzd_old_read_string(s.as_ptr(), s.len(), out) }
}

/// `nzd_old_read_dictionary`.
pub fn old_read_dictionary(s: &[u8], out: &mut [i64; 2]) -> u64 {
    unsafe { c::nzd_old_read_dictionary(s.as_ptr(), s.len(), out) }
}

/// `nzd_old_write_count`.
pub fn old_write_count(v: u64, out: &mut [u8]) -> u64 {
    unsafe { c::nzd_old_write_count(v, out.as_mut_ptr(), out.len()) }
}

/// `nzd_old_write_offset`.
pub fn old_write_offset(ms: i64, out: &mut [u8]) -> u64 {
    unsafe { c::nzd_old_write_offset(ms, out.as_mut_ptr(), out.len()) }
}

/// `nzd_old_write_string`.
pub fn old_write_string(t: &[u8], out: &mut [u8]) -> u64 {
    unsafe { c::nzd_old_write_string(t.as_ptr(), t.len(), out.as_mut_ptr(), out.len()) }
}

/// `nzd_old_write_dictionary`.
pub fn old_write_dictionary(count: u64, pairs: &[u8], out: &mut [u8], length: &mut [u64; 1]) -> u64 {
    unsafe { c::nzd_old_write_dictionary(count, pairs.as_ptr(), pairs.len(), out.as_mut_ptr(), out.len(), length) }
}
