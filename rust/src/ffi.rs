//! The calls of `include/film_planner.h`, declared and wrapped: the only file with `unsafe`, which
//! `most.rs` has by the macro of this file. A slice crosses as its pointer and its length, so each
//! wrapper hands on exactly what Rust lent it, and no two of its `&mut` slices overlap.
#![allow(unsafe_code)]
// The calls have up to 21 numbers and slices.
#![allow(clippy::too_many_arguments)]

extern "C" {
    fn film_archive_of_version_1() -> u64;
}

/// The archive's version by name, as the header has it: a wrapper of another version does not link.
#[used]
static ARCHIVE: unsafe extern "C" fn() -> u64 = film_archive_of_version_1;

/// Declares the calls and wraps each: a number crosses as it is, a slice as pointer and length.
macro_rules! calls {
    ($($(#[$doc:meta])* fn $name:ident = $symbol:ident($($arg:ident: $kind:ident $ty:ty),* $(,)?);)*) => {
        $(
            $(#[$doc])*
            pub(crate) fn $name($($arg: calls!(@safe $kind $ty)),*) -> u64 {
                calls!(@declare $symbol [] $($arg $kind $ty,)*);
                // SAFETY: every slice is live for the call, of so many elements as its length says,
                // and lent to this call alone if `&mut`. The library is proved to touch no byte
                // beside them, to keep no pointer and to return.
                unsafe { calls!(@call $symbol [] $($arg $kind,)*) }
            }
        )*
    };
    (@safe number $ty:ty) => { $ty };
    (@safe handed $ty:ty) => { &[$ty] };
    (@safe lent $ty:ty) => { &mut [$ty] };
    (@declare $symbol:ident [$($done:tt)*]) => {
        extern "C" {
            fn $symbol($($done)*) -> u64;
        }
    };
    (@declare $symbol:ident [$($done:tt)*] $arg:ident number $ty:ty, $($rest:tt)*) => {
        calls!(@declare $symbol [$($done)* _: $ty,] $($rest)*)
    };
    (@declare $symbol:ident [$($done:tt)*] $arg:ident handed $ty:ty, $($rest:tt)*) => {
        calls!(@declare $symbol [$($done)* _: *const $ty, _: usize,] $($rest)*)
    };
    (@declare $symbol:ident [$($done:tt)*] $arg:ident lent $ty:ty, $($rest:tt)*) => {
        calls!(@declare $symbol [$($done)* _: *mut $ty, _: usize,] $($rest)*)
    };
    (@call $symbol:ident [$($done:tt)*]) => { $symbol($($done)*) };
    (@call $symbol:ident [$($done:tt)*] $arg:ident number, $($rest:tt)*) => {
        calls!(@call $symbol [$($done)* $arg,] $($rest)*)
    };
    (@call $symbol:ident [$($done:tt)*] $arg:ident handed, $($rest:tt)*) => {
        calls!(@call $symbol [$($done)* $arg.as_ptr(), $arg.len(),] $($rest)*)
    };
    (@call $symbol:ident [$($done:tt)*] $arg:ident lent, $($rest:tt)*) => {
        calls!(@call $symbol [$($done)* $arg.as_mut_ptr(), $arg.len(),] $($rest)*)
    };
}

calls! {
    fn version = film_version();
    fn read_job = film_read_job(
        file: handed u8, programme: lent u16, lengths: lent u64, sizes: lent u32, size_chunks: lent u16, size_layers: lent u8,
        size_bytes: lent u32, forecast: lent u32,
    );
    fn read_mixed_job = film_read_mixed_job(file: handed u8, programme: lent u16, lengths: lent u64, sizes: lent u32, forecast: lent u32);
    fn write_job = film_write_job(
        chunks: number u16, span: number u16, delay: number u16, limit: number u16, sizes: handed u32, size_chunks: handed u16,
        size_layers: handed u8, size_bytes: handed u32, forecast: handed u32, out: lent u8,
    );
    fn read_plan = film_read_plan(
        chunks: number u16, span: number u16, delay: number u16, limit: number u16, sizes: handed u32, size_chunks: handed u16,
        size_layers: handed u8, size_bytes: handed u32, forecast: handed u32, file: handed u8, marks: lent u8, row_slots: lent u16,
        row_chunks: lent u16, row_layers: lent u8, row_bytes: lent u32,
    );
    fn write_plan = film_write_plan(
        chunks: number u16, span: number u16, delay: number u16, limit: number u16, sizes: handed u32, size_chunks: handed u16,
        size_layers: handed u8, size_bytes: handed u32, forecast: handed u32, marks: handed u8, row_slots: handed u16,
        row_chunks: handed u16, row_layers: handed u8, row_bytes: handed u32, out: lent u8,
    );
    fn check = film_check(
        chunks: number u16, span: number u16, delay: number u16, limit: number u16, sizes: handed u32, size_chunks: handed u16,
        size_layers: handed u8, size_bytes: handed u32, forecast: handed u32, marks: handed u8, row_slots: handed u16,
        row_chunks: handed u16, row_layers: handed u8, row_bytes: handed u32,
    );
    fn check_from = film_check_from(
        chunks: number u16, span: number u16, delay: number u16, limit: number u16, sizes: handed u32, size_chunks: handed u16,
        size_layers: handed u8, size_bytes: handed u32, forecast: handed u32, from: number u16, marks: handed u8,
        row_slots: handed u16, row_chunks: handed u16, row_layers: handed u8, row_bytes: handed u32,
    );
    fn plan = film_plan(
        chunks: number u16, span: number u16, delay: number u16, limit: number u16, sizes: handed u32, size_chunks: handed u16,
        size_layers: handed u8, size_bytes: handed u32, forecast: handed u32, marks: lent u8, row_slots: lent u16,
        row_chunks: lent u16, row_layers: lent u8, row_bytes: lent u32, counts: lent u16,
    );
    fn compare = film_compare(counts: handed u16, others: handed u16);
    fn replan = film_replan(
        chunks: number u16, span: number u16, delay: number u16, limit: number u16, sizes: handed u32, size_chunks: handed u16,
        size_layers: handed u8, size_bytes: handed u32, forecast: handed u32, from: number u16, fetched_slots: handed u16,
        fetched_chunks: handed u16, fetched_layers: handed u8, fetched_bytes: handed u32, onward: handed u32, marks: lent u8,
        row_slots: lent u16, row_chunks: lent u16, row_layers: lent u8, row_bytes: lent u32, counts: lent u16,
    );
    fn live = film_live(
        chunks: number u16, span: number u16, delay: number u16, limit: number u16, sizes: handed u32, size_chunks: handed u16,
        size_layers: handed u8, size_bytes: handed u32, forecast: handed u32, from: number u16, fetched_slots: handed u16,
        fetched_chunks: handed u16, fetched_layers: handed u8, fetched_bytes: handed u32, rate: number u32, piece_chunks: lent u16,
        piece_layers: lent u8, piece_bytes: lent u32,
    );
    fn search = film_search(
        chunks: number u16, span: number u16, delay: number u16, limit: number u16, sizes: handed u32, size_chunks: handed u16,
        size_layers: handed u8, size_bytes: handed u32, forecast: handed u32, budget: number u32, marks: lent u8,
        row_slots: lent u16, row_chunks: lent u16, row_layers: lent u8, row_bytes: lent u32, counts: lent u16, walk: lent u32,
    );
    fn reasons = film_reasons(
        chunks: number u16, span: number u16, delay: number u16, limit: number u16, sizes: handed u32, size_chunks: handed u16,
        size_layers: handed u8, size_bytes: handed u32, forecast: handed u32, out: lent u8,
    );
    fn wait = film_wait(
        chunks: number u16, span: number u16, limit: number u16, sizes: handed u32, size_chunks: handed u16,
        size_layers: handed u8, size_bytes: handed u32, forecast: handed u32,
    );
    fn report = film_report(
        chunks: number u16, span: number u16, delay: number u16, limit: number u16, sizes: handed u32, size_chunks: handed u16,
        size_layers: handed u8, size_bytes: handed u32, forecast: handed u32, out: lent u8,
    );
    fn plan_file = film_plan_file(job: handed u8, out: lent u8);
    fn verdict_files = film_verdict_files(job: handed u8, plan: handed u8);
    fn report_file = film_report_file(job: handed u8, out: lent u8);
    fn reasons_file = film_reasons_file(job: handed u8, out: lent u8);
    fn convert_file = film_convert_file(job: handed u8, out: lent u8);
    fn read_trace = film_read_trace(trace: handed u8, slots: number usize, forecast: lent u32);
    fn write_trace = film_write_trace(forecast: handed u32, out: lent u8);
    fn book = film_book(
        chunks: number u16, span: number u16, delay: number u16, limit: number u16, sizes: handed u32, size_chunks: handed u16,
        size_layers: handed u8, size_bytes: handed u32, forecast: lent u32, marks: handed u8, row_slots: handed u16,
        row_chunks: handed u16, row_layers: handed u8, row_bytes: handed u32,
    );
    fn release = film_release(
        chunks: number u16, span: number u16, delay: number u16, limit: number u16, sizes: handed u32, size_chunks: handed u16,
        size_layers: handed u8, size_bytes: handed u32, forecast: lent u32, row_slots: handed u16, row_chunks: handed u16,
        row_layers: handed u8, row_bytes: handed u32,
    );
    fn count_marks = film_count_marks(marks: handed u8, n: number u8, count: lent u64);
    fn count_word = film_count_word(word: number u64, n: number u8);
    fn meter_new = film_meter_new(slots: lent u16, bytes: lent u32, kept: lent u8);
    fn meter_take = film_meter_take(slots: lent u16, bytes: lent u32, kept: lent u8, slot: number u16, sample: number u32);
    fn meter_forecast = film_meter_forecast(slots: handed u16, bytes: handed u32, kept: handed u8);
}
