//! The safe Rust side of the proved library: each C function that the desktop planner calls, as a
//! function over slices that answers a `Result`; and the sentence of a refusal as a `String` too.
//!
//! The first byte of a show table is its edition. A count m and m core labels of a byte follow; a
//! count n and n tasks, each with separation T, budget C and priority offset Y and, in edition 2,
//! the deadline D; a count, n or 0, and as many entries of slack. A number has 4 bytes, low byte
//! first, so a task has 12 bytes in edition 1 and 16 in edition 2. What the functions answer and
//! write depends on neither edition nor deadlines, but that 28 refuses a deadline that is not 1 to
//! 1,600,000, and that `convert` takes a table from one edition to the other.
//!
//! With n at most m no slack may be offered: each task has slack 0 and C as its bound, and none is
//! counted. Such a table is no wish sheet and is not converted.

pub use records::Refusal;

use records::decode;

mod ffi {
    // A `&[u8]` of the proved code passes as a pointer and then a length. `.ci/documents` compares
    // these declarations with its source as text, so they are kept to byte slices and numbers.
    unsafe extern "C" {
        pub fn dahomike_judge(
            table: *const u8,
            table_len: usize,
            out: *mut u8,
            out_len: usize,
        ) -> u64;

        pub fn dahomike_counted(
            table: *const u8,
            table_len: usize,
            out: *mut u8,
            out_len: usize,
        ) -> u64;

        pub fn dahomike_wish(
            sheet: *const u8,
            sheet_len: usize,
            out: *mut u8,
            out_len: usize,
        ) -> u64;

        pub fn dahomike_run_log(
            table: *const u8,
            table_len: usize,
            log: *const u8,
            log_len: usize,
            out: *mut u8,
            out_len: usize,
        ) -> u64;

        pub fn dahomike_sentence(
            number: u32,
            index: u32,
            value: u64,
            out: *mut u8,
            out_len: usize,
        ) -> u64;

        pub fn dahomike_convert(
            table: *const u8,
            table_len: usize,
            edition: u32,
            out: *mut u8,
            out_len: usize,
        ) -> u64;
    }
}

/// Judges a show table. Where it is accepted, slack and bound of each of its n tasks stand in `out`
/// (slack 0, bound 0, slack 1, bound 1 and so on, 4 bytes each, low byte first), later bytes of
/// `out` stay, and n comes back. Where it is refused, `out` stays as it is.
pub fn judge(table: &[u8], out: &mut [u8]) -> Result<usize, Refusal> {
    // SAFETY: the proved function asks for two slices that are not null and do not overlap, and
    // nothing else. A Rust slice is never null, also where it is empty, and `out`, being borrowed
    // mutably, overlaps no other borrow.
    let answer =
        unsafe { ffi::dahomike_judge(table.as_ptr(), table.len(), out.as_mut_ptr(), out.len()) };
    decode(answer).map(|tasks| tasks as usize)
}

/// Names the tasks that a judgement counted: those of the m − 1 largest weights at its slack. Where
/// the table is accepted, they stand in `out`, largest weight first, equal weights by lower task, a
/// byte each, later bytes of `out` stay, and their number m − 1 comes back; with n at most m there
/// are none, and 0 comes back. Where it is refused, `out` stays as it is.
pub fn counted(table: &[u8], out: &mut [u8]) -> Result<usize, Refusal> {
    // SAFETY: as in `judge`.
    let answer =
        unsafe { ffi::dahomike_counted(table.as_ptr(), table.len(), out.as_mut_ptr(), out.len()) };
    decode(answer).map(|tasks| tasks as usize)
}

/// Finds offsets and slack for a wish sheet: a show table with the wished bound W in the offset's
/// place and slack count 0. Where it has a solution, offset, slack and bound of each of its n tasks
/// stand in `out` (offset 0, slack 0, bound 0, offset 1 and so on, 4 bytes each, low byte first),
/// the slack the least and each offset the largest of all solutions, no bound above its wish; later
/// bytes of `out` stay, and n comes back. Where it is refused, `out` stays as it is.
pub fn wish(sheet: &[u8], out: &mut [u8]) -> Result<usize, Refusal> {
    // SAFETY: as in `judge`.
    let answer =
        unsafe { ffi::dahomike_wish(sheet.as_ptr(), sheet.len(), out.as_mut_ptr(), out.len()) };
    decode(answer).map(|tasks| tasks as usize)
}

/// Runs a release log on a show table. Where the call is not refused, the 8 bytes of each entry
/// stand in `out` (kind 1 and finish tick, or kind 2 and refusal number, 4 bytes each, low byte
/// first), later bytes of `out` stay, and the numbers of taken and of refused entries come back.
/// Where it is refused, `out` stays as it is.
pub fn run_log(table: &[u8], log: &[u8], out: &mut [u8]) -> Result<(usize, usize), Refusal> {
    // SAFETY: as in `judge`, with three slices: none is null, and `out` overlaps no other. Table
    // and log may overlap each other, since both are only read.
    let answer = unsafe {
        ffi::dahomike_run_log(
            table.as_ptr(),
            table.len(),
            log.as_ptr(),
            log.len(),
            out.as_mut_ptr(),
            out.len(),
        )
    };
    decode(answer).map(counts)
}

/// No sentence is longer, in bytes: a caller who lends so many is never refused.
pub const LONGEST_SENTENCE: usize = 256;

/// Tells a refusal as one English sentence, with its number, its index and the value found there, 0
/// where none is meant. The sentence stands in `out`, in ASCII, later bytes of `out` stay, and its
/// length comes back. Where `out` is too short, 25 comes back and `out` stays as it is.
pub fn sentence_into(
    number: u32,
    index: u32,
    value: u64,
    out: &mut [u8],
) -> Result<usize, Refusal> {
    // SAFETY: as in `judge`, with one slice: it is not null.
    let answer =
        unsafe { ffi::dahomike_sentence(number, index, value, out.as_mut_ptr(), out.len()) };
    decode(answer).map(|length| length as usize)
}

/// The same sentence as a text of its own.
pub fn sentence(number: u32, index: u32, value: u64) -> String {
    let mut text = vec![0; LONGEST_SENTENCE];
    let length = sentence_into(number, index, value, &mut text).expect("no sentence is longer");
    text.truncate(length);
    String::from_utf8(text).expect("a sentence is ASCII")
}

/// Converts a show table to the wanted edition: to 2 with each offset as deadline, and to 1 where
/// every deadline equals its offset. Where the call is not refused, the converted table stands in
/// `out`, later bytes of `out` stay, and its length comes back, which is at most 332. Labels, T, C,
/// Y and offered slack are as they were, and slack that was to be found still is. Both tables have
/// the same slack, bounds and late, as `plan` prints them, and the second converted back is the
/// first. Where the call is refused, `out` stays as it is.
pub fn convert(table: &[u8], edition: u32, out: &mut [u8]) -> Result<usize, Refusal> {
    // SAFETY: as in `judge`.
    let answer = unsafe {
        ffi::dahomike_convert(table.as_ptr(), table.len(), edition, out.as_mut_ptr(), out.len())
    };
    decode(answer).map(|length| length as usize)
}

/// How many entries were taken and how many refused, of taken + 65,536 × refused.
fn counts(value: u32) -> (usize, usize) {
    ((value & 0xffff) as usize, (value >> 16) as usize)
}

#[cfg(test)]
mod tests {
    use super::counts;

    #[test]
    fn a_run_has_two_counts() {
        assert_eq!(counts(0), (0, 0));
        assert_eq!(counts(2 + 65_536), (2, 1));
        assert_eq!(counts(65_535), (65_535, 0));
        assert_eq!(counts(65_536 * 65_535), (0, 65_535));
    }
}
