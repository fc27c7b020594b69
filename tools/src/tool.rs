//! The tool's C functions.

use crate::model::Refusal;

mod c {
    unsafe extern "C" {
        pub fn placement_read(file: *const u8, length: usize) -> u64;
        pub fn placement_conflict(file: *const u8, length: usize, mask: u32) -> u64;
        pub fn placement_judge(
            file: *const u8,
            length: usize,
            placement: *const u8,
            placement_length: usize,
        ) -> u16;
        pub fn placement_judge_tasks(
            file: *const u8,
            length: usize,
            placement: *const u8,
            placement_length: usize,
            out: *mut i32,
            out_length: usize,
        ) -> u64;
        pub fn placement_search(file: *const u8, length: usize, answer: *mut u8, answer_length: usize)
        -> u64;
        pub fn placement_late_sets(file: *const u8, length: usize, sets: *const u32, count: usize) -> u64;
    }
}

/// 0 if the file is read, else the refusal's number × 2^32 + its place.
pub fn read(file: &[u8]) -> u64 {
    // SAFETY: the slice is valid during the call, and the function only reads it.
    unsafe { c::placement_read(file.as_ptr(), file.len()) }
}

/// The refusal's number × 2^32 + its place, or 0 no conflict, 1 late but not minimal, 2 minimal.
pub fn conflict(file: &[u8], mask: u32) -> u64 {
    // SAFETY: the slice is valid during the call, and the function only reads it.
    unsafe { c::placement_conflict(file.as_ptr(), file.len(), mask) }
}

/// The refusal's number, or 0, or the first broken rule's.
pub fn judge(file: &[u8], placement: &[u8]) -> u16 {
    // SAFETY: the slices are valid during the call, and the function only reads them.
    unsafe { c::placement_judge(file.as_ptr(), file.len(), placement.as_ptr(), placement.len()) }
}

/// The count of numbers written into `out`, which are the judgement's number, what it concerns, the responses
/// and the margins; or the refusal's number × 2^32 + its place.
pub fn judge_tasks(file: &[u8], placement: &[u8], out: &mut [i32]) -> u64 {
    // SAFETY: the slices are valid during the call; the function only reads the file and the placement, and
    // writes within `out` alone.
    unsafe {
        c::placement_judge_tasks(
            file.as_ptr(),
            file.len(),
            placement.as_ptr(),
            placement.len(),
            out.as_mut_ptr(),
            out.len(),
        )
    }
}

/// The count of bytes written into the answer, or the refusal.
pub fn search(file: &[u8], answer: &mut [u8]) -> Result<usize, Refusal> {
    // SAFETY: the slices are valid during the call; the function only reads the file, and writes within
    // the answer alone.
    let code = unsafe { c::placement_search(file.as_ptr(), file.len(), answer.as_mut_ptr(), answer.len()) };
    match code >> 32 {
        0 => Ok(code as usize),
        _ => Err(Refusal::of_code(code).unwrap_or_else(|| panic!("no refusal of 01: {code:#x}"))),
    }
}

/// How many of the sets are late; 0 for a file that is refused.
pub fn late_sets(file: &[u8], sets: &[u32]) -> u64 {
    // SAFETY: the slices are valid during the call, and the function only reads them.
    unsafe { c::placement_late_sets(file.as_ptr(), file.len(), sets.as_ptr(), sets.len()) }
}
