//! The functions of the four proved archives: each run has one of its own, as the compiler would make
//! another program of it beside calls of the same functions from elsewhere.

use crate::plain::Choice;
use crate::rounding::Lent;

/// How many numbers a run must be lent.
pub const LENT: usize = 32_768;

/// A plan's file, W, the choices and the lent memory in, the checksum out.
pub type WholeRun = fn(&[u8], u16, &[Choice], &mut [u16]) -> u64;

/// A safe function over an exported one.
macro_rules! whole_run {
    ($name:ident, $exported:ident) => {
        /// Opens the plan in the lent memory and makes every choice, in one of the ways. Gives the
        /// checksum of all answers, as `plain::run` does, or the number 1 to 9 of a refused opening.
        pub fn $name(file: &[u8], workers: u16, choices: &[Choice], mem: &mut [u16]) -> u64 {
            extern "C" {
                // Nothing checks this declaration against the library's source.
                fn $exported(
                    file: *const u8,
                    file_len: usize,
                    workers: u16,
                    choices: *const u8,
                    choices_len: usize,
                    mem: *mut u16,
                    mem_len: usize,
                ) -> u64;
            }
            // Safe: each pointer goes with the length of its own slice, in bytes for the choices,
            // and only `mem` is written.
            unsafe {
                $exported(
                    file.as_ptr(),
                    file.len(),
                    workers,
                    choices.as_ptr().cast(),
                    2 * choices.len(),
                    mem.as_mut_ptr(),
                    mem.len(),
                )
            }
        }
    };
}

whole_run!(run, pipeline_run);
whole_run!(run_offered, pipeline_run_offered);
whole_run!(run_taken, pipeline_run_taken);

/// The same with rounding, or without it if the base is 0; the numbers of a refused opening are then 1 to
/// 9 and 16 to 18.
pub fn run_rounded(
    file: &[u8],
    workers: u16,
    lent: &mut Lent,
    choices: &[Choice],
    mem: &mut [u16],
) -> u64 {
    extern "C" {
        fn pipeline_run_rounded(
            file: *const u8,
            file_len: usize,
            workers: u16,
            pipe: u16,
            base: u16,
            choices: *const u8,
            choices_len: usize,
            mem: *mut u16,
            mem_len: usize,
            cells: *const u32,
            cells_len: usize,
            figures: *mut u32,
            figures_len: usize,
        ) -> u64;
    }
    // Safe: as above; `mem` and the figures are written.
    unsafe {
        pipeline_run_rounded(
            file.as_ptr(),
            file.len(),
            workers,
            lent.pipe,
            lent.base,
            choices.as_ptr().cast(),
            2 * choices.len(),
            mem.as_mut_ptr(),
            mem.len(),
            lent.cells.as_ptr(),
            lent.cells.len(),
            lent.figures.as_mut_ptr(),
            lent.figures.len(),
        )
    }
}

/// Without rounding, by the function that makes choices with it.
pub fn run_unrounded(file: &[u8], workers: u16, choices: &[Choice], mem: &mut [u16]) -> u64 {
    run_rounded(file, workers, &mut Lent::none(), choices, mem)
}

/// The ways to make a choice: at once; offered first and then made; offered first, and the event that was
/// offered taken; or by a call that could round. All give the same answers and leave the same memory.
pub const WAYS: [(&str, WholeRun); 4] = [
    ("choices", run),
    ("offers and choices", run_offered),
    ("offers and takings", run_taken),
    ("choices that could round", run_unrounded),
];

#[cfg(before)]
whole_run!(run_before, pipeline_run_before);

/// Choices by an older archive, where one is linked too.
#[cfg(before)]
pub const BEFORE: Option<WholeRun> = Some(run_before);
#[cfg(not(before))]
pub const BEFORE: Option<WholeRun> = None;
