//! The functions of include/rules.h over slices, with the numbers as the library gives them.
//!
//! The library reads and writes nothing but what the pointers and lengths name and its stack, for every input; slices
//! give it pointers that are not null and aligned, and buffers that do not overlap. The caller gives it the stack.

extern "C" {
    fn rules_run(
        sheet: *const u8,
        sheet_len: usize,
        budget: u32,
        table: *mut u32,
        table_len: usize,
        work: *mut u32,
        work_len: usize,
        answer: *mut u8,
        answer_len: usize,
        result: *mut u32,
        result_len: usize,
    ) -> u32;

    fn rules_ask(
        sheet: *const u8,
        sheet_len: usize,
        request: *const u32,
        request_len: usize,
        table: *mut u32,
        table_len: usize,
        work: *mut u32,
        work_len: usize,
        answer: *mut u8,
        answer_len: usize,
        result: *mut u32,
        result_len: usize,
    ) -> u32;

    fn rules_check(
        sheet: *const u8,
        sheet_len: usize,
        text: *const u8,
        text_len: usize,
        table: *mut u32,
        table_len: usize,
        work: *mut u32,
        work_len: usize,
        result: *mut u32,
        result_len: usize,
    ) -> u32;
}

/// `rules_run`: 0 proved, 1 no, 2 spent, 3 refused. `result` gets that number, the units, the text's length, the
/// refusal's number and its line, as far as it is long.
///
/// # Safety
///
/// At least `run_stack(answer.len())` bytes of stack are left.
pub unsafe fn run(
    sheet: &[u8],
    budget: u32,
    table: &mut [u32],
    work: &mut [u32],
    answer: &mut [u8],
    result: &mut [u32],
) -> u32 {
    rules_run(
        sheet.as_ptr(),
        sheet.len(),
        budget,
        table.as_mut_ptr(),
        table.len(),
        work.as_mut_ptr(),
        work.len(),
        answer.as_mut_ptr(),
        answer.len(),
        result.as_mut_ptr(),
        result.len(),
    )
}

/// `rules_ask`: `request` holds the budget and the number of proofs, read as far as it is long; a missing budget is 0, a
/// missing number 1. Returned is the same number as from `run`; `result` gets that one's five numbers and then the number
/// of proofs in the text, as far as it is long.
///
/// # Safety
///
/// At least `run_stack(answer.len())` bytes of stack are left.
pub unsafe fn ask(
    sheet: &[u8],
    request: &[u32],
    table: &mut [u32],
    work: &mut [u32],
    answer: &mut [u8],
    result: &mut [u32],
) -> u32 {
    rules_ask(
        sheet.as_ptr(),
        sheet.len(),
        request.as_ptr(),
        request.len(),
        table.as_mut_ptr(),
        table.len(),
        work.as_mut_ptr(),
        work.len(),
        answer.as_mut_ptr(),
        answer.len(),
        result.as_mut_ptr(),
        result.len(),
    )
}

/// `rules_check`: 0 valid, 1 not valid, 3 refused. `result` gets that number, the line and the refusal's number, as far
/// as it is long.
///
/// # Safety
///
/// At least `CHECK_STACK` bytes of stack are left.
pub unsafe fn check(sheet: &[u8], text: &[u8], table: &mut [u32], work: &mut [u32], result: &mut [u32]) -> u32 {
    rules_check(
        sheet.as_ptr(),
        sheet.len(),
        text.as_ptr(),
        text.len(),
        table.as_mut_ptr(),
        table.len(),
        work.as_mut_ptr(),
        work.len(),
        result.as_mut_ptr(),
        result.len(),
    )
}
