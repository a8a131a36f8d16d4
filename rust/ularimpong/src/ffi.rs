//! The proved library as C sees it. All unsafe code of this crate is here.
//!
//! A list is passed as a pointer and a length. What C callers have to see to,
//! that no two buffers overlap and that none is null, Rust's references give.

/// 0 none, 1 found, 2 stopped, 3 refused; the refusal's number, or 0.
#[repr(C)]
pub struct SolveNumbers {
    pub answer: usize,
    pub refusal: usize,
    pub sweeps: usize,
}

/// The refusal's number and line, or 0 and 0; the counts, 0 at a refusal.
#[repr(C)]
pub struct TranslateNumbers {
    pub refusal: usize,
    pub line: usize,
    pub quantities: usize,
    pub declared: usize,
    pub primitives: usize,
    pub clauses: usize,
    pub literals: usize,
}

#[repr(C)]
pub struct LineSpan {
    pub start: usize,
    pub end: usize,
}

extern "C" {
    fn ularimpong_solve(
        ranges: *const i64,
        ranges_count: usize,
        primitives: *const i64,
        primitives_count: usize,
        lengths: *const i64,
        lengths_count: usize,
        literals: *const i64,
        literals_count: usize,
        leading: i64,
        budget: i64,
        point: *mut i64,
        point_count: usize,
        work: *mut i64,
        work_count: usize,
    ) -> SolveNumbers;

    fn ularimpong_translate(
        sheet: *const u8,
        sheet_count: usize,
        ranges: *mut i64,
        ranges_count: usize,
        primitives: *mut i64,
        primitives_count: usize,
        lengths: *mut i64,
        lengths_count: usize,
        literals: *mut i64,
        literals_count: usize,
        names: *mut u8,
        names_count: usize,
    ) -> TranslateNumbers;

    fn ularimpong_line_span(text: *const u8, text_count: usize, line: usize) -> LineSpan;

    fn ularimpong_answer(sheet: *const u8, sheet_count: usize, out: *mut [u8; 4096]) -> usize;
}

pub fn solve(
    ranges: &[i64],
    primitives: &[i64],
    lengths: &[i64],
    literals: &[i64],
    leading: i64,
    budget: i64,
    point: &mut [i64],
    work: &mut [i64],
) -> SolveNumbers {
    // SAFETY: each pointer stands with the length of the slice it is from.
    // The library writes through `point` and `work` alone, within them.
    unsafe {
        ularimpong_solve(
            ranges.as_ptr(),
            ranges.len(),
            primitives.as_ptr(),
            primitives.len(),
            lengths.as_ptr(),
            lengths.len(),
            literals.as_ptr(),
            literals.len(),
            leading,
            budget,
            point.as_mut_ptr(),
            point.len(),
            work.as_mut_ptr(),
            work.len(),
        )
    }
}

pub fn translate(
    sheet: &[u8],
    ranges: &mut [i64],
    primitives: &mut [i64],
    lengths: &mut [i64],
    literals: &mut [i64],
    names: &mut [u8],
) -> TranslateNumbers {
    // SAFETY: each pointer stands with the length of the slice it is from.
    // The library writes through the five `&mut` alone, within them.
    unsafe {
        ularimpong_translate(
            sheet.as_ptr(),
            sheet.len(),
            ranges.as_mut_ptr(),
            ranges.len(),
            primitives.as_mut_ptr(),
            primitives.len(),
            lengths.as_mut_ptr(),
            lengths.len(),
            literals.as_mut_ptr(),
            literals.len(),
            names.as_mut_ptr(),
            names.len(),
        )
    }
}

pub fn line_span(text: &[u8], line: usize) -> LineSpan {
    // SAFETY: the pointer stands with the length of the slice it is from.
    unsafe { ularimpong_line_span(text.as_ptr(), text.len(), line) }
}

pub fn answer(sheet: &[u8], out: &mut [u8; 4096]) -> usize {
    // SAFETY: the pointer stands with the length of the slice it is from, and
    // the library writes within the array of 4,096 bytes.
    unsafe { ularimpong_answer(sheet.as_ptr(), sheet.len(), out) }
}
