//! The C calls over lent slices; each gives the packed answer, to be taken apart by [`crate::Answer`].

extern "C" {
    fn oboefinch_read(
        sheet: *const u8,
        sheet_length: usize,
        clocks: *mut u16,
        clocks_length: usize,
        masks: *mut u32,
        masks_length: usize,
        values: *mut u16,
        values_length: usize,
    ) -> u64;

    fn oboefinch_read_lamport(
        sheet: *const u8,
        sheet_length: usize,
        clocks: *mut u16,
        clocks_length: usize,
        masks: *mut u32,
        masks_length: usize,
        values: *mut u16,
        values_length: usize,
        lamports: *mut u16,
        lamports_length: usize,
    ) -> u64;

    fn oboefinch_class(
        n: usize,
        list: *const u8,
        list_length: usize,
        clocks: *mut u16,
        clocks_length: usize,
        masks: *mut u32,
        masks_length: usize,
        values: *mut u16,
        values_length: usize,
        answers: *mut u8,
        answers_length: usize,
    ) -> u64;

    fn oboefinch_class_lamport(
        n: usize,
        list: *const u8,
        list_length: usize,
        clocks: *mut u16,
        clocks_length: usize,
        masks: *mut u32,
        masks_length: usize,
        values: *mut u16,
        values_length: usize,
        answers: *mut u8,
        answers_length: usize,
        lamports: *mut u16,
        lamports_length: usize,
    ) -> u64;

    fn oboefinch_write(
        n: usize,
        list: *const u8,
        list_length: usize,
        clocks: *mut u16,
        clocks_length: usize,
        masks: *mut u32,
        masks_length: usize,
        values: *mut u16,
        values_length: usize,
        sheet: *mut u8,
        sheet_length: usize,
    ) -> u64;

    fn oboefinch_compare(
        n: usize,
        list: *const u8,
        list_length: usize,
        clocks: *mut u16,
        clocks_length: usize,
        masks: *mut u32,
        masks_length: usize,
        values: *mut u16,
        values_length: usize,
        first: usize,
        second: usize,
    ) -> u64;

    fn oboefinch_chain(
        n: usize,
        list: *const u8,
        list_length: usize,
        clocks: *mut u16,
        clocks_length: usize,
        masks: *mut u32,
        masks_length: usize,
        values: *mut u16,
        values_length: usize,
        first: usize,
        second: usize,
        chain: *mut u16,
        chain_length: usize,
    ) -> u64;

    fn oboefinch_mark(
        sheet: *const u8,
        sheet_length: usize,
        lines: *const u8,
        lines_length: usize,
        clocks: *mut u16,
        clocks_length: usize,
        masks: *mut u32,
        masks_length: usize,
        values: *mut u16,
        values_length: usize,
        marks: *mut u8,
        marks_length: usize,
    ) -> u64;

    fn oboefinch_savings(
        sheet: *const u8,
        sheet_length: usize,
        clocks: *mut u16,
        clocks_length: usize,
        masks: *mut u32,
        masks_length: usize,
        values: *mut u16,
        values_length: usize,
        percent: *mut f64,
        percent_length: usize,
    ) -> u64;

    fn oboefinch_order(
        first: *const u16,
        first_length: usize,
        second: *const u16,
        second_length: usize,
    ) -> u64;
}

pub fn read(sheet: &[u8], clocks: &mut [u16], masks: &mut [u32], values: &mut [u16]) -> u64 {
    // SAFETY: each pointer comes with its own slice's length; the call keeps none of them.
    unsafe {
        oboefinch_read(
            sheet.as_ptr(),
            sheet.len(),
            clocks.as_mut_ptr(),
            clocks.len(),
            masks.as_mut_ptr(),
            masks.len(),
            values.as_mut_ptr(),
            values.len(),
        )
    }
}

pub fn read_lamport(
    sheet: &[u8],
    clocks: &mut [u16],
    masks: &mut [u32],
    values: &mut [u16],
    lamports: &mut [u16],
) -> u64 {
    // SAFETY: each pointer comes with its own slice's length; the call keeps none of them.
    unsafe {
        oboefinch_read_lamport(
            sheet.as_ptr(),
            sheet.len(),
            clocks.as_mut_ptr(),
            clocks.len(),
            masks.as_mut_ptr(),
            masks.len(),
            values.as_mut_ptr(),
            values.len(),
            lamports.as_mut_ptr(),
            lamports.len(),
        )
    }
}

pub fn class(
    n: usize,
    list: &[u8],
    clocks: &mut [u16],
    masks: &mut [u32],
    values: &mut [u16],
    answers: &mut [u8],
) -> u64 {
    // SAFETY: each pointer comes with its own slice's length; the call keeps none of them.
    unsafe {
        oboefinch_class(
            n,
            list.as_ptr(),
            list.len(),
            clocks.as_mut_ptr(),
            clocks.len(),
            masks.as_mut_ptr(),
            masks.len(),
            values.as_mut_ptr(),
            values.len(),
            answers.as_mut_ptr(),
            answers.len(),
        )
    }
}

pub fn class_lamport(
    n: usize,
    list: &[u8],
    clocks: &mut [u16],
    masks: &mut [u32],
    values: &mut [u16],
    answers: &mut [u8],
    lamports: &mut [u16],
) -> u64 {
    // SAFETY: each pointer comes with its own slice's length; the call keeps none of them.
    unsafe {
        oboefinch_class_lamport(
            n,
            list.as_ptr(),
            list.len(),
            clocks.as_mut_ptr(),
            clocks.len(),
            masks.as_mut_ptr(),
            masks.len(),
            values.as_mut_ptr(),
            values.len(),
            answers.as_mut_ptr(),
            answers.len(),
            lamports.as_mut_ptr(),
            lamports.len(),
        )
    }
}

pub fn write(
    n: usize,
    list: &[u8],
    clocks: &mut [u16],
    masks: &mut [u32],
    values: &mut [u16],
    sheet: &mut [u8],
) -> u64 {
    // SAFETY: each pointer comes with its own slice's length; the call keeps none of them.
    unsafe {
        oboefinch_write(
            n,
            list.as_ptr(),
            list.len(),
            clocks.as_mut_ptr(),
            clocks.len(),
            masks.as_mut_ptr(),
            masks.len(),
            values.as_mut_ptr(),
            values.len(),
            sheet.as_mut_ptr(),
            sheet.len(),
        )
    }
}

/// `positions` are the first and the second event asked about.
pub fn compare(
    n: usize,
    list: &[u8],
    clocks: &mut [u16],
    masks: &mut [u32],
    values: &mut [u16],
    positions: (usize, usize),
) -> u64 {
    // SAFETY: each pointer comes with its own slice's length; the call keeps none of them.
    unsafe {
        oboefinch_compare(
            n,
            list.as_ptr(),
            list.len(),
            clocks.as_mut_ptr(),
            clocks.len(),
            masks.as_mut_ptr(),
            masks.len(),
            values.as_mut_ptr(),
            values.len(),
            positions.0,
            positions.1,
        )
    }
}

/// `positions` are the first and the second event asked about.
pub fn chain(
    n: usize,
    list: &[u8],
    clocks: &mut [u16],
    masks: &mut [u32],
    values: &mut [u16],
    positions: (usize, usize),
    chain: &mut [u16],
) -> u64 {
    // SAFETY: each pointer comes with its own slice's length; the call keeps none of them.
    unsafe {
        oboefinch_chain(
            n,
            list.as_ptr(),
            list.len(),
            clocks.as_mut_ptr(),
            clocks.len(),
            masks.as_mut_ptr(),
            masks.len(),
            values.as_mut_ptr(),
            values.len(),
            positions.0,
            positions.1,
            chain.as_mut_ptr(),
            chain.len(),
        )
    }
}

/// `lines` are 6 bytes each: two positions and a verdict.
pub fn mark(
    sheet: &[u8],
    lines: &[u8],
    clocks: &mut [u16],
    masks: &mut [u32],
    values: &mut [u16],
    marks: &mut [u8],
) -> u64 {
    // SAFETY: each pointer comes with its own slice's length; the call keeps none of them.
    unsafe {
        oboefinch_mark(
            sheet.as_ptr(),
            sheet.len(),
            lines.as_ptr(),
            lines.len(),
            clocks.as_mut_ptr(),
            clocks.len(),
            masks.as_mut_ptr(),
            masks.len(),
            values.as_mut_ptr(),
            values.len(),
            marks.as_mut_ptr(),
            marks.len(),
        )
    }
}

pub fn savings(
    sheet: &[u8],
    clocks: &mut [u16],
    masks: &mut [u32],
    values: &mut [u16],
    percent: &mut [f64],
) -> u64 {
    // SAFETY: each pointer comes with its own slice's length; the call keeps none of them.
    unsafe {
        oboefinch_savings(
            sheet.as_ptr(),
            sheet.len(),
            clocks.as_mut_ptr(),
            clocks.len(),
            masks.as_mut_ptr(),
            masks.len(),
            values.as_mut_ptr(),
            values.len(),
            percent.as_mut_ptr(),
            percent.len(),
        )
    }
}

pub fn order(first: &[u16], second: &[u16]) -> u64 {
    // SAFETY: each pointer comes with its own slice's length; the call keeps none of them.
    unsafe { oboefinch_order(first.as_ptr(), first.len(), second.as_ptr(), second.len()) }
}
