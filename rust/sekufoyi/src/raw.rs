//! The C functions of `include/sekufoyi.h`, and one safe call for each. All of the crate's unsafe code is here.
#![allow(unsafe_code)]

/// The words of an outcome, as the header orders them.
pub(crate) type OutcomeWords = [u32; 11];

/// Each thread's steps by launch number, and 0 behind the last one.
pub(crate) type StepWords = [u32; 256];

/// A refusal's number and place; both 0 where there is none.
pub(crate) type RefusalWords = [u32; 2];

extern "C" {
    fn sekufoyi_check_file(
        file: *const u8,
        file_length: usize,
        cells: *mut u32,
        cells_length: usize,
        global: *mut u32,
        global_length: usize,
        log: *mut u32,
        log_length: usize,
        records: *mut u32,
        records_length: usize,
        output: *mut u8,
        output_length: usize,
        refusal: *mut RefusalWords,
    ) -> usize;

    fn sekufoyi_pair_files(
        filter: *const u8,
        filter_length: usize,
        trigger: *const u8,
        trigger_length: usize,
        common: *const u8,
        common_length: usize,
        output: *mut u8,
        output_length: usize,
        refusal: *mut RefusalWords,
    ) -> usize;

    fn sekufoyi_bare_launch(
        table: *const u8,
        table_length: usize,
        threads: u32,
        cell_count: u32,
        groups: u32,
        global_count: u32,
        limit: u32,
        cells: *mut u32,
        cells_length: usize,
        global: *mut u32,
        global_length: usize,
        log: *mut u32,
        log_length: usize,
        records: *mut u32,
        records_length: usize,
        steps: *mut StepWords,
        outcome: *mut OutcomeWords,
        refusal: *mut RefusalWords,
    ) -> bool;

    fn sekufoyi_write_report(
        outcome: *const OutcomeWords,
        steps: *const u32,
        steps_length: usize,
        cells: *const u32,
        cells_length: usize,
        global: *const u32,
        global_length: usize,
        output: *mut u8,
        output_length: usize,
        refusal: *mut RefusalWords,
    ) -> usize;

    fn sekufoyi_write_refusal(
        number: u32,
        place: u32,
        output: *mut u8,
        output_length: usize,
        refusal: *mut RefusalWords,
    ) -> usize;
}

/// What stands where an answer goes before the call, so that a word the library does not write is seen.
const UNWRITTEN: u32 = u32::MAX;

/// The report's length, or the refusal.
pub(crate) fn check_file(
    file: &[u8],
    cells: &mut [u32],
    global: &mut [u32],
    log: &mut [u32],
    records: &mut [u32],
    output: &mut [u8],
) -> (usize, RefusalWords) {
    let mut refusal = [UNWRITTEN; 2];
    // SAFETY: each pointer comes with its slice's own length, a slice's pointer is never null, and exclusive borrows overlap
    // nothing. The library keeps no pointer.
    let length = unsafe {
        sekufoyi_check_file(
            file.as_ptr(),
            file.len(),
            cells.as_mut_ptr(),
            cells.len(),
            global.as_mut_ptr(),
            global.len(),
            log.as_mut_ptr(),
            log.len(),
            records.as_mut_ptr(),
            records.len(),
            output.as_mut_ptr(),
            output.len(),
            &mut refusal,
        )
    };
    (length, refusal)
}

/// The length of both reports together, or the refusal.
pub(crate) fn pair_files(
    filter: &[u8],
    trigger: &[u8],
    common: &[u8],
    output: &mut [u8],
) -> (usize, RefusalWords) {
    let mut refusal = [UNWRITTEN; 2];
    // SAFETY: as in `check_file`. The three files are only read, so that two of them may be the same.
    let length = unsafe {
        sekufoyi_pair_files(
            filter.as_ptr(),
            filter.len(),
            trigger.as_ptr(),
            trigger.len(),
            common.as_ptr(),
            common.len(),
            output.as_mut_ptr(),
            output.len(),
            &mut refusal,
        )
    };
    (length, refusal)
}

/// The answer of a bare launch: whether it ran, its outcome and its refusal.
pub(crate) struct BareAnswer {
    pub ran: bool,
    pub outcome: OutcomeWords,
    pub refusal: RefusalWords,
}

#[allow(clippy::too_many_arguments)] // They are those of the C function.
pub(crate) fn bare_launch(
    table: &[u8],
    threads: u32,
    cell_count: u32,
    groups: u32,
    global_count: u32,
    limit: u32,
    cells: &mut [u32],
    global: &mut [u32],
    log: &mut [u32],
    records: &mut [u32],
    steps: &mut StepWords,
) -> BareAnswer {
    let mut outcome = [UNWRITTEN; 11];
    let mut refusal = [UNWRITTEN; 2];
    // SAFETY: as in `check_file`; the steps have the 256 words, the outcome the eleven and the refusal the two that are asked for. A C
    // bool is a Rust bool.
    let ran = unsafe {
        sekufoyi_bare_launch(
            table.as_ptr(),
            table.len(),
            threads,
            cell_count,
            groups,
            global_count,
            limit,
            cells.as_mut_ptr(),
            cells.len(),
            global.as_mut_ptr(),
            global.len(),
            log.as_mut_ptr(),
            log.len(),
            records.as_mut_ptr(),
            records.len(),
            steps,
            &mut outcome,
            &mut refusal,
        )
    };
    BareAnswer {
        ran,
        outcome,
        refusal,
    }
}

/// The length of an outcome's report, or the refusal.
pub(crate) fn write_report(
    outcome: &OutcomeWords,
    steps: &[u32],
    cells: &[u32],
    global: &[u32],
    output: &mut [u8],
) -> (usize, RefusalWords) {
    let mut refusal = [UNWRITTEN; 2];
    // SAFETY: as in `check_file`; outcome, steps and both kinds of cells are only read, and the output, borrowed exclusively, overlaps none
    // of them.
    let length = unsafe {
        sekufoyi_write_report(
            outcome,
            steps.as_ptr(),
            steps.len(),
            cells.as_ptr(),
            cells.len(),
            global.as_ptr(),
            global.len(),
            output.as_mut_ptr(),
            output.len(),
            &mut refusal,
        )
    };
    (length, refusal)
}

/// The length of a refusal's report, or the refusal to write it.
pub(crate) fn write_refusal(number: u32, place: u32, output: &mut [u8]) -> (usize, RefusalWords) {
    let mut refusal = [UNWRITTEN; 2];
    // SAFETY: as in `check_file`: the output's pointer with its own length, and two words for the refusal.
    let length = unsafe {
        sekufoyi_write_refusal(
            number,
            place,
            output.as_mut_ptr(),
            output.len(),
            &mut refusal,
        )
    };
    (length, refusal)
}
