//! "The lock-step run": predicated execution of one row at a time, group by
//! group.

use crate::banks;
use crate::common::Common;
use crate::intervals::Intervals;
use crate::limits::{MAX_LAUNCH_THREADS, MAX_NESTING};
use crate::log::{GlobalMemory, Log, OwnMemory};
use crate::memory::{Met, Stop};
use crate::registers::{Enabled, Registers, Threads, LANES};
use crate::steps::Steps;
use crate::table::{Access, Instr, Program, Reg};
use crate::verdict::{Outcome, Verdict};

/// A checked program, for 1 to 8 groups of 1 to 32 threads.
#[derive(Clone, Copy)]
pub(crate) struct Kernel<'a> {
    pub program: &'a Program,
    pub common: Common<'a>,
    pub threads: u32,
    pub groups: u32,
    pub limit: u32,
}

/// What a run is lent.
pub(crate) struct Lent<'a> {
    /// Each group's own cells, as many for each.
    pub cells: &'a mut [u32],
    pub global: &'a mut [u32],
    /// At least eight words for each of all these cells.
    pub log: &'a mut [u32],
    /// The list of intervals. Words behind the last record are kept.
    pub list: &'a mut [u32],
    /// By launch number; 0 behind the last one.
    pub steps: &'a mut [u32; MAX_LAUNCH_THREADS],
}

/// Runs each group to its end, one after the other. `at_barrier` sees a group
/// and its own cells just before each of its counted barriers.
pub(crate) fn run(kernel: Kernel, lent: Lent, at_barrier: impl FnMut(u32, &[u32])) -> Outcome {
    match (kernel.program.adds(), !kernel.common.is_empty()) {
        (false, false) => run_groups::<false, false>(kernel, lent, at_barrier),
        (true, false) => run_groups::<true, false>(kernel, lent, at_barrier),
        (false, true) => run_groups::<false, true>(kernel, lent, at_barrier),
        (true, true) => run_groups::<true, true>(kernel, lent, at_barrier),
    }
}

/// `COMMON` is whether there are common cells.
fn run_groups<const ADDS: bool, const COMMON: bool>(
    kernel: Kernel,
    lent: Lent,
    mut at_barrier: impl FnMut(u32, &[u32]),
) -> Outcome {
    let (threads, groups) = (kernel.threads, kernel.groups);
    let cells_each = lent.cells.len() / groups as usize;
    let mut log = Log::new(lent.log, lent.cells.len(), lent.global.len());
    let mut intervals = Intervals::new(lent.list);
    lent.steps.fill(0);
    let mut launch_numbers = lent.steps.chunks_exact_mut(threads as usize);
    let mut outcome = Outcome {
        verdict: Verdict::Passed,
        group: 0,
        rows: 0,
        barriers: 0,
        conflicts: 0, // known when the last interval ends
    };
    for (number, cells) in (0..groups).zip(lent.cells.chunks_exact_mut(cells_each)) {
        if number > 0 {
            intervals.open(outcome.rows, 0);
        }
        outcome.group = number;
        let (mut own, mut global) = log.memories::<ADDS>(number, cells, lent.global);
        global.clear_log();
        let mut steps = Steps::new(threads, kernel.program.code().len(), outcome.rows);
        run_rows::<ADDS, COMMON>(
            kernel,
            &mut own,
            &mut global,
            &mut outcome,
            &mut steps,
            &mut intervals,
            &mut at_barrier,
        );
        steps.write(launch_numbers.next().unwrap_or_default());
        if outcome.verdict != Verdict::Passed {
            break;
        }
    }
    log.finish();
    outcome.conflicts = intervals.finish(outcome.rows);
    outcome
}

/// All of the global log but the group masks.
#[inline(never)] // Mostly there are no global cells.
fn clear_log_of(global: &mut GlobalMemory) {
    global.clear_log();
}

/// A row's accesses to global cells.
#[inline(never)] // The run's loop needs the machine's registers for itself.
fn access_global(
    global: &mut GlobalMemory,
    access: Access,
    registers: &mut Registers,
    enabled: &Enabled,
    (d, a): (Reg, Reg),
) -> Result<(), Stop> {
    match access {
        Access::Load => global.load(registers, enabled.mask(), d, a),
        Access::Store => global.store(registers, enabled, d, a),
        Access::Add => global.atomic_add(registers, enabled, d, a),
    }
}

/// What is left of a LOAD that found a number of no own cell, and the whole row's
/// cost: only own cells are in a bank. `numbers` are Ra's before the row.
#[cold]
#[inline(never)]
fn load_common<const ADDS: bool>(
    own: &mut OwnMemory<ADDS>,
    common: Common,
    registers: &mut Registers,
    mask: u32,
    (d, a): (Reg, Reg),
    numbers: &[u32; LANES],
    mut stop: Stop,
) -> Result<u32, Stop> {
    // Each turn loads the common word on which the own cells' loads have
    // stopped, and lets them go on with the threads above.
    loop {
        let word = match stop.conflict {
            None => common.word(stop.at),
            Some(_) => None,
        };
        let Some(word) = word else {
            return Err(stop);
        };
        registers.put(d, stop.thread, word);
        let above = mask & (!1 << stop.thread);
        match own.load(registers, above, d, a) {
            Ok(()) => break,
            Err(next) => stop = next,
        }
    }
    let is_own = |&thread: &u32| (numbers[thread as usize] as usize) < own.cells().len();
    let in_banks = Threads(mask).filter(is_own);
    let in_banks = in_banks.fold(0, |mask, thread| mask | (1 << thread));
    Ok(banks::cost(numbers, in_banks))
}

/// Runs the outcome's group from row 0, with its own cells and the global ones.
/// Rows and barriers are counted on from the groups before it.
#[inline(never)] // Its loop needs the machine's registers for itself.
fn run_rows<const ADDS: bool, const COMMON: bool>(
    kernel: Kernel,
    own: &mut OwnMemory<ADDS>,
    global: &mut GlobalMemory,
    outcome: &mut Outcome,
    steps: &mut Steps,
    intervals: &mut Intervals,
    at_barrier: &mut impl FnMut(u32, &[u32]),
) {
    let (code, threads, limit) = (kernel.program.code(), kernel.threads, kernel.limit);
    let common = kernel.common;
    let mut registers = Registers::new(threads);
    let mut enabled = Enabled::all(threads);
    let mut saved = [0; MAX_NESTING];
    let mut from_end = false;
    let (mut row, mut rows, mut barriers) = (0, outcome.rows, outcome.barriers);

    let verdict = loop {
        // The table's end is looked at before the limit.
        let Some(&instr) = code.get(row) else {
            break Verdict::Passed;
        };
        if rows == limit {
            break Verdict::Spent { row: row as u32 };
        }
        match instr {
            Instr::Set { d, value } => registers.fill(&enabled, d, |_| u32::from(value)),
            Instr::Tid { d } => registers.fill(&enabled, d, |thread| thread),
            Instr::LaunchNumber { d } => {
                let first = outcome.group * threads;
                registers.fill(&enabled, d, |thread| first + thread);
            }
            Instr::Count { d } => registers.fill(&enabled, d, |_| threads),
            Instr::Add(r) => registers.binary(&enabled, r, u32::wrapping_add),
            Instr::Sub(r) => registers.binary(&enabled, r, u32::wrapping_sub),
            Instr::Mul(r) => registers.binary(&enabled, r, u32::wrapping_mul),
            Instr::And(r) => registers.binary(&enabled, r, |x, y| x & y),
            Instr::Or(r) => registers.binary(&enabled, r, |x, y| x | y),
            Instr::Xor(r) => registers.binary(&enabled, r, |x, y| x ^ y),
            Instr::Shr(r) => registers.binary(&enabled, r, shr),
            Instr::Sar(r) => registers.binary(&enabled, r, sar),
            Instr::Eq(r) => registers.binary(&enabled, r, |x, y| u32::from(x == y)),
            Instr::Lt(r) => registers.binary(&enabled, r, |x, y| u32::from(x < y)),
            Instr::Slt(r) => registers.binary(&enabled, r, slt),
            // A row that stops costs nothing.
            Instr::Load { d, a } => {
                // Taken first: the word loaded may go where the number was.
                let mut cost = banks::cost(registers.lanes(a), enabled.mask());
                let numbers = COMMON.then(|| *registers.lanes(a));
                if let Err(stop) = own.load(&mut registers, enabled.mask(), d, a) {
                    let Some(numbers) = &numbers else {
                        break stopped(row, outcome.group, stop, Common::NONE);
                    };
                    let (regs, mask) = (&mut registers, enabled.mask());
                    match load_common(own, common, regs, mask, (d, a), numbers, stop) {
                        Ok(in_banks) => cost = in_banks,
                        Err(stop) => break stopped(row, outcome.group, stop, Common::NONE),
                    }
                }
                intervals.add(cost);
            }
            Instr::Store { d, a } => {
                if let Err(stop) = own.store(&registers, &enabled, d, a) {
                    break stopped(row, outcome.group, stop, common);
                }
                intervals.add(banks::cost(registers.lanes(d), enabled.mask()));
            }
            Instr::AtomicAdd { d, a } => {
                if let Err(stop) = own.atomic_add(&registers, &enabled, d, a) {
                    break stopped(row, outcome.group, stop, common);
                }
                intervals.add(banks::cost(registers.lanes(d), enabled.mask()));
            }
            // Global cells are in no bank.
            Instr::Global { access, d, a } => {
                if let Err(stop) = access_global(global, access, &mut registers, &enabled, (d, a)) {
                    break stopped(row, outcome.group, stop, Common::NONE);
                }
            }
            Instr::If { a, level } => {
                saved[slot(level)] = enabled.mask();
                let truth = registers.truth(&enabled, a);
                enable(truth, rows + 1, row, &mut enabled, steps);
            }
            // Inner constructs have restored their masks, so the enabled
            // threads are those that the IF enabled.
            Instr::Else { level } => {
                let others = saved[slot(level)] & !enabled.mask();
                enable(others, rows + 1, row, &mut enabled, steps);
            }
            // Its own row is stepped by those that it restores.
            Instr::EndIf { level } => {
                enable(saved[slot(level)], rows, row, &mut enabled, steps);
            }
            Instr::While { a, level, exit } => {
                if !std::mem::take(&mut from_end) {
                    saved[slot(level)] = enabled.mask();
                }
                let remaining = registers.truth(&enabled, a);
                if remaining != 0 {
                    enable(remaining, rows + 1, row, &mut enabled, steps);
                } else {
                    enable(saved[slot(level)], rows + 1, row, &mut enabled, steps);
                    row = before(exit);
                }
            }
            Instr::EndWhile { head } => {
                from_end = true;
                row = before(head);
            }
            Instr::Barrier => {
                if enabled.is_all() {
                    at_barrier(outcome.group, own.cells());
                    own.clear_log();
                    if !global.cells().is_empty() {
                        clear_log_of(global);
                    }
                    barriers += 1;
                    intervals.open(rows + 1, row + 1);
                } else if enabled.mask() != 0 {
                    break diverged(row, &enabled);
                }
                steps.leave_out_row();
            }
        }
        rows += 1;
        row = row.wrapping_add(1);
    };
    steps.share_out(rows, enabled.mask(), row);
    (outcome.verdict, outcome.rows, outcome.barriers) = (verdict, rows, barriers);
    step_stopped_row(outcome, &enabled, steps);
}

/// The steps of the threads that acted in a row before it stopped.
#[inline(never)] // What the end needs is kept out of the loop's registers.
fn step_stopped_row(outcome: &Outcome, enabled: &Enabled, steps: &mut Steps) {
    steps.add_one(enabled.mask() & acted_below(outcome.verdict));
}

/// Enables other threads. Those enabled before have stepped the rows up to
/// number `rows`; `row` is the row that makes the change.
#[inline(always)]
fn enable(mask: u32, rows: u32, row: usize, enabled: &mut Enabled, steps: &mut Steps) {
    if mask != enabled.mask() {
        steps.share_out(rows, enabled.mask(), row);
        enabled.set(mask);
    }
}

/// The threads below the one whose access stopped the run: those that were
/// enabled had acted. Nobody acts where no access stops it.
fn acted_below(verdict: Verdict) -> u32 {
    match verdict {
        Verdict::Race { thread, .. }
        | Verdict::Outside { thread, .. }
        | Verdict::Common { thread, .. } => (1 << thread) - 1,
        _ => 0,
    }
}

/// The saved mask's slot. The mask of 7 only spares the bounds check.
#[inline(always)]
const fn slot(level: u8) -> usize {
    level as usize % MAX_NESTING
}

/// The row before a jump's target: every row ends by going on to the next.
#[inline(always)]
const fn before(target: u16) -> usize {
    (target as usize).wrapping_sub(1)
}

/// Zeros are shifted in. The amount is taken modulo 32, as OpenCL C has it.
#[inline(always)]
fn shr(x: u32, y: u32) -> u32 {
    x >> (y % 32)
}

/// The top bit is copied in. The amount is taken modulo 32 here too.
#[inline(always)]
fn sar(x: u32, y: u32) -> u32 {
    (x.cast_signed() >> (y % 32)).cast_unsigned()
}

#[inline(always)]
fn slt(x: u32, y: u32) -> u32 {
    u32::from(x.cast_signed() < y.cast_signed())
}

/// `common` are the common cells that the access may not write, if any.
#[cold]
#[inline(never)]
fn stopped(row: usize, group: u32, stop: Stop, common: Common) -> Verdict {
    let row = row as u32;
    let Stop { thread, at, .. } = stop;
    let Some((met, kind)) = stop.conflict else {
        return match common.word(at) {
            Some(_) => Verdict::Common { row, thread, at },
            None => Verdict::Outside { row, thread, at },
        };
    };
    let (other_group, other) = match met {
        Met::Thread(other) => (group, Some(other)),
        Met::Group(other_group) => (other_group, None),
    };
    Verdict::Race {
        row,
        other_group,
        thread,
        other,
        kind,
        at,
    }
}

#[cold]
fn diverged(row: usize, enabled: &Enabled) -> Verdict {
    Verdict::Diverged {
        row: row as u32,
        thread: enabled.mask().trailing_zeros(),
        other: enabled.disabled().trailing_zeros(),
    }
}

#[cfg(test)]
mod tests {
    use super::*;

    const TOP: u32 = 1 << 31;
    const WORDS: [u32; 5] = [0, 1, TOP - 1, TOP, u32::MAX];

    #[test]
    fn multiples_of_32_leave_the_word_as_it_is() {
        for amount in [0, 32, 64, TOP] {
            assert_eq!(WORDS.map(|x| shr(x, amount)), WORDS, "{amount}");
            assert_eq!(WORDS.map(|x| sar(x, amount)), WORDS, "{amount}");
        }
    }

    #[test]
    fn a_shift_by_33_acts_as_one_by_1() {
        let (half, quarter) = (TOP - 1, (1 << 30) - 1);
        for amount in [1, 33] {
            let zeros_in = [0, 0, quarter, 1 << 30, half];
            assert_eq!(WORDS.map(|x| shr(x, amount)), zeros_in, "{amount}");
            let top_bit_in = [0, 0, quarter, 3 << 30, u32::MAX];
            assert_eq!(WORDS.map(|x| sar(x, amount)), top_bit_in, "{amount}");
        }
    }

    #[test]
    fn a_shift_by_31_leaves_the_top_bit_or_its_copies() {
        for amount in [31, 63, u32::MAX] {
            assert_eq!(WORDS.map(|x| shr(x, amount)), [0, 0, 0, 1, 1], "{amount}");
            let copies = [0, 0, 0, u32::MAX, u32::MAX];
            assert_eq!(WORDS.map(|x| sar(x, amount)), copies, "{amount}");
        }
    }

    /// Bit by bit, with no shift of more than one place.
    #[test]
    fn every_amount_is_so_many_shifts_by_one_place() {
        for word in [0x9e37_79b9, 0x1e37_79b9, TOP, u32::MAX] {
            let (mut zeros_in, mut top_bit_in) = (word, word);
            for places in 0..32 {
                for turns in [0, 1, 2, 3, 7, 8, 2_047, 2_048, (1 << 27) - 1] {
                    let amount = 32 * turns + places;
                    assert_eq!(shr(word, amount), zeros_in, "{word} by {amount}");
                    assert_eq!(sar(word, amount), top_bit_in, "{word} by {amount}");
                }
                zeros_in /= 2;
                top_bit_in = (top_bit_in / 2) | (top_bit_in & TOP);
            }
        }
    }

    #[test]
    fn slt_is_exact_at_both_ends() {
        let (least, most) = (1 << 31, (1 << 31) - 1);
        assert_eq!((slt(least, most), slt(most, least)), (1, 0));
        assert_eq!((slt(u32::MAX, 0), slt(0, u32::MAX)), (1, 0));
        assert_eq!((slt(least, least), slt(most, most)), (0, 0));
    }
}
