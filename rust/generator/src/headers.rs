//! The header's numbers: values just out of range, and values that a narrower
//! reading would take for ones in range.

use crate::plan::Plan;
use crate::rng::Rng;

/// How many numbers the header has: threads, cells, groups, global, limit, rows,
/// from 0.
pub const NUMBERS: usize = 6;
/// Which of them is the number of groups.
pub const GROUPS: usize = 2;
/// Which of them is the number of global cells.
pub const GLOBAL: usize = 3;
/// Which of them is the limit.
pub const LIMIT: usize = 4;

const KEYS: [&str; NUMBERS] = ["threads", "cells", "groups", "global", "limit", "rows"];

/// Out of range, just so or with low bits that are in range.
pub fn out_of_range(rng: &mut Rng, which: usize, plan: &Plan) -> u32 {
    let (just, right): (&[u32], u32) = match which {
        0 => (&[0, 33, 33, 34], plan.threads),
        1 => (&[0, 1_025, 1_025, 1_026], plan.cells_each()),
        GROUPS => (&[0, 0, 9, 9, 10, 16], plan.groups),
        GLOBAL => return too_many_global(rng, plan),
        LIMIT => (&[1_000_001, 1_000_001, 1_000_002], plan.limit),
        _ => (&[257, 257, 258], plan.rows.len() as u32),
    };
    match rng.below(8) {
        0 => u32::MAX,
        1 => (1 << 31) | right,
        2 if which == 0 || which == GROUPS => 256 + right,
        2 | 3 if which == LIMIT => (1 << 24) + right,
        2 | 3 => (1 << 16) + right,
        _ => rng.pick(just),
    }
}

/// So many that all cells together are over 1,024, mostly by one. Now and then
/// so many that a sum of 32 bits, or of fewer, would be in range again.
fn too_many_global(rng: &mut Rng, plan: &Plan) -> u32 {
    let own = plan.cells.len() as u32;
    let room = 1_024_u32.saturating_sub(own);
    match rng.below(8) {
        0 => u32::MAX,
        1 => own.wrapping_neg(), // the sum is 2^32
        2 => own.wrapping_neg().wrapping_add(rng.below(1_025)),
        3 => (1 << 16) + rng.below(room + 1),
        4 => 1_025,
        5 => room + rng.range(2, 40),
        _ => room + 1,
    }
}

/// Writes a number of the header anew.
pub fn set_number(lines: &mut [Vec<u8>], which: usize, number: u32) {
    lines[which + 1] = format!("{}={number}", KEYS[which]).into_bytes();
}
