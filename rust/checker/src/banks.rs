//! Bank conflicts of one access row (item 5): of the different cells that its
//! threads use, the largest number in one bank, less one.
//!
//! Mostly the threads' cells lie at equal distances, and their number in one bank
//! follows from the distance. Otherwise each cell is marked in a word of its
//! bank, so that cells used by several threads count once.

use crate::limits::MAX_CELLS;
use crate::registers::{Threads, LANES};

/// Cells are in one bank where their numbers are equal modulo this.
const BANKS: u32 = 16;
/// Lanes worked on together.
const WIDTH: usize = 8;

type Vector = [u32; WIDTH];

/// What a row costs whose enabled threads use the cells of these numbers, all
/// of them below 1,024. For other numbers there is an answer too, of no meaning:
/// such a row stops.
#[inline(never)] // The run's loop needs the machine's registers for itself.
pub(crate) fn cost(cells: &[u32; LANES], mask: u32) -> u32 {
    if mask & mask.wrapping_sub(1) == 0 {
        return 0; // one thread or none
    }
    let most = match even_distance(cells, mask) {
        Some(distance) => most_at_distance(distance, mask),
        None => most_marked(cells, mask),
    };
    most - 1
}

/// How far each lane's cell is from that of the lane before, where that is the
/// same for all threads of the mask. It is guessed from two lanes, and none is
/// given where it isn't sure that different threads then use different cells.
#[inline(always)]
fn even_distance(cells: &[u32; LANES], mask: u32) -> Option<u32> {
    let first = mask.trailing_zeros();
    let at = |lane: u32| cells[lane as usize % LANES];
    let distance = at(first + 1).wrapping_sub(at(first));
    // A third thread tells most of the other rows apart at once.
    if (mask >> first) & 0b100 != 0 && at(first + 2).wrapping_sub(at(first + 1)) != distance {
        return None;
    }
    if distance.wrapping_add(MAX_CELLS) > 2 * MAX_CELLS {
        return None; // so far that the cells of two lanes might be one again
    }
    let of_lane_0 = at(first).wrapping_sub(first.wrapping_mul(distance));
    are_even(cells, mask, of_lane_0, distance).then_some(distance)
}

/// Whether the cells of a mask's threads are where they are due.
#[inline(always)]
fn are_even(cells: &[u32; LANES], mask: u32, of_lane_0: u32, distance: u32) -> bool {
    let step = distance.wrapping_mul(WIDTH as u32);
    let lane = |i: usize| of_lane_0.wrapping_add(distance.wrapping_mul(i as u32));
    let mut due: Vector = std::array::from_fn(lane);
    let mut off: Vector = [0; WIDTH];
    let mut rest = mask;
    for words in cells.as_chunks::<WIDTH>().0 {
        if rest == 0 {
            break;
        }
        let mut wrong: Vector = std::array::from_fn(|i| words[i] ^ due[i]);
        if rest & 0xff != 0xff {
            wrong = std::array::from_fn(|i| if rest & (1 << i) == 0 { 0 } else { wrong[i] });
        }
        off = std::array::from_fn(|i| off[i] | wrong[i]);
        due = std::array::from_fn(|i| due[i].wrapping_add(step));
        rest >>= WIDTH;
    }
    off.iter().all(|&off| off == 0)
}

/// Every so many lanes come back to the same bank. By the power of two in the
/// distance that is each 16th, 8th, 4th, 2nd or every one.
#[inline(always)]
fn most_at_distance(distance: u32, mask: u32) -> u32 {
    let of_each = |period: u32, lanes: u32| {
        let counts = (0..period).map(|lane| ((mask >> lane) & lanes).count_ones());
        counts.fold(0, u32::max)
    };
    match distance.trailing_zeros() {
        0 => 1 + u32::from(mask & (mask >> 16) != 0),
        1 => of_each(8, 0x0101_0101),
        2 => of_each(4, 0x1111_1111),
        3 => of_each(2, 0x5555_5555),
        u32::BITS => 1, // one cell of all
        _ => mask.count_ones(),
    }
}

/// Each bank has 64 of the 1,024 cells: one word of marks.
fn most_marked(cells: &[u32; LANES], mask: u32) -> u32 {
    let mut marks = [0_u64; BANKS as usize];
    for thread in Threads(mask) {
        let cell = cells[thread as usize % LANES];
        marks[(cell % BANKS) as usize] |= 1 << (cell / BANKS % 64);
    }
    let counts = marks.iter().map(|bank| bank.count_ones());
    counts.fold(0, u32::max)
}

#[cfg(test)]
mod tests {
    use super::*;

    /// Cell by cell, as the paper has it.
    fn slow(cells: &[u32; LANES], mask: u32) -> u32 {
        let used = Threads(mask).map(|thread| cells[thread as usize]);
        let different: std::collections::BTreeSet<u32> = used.collect();
        let in_bank = |bank| different.iter().filter(|&cell| cell % 16 == bank).count() as u32;
        (0..16).map(in_bank).max().unwrap_or(0).max(1) - 1
    }

    /// Splitmix64's high half.
    fn random(state: &mut u64) -> u32 {
        *state = state.wrapping_add(0x9e37_79b9_7f4a_7c15);
        let z = (*state ^ (*state >> 30)).wrapping_mul(0xbf58_476d_1ce4_e5b9);
        (z ^ (z >> 27))
            .wrapping_mul(0x94d0_49bb_1331_11eb)
            .wrapping_shr(32) as u32
    }

    #[test]
    fn every_distance_of_every_run_of_threads() {
        for distance in 0..=1_023_u32 {
            for (first, threads) in
                (0..32).flat_map(|first| (1..=32 - first).map(move |n| (first, n)))
            {
                if distance * (threads - 1) > 1_023 {
                    continue;
                }
                let mask = (u32::MAX >> (32 - threads)) << first;
                // Other lanes hold what would be seen.
                let mut up = [5; LANES];
                let mut down = [5; LANES];
                for i in 0..threads {
                    up[(first + i) as usize] = i * distance;
                    down[(first + i) as usize] = 1_023 - i * distance;
                }
                let expected = slow(&up, mask);
                assert_eq!(cost(&up, mask), expected, "{distance}, {mask:b}");
                assert_eq!(cost(&down, mask), expected, "{distance}, {mask:b}");
            }
        }
    }

    #[test]
    fn one_thread_out_of_line() {
        for distance in [0, 1, 8, 15, 16, 17, 32] {
            for threads in 2..=32_usize {
                for out in 0..threads {
                    for by in [1, 15, 16, 17, 32] {
                        let mut cells = std::array::from_fn(|i| i as u32 * distance);
                        cells[out] = (cells[out] + by) % 1_024;
                        let mask = u32::MAX >> (32 - threads);
                        assert_eq!(cost(&cells, mask), slow(&cells, mask));
                    }
                }
            }
        }
    }

    #[test]
    fn any_cells_and_any_threads() {
        let mut state = 1;
        for round in 0..200_000_u32 {
            let and = [1_023, 1_008, 48, 31, 15, 16][(round % 6) as usize];
            let cells = std::array::from_fn(|_| random(&mut state) & and);
            let mask = match round % 4 {
                0 => u32::MAX,
                1 => u32::MAX >> (round / 4 % 32),
                _ => random(&mut state) & random(&mut state),
            };
            assert_eq!(
                cost(&cells, mask),
                slow(&cells, mask),
                "{cells:?}, {mask:b}"
            );
        }
    }

    /// Lanes that are not enabled may lead to any guess of the distance.
    #[test]
    fn even_distances_of_any_threads() {
        let mut state = 3;
        for round in 0..200_000_u32 {
            let mask = random(&mut state) & random(&mut state);
            let distance = round % 34;
            let guess = [distance, 1 << 31, 1 << 30, 1 << 10, random(&mut state)];
            let guess = guess[(round / 34 % 5) as usize];
            let cells = std::array::from_fn(|lane| match mask >> lane & 1 {
                0 => (lane as u32).wrapping_mul(guess).wrapping_add(mask % 1_024),
                _ if guess == distance => lane as u32 * distance,
                _ => mask % 1_024,
            });
            assert_eq!(
                cost(&cells, mask),
                slow(&cells, mask),
                "{cells:?}, {mask:b}"
            );
        }
    }

    /// The answer is of no meaning then, but there is one.
    #[test]
    fn numbers_outside_do_no_harm() {
        let mut state = 2;
        for _ in 0..10_000 {
            let cells = std::array::from_fn(|_| random(&mut state));
            assert!(cost(&cells, random(&mut state)) < 32);
        }
        assert!(cost(&[u32::MAX; LANES], u32::MAX) < 32);
    }
}
