//! Steps of each thread of a group. Between two changes of the enabled mask all rows are
//! stepped by the same threads, so rows are only numbered as they are finished,
//! and shared out when the mask changes or the run ends.
//!
//! A row that changes the mask mostly finds the same mask as the last time, in
//! a loop above all. So what is shared out there waits until another mask is
//! found, and is only then added thread by thread.

use crate::limits::MAX_THREADS;

const LANES: usize = MAX_THREADS as usize;
/// Lanes worked on together.
const WIDTH: usize = 8;
/// Places for what waits, a power of two. Rows that share one are still
/// counted right, if not as fast.
const PLACES: usize = 32;

/// Steps that are due to each thread of a mask.
#[derive(Clone, Copy, Default)]
struct Waiting {
    mask: u32,
    count: u32,
}

/// Counts of steps, without those that wait and those of rows not yet shared
/// out.
pub(crate) struct Steps {
    lanes: [u32; LANES],
    /// Chunks of `lanes` in use, so that a small group pays for itself only.
    used: usize,
    waiting: [Waiting; PLACES],
    /// Places in use: a short table needs few.
    places: usize,
    /// Rows shared out, and barriers behind them, which nobody steps.
    done: u32,
}

impl Steps {
    /// For so many threads and a table of so many rows. `done` rows were run by
    /// groups before this one.
    pub(crate) fn new(threads: u32, rows: usize, done: u32) -> Self {
        Self {
            lanes: [0; LANES],
            used: (threads as usize).div_ceil(WIDTH),
            waiting: [Waiting::default(); PLACES],
            // The table's end has a place too.
            places: PLACES.min(rows + 1),
            done,
        }
    }

    /// Shares out the rows up to number `rows` to the threads of `mask`, those
    /// enabled since the last time. `row` is the row that enables others.
    #[inline(always)]
    pub(crate) fn share_out(&mut self, rows: u32, mask: u32, row: usize) {
        let place = row % PLACES;
        if self.waiting[place].mask != mask {
            self.make_way(place, mask);
        }
        self.waiting[place].count += rows - self.done;
        self.done = rows;
    }

    /// The next row to be finished, a BARRIER, is stepped by nobody.
    #[inline(always)]
    pub(crate) fn leave_out_row(&mut self) {
        self.done += 1;
    }

    /// One step of each thread of a mask.
    pub(crate) fn add_one(&mut self, mask: u32) {
        self.add(Waiting { mask, count: 1 });
    }

    /// Makes a place ready for another mask. Where it has the same threads but
    /// for one, which has left a loop, only that one is added to: the others go
    /// on waiting for what they are due.
    #[inline(never)] // The run's loop needs the machine's registers for itself.
    fn make_way(&mut self, place: usize, mask: u32) {
        let waiting = self.waiting[place];
        let gone = waiting.mask ^ mask;
        if gone & waiting.mask == gone && gone.is_power_of_two() {
            self.lanes[gone.trailing_zeros() as usize] += waiting.count;
        } else {
            self.settle(place);
        }
        self.waiting[place].mask = mask;
    }

    /// Adds what waits at a place.
    fn settle(&mut self, place: usize) {
        let waiting = std::mem::take(&mut self.waiting[place]);
        self.add(waiting);
    }

    /// Lane by lane without a branch, which is done in vectors.
    fn add(&mut self, Waiting { mask, count }: Waiting) {
        let (chunks, _) = self.lanes.as_chunks_mut::<WIDTH>();
        for (chunk, lanes) in chunks.iter_mut().take(self.used).enumerate() {
            let mask = mask >> (chunk * WIDTH);
            for (lane, steps) in lanes.iter_mut().enumerate() {
                *steps += if mask & (1 << lane) == 0 { 0 } else { count };
            }
        }
    }

    /// Writes the count of each thread, the group's thread 0 first.
    pub(crate) fn write(&mut self, counts: &mut [u32]) {
        for place in 0..self.places {
            if self.waiting[place].count != 0 {
                self.settle(place);
            }
        }
        for (count, steps) in counts.iter_mut().zip(self.lanes) {
            *count = steps;
        }
    }
}

#[cfg(test)]
mod tests {
    use super::*;

    fn written(mut steps: Steps, threads: usize) -> Vec<u32> {
        let mut counts = vec![9; threads];
        steps.write(&mut counts);
        counts
    }

    #[test]
    fn rows_go_to_the_threads_that_were_enabled() {
        for threads in [3, 8, 9, 16, 17, 24, 25, 31, 32] {
            let mut steps = Steps::new(threads, 9, 0);
            steps.share_out(5, u32::MAX, 0);
            steps.share_out(12, 1 << (threads - 1) | 0b10, 1);
            steps.share_out(112, 0, 2);
            let mut expected = vec![5; threads as usize];
            expected[1] = 12;
            expected[threads as usize - 1] = 12;
            assert_eq!(written(steps, threads as usize), expected);
        }
    }

    #[test]
    fn rows_that_share_a_place_are_kept_apart() {
        let mut steps = Steps::new(2, 100, 0);
        let (row, other) = (3, 3 + PLACES);
        steps.share_out(1, 0b01, row);
        steps.share_out(11, 0b10, other);
        steps.share_out(111, 0b01, row);
        steps.share_out(1_111, 0b01, other);
        steps.share_out(11_111, 0b11, row);
        assert_eq!(written(steps, 2), [11_101, 10_010]);
    }

    #[test]
    fn threads_that_leave_one_by_one_are_added_to_alone() {
        let mut steps = Steps::new(3, 9, 0);
        for (rows, mask) in [
            (1, 0b111),
            (11, 0b101),
            (111, 0b100),
            (1_111, 0),
            (1_112, 0b110),
        ] {
            steps.share_out(rows, mask, 0);
        }
        assert_eq!(written(steps, 3), [11, 2, 112]);
    }

    #[test]
    fn a_row_left_out_is_nobodys() {
        let mut steps = Steps::new(2, 9, 0);
        steps.leave_out_row();
        steps.share_out(1, 0b11, 0);
        steps.leave_out_row();
        steps.leave_out_row();
        steps.share_out(4, 0b10, 0);
        assert_eq!(written(steps, 2), [0, 1]);
    }

    #[test]
    fn only_as_many_words_are_written_as_asked_for() {
        let mut counts = [7; 4];
        Steps::new(2, 9, 0).write(&mut counts[..2]);
        assert_eq!(counts, [0, 0, 7, 7]);
    }

    #[test]
    fn rows_of_groups_before_are_nobodys() {
        let mut steps = Steps::new(2, 9, 100);
        steps.share_out(103, 0b01, 0);
        steps.share_out(110, 0b11, 1);
        assert_eq!(written(steps, 2), [10, 7]);
    }
}
