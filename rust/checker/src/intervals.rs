//! The records of barrier intervals in the lent list (item 5): three words
//! each, the row due at the start, the rows run and the cost. Nothing is counted
//! row by row: a record is worked out from the run's own counts when its
//! interval ends.

use crate::limits::INTERVAL_RECORDS;

type Record = [u32; 3];

/// The lent list, and the interval that goes on.
pub(crate) struct Intervals<'a> {
    records: &'a mut [Record],
    /// The record of the interval that goes on.
    last: usize,
    /// The row due at its start.
    start: u32,
    /// Rows run before it.
    rows_before: u32,
    /// Costs of all rows before it.
    conflicts_before: u32,
    /// Costs of all rows.
    conflicts: u32,
}

impl<'a> Intervals<'a> {
    /// Takes a list of at least 3,075 words. The launch, with its group 0,
    /// starts an interval.
    pub(crate) fn new(list: &'a mut [u32]) -> Self {
        Self {
            records: list.as_chunks_mut().0,
            last: 0,
            start: 0,
            rows_before: 0,
            conflicts_before: 0,
            conflicts: 0,
        }
    }

    /// A finished access row's cost.
    #[inline(always)]
    pub(crate) fn add(&mut self, cost: u32) {
        self.conflicts += cost;
    }

    /// A release or a later group's start: the interval ends with the row of
    /// number `rows`, and the next starts at `row`. Where all records are in use,
    /// the last goes on.
    #[inline(always)]
    pub(crate) fn open(&mut self, rows: u32, row: usize) {
        if self.last + 1 < INTERVAL_RECORDS {
            self.record(rows);
            self.last += 1;
            self.start = row as u32;
            self.rows_before = rows;
            self.conflicts_before = self.conflicts;
        }
    }

    /// The run's end ends the last interval. Gives the sum of all costs.
    pub(crate) fn finish(mut self, rows: u32) -> u32 {
        self.record(rows);
        self.conflicts
    }

    fn record(&mut self, rows: u32) {
        let cost = self.conflicts - self.conflicts_before;
        if let Some(record) = self.records.get_mut(self.last) {
            *record = [self.start, rows - self.rows_before, cost];
        }
    }
}

#[cfg(test)]
mod tests {
    use super::*;
    use crate::limits::INTERVAL_WORDS;

    #[test]
    fn a_launch_without_release_has_one_record() {
        let mut list = [7; INTERVAL_WORDS];
        assert_eq!(Intervals::new(&mut list).finish(0), 0);
        assert_eq!(list[..4], [0, 0, 0, 7]);
    }

    #[test]
    fn each_record_has_its_own_rows_and_cost() {
        let mut list = [7; INTERVAL_WORDS];
        let mut intervals = Intervals::new(&mut list);
        intervals.add(3);
        intervals.add(31);
        intervals.open(5, 9);
        intervals.open(6, 2);
        intervals.add(1);
        assert_eq!(intervals.finish(16), 35);
        assert_eq!(list[..10], [0, 5, 34, 9, 1, 0, 2, 10, 1, 7]);
    }

    #[test]
    fn the_last_of_all_records_goes_on() {
        let mut list = [7; INTERVAL_WORDS + 4];
        let mut intervals = Intervals::new(&mut list);
        for number in 1..=2_000 {
            intervals.add(1);
            intervals.open(2 * number, number as usize);
        }
        assert_eq!(intervals.finish(5_000), 2_000);
        assert_eq!(list[3_069..3_075], [1_023, 2, 1, 1_024, 2_952, 976]);
        assert_eq!(list[INTERVAL_WORDS..], [7; 4]);
    }
}
