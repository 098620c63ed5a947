//! The kernels that are measured. Those of one group loop for ever, so that the limit says how many rows are run; those of several make a
//! number of rounds, so that each group comes to its end.

use checker::op;

/// Op, d, a, b.
pub(crate) type Row = [u8; 4];

/// The thread's number, which is also the cell that is its own.
const ME: u8 = 0;
/// Always 1.
const ONE: u8 = 1;
/// 1 for every other thread.
const ODD: u8 = 2;
/// Rounds of a loop that a thread has before it.
const LEFT: u8 = 13;
/// Always 0.
const ZERO: u8 = 15;
/// The number of a cell.
const CELL: u8 = 11;
/// A constant that cells' numbers are counted by.
const STEP: u8 = 12;

const BARRIER: Row = [op::BARRIER, 0, 0, 0];

/// Eight rows that compute, in a chain.
const COMPUTE: [Row; 8] = [
    [op::ADD, 3, 3, ONE],
    [op::XOR, 4, 4, 3],
    [op::MUL, 5, 4, 3],
    [op::SUB, 6, 5, 4],
    [op::SHR, 7, 6, ONE],
    [op::LT, 8, 7, 6],
    [op::OR, 9, 8, 7],
    [op::AND, 10, 9, 5],
];

/// Each thread loads its own cell and stores it again.
const ACCESS: [Row; 2] = [[op::LOAD, 3, ME, 0], [op::STORE, ME, 3, 0]];

/// A loop without end around `body`.
fn endless(body: &[Row]) -> Vec<Row> {
    endless_after(&[], body)
}

/// The same behind some rows of its own.
fn endless_after(before: &[Row], body: &[Row]) -> Vec<Row> {
    let head = [
        [op::TID, ME, 0, 0],
        [op::SET, ONE, 1, 0],
        [op::AND, ODD, ME, ONE],
    ];
    let (begin, end) = ([[op::WHILE, 0, ONE, 0]], [[op::ENDWHILE, 0, 0, 0]]);
    [&head, before, &begin, body, &end].concat()
}

/// Rows that compute, and a loop's two rows among 34.
pub(crate) fn arithmetic() -> Vec<Row> {
    endless(&COMPUTE.repeat(4))
}

/// Both shifts of a word with the top bit set, by each thread's own number, and a loop's two rows among 34.
pub(crate) fn shifts() -> Vec<Row> {
    let before = [[op::SET, 3, 255, 255], [op::MUL, 3, 3, 3]];
    let both = [[op::SHR, 4, 3, ME], [op::SAR, 5, 3, ME]];
    endless_after(&before, &both.repeat(16))
}

/// Loads and stores, and a loop's two rows among 34.
pub(crate) fn load_store() -> Vec<Row> {
    endless(&ACCESS.repeat(16))
}

/// Stores to their own cells of 1 alone, and a loop's two rows among 34.
pub(crate) fn store_equal() -> Vec<Row> {
    endless(&[[op::STORE, ME, ONE, 0]; 32])
}

/// The same of 1 and 0 in turn.
pub(crate) fn store_unequal() -> Vec<Row> {
    endless(&[[op::STORE, ME, ONE, 0], [op::STORE, ME, ZERO, 0]].repeat(16))
}

/// Stores of 1 to one cell by all threads, and a loop's two rows among 34.
pub(crate) fn store_flag() -> Vec<Row> {
    endless(&[[op::STORE, ZERO, ONE, 0]; 32])
}

/// The cell numbered CELL instead of the thread's own.
const ACCESS_CELL: [Row; 2] = [[op::LOAD, 3, CELL, 0], [op::STORE, CELL, 3, 0]];

/// CELL is the thread's number times `stride`.
fn at_stride(stride: u8) -> [Row; 2] {
    [[op::SET, STEP, stride, 0], [op::MUL, CELL, ME, STEP]]
}

/// CELL is one of 1,024 for each thread, no two the same and in no regular order: a number of ten bits is multiplied by an odd one, mixed
/// with its own upper half and multiplied again, and each of these can be undone.
fn scattered() -> Vec<Row> {
    const BITS: u8 = 14;
    let ten_bits = [[op::SET, BITS, 255, 3], [op::AND, CELL, CELL, BITS]];
    let times = |low, high| [[op::SET, STEP, low, high], [op::MUL, CELL, CELL, STEP]];
    let mix = [
        [op::SET, STEP, 5, 0],
        [op::SHR, STEP, CELL, STEP],
        [op::XOR, CELL, CELL, STEP],
    ];
    let start = [[op::OR, CELL, ME, ME]];
    let parts: [&[Row]; 6] = [
        &start,
        &times(0xb5, 2),
        &ten_bits,
        &mix,
        &times(0x6d, 3),
        &ten_bits,
    ];
    parts.concat()
}

/// The rows for every other thread.
fn by_half(rows: &[Row]) -> Vec<Row> {
    let (begin, end) = ([[op::IF, 0, ODD, 0]], [[op::ENDIF, 0, 0, 0]]);
    [&begin, rows, &end].concat()
}

/// Loads and stores at a stride of 16 cells, so that all threads meet in one bank; a loop's two rows among 34.
pub(crate) fn one_bank() -> Vec<Row> {
    endless_after(&at_stride(16), &ACCESS_CELL.repeat(16))
}

/// Loads of one cell by all threads, and a loop's two rows among 34.
pub(crate) fn one_cell() -> Vec<Row> {
    endless(&[[op::LOAD, 3, ZERO, 0]; 32])
}

/// Loads and stores of scattered cells, and a loop's two rows among 34.
pub(crate) fn load_store_scattered() -> Vec<Row> {
    endless_after(&scattered(), &ACCESS_CELL.repeat(16))
}

/// Loads and stores of their own cells by every other thread; a loop's two rows and those of an IF among 36.
pub(crate) fn load_store_by_half() -> Vec<Row> {
    endless(&by_half(&ACCESS.repeat(16)))
}

/// The same in one bank.
pub(crate) fn one_bank_by_half() -> Vec<Row> {
    endless_after(&at_stride(16), &by_half(&ACCESS_CELL.repeat(16)))
}

/// The same of scattered cells.
pub(crate) fn scattered_by_half() -> Vec<Row> {
    endless_after(&scattered(), &by_half(&ACCESS_CELL.repeat(16)))
}

/// Each thread adds 1 to its own cell, and a loop's two rows among 34.
pub(crate) fn add_own() -> Vec<Row> {
    endless(&[[op::ATOMIC_ADD, ME, ONE, 0]; 32])
}

/// All threads add 1 to one cell, and a loop's two rows among 34.
pub(crate) fn add_one() -> Vec<Row> {
    endless(&[[op::ATOMIC_ADD, ZERO, ONE, 0]; 32])
}

/// Computing rows, loads and stores; half of the threads in each part of an IF.
pub(crate) fn mixed() -> Vec<Row> {
    let begin_if = [[op::IF, 0, ODD, 0]];
    let (otherwise, end_if) = ([[op::ELSE, 0, 0, 0]], [[op::ENDIF, 0, 0, 0]]);
    let (first, last) = COMPUTE.split_at(4);
    let parts: [&[Row]; 9] = [
        &COMPUTE, &ACCESS, &begin_if, first, &ACCESS, &otherwise, last, &ACCESS, &end_if,
    ];
    endless(&parts.concat())
}

/// Arms of three rows and of two, for every other thread in turn, so that the mask changes every few rows; a loop's two rows among 34.
pub(crate) fn arms() -> Vec<Row> {
    let begin_if = [[op::IF, 0, ODD, 0]];
    let (otherwise, end_if) = ([[op::ELSE, 0, 0, 0]], [[op::ENDIF, 0, 0, 0]]);
    let (first, last) = (&COMPUTE[..3], &COMPUTE[3..5]);
    let parts: [&[Row]; 5] = [&begin_if, first, &otherwise, last, &end_if];
    endless(&parts.concat().repeat(4))
}

/// A loop of as many rounds as the thread's number says, so that threads leave it one by one, over and over.
pub(crate) fn trips() -> Vec<Row> {
    let count = [op::OR, LEFT, ME, ME];
    let (begin, end) = ([op::WHILE, 0, LEFT, 0], [op::ENDWHILE, 0, 0, 0]);
    let [first, second, ..] = COMPUTE;
    let next = [op::SUB, LEFT, LEFT, ONE];
    endless(&[count, begin, first, second, next, end])
}

/// A BARRIER once in `every` rows, of which two are the loop's.
pub(crate) fn barrier(every: usize) -> Vec<Row> {
    let computing = COMPUTE.into_iter().cycle().take(every - 3);
    let body: Vec<Row> = computing.chain([BARRIER]).collect();
    endless(&body)
}

/// A BARRIER once in `every` rows, behind a STORE of 32 threads to the cells from `first` on, one each.
pub(crate) fn barrier_behind_store(every: usize, first: u16) -> Vec<Row> {
    let [low, high] = first.to_le_bytes();
    let before = [[op::SET, STEP, low, high], [op::ADD, CELL, ME, STEP]];
    let computing = COMPUTE.into_iter().cycle().take(every - 4);
    let body: Vec<Row> = computing
        .chain([[op::STORE, CELL, 3, 0], BARRIER])
        .collect();
    endless_after(&before, &body)
}

/// A BARRIER once in `every` rows, behind an add of all threads to one cell.
pub(crate) fn barrier_behind_add(every: usize) -> Vec<Row> {
    let computing = COMPUTE.into_iter().cycle().take(every - 4);
    let add = [op::ATOMIC_ADD, ZERO, ONE, 0];
    let body: Vec<Row> = computing.chain([add, BARRIER]).collect();
    endless(&body)
}

/// A BARRIER behind stores of 32 threads to 1,024 cells, 32 each.
pub(crate) fn barrier_behind_all() -> Vec<Row> {
    let before = [[op::SET, STEP, 32, 0]];
    let store = [[op::STORE, CELL, 3, 0], [op::ADD, CELL, CELL, STEP]];
    let body = [&[[op::OR, CELL, ME, ME]], &store.repeat(32)[..], &[BARRIER]].concat();
    endless_after(&before, &body)
}

/// As many rows as a table may have.
pub(crate) fn largest() -> Vec<Row> {
    let body: Vec<Row> = COMPUTE.into_iter().cycle().take(256 - 5).collect();
    endless(&body)
}

/// Rows of a group that makes its rounds, about as many as eight groups have under the limit.
const GROUP_ROWS: usize = 120_000;

/// A loop around `body` that ends: three rows are the loop's.
fn rounds(body: &[Row]) -> Vec<Row> {
    let count = (GROUP_ROWS / (body.len() + 3)) as u16;
    let [low, high] = count.to_le_bytes();
    let head = [
        [op::TID, ME, 0, 0],
        [op::SET, ONE, 1, 0],
        [op::SET, LEFT, low, high],
        [op::WHILE, 0, LEFT, 0],
    ];
    let next = [[op::SUB, LEFT, LEFT, ONE], [op::ENDWHILE, 0, 0, 0]];
    [&head, body, &next].concat()
}

/// Each thread loads the global cell of its number in its group, which all groups load; a loop's three rows among 35.
pub(crate) fn global_load() -> Vec<Row> {
    rounds(&[[op::GLOBAL_LOAD, 3, ME, 0]; 32])
}

/// Each thread adds 1 to that cell, as all groups do; a loop's three rows among 35.
pub(crate) fn global_add() -> Vec<Row> {
    rounds(&[[op::GLOBAL_ADD, ME, ONE, 0]; 32])
}

/// Rows that compute; a loop's three rows among 35.
pub(crate) fn arithmetic_rounds() -> Vec<Row> {
    rounds(&COMPUTE.repeat(4))
}

/// Loads and stores of own cells; a loop's three rows among 35.
pub(crate) fn load_store_rounds() -> Vec<Row> {
    rounds(&ACCESS.repeat(16))
}

/// A BARRIER once in eight rows, of which three are the loop's.
pub(crate) fn barrier_rounds() -> Vec<Row> {
    let body: Vec<Row> = COMPUTE[..4].iter().copied().chain([BARRIER]).collect();
    rounds(&body)
}

/// What a row loads from.
#[derive(Clone, Copy)]
pub(crate) enum Source {
    /// The own cells from this number on.
    Own(u16),
    /// The common cells.
    Common,
}

/// CELL is the one of the thread's number there.
fn number_in(source: Source) -> [Row; 3] {
    let [low, high, times] = match source {
        Source::Own(first) => {
            let [low, high] = first.to_le_bytes();
            [low, high, ONE]
        }
        // 65,536 is no number of two bytes: 256 times itself.
        Source::Common => [0, 1, STEP],
    };
    [
        [op::SET, STEP, low, high],
        [op::MUL, STEP, STEP, times],
        [op::ADD, CELL, ME, STEP],
    ]
}

/// Each thread loads one cell, and a loop's two rows among 34.
pub(crate) fn load(source: Source) -> Vec<Row> {
    endless_after(&number_in(source), &[[op::LOAD, 3, CELL, 0]; 32])
}

/// As a filter's inner loop: a coefficient, a sample of the thread's own, and a row that computes; a loop's two rows among 35.
pub(crate) fn load_one_of_three(source: Source) -> Vec<Row> {
    let body = [
        [op::LOAD, 3, CELL, 0],
        [op::LOAD, 4, ME, 0],
        [op::MUL, 5, 3, 4],
    ];
    endless_after(&number_in(source), &body.repeat(11))
}

/// A BARRIER once in `every` rows, behind a load and a STORE of 32 threads to the own cells from `first` on, one each.
pub(crate) fn barrier_behind_load(every: usize, source: Source, first: u16) -> Vec<Row> {
    const OWN: u8 = 14;
    let [low, high] = first.to_le_bytes();
    let own = [[op::SET, OWN, low, high], [op::ADD, OWN, ME, OWN]];
    let computing = COMPUTE.into_iter().skip(1).cycle().take(every - 5);
    let body: Vec<Row> = ([[op::LOAD, 3, CELL, 0]].into_iter())
        .chain(computing)
        .chain([[op::STORE, OWN, 4, 0], BARRIER])
        .collect();
    endless_after(&[&number_in(source)[..], &own].concat(), &body)
}
