//! Shifts by amounts at the edges, of words of each thread's own: for their
//! results, and for what these decide.

use crate::asm::*;
use crate::plan::Plan;
use crate::rng::Rng;

/// Amounts to shift by, around the first multiples of 32; 32 twice.
const NEAR: [u32; 8] = [0, 1, 31, 32, 32, 33, 63, 64];

/// Amounts beyond at which a reading other than modulo 32 has its edge: fewer
/// bits, a sign, an end.
const FAR: [u32; 16] = [
    63,
    64,
    95,
    96,
    127,
    128,
    255,
    256,
    257,
    65_535,
    65_536,
    65_537,
    (1 << 31) - 1,
    1 << 31,
    u32::MAX - 31,
    u32::MAX,
];

/// Multiples of 32 on both sides of powers of two.
const TURNS: [u32; 14] = [
    32,
    64,
    96,
    128,
    224,
    256,
    1 << 10,
    (1 << 16) - 32,
    1 << 16,
    1 << 24,
    (1 << 31) - 32,
    1 << 31,
    3 << 30,
    u32::MAX - 31,
];

/// An amount to shift by: below 66, or a multiple of 32 and some places,
/// often none, one or 31, or any word.
pub fn shift_amount(rng: &mut Rng) -> u32 {
    match rng.below(8) {
        0 => rng.pick(&NEAR),
        1 => rng.pick(&FAR),
        2 => rng.pick(&TURNS) + rng.below(32),
        3 => rng.pick(&TURNS) + rng.pick(&[0, 1, 31]),
        4 => rng.below(u32::MAX),
        _ => rng.below(66),
    }
}

/// A word to shift, mostly with the top bit set.
fn shifted_word(rng: &mut Rng) -> u32 {
    let word = rng.word();
    if rng.one_in(4) {
        word
    } else {
        word | 1 << 31
    }
}

/// Both shifts of each thread's words by its amounts, by all threads or by
/// some, put back over the word and the amount. The amount is then shifted by
/// itself, so that it is seen if a shift has changed it.
pub fn shifts(rng: &mut Rng) -> Plan {
    let threads = rng.threads();
    // A few threads try as many amounts as many do.
    let rounds = rng.range(2, 4) + 8 / threads;
    // Those with odd numbers.
    let some_only = rng.one_in(2) && threads > 1;
    let all_three = [[10, 5, 2, 3], [11, 6, 2, 3], shr(3, 3, 3), add(6, 6, 3)];
    let mut rows = vec![tid(0), count(1), set(7, 1), and(7, 0, 7)];
    for _ in 0..rounds {
        rows.extend([load(2, 0), add(4, 0, 1), load(3, 4)]);
        if some_only {
            rows.push(begin_if(7));
            rows.extend(all_three);
            rows.push(ENDIF);
        } else {
            rows.extend(all_three);
        }
        rows.extend([store(0, 5), store(4, 6), add(0, 4, 1)]);
    }
    let mut cells = vec![];
    for _ in 0..rounds {
        cells.extend((0..threads).map(|_| shifted_word(rng)));
        cells.extend((0..threads).map(|_| shift_amount(rng)));
    }
    Plan::new(rng, threads, rows, cells)
}

/// A word that the amount shifts to `target`, and what it shifts out.
fn shifted_to(rng: &mut Rng, target: u32, amount: u32) -> u32 {
    let out = (1 << (amount % 32)) - 1;
    target << (amount % 32) | rng.word() & out
}

/// What a shift decides.
#[derive(Clone, Copy)]
enum Decides {
    Arm,
    Trips,
    Barrier,
    Cell,
}

/// A shift of each thread's word decides what the thread does, and with it
/// the verdict.
pub fn deciding_shifts(rng: &mut Rng) -> Plan {
    let threads = match rng.below(6) {
        0 => 1,
        1 | 2 => 32,
        _ => rng.threads(),
    };
    let decides = match rng.below(5) {
        0 => Decides::Arm,
        1 => Decides::Trips,
        2 => Decides::Barrier,
        3 => Decides::Cell,
        _ => return shifting_loop(rng, threads),
    };
    let rows = deciding_rows(rng, decides);
    let cells = deciding_words(rng, decides, threads);
    Plan::new(rng, threads, rows, cells)
}

fn deciding_rows(rng: &mut Rng, decides: Decides) -> Vec<Row> {
    let mut rows = vec![tid(0), count(1), add(4, 0, 1), set(7, 1)];
    rows.extend([and(8, 0, 7), sub(8, 7, 8)]); // those with even numbers
    rows.extend([load(2, 0), load(3, 4)]);
    // Over the word, over the amount or over neither.
    let d = rng.pick(&[5, 5, 2, 3]);
    let shift = [rng.pick(&[10, 11]), d, 2, 3];
    let arms = [shift, begin_if(d), store(0, 1), ELSE, store(4, 0), ENDIF];
    let trips = [shift, begin_while(d), add(6, 6, 1), sub(d, d, 7), ENDWHILE];
    let access = rng.pick(&[load(6, d), store(d, 0), store(d, 0), atomic_add(d, 1)]);
    match decides {
        Decides::Arm => rows.extend(by_all_or_some(rng, &arms)),
        Decides::Trips => rows.extend(by_all_or_some(rng, &trips)),
        Decides::Barrier => rows.extend([shift, begin_if(d), BARRIER, ENDIF]),
        Decides::Cell => rows.extend([shift, BARRIER, access, BARRIER]),
    }
    rows.push(store(0, 6));
    rows
}

/// A word for each thread, then its amount.
fn deciding_words(rng: &mut Rng, decides: Decides, threads: u32) -> Vec<u32> {
    // Mostly all come to the barrier or none does; each has another cell.
    let (all, turn) = (rng.below(4), rng.below(threads));
    let some = rng.one_in(5);
    let (mut words, mut amounts) = (vec![], vec![]);
    for thread in 0..threads {
        let target = match decides {
            Decides::Arm => rng.below(2),
            Decides::Trips => rng.below(4),
            Decides::Barrier if some => rng.below(2),
            Decides::Barrier => all,
            Decides::Cell => (thread + turn) % threads,
        };
        // No more than 15 places, so that the target fits.
        let amount = shift_amount(rng) & !16;
        words.push(shifted_to(rng, target, amount));
        amounts.push(amount);
    }
    words.extend(amounts);
    words
}

/// These rows as they are, or for the threads with R8 true.
fn by_all_or_some(rng: &mut Rng, rows: &[Row]) -> Vec<Row> {
    if rng.one_in(2) {
        rows.to_vec()
    } else {
        [&[begin_if(8)], rows, &[ENDIF]].concat()
    }
}

/// A loop on a word that each trip shifts, by a multiple of 32 too.
fn shifting_loop(rng: &mut Rng, threads: u32) -> Plan {
    let op = rng.pick(&[10, 11]);
    let mut rows = vec![tid(0), count(1), add(4, 0, 1), set(7, 1)];
    rows.extend([load(2, 0), load(3, 4), begin_while(2), add(6, 6, 7)]);
    rows.extend([[op, 2, 2, 3], ENDWHILE, store(0, 6)]);
    // Some of the loops have no end, by the amount or by the top bit.
    let (least, top) = (u32::from(!rng.one_in(4)), u32::from(rng.one_in(8)));
    let mut cells: Vec<u32> = (0..threads).map(|_| rng.word() << 1 >> 1).collect();
    cells[0] |= top << 31;
    cells.extend((0..threads).map(|_| shift_amount(rng) | least));
    Plan::new(rng, threads, rows, cells)
}
