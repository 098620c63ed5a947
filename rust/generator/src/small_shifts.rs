//! Small launches for the explorer that hang on shifts by 32 or more.

use crate::asm::*;
use crate::rng::Rng;

/// What the shift decides.
#[derive(Clone, Copy, PartialEq, Eq)]
enum Decides {
    Arm,
    /// How often a loop is gone round that counts down.
    Trips,
    /// When a loop ends whose word is shifted by each trip.
    End,
    Cell,
    /// Nothing but what is stored.
    Word,
}

/// R0 is the thread's number, R1 is 1, R2 the word, R3 the shifted word, R4 the
/// amount, R15 is 0. Besides, the words of cells behind the threads' own, if
/// the word and the amount are loaded from there.
pub fn shifts(rng: &mut Rng) -> (Vec<Row>, Vec<u32>) {
    use Decides::{Arm, Cell, End, Trips, Word};
    let decides = rng.pick(&[Arm, Trips, End, End, Cell, Word, Word]);
    let op = rng.pick(&[10, 11]);
    let shift = [op, 3, 2, 4];
    let mut rows = vec![tid(0), set(1, 1)];
    let mut behind = vec![];
    if rng.one_in(3) {
        // The amount's cell is numbered by COUNT, the word's is the next.
        rows.extend([count(4), add(2, 4, 1), load(4, 4), load(2, 2)]);
        behind.extend(far_words(rng, decides));
    } else {
        rows.extend(amount(rng));
        rows.push(word(rng, decides));
    }
    match decides {
        Arm => {
            rows.extend([shift, begin_if(3)]);
            rows.extend(arm(rng));
            rows.push(ELSE);
            rows.extend(arm(rng));
            rows.push(ENDIF);
        }
        Trips => {
            rows.extend([shift, begin_while(3)]);
            rows.extend(arm(rng));
            rows.extend([sub(3, 3, 1), ENDWHILE]);
        }
        End => {
            rows.push(begin_while(2));
            rows.extend(arm(rng));
            rows.extend([[op, 2, 2, 4], ENDWHILE]);
        }
        Cell => {
            let access = [store(3, 0), store(3, 1), load(5, 3), atomic_add(3, 1)];
            rows.extend([shift, rng.pick(&access)]);
        }
        Word => rows.extend([shift, store(0, 3)]),
    }
    if rng.one_in(2) {
        rows.extend([BARRIER, store(0, 3)]);
    }
    (rows, behind)
}

/// Rows that leave an amount in R4, mostly one of 32 or more.
fn amount(rng: &mut Rng) -> Vec<Row> {
    match rng.below(7) {
        0 | 1 => vec![set(
            4,
            rng.pick(&[31, 32, 33, 34, 63, 64, 65, 96, 255, 256]),
        )],
        // 0, 32, 64 and 1, 33, 65, thread by thread.
        2 => vec![set(4, 32), mul(4, 4, 0)],
        3 => vec![set(4, 32), mul(4, 4, 0), add(4, 4, 1)],
        // Neighbours.
        4 => vec![set(4, rng.pick(&[30, 31, 32, 63, 64])), add(4, 4, 0)],
        // A little less than 2^32.
        5 => vec![set(4, rng.pick(&[1, 31, 32, 33])), sub(4, 15, 4)],
        // 2^31, and 2^31 + 1 and so on for the other threads.
        _ => vec![set(4, 1 << 15), mul(4, 4, 4), add(4, 4, 4), add(4, 4, 0)],
    }
}

/// A row that leaves a word in R2: small ones, or a little less than 2^32.
fn word(rng: &mut Rng, decides: Decides) -> Row {
    let small = rng.pick(&[set(2, 1), set(2, 5), tid(2), add(2, 0, 1), add(2, 0, 0)]);
    // A loop would count down from a big word for ever.
    if decides == Decides::Trips || rng.percent(60) {
        small
    } else {
        rng.pick(&[sub(2, 15, 1), sub(2, 15, 0), sub(2, 0, 1)])
    }
}

/// An amount, and a word that it shifts to what suits the decision.
fn far_words(rng: &mut Rng, decides: Decides) -> [u32; 2] {
    let far = [31, 32, 33, 49, 63, 64, 65, 81, 1 << 16, 1 << 31, u32::MAX];
    let amount = rng.pick(&far).wrapping_sub(rng.below(2));
    let places = amount % 32;
    let out = rng.word() & ((1 << places) - 1);
    match decides {
        // Few places, so that what is left is no more than 7.
        Decides::Trips => [amount & !16, rng.below(8) << (places % 16)],
        // Few trips.
        Decides::End => [amount, rng.below(8)],
        Decides::Cell => [amount, rng.below(3) << places | out],
        Decides::Word => [amount, rng.word() | rng.pick(&[0, 1, 1]) << 31],
        Decides::Arm => {
            let target: u32 = rng.pick(&[0, 1, 2, u32::MAX, u32::MAX - 1]);
            [amount, target << places | out]
        }
    }
}

/// Nothing, a barrier or an access.
fn arm(rng: &mut Rng) -> Vec<Row> {
    // An endless sum would have a state for every word: no adds but of 0.
    match rng.below(6) {
        0 => vec![],
        1 => vec![store(0, 1)],
        2 => vec![load(5, 15)],
        3 => vec![atomic_add(15, 15)],
        _ => vec![BARRIER],
    }
}
