//! The claim over a fixed number of seeds, and for launches by hand.

mod common;

use common::*;
use explorer::claim::{check, Confirmed};
use explorer::machine::{BadEnd, Kernel, Move, Standing, State};
use explorer::search::{explore, replay, Order, Replay};
use explorer::{check_seed, Extent, Tally};
use generator::SmallLaunch;

const SEEDS: u64 = 4_000;

#[test]
fn the_claim_holds_for_every_seed() {
    let mut tally = Tally::new();
    for seed in 0..SEEDS {
        check_seed(seed, &mut tally).unwrap();
    }
    println!("{tally:#?}");
    let of = |confirmed, extents: &[Extent]| -> usize {
        let number = |&extent| tally.get(&(confirmed, extent)).copied().unwrap_or(0);
        extents.iter().map(number).sum()
    };
    use Extent::{GlobalCells, Groups, GroupsAndGlobalCells, OneGroup};
    for (confirmed, one_group, global, groups, both) in [
        (Confirmed::Passed, 800, 150, 150, 300),
        (Confirmed::EndsBadly, 400, 80, 40, 400),
        (Confirmed::Stuck, 120, 20, 15, 30),
        (Confirmed::Endless, 60, 6, 10, 10),
    ] {
        for (extent, least) in [
            (OneGroup, one_group),
            (GlobalCells, global),
            (Groups, groups),
            (GroupsAndGlobalCells, both),
        ] {
            let found = of(confirmed, &[extent]);
            assert!(found >= least, "{confirmed:?}, {extent:?}: {found}");
        }
    }
    let all = [OneGroup, GlobalCells, Groups, GroupsAndGlobalCells];
    assert!(of(Confirmed::Unknown, &all) <= SEEDS as usize / 50);
}

/// One group without global cells.
fn launch(threads: u32, rows: &[[u8; 4]], cells: &[u32]) -> SmallLaunch {
    launch_of((1, threads), rows, cells, &[])
}

#[test]
fn p1_ends_badly_and_p2_passes() {
    let mut rows = vec![
        TID,
        ONE,
        [4, 2, 0, 1],
        [16, 3, 2, 0],
        [16, 4, 0, 0],
        [4, 3, 3, 4],
        [17, 0, 3, 0],
    ];
    let p1 = launch(2, &rows, &[1, 1, 1]);
    assert_eq!(check(&p1), Ok(Confirmed::EndsBadly));
    rows.insert(4, BARRIER);
    let p2 = launch(2, &rows, &[1, 1, 1]);
    assert_eq!(check(&p2), Ok(Confirmed::Passed));
}

/// Arms of unequal length and loops of unequal trips, with barriers between.
#[test]
fn threads_with_unequal_steps_pass() {
    let plain = [4, 5, 5, 1];
    let first = [TID, ONE, begin_if(0), plain, plain, ELSE, ENDIF, BARRIER];
    let trips = [begin_while(0), plain, [5, 0, 0, 1], ENDWHILE];
    let last = [
        BARRIER,
        begin_if(5),
        plain,
        ELSE,
        plain,
        plain,
        plain,
        ENDIF,
    ];
    for threads in [2, 3] {
        for rows in [
            first.to_vec(),
            [&first[..2], &trips].concat(),
            [&first[..], &trips, &last].concat(),
            [&first[..2], &[begin_if(0)], &trips, &[ENDIF], &last].concat(),
        ] {
            let found = check(&launch(threads, &rows, &[0]));
            assert_eq!(found, Ok(Confirmed::Passed), "{rows:?}");
        }
    }
}

#[test]
fn p5_is_stuck() {
    let rows = [TID, begin_if(0), BARRIER, ELSE, BARRIER, ENDIF];
    assert_eq!(check(&launch(2, &rows, &[0])), Ok(Confirmed::Stuck));
}

#[test]
fn loops_with_barriers_for_ever_are_endless() {
    let rows = [ONE, begin_while(1), BARRIER, ENDWHILE];
    assert_eq!(check(&launch(3, &rows, &[0])), Ok(Confirmed::Endless));
}

#[test]
fn a_thread_at_a_barrier_and_another_in_a_loop() {
    // Thread 1 waits; thread 0 loops for ever, so no run is stuck.
    let rows = [
        TID,
        ONE,
        begin_if(0),
        BARRIER,
        ELSE,
        begin_while(1),
        ENDWHILE,
        ENDIF,
    ];
    let found = check(&launch(2, &rows, &[0]));
    assert_eq!(found, Ok(Confirmed::DivergedEndless));
}

#[test]
fn the_two_loop_barrier_is_stuck() {
    // Thread 0 goes 2 by 1 times to the barrier, thread 1 goes 1 by 2 times.
    let rows = [
        TID,
        ONE,
        [4, 3, 0, 1], // R3 = R0 + 1
        [5, 2, 1, 0], // R2 = 2 - R0, in two rows
        [4, 2, 2, 1],
        begin_while(2),
        [4, 4, 3, 9],
        begin_while(4),
        BARRIER,
        [5, 4, 4, 1],
        ENDWHILE,
        [5, 2, 2, 1],
        ENDWHILE,
    ];
    assert_eq!(check(&launch(2, &rows, &[0])), Ok(Confirmed::Stuck));
}

/// Thread's number in R0, 1 in R1, and R15 is 0: all mean cell 0 by it.
const ADD: [u8; 4] = [18, 15, 1, 0];
const LOAD: [u8; 4] = [16, 3, 15, 0];
const STORE: [u8; 4] = [17, 15, 0, 0];

#[test]
fn adds_of_all_threads_pass_in_every_order() {
    // Unequal amounts, and a sum that wraps.
    let rows = [TID, ONE, ADD, [18, 15, 0, 0], BARRIER, LOAD, [17, 0, 3, 0]];
    let one_cell = launch(3, &rows[..4], &[u32::MAX]);
    assert_eq!(check(&one_cell), Ok(Confirmed::Passed));
    // After a barrier all may load the sum; storing it over the sum is a race.
    let loaded = launch(3, &rows[..6], &[5, 0, 0]);
    assert_eq!(check(&loaded), Ok(Confirmed::Passed));
    let stored = launch(3, &rows, &[5, 0, 0]);
    assert_eq!(check(&stored), Ok(Confirmed::EndsBadly));
}

#[test]
fn an_add_beside_anothers_load_or_store_ends_badly() {
    for access in [LOAD, STORE] {
        for [first, second] in [[ADD, access], [access, ADD]] {
            let rows = [TID, ONE, begin_if(0), first, ELSE, second, ENDIF];
            let found = check(&launch(2, &rows, &[0]));
            assert_eq!(found, Ok(Confirmed::EndsBadly), "{first:?}, {second:?}");
        }
    }
    let rows = [TID, ONE, begin_if(0), ADD, ELSE, ADD, ENDIF];
    assert_eq!(check(&launch(2, &rows, &[0])), Ok(Confirmed::Passed));
}

#[test]
fn own_accesses_beside_an_add_pass() {
    let rows = [TID, ONE, begin_if(0), ADD, LOAD, STORE, ADD, ENDIF];
    assert_eq!(check(&launch(2, &rows, &[0])), Ok(Confirmed::Passed));
}

#[test]
fn a_release_parts_adds_from_loads_and_stores() {
    for access in [LOAD, STORE] {
        let late = [begin_if(0), access, ENDIF];
        let rows = |middle: &[[u8; 4]]| [&[TID, ONE, ADD], middle, &late].concat();
        let parted = launch(2, &rows(&[BARRIER]), &[7]);
        assert_eq!(check(&parted), Ok(Confirmed::Passed));
        let together = launch(2, &rows(&[]), &[7]);
        assert_eq!(check(&together), Ok(Confirmed::EndsBadly));
    }
}

#[test]
fn an_add_outside_ends_badly() {
    // Thread 1's own cell isn't there; its amount would be.
    let rows = [TID, ONE, [18, 0, 15, 0]];
    assert_eq!(check(&launch(2, &rows, &[0])), Ok(Confirmed::EndsBadly));
    assert_eq!(check(&launch(2, &rows, &[0, 0])), Ok(Confirmed::Passed));
}

const SHR: u8 = 10;
const SAR: u8 = 11;

#[test]
fn a_shift_decides_the_cell() {
    for op in [SHR, SAR] {
        // Threads 0 to 2 store to cell R0 >> amount.
        let number = |amount| [TID, set(4, amount), [op, 3, 0, 4], [17, 3, 0, 0]];
        for amount in [0, 32, 64, 256, 32_768] {
            let own = launch(3, &number(amount), &[7; 3]);
            assert_eq!(check(&own), Ok(Confirmed::Passed), "by {amount}");
            let outside = launch(3, &number(amount), &[7; 2]);
            assert_eq!(check(&outside), Ok(Confirmed::EndsBadly), "by {amount}");
        }
        // By one place and more, threads 0 and 1 share cell 0.
        for amount in [1, 33, 34, 63, 65, 65_535] {
            let shared = launch(2, &number(amount), &[7; 3]);
            assert_eq!(check(&shared), Ok(Confirmed::EndsBadly), "by {amount}");
        }
    }
}

#[test]
fn a_shift_decides_the_arm() {
    for op in [SHR, SAR] {
        // Amounts 0, 32 and 64 leave 1; 1, 33 and 65 leave 0.
        let by_turns = [TID, ONE, set(4, 32), [6, 4, 4, 0]];
        let arms = [[op, 3, 1, 4], begin_if(3), BARRIER, ENDIF];
        let all_wait = [by_turns, arms].concat();
        assert_eq!(check(&launch(3, &all_wait, &[0])), Ok(Confirmed::Passed));
        let next = [&by_turns[..], &[[4, 4, 4, 1]], &arms].concat();
        assert_eq!(check(&launch(3, &next, &[0])), Ok(Confirmed::Passed));
        // Amounts 32 and 33: one waits, the other doesn't.
        let neighbours = [&[TID, ONE, set(4, 32), [4, 4, 4, 0]][..], &arms].concat();
        assert_eq!(check(&launch(2, &neighbours, &[0])), Ok(Confirmed::Stuck));
    }
}

#[test]
fn a_shift_decides_a_loop() {
    // While R2, from 5 on, R2 = R2 >> amount.
    let round = |op, amount| {
        let head = [TID, set(4, amount), set(2, 5), begin_while(2), BARRIER];
        [&head[..], &[[op, 2, 2, 4], ENDWHILE]].concat()
    };
    for op in [SHR, SAR] {
        for amount in [0, 32, 64, 96, 256] {
            let found = check(&launch(2, &round(op, amount), &[0]));
            assert_eq!(found, Ok(Confirmed::Endless), "by {amount}");
        }
        for amount in [1, 31, 33, 63, 65, 255, 65_535] {
            let found = check(&launch(2, &round(op, amount), &[0]));
            assert_eq!(found, Ok(Confirmed::Passed), "by {amount}");
        }
    }
}

#[test]
fn a_shift_decides_how_often_threads_meet() {
    // Amounts 32 and 33 of 2: two trips with a barrier, and one.
    let trips = |amount: [u8; 4], op| {
        let head = [TID, ONE, set(2, 2), set(4, 32), amount, [op, 3, 2, 4]];
        let body = [begin_while(3), BARRIER, [5, 3, 3, 1], ENDWHILE];
        [&head[..], &body].concat()
    };
    for op in [SHR, SAR] {
        let unequal = launch(2, &trips([4, 4, 4, 0], op), &[0]);
        assert_eq!(check(&unequal), Ok(Confirmed::Stuck));
        let equal = launch(2, &trips([6, 4, 4, 0], op), &[0]);
        assert_eq!(check(&equal), Ok(Confirmed::Passed));
    }
}

#[test]
fn far_amounts_copy_the_top_bit_as_near_ones_do() {
    // -6 by one place is -3, so that 3 more is cell 0; or 2^31 for SHR.
    let rows = |op, amount: [[u8; 4]; 2]| {
        let word = [set(2, 6), [5, 2, 15, 2]];
        let at = [[op, 3, 2, 4], set(5, 3), [4, 3, 3, 5], [16, 6, 3, 0]];
        [&word[..], &amount, &at].concat()
    };
    // 33, 65 and 2^32 - 31.
    for amount in [
        [set(4, 33), TID],
        [set(4, 65), TID],
        [set(4, 31), [5, 4, 15, 4]],
    ] {
        let sar = launch(2, &rows(SAR, amount), &[0]);
        assert_eq!(check(&sar), Ok(Confirmed::Passed), "{amount:?}");
        let shr = launch(2, &rows(SHR, amount), &[0]);
        assert_eq!(check(&shr), Ok(Confirmed::EndsBadly), "{amount:?}");
    }
}

/// SET R2 = value and STORE it in cell 0, whose number R15 is.
fn put(value: u16) -> Vec<[u8; 4]> {
    vec![set(2, value), [17, 15, 2, 0]]
}

/// One thread's rows in IF, those of the others in ELSE; thread 0 is the other.
fn arms(thread_1: &[[u8; 4]], thread_0: &[[u8; 4]]) -> Vec<[u8; 4]> {
    let head = [TID, ONE, begin_if(0)];
    [&head[..], thread_1, &[ELSE], thread_0, &[ENDIF]].concat()
}

fn claimed(threads: u32, rows: &[[u8; 4]]) -> Confirmed {
    check(&launch(threads, rows, &[7, 7, 7])).unwrap()
}

#[test]
fn a_flag_set_by_all_passes_in_every_order() {
    for threads in [2, 3] {
        assert_eq!(claimed(threads, &put(1)), Confirmed::Passed);
        assert_eq!(claimed(threads, &put(0)), Confirmed::Passed);
        // Read behind a barrier, or set to another value.
        let read = [put(1), vec![BARRIER, LOAD], put(1)].concat();
        assert_eq!(claimed(threads, &read[..4]), Confirmed::Passed);
        assert_eq!(claimed(threads, &read), Confirmed::EndsBadly);
        let again = [put(1), vec![BARRIER], put(2), vec![BARRIER], put(1)].concat();
        assert_eq!(claimed(threads, &again), Confirmed::Passed);
        let together = [put(1), put(2)].concat();
        assert_eq!(claimed(threads, &together), Confirmed::EndsBadly);
    }
}

#[test]
fn stores_of_two_threads_pass_exactly_if_equal() {
    for one in [0, 1, 5, 256] {
        for other in [0, 1, 5, 256] {
            let found = claimed(2, &arms(&put(one), &put(other)));
            let expected = if one == other {
                Confirmed::Passed
            } else {
                Confirmed::EndsBadly
            };
            assert_eq!(found, expected, "{one}, {other}");
        }
    }
    // Equal but for the top bit, which is shifted out or kept.
    let top = [set(2, 32_768), set(3, 32_768), [4, 3, 3, 3], [6, 2, 2, 3]];
    let store = [17, 15, 2, 0];
    let high = [&top[..], &[store]].concat();
    assert_eq!(claimed(2, &arms(&high, &put(0))), Confirmed::EndsBadly);
    assert_eq!(claimed(2, &arms(&high, &high)), Confirmed::Passed);
}

/// The cell's last value is the same whatever the order: it is a race still.
#[test]
fn own_unequal_stores_count_whatever_the_cell_holds_at_last() {
    // 5, 6 and 5 beside 5; only some orders meet the 6 first.
    let back = [put(5), put(6), put(5)].concat();
    assert_eq!(claimed(2, &arms(&back, &put(5))), Confirmed::EndsBadly);
    assert_eq!(claimed(2, &arms(&put(5), &back)), Confirmed::EndsBadly);
    let two = [put(5), put(6)].concat();
    for last in [5, 6] {
        assert_eq!(claimed(2, &arms(&two, &put(last))), Confirmed::EndsBadly);
        assert_eq!(claimed(2, &arms(&put(last), &two)), Confirmed::EndsBadly);
    }
    // Both store 5 and 6, so that in lock step 6 is the last value.
    assert_eq!(claimed(2, &two), Confirmed::EndsBadly);
    // One alone may, and another behind a barrier.
    assert_eq!(claimed(2, &arms(&two, &[])), Confirmed::Passed);
    assert_eq!(claimed(2, &arms(&back, &[])), Confirmed::Passed);
    let parted = [arms(&two, &[]), vec![BARRIER], put(5)].concat();
    assert_eq!(claimed(3, &parted), Confirmed::EndsBadly); // 5 and 6 by two
    assert_eq!(claimed(2, &parted), Confirmed::Passed);
}

/// Storing what the cell holds already changes no cell in any order.
#[test]
fn a_load_beside_an_equal_store_ends_badly() {
    for (one, other) in [
        (put(7), vec![LOAD]),
        (vec![LOAD], put(7)),
        ([put(7), vec![LOAD]].concat(), put(7)),
        (put(7), [vec![LOAD], put(7)].concat()),
        ([put(7), vec![LOAD]].concat(), [put(7), vec![LOAD]].concat()),
    ] {
        assert_eq!(claimed(2, &arms(&one, &other)), Confirmed::EndsBadly);
        assert_eq!(claimed(3, &arms(&one, &other)), Confirmed::EndsBadly);
    }
    // Three threads set the flag, thread 0 alone reads it too.
    let rows = arms(&put(7), &[put(7), vec![LOAD]].concat());
    assert_eq!(claimed(3, &rows), Confirmed::EndsBadly);
    assert_eq!(claimed(1, &rows), Confirmed::Passed);
}

#[test]
fn an_add_beside_an_equal_store_ends_badly() {
    // An add of 0 changes no cell either.
    let nothing = vec![[18, 15, 14, 0]];
    for (one, other) in [
        (put(7), nothing.clone()),
        (nothing.clone(), put(7)),
        ([put(7), nothing.clone()].concat(), put(7)),
        (put(7), [put(7), nothing.clone()].concat()),
    ] {
        assert_eq!(claimed(2, &arms(&one, &other)), Confirmed::EndsBadly);
        assert_eq!(claimed(3, &arms(&one, &other)), Confirmed::EndsBadly);
    }
}

/// Each thread stores to cell 0 what it finds in its own cell.
#[test]
fn loaded_values_decide() {
    let rows = [TID, ONE, [4, 3, 0, 1], [16, 4, 3, 0], [17, 15, 4, 0]];
    let of = |cells: &[u32]| check(&launch(cells.len() as u32 - 1, &rows, cells)).unwrap();
    assert_eq!(of(&[0, 9, 9]), Confirmed::Passed);
    assert_eq!(of(&[0, 9, 9, 9]), Confirmed::Passed);
    assert_eq!(of(&[0, 9, 8]), Confirmed::EndsBadly);
    assert_eq!(of(&[0, 9, 9, 8]), Confirmed::EndsBadly);
    assert_eq!(of(&[0, 9, 9, 9 + 65_536]), Confirmed::EndsBadly);
}

#[test]
fn a_flag_set_in_loops_passes_and_another_value_ends_badly() {
    let round = |value: [u8; 4]| {
        let head = [TID, ONE, [4, 3, 0, 1], set(2, 4), begin_while(3)];
        let body = [value, [17, 15, 2, 0], [5, 3, 3, 1], ENDWHILE];
        [&head[..], &body].concat()
    };
    // One trip for thread 0, two for thread 1: 4 in each.
    assert_eq!(claimed(2, &round(set(2, 4))), Confirmed::Passed);
    assert_eq!(claimed(3, &round(set(2, 4))), Confirmed::Passed);
    // 5 and 6: thread 1's second trip stores 6 beside thread 0's 5.
    assert_eq!(claimed(2, &round([4, 2, 2, 1])), Confirmed::EndsBadly);
    // A release in each trip parts them, but thread 0 stays behind at it.
    let barrier = [&round(set(2, 4))[..7], &[BARRIER], &round(set(2, 4))[7..]].concat();
    assert_eq!(claimed(2, &barrier), Confirmed::Stuck);
}

/// Plays the rows of the threads in this order, for two threads.
fn play(rows: &[[u8; 4]], order: &[usize]) -> Replay {
    let run: Vec<Move> = order.iter().map(|&thread| Move::Row(thread)).collect();
    let start = State::start(1, 2, &[7, 7, 7], &[]);
    replay(&Kernel::new(&rows.concat()), start, Order::Any, &run)
}

/// Thread 1 stores 5, 6 and 5, thread 0 stores 5: who meets the race, and by
/// which store, is a matter of the order.
#[test]
fn either_thread_may_be_the_one_that_meets_the_race() {
    let rows = arms(&[put(5), put(6), put(5)].concat(), &put(5));
    let start = [[0; 3], [1; 3]].concat();
    let after = |order: &[usize]| play(&rows, &[&start, order].concat());
    let raced = Replay::Bad(BadEnd::Race);
    // Thread 0 first, or behind the first 5: the 6 is met.
    assert_eq!(after(&[0, 0, 1, 1, 1, 1]), raced);
    assert_eq!(after(&[1, 1, 0, 0, 1, 1]), raced);
    let not_yet = after(&[1, 1, 0, 0, 1]);
    assert!(matches!(not_yet, Replay::Stands(Standing::Open(_))));
    // Behind the 6, or behind the second 5, thread 0 meets it.
    assert_eq!(after(&[1, 1, 1, 1, 0, 0]), raced);
    assert_eq!(after(&[1, 1, 1, 1, 1, 1, 0, 0]), raced);
    let not_yet = after(&[1, 1, 1, 1, 1, 1, 0]);
    assert!(matches!(not_yet, Replay::Stands(Standing::Open(_))));
}

/// Thread 1 sets the flag and goes outside, or loops for ever; thread 0 sets it
/// too, and then to another value. That is met in some orders only.
#[test]
fn an_order_that_meets_no_race_is_there_besides_one_that_does() {
    let unequal = [put(5), put(6)].concat();
    let outside = [put(5), vec![[16, 3, 2, 0]]].concat();
    let rows = arms(&outside, &unequal);
    let start = [[0; 3], [1; 3]].concat();
    let after = |order: &[usize]| play(&rows, &[&start, order].concat());
    assert_eq!(after(&[1, 1, 0, 0, 1]), Replay::Bad(BadEnd::Outside));
    assert_eq!(after(&[1, 1, 0, 0, 0, 0]), Replay::Bad(BadEnd::Race));
    assert_eq!(after(&[0, 0, 0, 0, 1, 1]), Replay::Bad(BadEnd::Race));
    assert_eq!(claimed(2, &rows), Confirmed::EndsBadly);
    let endless = [put(5), vec![begin_while(1), ENDWHILE]].concat();
    for rows in [
        arms(&endless, &unequal),
        [arms(&put(5), &unequal), endless[2..].to_vec()].concat(),
    ] {
        let start = State::start(1, 2, &[7, 7, 7], &[]);
        let kernel = Kernel::new(&rows.concat());
        let findings = explore(&kernel, start, Order::Any, 9_999);
        let (_, end) = findings.bad.unwrap();
        assert_eq!((end, findings.endless.is_some()), (BadEnd::Race, true));
    }
    // In lock step the race comes before the loop, or the loop for ever.
    let late = [arms(&put(5), &unequal), endless[2..].to_vec()].concat();
    assert_eq!(claimed(2, &late), Confirmed::EndsBadly);
    assert_eq!(claimed(2, &arms(&endless, &unequal)), Confirmed::Endless);
}

/// A thread that goes on storing for ever comes back to a state of its own,
/// although the record keeps all that it has stored.
#[test]
fn endless_stores_are_endless() {
    let round = [[put(5), put(6)].concat(), vec![ENDWHILE]].concat();
    let rows = [
        &[TID, ONE, begin_if(0), begin_while(1)],
        &round[..],
        &[ENDIF],
    ]
    .concat();
    assert_eq!(claimed(2, &rows), Confirmed::Endless);
    let equal = [&[ONE, begin_while(1)][..], &put(5), &[ENDWHILE]].concat();
    assert_eq!(claimed(2, &equal), Confirmed::Endless);
    assert_eq!(claimed(3, &equal), Confirmed::Endless);
}
