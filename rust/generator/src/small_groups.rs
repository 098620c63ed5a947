//! Small launches for the explorer with several groups, with global cells, or
//! with both.
//!
//! R0 is the thread's number in its group, R1 is 1. R2 is the role, by which
//! groups do different things: mostly the group's number, or whether it is
//! group 0. R15 stays 0 and means cell 0.

use crate::asm::*;
use crate::rng::Rng;
use crate::small::{one_group, SmallLaunch};

/// About so many states of a launch are played at most, if its rows are few
/// enough for its threads.
const STATES: u64 = 25_000;

/// A launch with more than one group or with global cells, or both.
pub fn groups(rng: &mut Rng) -> SmallLaunch {
    match rng.below(20) {
        0..=2 => with_global_cells(rng),
        3..=6 => groups_of_any_kind(rng),
        7..=11 => by_role(rng),
        12..=13 => by_launch_number(rng),
        14..=15 => barriers_of_some(rng),
        16..=17 => faults_of_some(rng),
        _ => fine_alone(rng),
    }
}

/// One group, some or all of whose accesses are to global cells.
fn with_global_cells(rng: &mut Rng) -> SmallLaunch {
    let launch = one_group(rng);
    let percent = rng.pick(&[50, 100]);
    SmallLaunch {
        table: partly_global(rng, &launch.table, percent),
        global: launch.cells.clone(),
        ..launch
    }
}

/// Accesses become those to global cells, each of them in so many of a hundred.
fn partly_global(rng: &mut Rng, table: &[u8], percent: u32) -> Vec<u8> {
    let mut table = table.to_vec();
    for row in table.chunks_mut(4) {
        if matches!(row[0], 16..=18) && rng.percent(percent) {
            row[0] += 4;
        }
    }
    table
}

/// Several groups run what was made for one, each on own cells that may differ
/// from those of the others.
fn groups_of_any_kind(rng: &mut Rng) -> SmallLaunch {
    let mut launch = one_group(rng);
    let rows = launch.table.len() / 4;
    (launch.groups, launch.threads) = size(rng, rows, &[(2, 1), (2, 1), (3, 1), (2, 2)]);
    if rng.one_in(3) {
        for row in launch.table.chunks_mut(4).filter(|row| row[0] == 2) {
            row[0] = 19;
        }
    }
    let first = launch.cells.clone();
    for _ in 1..launch.groups {
        let other = first.iter().map(|&word| match rng.below(3) {
            0 => rng.below(3),
            _ => word,
        });
        launch.cells.extend(other);
    }
    let percent = rng.pick(&[0, 0, 40, 100]);
    if percent > 0 {
        launch.table = partly_global(rng, &launch.table, percent);
        launch.global = first;
    }
    launch
}

/// Groups and threads of each, of those sizes for which there are not too many
/// states.
fn size(rng: &mut Rng, rows: usize, sizes: &[(u32, u32)]) -> (u32, u32) {
    let few = |&(groups, threads): &(u32, u32)| {
        let states = (rows as u64 + 1).checked_pow(groups * threads);
        states.is_some_and(|states| states <= STATES)
    };
    let fitting: Vec<(u32, u32)> = sizes.iter().copied().filter(few).collect();
    if fitting.is_empty() {
        (2, 1)
    } else {
        rng.pick(&fitting)
    }
}

/// All sizes of up to three groups of up to three threads, but for the plain one
/// of one thread.
const ALL_SIZES: [(u32, u32); 8] = [
    (1, 2),
    (1, 3),
    (2, 1),
    (2, 2),
    (2, 3),
    (3, 1),
    (3, 2),
    (3, 3),
];

/// Rows for groups of any size that fits them, with own cells that hold the
/// group's number, and so many global cells.
fn launch(rng: &mut Rng, rows: &[Row], sizes: &[(u32, u32)], global: u32) -> SmallLaunch {
    let (groups, threads) = size(rng, rows.len(), sizes);
    let cells = rng.range(1, 2);
    let own = |group| (0..cells).map(move |cell| group + cell);
    SmallLaunch {
        table: rows.concat(),
        threads,
        groups,
        cells: (0..groups).flat_map(own).collect(),
        global: (0..global).map(|_| rng.below(3)).collect(),
    }
}

/// Rows that leave the role in R2.
fn role(rng: &mut Rng) -> Vec<Row> {
    match rng.below(8) {
        // Whether the thread is one of group 0.
        0 | 1 => vec![launch_number(2), count(4), lt(2, 2, 4)],
        // In groups of one thread the group's number.
        2 | 3 => vec![launch_number(2)],
        // Whether it is one of group 2.
        4 => vec![load(2, 15), set(1, 1), shr(2, 2, 1)],
        // The group's number, as its own cell has it.
        _ => vec![load(2, 15)],
    }
}

/// Groups that do different things to global cells, each before or behind
/// barriers of its own.
fn by_role(rng: &mut Rng) -> SmallLaunch {
    let mut rows = role(rng);
    if rng.one_in(2) {
        rows.push(set(1, 1));
    }
    rows.push(begin_if(2));
    rows.extend(part(rng));
    rows.push(ELSE);
    rows.extend(part(rng));
    rows.push(ENDIF);
    if rng.one_in(4) {
        rows.extend(part(rng));
    }
    let global = rng.pick(&[1, 1, 2]);
    launch(
        rng,
        &rows,
        &[(2, 1), (3, 1), (3, 1), (2, 2), (2, 2), (1, 2)],
        global,
    )
}

/// One or two accesses, mostly to global cell 0, among barriers.
fn part(rng: &mut Rng) -> Vec<Row> {
    let barrier = |rng: &mut Rng| if rng.one_in(3) { vec![BARRIER] } else { vec![] };
    let mut rows = barrier(rng);
    rows.push(access(rng));
    rows.extend(barrier(rng));
    if rng.one_in(4) {
        rows.push(access(rng));
        rows.extend(barrier(rng));
    }
    rows
}

fn access(rng: &mut Rng) -> Row {
    let at = rng.pick(&[15, 15, 15, 15, 2, 1]);
    match rng.below(10) {
        0..=2 => global_load(3, at),
        3 | 4 => global_store(at, rng.pick(&[1, 15, 15])),
        5..=8 => global_add(at, rng.pick(&[1, 2])),
        _ => rng.pick(&[store(15, 3), atomic_add(15, 1)]),
    }
}

/// Cells numbered by the launch number: one for each thread of the launch, or
/// nearly.
fn by_launch_number(rng: &mut Rng) -> SmallLaunch {
    let number = rng.pick(&[launch_number, launch_number, launch_number, tid]);
    let value = rng.pick(&[tid(0), count(0), launch_number(0)]);
    let put = rng.pick(&[global_store, global_store, global_add]);
    let mut rows = vec![number(2), value, put(2, 0)];
    match rng.below(6) {
        // Its own cell again.
        0 => rows.push(global_load(3, 2)),
        // The neighbour's, mostly of the same group, with a barrier or not.
        1 => rows.extend([set(1, 1), [9, 4, 2, 1], global_load(3, 4)]),
        2 => rows.extend([BARRIER, set(1, 1), [9, 4, 2, 1], global_load(3, 4)]),
        // An own cell beside it, of the same number or of TID.
        3 => rows.push(store(0, 2)),
        4 => rows.extend([tid(0), store(0, 2)]),
        _ => {}
    }
    let mut launch = launch(rng, &rows, &ALL_SIZES[2..], 0);
    let threads = launch.groups * launch.threads;
    let global = threads + rng.pick(&[0, 0, 0, 1]) - rng.pick(&[0, 0, 0, 1]);
    launch.global = (0..global).map(|_| rng.below(3)).collect();
    launch
}

/// Barriers that only some groups come to, or come to more often than others.
fn barriers_of_some(rng: &mut Rng) -> SmallLaunch {
    let mut rows = role(rng);
    let around = rng.one_in(2);
    if around {
        rows.extend([tid(0), atomic_add(15, 0)]);
    }
    match rng.below(4) {
        0 => rows.extend([begin_if(2), BARRIER, ENDIF]),
        1 => rows.extend([begin_if(2), ELSE, BARRIER, ENDIF]),
        2 => rows.extend([begin_if(2), BARRIER, ELSE, BARRIER, BARRIER, ENDIF]),
        // As many trips as the role says.
        _ => {
            let round = [begin_while(2), BARRIER, sub(2, 2, 1), ENDWHILE];
            rows.push(set(1, 1));
            rows.extend(round);
        }
    }
    rows.extend(match rng.below(5) {
        0 => vec![store(0, 1)],
        1 => vec![BARRIER, load(3, 15)],
        2 => vec![global_add(15, 1), BARRIER],
        3 => vec![global_load(3, 15)],
        _ => vec![],
    });
    let global = rng.below(3);
    launch(rng, &rows, &[(2, 1), (2, 2), (2, 2), (3, 1)], global)
}

/// A barrier at which some groups are left behind by some of their threads, or
/// a loop that some groups never leave.
fn faults_of_some(rng: &mut Rng) -> SmallLaunch {
    let mut rows = role(rng);
    match rng.below(4) {
        0 => rows.extend([begin_while(2), ENDWHILE]),
        1 => rows.extend([begin_while(2), BARRIER, ENDWHILE]),
        // Thread 0 of a group whose role is 0 goes by, or of the others.
        2 => rows.extend([tid(0), [8, 2, 2, 0], begin_if(2), BARRIER, ENDIF]),
        _ => rows.extend([tid(0), and(2, 2, 0), begin_if(2), BARRIER, ENDIF]),
    }
    let global = rng.below(2);
    if rng.one_in(2) {
        let put = [store(0, 1), BARRIER, global_add(15, 1), global_load(3, 15)];
        rows.push(rng.pick(&put));
    }
    launch(rng, &rows, &[(2, 1), (2, 2), (2, 2), (3, 1)], global)
}

/// What is fine in one group, and in several is a race or not: few rows, for
/// all sizes.
fn fine_alone(rng: &mut Rng) -> SmallLaunch {
    let rows = match rng.below(11) {
        // Equal stores by all threads.
        0 => vec![global_store(15, 15)],
        1 => vec![set(1, 1), global_store(15, 1)],
        // By thread 0 of each group alone.
        2 => vec![tid(0), begin_if(0), ELSE, global_store(15, 0), ENDIF],
        // Loaded by all, and stored behind the barrier.
        3 => vec![global_load(3, 15), BARRIER, global_store(15, 3)],
        4 => vec![global_store(15, 15), BARRIER, global_load(3, 15)],
        // Added to by all, and loaded behind the barrier.
        5 => vec![set(1, 1), global_add(15, 1), BARRIER, global_load(3, 15)],
        // Cells of the number in the group.
        6 => vec![tid(0), global_store(0, 0)],
        7 => vec![tid(0), global_add(0, 0), BARRIER, global_load(3, 0)],
        // Only adds, or only loads, before a barrier and behind it.
        8 | 9 => vec![count(1), global_add(15, 1), BARRIER, global_add(15, 1)],
        _ => vec![
            global_load(3, 15),
            BARRIER,
            global_load(3, 15),
            store(15, 3),
        ],
    };
    let global = rng.pick(&[1, 2, 3]);
    launch(rng, &rows, &ALL_SIZES, global)
}
