//! Every run of a launch: a depth-first search through all states.

use std::collections::{BTreeMap, BTreeSet, HashMap, HashSet};
use std::rc::Rc;

use crate::machine::{BadEnd, Kernel, Move, Shape, Standing, State};

/// A run, as the list of its moves.
pub type Run = Vec<Move>;

/// How a complete run came to its end.
#[derive(Clone, Debug, PartialEq, Eq, PartialOrd, Ord)]
pub struct End {
    /// The moves made.
    pub made: Made,
    /// The cells at the end: own ones, group 0 first, and global ones.
    pub cells: Vec<u32>,
}

/// Which groups may move.
#[derive(Clone, Copy, Debug, PartialEq, Eq)]
pub enum Order {
    /// All of them, in any order.
    Any,
    /// One after the other: only the lowest that has not come to its end.
    GroupByGroup,
}

impl Order {
    /// The moves that are possible and in order.
    fn standing(self, kernel: &Kernel, state: &State) -> Standing {
        match (self, state.standing(kernel)) {
            (Self::GroupByGroup, Standing::Open(mut moves)) => {
                let turn = state.first_unended_group(kernel);
                moves.retain(|&next| Some(state.group_of(next)) == turn);
                if moves.is_empty() {
                    Standing::Stuck
                } else {
                    Standing::Open(moves)
                }
            }
            (_, standing) => standing,
        }
    }
}

/// For each release of a group by its number, the group's own cells just before
/// it in any run.
pub type Releases = Vec<BTreeSet<Vec<u32>>>;

/// What all runs of a launch have shown.
#[derive(Clone, Debug, Default)]
pub struct Findings {
    /// All states seen.
    pub reached: Vec<Rc<State>>,
    /// Whether every run has been played, so that what isn't found isn't there.
    pub complete: bool,
    /// All ways in which runs came to their end, each with a run that did so.
    pub ends: BTreeMap<End, Run>,
    /// Of each group.
    pub releases: Vec<Releases>,
    /// A run that ended badly.
    pub bad: Option<(Run, BadEnd)>,
    /// A run that is stuck.
    pub stuck: Option<Run>,
    /// A run after which a part of it can be repeated for ever.
    pub endless: Option<Run>,
    /// A run that leads to a state which another run reaches with another
    /// number of moves, of releases of any one group, or of moves of any one
    /// thread.
    pub uneven: Option<Run>,
}

impl Findings {
    /// Runs always come to an end, as document 01 defines it.
    pub fn always_ends(&self) -> bool {
        self.complete && self.bad.is_none() && self.stuck.is_none() && self.endless.is_none()
    }
}

/// Moves made on the way to a state. Each of the numbers is counted by itself,
/// so that none of them has to be worked out from the others.
#[derive(Clone, Debug, PartialEq, Eq, PartialOrd, Ord)]
pub struct Made {
    /// Of each thread, by launch number.
    pub by_thread: Vec<u32>,
    /// Releases of each group.
    pub releases: Vec<u32>,
    /// Of any kind.
    pub all: u32,
}

impl Made {
    /// None yet, by all threads and groups of a launch.
    pub fn nothing(shape: Shape) -> Self {
        Self {
            by_thread: vec![0; shape.groups * shape.threads],
            releases: vec![0; shape.groups],
            all: 0,
        }
    }

    /// The numbers of a run's moves.
    pub fn of(run: &[Move], shape: Shape) -> Self {
        let start = Self::nothing(shape);
        run.iter().fold(start, |made, &next| made.after(next))
    }

    fn after(mut self, made: Move) -> Self {
        self.add(made);
        self
    }

    /// Counts one move more.
    pub(crate) fn add(&mut self, made: Move) {
        match made {
            Move::Row(thread) => self.by_thread[thread] += 1,
            Move::Release(group) => self.releases[group] += 1,
        }
        self.all += 1;
    }
}

/// A state on the path from the start, with the moves not yet tried.
struct Frame {
    state: Rc<State>,
    made: Rc<Made>,
    untried: Vec<Move>,
}

struct Search<'k> {
    kernel: &'k Kernel,
    order: Order,
    most_states: usize,
    /// Every state seen: the moves made to it, and whether it is on the path.
    seen: HashMap<Rc<State>, (Rc<Made>, bool)>,
    /// States on the path without their counts, with the releases before them.
    on_path: HashSet<(State, Vec<u32>)>,
    path: Vec<Frame>,
    run: Run,
    findings: Findings,
}

/// Plays every run of a launch in which groups move in that order, as long as
/// no more than `most_states` states are met; otherwise the findings are not
/// complete.
pub fn explore(kernel: &Kernel, start: State, order: Order, most_states: usize) -> Findings {
    let mut search = Search {
        kernel,
        order,
        most_states,
        seen: HashMap::new(),
        on_path: HashSet::new(),
        path: vec![],
        run: vec![],
        findings: Findings::default(),
    };
    search.findings.complete = true;
    search.findings.releases = vec![vec![]; start.shape().groups];
    let nothing = Made::nothing(start.shape());
    search.arrive(start, nothing);
    while search.findings.complete && search.advance() {}
    search.findings.reached = search.seen.into_keys().collect();
    search.findings
}

impl Search<'_> {
    /// Tries the next move of the deepest state, or goes back from it. False
    /// when nothing is left to try.
    fn advance(&mut self) -> bool {
        let Some(frame) = self.path.last_mut() else {
            return false;
        };
        let Some(made) = frame.untried.pop() else {
            self.go_back();
            return true;
        };
        let mut state = State::clone(&frame.state);
        let count = Made::clone(&frame.made);
        if let Move::Release(group) = made {
            let before = state.own_cells(group).to_vec();
            self.note_release(group, count.releases[group] as usize, before);
        }
        self.run.push(made);
        match state.make(self.kernel, made) {
            Ok(()) => {
                state.level_counts();
                self.arrive(state, count.after(made));
            }
            Err(end) => {
                note(&mut self.findings.bad, || (self.run.clone(), end));
                self.run.pop();
            }
        }
        true
    }

    /// Comes to a state by the moves in `run`; goes on from it if it is new.
    fn arrive(&mut self, state: State, made: Made) {
        if let Some((before, on_path)) = self.seen.get(&state) {
            if *on_path {
                // A cycle: the moves since then can be made again and again.
                note(&mut self.findings.endless, || self.run.clone());
            } else if **before != made {
                note(&mut self.findings.uneven, || self.run.clone());
            }
            self.run.pop();
            return;
        }
        if self.seen.len() == self.most_states {
            self.findings.complete = false;
            return;
        }
        let place = (state.without_counts(), made.releases.clone());
        if self.on_path.contains(&place) {
            // Only threads have moved since, and thread moves don't look at
            // loop counts: the same moves can be made again and again.
            note(&mut self.findings.endless, || self.run.clone());
            self.run.pop();
            return;
        }
        let (state, made) = (Rc::new(state), Rc::new(made));
        match self.order.standing(self.kernel, &state) {
            Standing::Open(untried) => {
                let entry = (Rc::clone(&made), true);
                self.seen.insert(Rc::clone(&state), entry);
                self.on_path.insert(place);
                self.path.push(Frame {
                    state,
                    made,
                    untried,
                });
                return;
            }
            Standing::Ended => self.note_end(&state, Made::clone(&made)),
            Standing::Stuck => note(&mut self.findings.stuck, || self.run.clone()),
        }
        self.seen.insert(state, (made, false));
        self.run.pop();
    }

    fn go_back(&mut self) {
        let Some(frame) = self.path.pop() else {
            return;
        };
        self.run.pop();
        let place = (frame.state.without_counts(), frame.made.releases.clone());
        self.on_path.remove(&place);
        self.seen.insert(frame.state, (frame.made, false));
    }

    fn note_end(&mut self, state: &State, made: Made) {
        let cells = state.cells().to_vec();
        let end = End { made, cells };
        let run = || self.run.clone();
        self.findings.ends.entry(end).or_insert_with(run);
    }

    fn note_release(&mut self, group: usize, number: usize, cells: Vec<u32>) {
        enter_release(&mut self.findings.releases[group], number, cells);
    }
}

/// Enters the cells before the release of that number.
pub(crate) fn enter_release(releases: &mut Releases, number: usize, cells: Vec<u32>) {
    if releases.len() <= number {
        releases.resize_with(number + 1, BTreeSet::new);
    }
    releases[number].insert(cells);
}

/// Keeps the first of its kind.
pub(crate) fn note<T>(found: &mut Option<T>, first: impl FnOnce() -> T) {
    if found.is_none() {
        *found = Some(first());
    }
}

/// What a run comes to when its moves are made one by one.
#[derive(Clone, Debug, PartialEq, Eq)]
pub enum Replay {
    /// A bad end, at the last of the moves.
    Bad(BadEnd),
    /// Where the run stands after its last move.
    Stands(Standing),
    /// A move was not possible where it was made.
    Impossible,
}

/// Makes the moves of a run from the start, to confirm what was said of it.
pub fn replay(kernel: &Kernel, mut state: State, order: Order, run: &[Move]) -> Replay {
    for (place, &made) in run.iter().enumerate() {
        match order.standing(kernel, &state) {
            Standing::Open(moves) if moves.contains(&made) => {}
            _ => return Replay::Impossible,
        }
        if let Err(end) = state.make(kernel, made) {
            let last = place + 1 == run.len();
            return if last {
                Replay::Bad(end)
            } else {
                Replay::Impossible
            };
        }
    }
    Replay::Stands(order.standing(kernel, &state))
}

#[cfg(test)]
mod tests {
    use super::*;

    const BARRIER: [u8; 4] = [37, 0, 0, 0];
    const TID: [u8; 4] = [2, 0, 0, 0];

    fn all_runs(rows: &[[u8; 4]], threads: u32) -> Findings {
        let kernel = Kernel::new(&rows.concat());
        let start = State::start(1, threads, &[0], &[]);
        explore(&kernel, start, Order::Any, 10_000)
    }

    /// The moves of every run, where all runs make the same.
    fn moves(rows: &[[u8; 4]], threads: u32) -> (Vec<u32>, u32, u32) {
        let findings = all_runs(rows, threads);
        assert!(findings.always_ends() && findings.uneven.is_none());
        assert_eq!(findings.ends.len(), 1);
        let Made {
            by_thread,
            releases,
            all,
        } = findings.ends.into_keys().next().unwrap().made;
        (by_thread, releases[0], all)
    }

    #[test]
    fn moves_are_counted_for_the_thread_that_makes_them() {
        // IF for all but thread 0: two rows; a release is nobody's.
        let arm = [TID, [32, 0, 0, 0], TID, TID, [34, 0, 0, 0], BARRIER];
        assert_eq!(moves(&arm, 2), (vec![3, 5], 1, 9));
        assert_eq!(moves(&arm, 3), (vec![3, 5, 5], 1, 14));
        let otherwise = [TID, [32, 0, 0, 0], [33, 0, 0, 0], TID, TID, [34, 0, 0, 0]];
        assert_eq!(moves(&otherwise, 2), (vec![5, 4], 0, 9));
    }

    #[test]
    fn trips_are_counted_for_the_thread_that_makes_them() {
        // While R0, from the thread's number on, R0 = R0 - 1.
        let one = [1, 1, 1, 0];
        let trips = [TID, one, [35, 0, 0, 0], [5, 0, 0, 1], [36, 0, 0, 0]];
        assert_eq!(moves(&trips, 3), (vec![3, 6, 9], 0, 18));
    }

    #[test]
    fn moves_of_a_run_are_those_of_its_list() {
        let shape = State::start(2, 2, &[0, 0], &[]).shape();
        let run = [1, 0, 1, 3].map(Move::Row);
        let releases = [1, 0, 1].map(Move::Release);
        let made = Made::of(&[&run[..], &releases].concat(), shape);
        assert_eq!(made.by_thread, [1, 2, 0, 1]);
        assert_eq!((made.releases, made.all), (vec![1, 2], 7));
    }

    /// No launch that passes has such a state, so that one is made by hand.
    #[test]
    fn a_state_reached_by_other_moves_is_uneven() {
        let kernel = Kernel::new(&[TID, TID].concat());
        let start = State::start(1, 2, &[0], &[]);
        let mut search = Search {
            kernel: &kernel,
            order: Order::Any,
            most_states: 9,
            seen: HashMap::new(),
            on_path: HashSet::new(),
            path: vec![],
            run: vec![],
            findings: Findings::default(),
        };
        let by = |moves: &[Move]| Made::of(moves, start.shape());
        let [first, second] = [0, 1].map(Move::Row);
        let entry = (Rc::new(by(&[first])), false);
        search.seen.insert(Rc::new(start.clone()), entry);
        search.arrive(start.clone(), by(&[first]));
        assert!(search.findings.uneven.is_none());
        // As many moves, but another thread's.
        search.arrive(start.clone(), by(&[second]));
        assert!(search.findings.uneven.is_some());
    }
}
