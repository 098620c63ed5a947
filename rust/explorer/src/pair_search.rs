//! Every run of a pair: a depth-first search through all states of both kernels
//! together. Every move of either kernel is tried in every one of them; only
//! equal states of one kernel are kept once.

use std::collections::{BTreeMap, BTreeSet, HashMap};
use std::rc::Rc;

use crate::machine::{BadEnd, Kernel, Move, Standing, State};
use crate::pair::{Pair, PairMade, PairMove, PairRun, PairStanding, Side, Sides};
use crate::search::{enter_release, note, End, Releases};

/// How a complete run of a pair came to its end.
#[derive(Clone, Debug, PartialEq, Eq, PartialOrd, Ord)]
pub struct PairEnd {
    /// The moves made.
    pub made: PairMade,
    /// The cells of each kernel at the end: own ones, group 0 first, and global
    /// ones.
    pub cells: [Vec<u32>; 2],
    /// The common cells at the end, as each kernel has them.
    pub common: [Vec<u32>; 2],
}

/// What all runs of a pair have shown of one of its kernels, however the other
/// fared.
#[derive(Clone, Debug, Default)]
pub struct SideFindings {
    /// All states of this kernel in states of the pair.
    pub reached: Vec<Rc<State>>,
    /// Runs in which this kernel ended badly, one for each way, up to that move.
    pub bad: BTreeMap<BadEnd, PairRun>,
    /// All ways in which it came to its end.
    pub ends: BTreeSet<End>,
    /// Of each group.
    pub releases: Vec<Releases>,
    /// A run that leaves this kernel stuck, whatever the other may do; or one
    /// that no move carries on, in which this kernel has neither ended badly nor
    /// come to its end.
    pub stuck: Option<PairRun>,
    /// A run after which a part of it can be repeated for ever in which this
    /// kernel moves.
    pub endless: Option<PairRun>,
}

/// What all runs of a pair have shown.
#[derive(Clone, Debug, Default)]
pub struct PairFindings {
    /// States of the pair seen.
    pub states: usize,
    /// Whether every run has been played, so that what isn't found isn't there.
    pub complete: bool,
    /// All ways in which runs came to their end, each with a run that did so.
    pub ends: BTreeMap<PairEnd, PairRun>,
    /// Of the filter and of the trigger.
    pub sides: [SideFindings; 2],
    /// A run that is stuck.
    pub stuck: Option<PairRun>,
    /// A run after which a part of it can be repeated for ever.
    pub endless: Option<PairRun>,
    /// A run that leads to a state which another run reaches with other numbers
    /// of moves.
    pub uneven: Option<PairRun>,
}

impl PairFindings {
    /// Runs always come to an end: none ends badly, is stuck or is endless.
    pub fn always_ends(&self) -> bool {
        let bad = self.sides.iter().any(|side| !side.bad.is_empty());
        self.complete && !bad && self.stuck.is_none() && self.endless.is_none()
    }
}

/// The states of one kernel, each once, by numbers.
#[derive(Default)]
struct States {
    all: Vec<Rc<State>>,
    numbers: HashMap<Rc<State>, usize>,
    /// For each state, whether this kernel has come to its end there, and whether
    /// it is stuck.
    ended: Vec<bool>,
    stuck: Vec<bool>,
    /// For each state, the number of the first that differs from it in nothing
    /// but loop counts.
    bare: Vec<usize>,
    bare_numbers: HashMap<State, usize>,
}

impl States {
    fn number(&mut self, kernel: &Kernel, mut state: State) -> usize {
        state.level_counts();
        if let Some(&number) = self.numbers.get(&state) {
            return number;
        }
        let number = self.all.len();
        let bare = self.bare_numbers.entry(state.without_counts());
        self.bare.push(*bare.or_insert(number));
        let standing = state.standing(kernel);
        self.ended.push(standing == Standing::Ended);
        self.stuck.push(standing == Standing::Stuck);
        let state = Rc::new(state);
        self.all.push(Rc::clone(&state));
        self.numbers.insert(state, number);
        number
    }
}

/// A state of the pair, by the numbers of both kernels' states.
type Place = Sides<usize>;

/// A state on the path from the start, with the moves not yet tried.
struct Frame {
    place: Place,
    made: Rc<PairMade>,
    untried: Vec<PairMove>,
}

struct Search<'p> {
    pair: &'p Pair,
    most_states: usize,
    states: [States; 2],
    /// Every state of the pair seen: the moves made to it, and where on the path
    /// it is.
    seen: HashMap<Place, (Rc<PairMade>, Option<usize>)>,
    /// States on the path without loop counts, with the releases before them.
    on_path: HashMap<(Place, [Vec<u32>; 2]), usize>,
    path: Vec<Frame>,
    run: PairRun,
    findings: PairFindings,
}

/// Plays every run of a pair, as long as no more than `most_states` states are
/// met; otherwise the findings are not complete.
pub fn explore_pair(pair: &Pair, most_states: usize) -> PairFindings {
    let mut search = Search {
        pair,
        most_states,
        states: Default::default(),
        seen: HashMap::new(),
        on_path: HashMap::new(),
        path: vec![],
        run: vec![],
        findings: PairFindings::default(),
    };
    search.findings.complete = true;
    let mut start = [None; 2];
    for side in Side::BOTH {
        let state = pair.start(side);
        search.findings.sides[side.index()].releases = vec![vec![]; state.shape().groups];
        start[side.index()] = Some(search.number(side, state.clone()));
    }
    search.arrive(start, PairMade::nothing(pair));
    while search.findings.complete && search.advance() {}
    search.findings.states = search.seen.len();
    for (findings, states) in search.findings.sides.iter_mut().zip(search.states) {
        findings.reached = states.all;
    }
    search.findings
}

impl Search<'_> {
    fn number(&mut self, side: Side, state: State) -> usize {
        self.states[side.index()].number(self.pair.kernel(side), state)
    }

    fn states_at(&self, place: Place) -> Sides<&State> {
        Side::BOTH.map(|side| {
            let number = place[side.index()]?;
            Some(&*self.states[side.index()].all[number])
        })
    }

    /// Tries the next move of the deepest state, or goes back from it. False
    /// when nothing is left to try.
    fn advance(&mut self) -> bool {
        let Some(frame) = self.path.last_mut() else {
            return false;
        };
        let Some(next) = frame.untried.pop() else {
            self.go_back();
            return true;
        };
        let (mut place, made) = (frame.place, Rc::clone(&frame.made));
        self.note_release(place, &made, next);
        let Some(effect) = self.pair.effect(self.states_at(place), next) else {
            return true;
        };
        self.run.push(next);
        let (mover, other) = (next.side, next.side.other());
        place[mover.index()] = match effect.mover {
            Ok(state) => Some(self.number(mover, state)),
            Err(end) => {
                let bad = &mut self.findings.sides[mover.index()].bad;
                bad.entry(end).or_insert_with(|| self.run.clone());
                None
            }
        };
        if let Some(state) = effect.other {
            place[other.index()] = Some(self.number(other, state));
        }
        let made = PairMade::clone(&made).after(self.pair, next);
        self.arrive(place, made);
        true
    }

    /// Comes to a state by the moves in `run`; goes on from it if it is new.
    fn arrive(&mut self, place: Place, made: PairMade) {
        if let Some((before, on_path)) = self.seen.get(&place) {
            if let Some(depth) = *on_path {
                // A cycle: the moves since then can be made again and again.
                self.note_endless(depth);
            } else if **before != made {
                note(&mut self.findings.uneven, || self.run.clone());
            }
            self.run.pop();
            return;
        }
        if self.seen.len() == self.most_states {
            self.findings.complete = false;
            return;
        }
        let bare = self.without_counts(place, &made);
        if let Some(&depth) = self.on_path.get(&bare) {
            // Only threads have moved since, and thread moves don't look at
            // loop counts: the same moves can be made again and again.
            self.note_endless(depth);
            self.run.pop();
            return;
        }
        self.note_sides(place, &made);
        let made = Rc::new(made);
        match self.pair.standing(self.states_at(place)) {
            PairStanding::Open(untried) => {
                let depth = self.path.len();
                self.seen.insert(place, (Rc::clone(&made), Some(depth)));
                self.on_path.insert(bare, depth);
                self.path.push(Frame {
                    place,
                    made,
                    untried,
                });
                return;
            }
            PairStanding::Ended => self.note_end(place, PairMade::clone(&made)),
            PairStanding::EndedBadly => self.note_stuck_sides(place),
            PairStanding::Stuck => {
                note(&mut self.findings.stuck, || self.run.clone());
                self.note_stuck_sides(place);
            }
        }
        self.seen.insert(place, (made, None));
        self.run.pop();
    }

    fn without_counts(&self, place: Place, made: &PairMade) -> (Place, [Vec<u32>; 2]) {
        let bare = Side::BOTH.map(|side| {
            let number = place[side.index()]?;
            Some(self.states[side.index()].bare[number])
        });
        (
            bare,
            made.sides.each_ref().map(|made| made.releases.clone()),
        )
    }

    fn go_back(&mut self) {
        let Some(frame) = self.path.pop() else {
            return;
        };
        self.run.pop();
        let bare = self.without_counts(frame.place, &frame.made);
        self.on_path.remove(&bare);
        self.seen.insert(frame.place, (frame.made, None));
    }

    /// The moves of the run from that depth on can be repeated.
    fn note_endless(&mut self, depth: usize) {
        let run = &self.run;
        note(&mut self.findings.endless, || run.clone());
        for side in Side::BOTH {
            if run[depth..].iter().any(|next| next.side == side) {
                let endless = &mut self.findings.sides[side.index()].endless;
                note(endless, || run.clone());
            }
        }
    }

    /// No move is possible: a kernel that has not ended is left where it is.
    fn note_stuck_sides(&mut self, place: Place) {
        for (side, number) in place.into_iter().enumerate() {
            if number.is_some_and(|number| !self.states[side].ended[number]) {
                note(&mut self.findings.sides[side].stuck, || self.run.clone());
            }
        }
    }

    /// A kernel may have come to its end, or be stuck, while the other moves on.
    fn note_sides(&mut self, place: Place, made: &PairMade) {
        for (side, number) in place.into_iter().enumerate() {
            let Some(number) = number else { continue };
            let (states, findings) = (&self.states[side], &mut self.findings.sides[side]);
            if states.stuck[number] {
                note(&mut findings.stuck, || self.run.clone());
            }
            if states.ended[number] {
                findings.ends.insert(End {
                    made: made.sides[side].clone(),
                    cells: states.all[number].cells().to_vec(),
                });
            }
        }
    }

    fn note_end(&mut self, place: Place, made: PairMade) {
        let words = |of: fn(&State) -> &[u32]| {
            self.states_at(place)
                .map(|state| state.map(of).unwrap_or_default().to_vec())
        };
        let end = PairEnd {
            made,
            cells: words(State::cells),
            common: words(State::common),
        };
        let run = || self.run.clone();
        self.findings.ends.entry(end).or_insert_with(run);
    }

    fn note_release(&mut self, place: Place, made: &PairMade, next: PairMove) {
        let (Move::Release(group), Some(number)) = (next.made, place[next.side.index()]) else {
            return;
        };
        let state = &self.states[next.side.index()].all[number];
        let before = state.own_cells(group).to_vec();
        let count = made.sides[next.side.index()].releases[group] as usize;
        let releases = &mut self.findings.sides[next.side.index()].releases[group];
        enter_release(releases, count, before);
    }
}

#[cfg(test)]
mod tests {
    use super::*;

    const TID: [u8; 4] = [2, 0, 0, 0];
    const ONE: [u8; 4] = [1, 1, 1, 0];
    const BARRIER: [u8; 4] = [37, 0, 0, 0];
    const WHILE: [u8; 4] = [35, 0, 1, 0];
    const ENDWHILE: [u8; 4] = [36, 0, 0, 0];

    /// Two kernels, of so many threads each, with one own cell that holds 7.
    fn pair(filter: (u32, &[[u8; 4]]), trigger: (u32, &[[u8; 4]])) -> Pair {
        let both = [filter, trigger];
        let kernels = both.map(|(_, rows)| Kernel::new(&rows.concat()));
        let starts = both.map(|(threads, _)| State::start(1, threads, &[7], &[]));
        Pair::new(kernels, starts)
    }

    #[test]
    fn all_states_of_one_meet_all_of_the_other() {
        let states = |filter, trigger| explore_pair(&pair(filter, trigger), 999).states;
        assert_eq!(states((1, &[]), (1, &[])), 1);
        assert_eq!(states((1, &[TID, TID]), (1, &[])), 3);
        assert_eq!(states((1, &[TID, TID]), (1, &[TID])), 6);
        // Two threads of 2 rows have 9 states; of 1 row and a barrier 5.
        assert_eq!(states((2, &[TID, TID]), (2, &[TID, BARRIER])), 45);
        // A bad end is a state too.
        let outside = [TID, [20, 3, 15, 0]];
        assert_eq!(states((1, &outside), (1, &[TID])), 6);
        assert_eq!(states((1, &outside), (1, &outside)), 9);
    }

    #[test]
    fn endless_is_the_kernel_that_moves_in_the_repeated_part() {
        let of = |filter, trigger| {
            let found = explore_pair(&pair(filter, trigger), 9_999);
            assert!(found.complete);
            let sides = found.sides.each_ref().map(|side| side.endless.is_some());
            assert_eq!(found.endless.is_some(), sides != [false; 2]);
            sides
        };
        let by_itself = [ONE, WHILE, ENDWHILE];
        let at_barriers = [ONE, WHILE, BARRIER, ENDWHILE];
        let ends = [ONE, BARRIER, TID];
        for forever in [&by_itself[..], &at_barriers] {
            assert_eq!(of((2, forever), (2, &ends)), [true, false]);
            assert_eq!(of((2, &ends), (2, forever)), [false, true]);
        }
        assert_eq!(of((1, &by_itself), (1, &by_itself)), [true, true]);
        assert_eq!(of((2, &ends), (2, &ends)), [false, false]);
    }

    #[test]
    fn a_kernel_is_stuck_whatever_the_other_does() {
        // Thread 1 waits, thread 0 doesn't.
        let lost = [TID, [32, 0, 0, 0], BARRIER, [34, 0, 0, 0]];
        for (trigger, stuck) in [
            (&[TID][..], true),
            (&[[20, 3, 15, 0]], false), // ends badly in the end
            (&[ONE, WHILE, ENDWHILE], false),
        ] {
            let found = explore_pair(&pair((2, &lost), (1, trigger)), 999);
            assert_eq!(found.stuck.is_some(), stuck);
            let sides = found.sides.map(|side| side.stuck.is_some());
            assert_eq!(sides, [true, false]);
        }
    }

    /// No pair that passes has such a state, so that one is made by hand.
    #[test]
    fn a_state_reached_by_other_moves_is_uneven() {
        let pair = pair((1, &[TID]), (1, &[TID]));
        let by = |side| {
            let made = Move::Row(0);
            PairMade::nothing(&pair).after(&pair, PairMove { side, made })
        };
        let mut search = Search {
            pair: &pair,
            most_states: 9,
            states: Default::default(),
            seen: HashMap::new(),
            on_path: HashMap::new(),
            path: vec![],
            run: vec![],
            findings: PairFindings::default(),
        };
        let place = [Some(0), Some(0)];
        let before = Rc::new(by(Side::Filter));
        search.seen.insert(place, (before, None));
        search.arrive(place, by(Side::Filter));
        assert!(search.findings.uneven.is_none());
        // As many moves, but the other kernel's.
        search.arrive(place, by(Side::Trigger));
        assert!(search.findings.uneven.is_some());
    }
}
