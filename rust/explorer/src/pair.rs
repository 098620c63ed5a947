//! Two kernels resident together: each on its own cells with its own record, both
//! over the same common cells. All moves of both may be made in any order.

use crate::machine::{BadEnd, Kernel, Move, Standing, State};
use crate::search::Made;

/// One of the two kernels.
#[derive(Clone, Copy, Debug, PartialEq, Eq, PartialOrd, Ord)]
pub enum Side {
    /// The first one.
    Filter,
    /// The second one.
    Trigger,
}

impl Side {
    /// Both of them.
    pub const BOTH: [Self; 2] = [Self::Filter, Self::Trigger];

    /// 0 for the filter, 1 for the trigger.
    pub fn index(self) -> usize {
        self as usize
    }

    /// The other one.
    pub fn other(self) -> Self {
        match self {
            Self::Filter => Self::Trigger,
            Self::Trigger => Self::Filter,
        }
    }
}

/// A move of a pair's run: one of one of its kernels.
#[derive(Clone, Copy, Debug, PartialEq, Eq)]
pub struct PairMove {
    /// Whose it is.
    pub side: Side,
    /// What that kernel does.
    pub made: Move,
}

/// A run of a pair, as the list of its moves.
pub type PairRun = Vec<PairMove>;

/// What one kernel does in a pair's run.
pub fn part(run: &[PairMove], side: Side) -> Vec<Move> {
    let own = run.iter().filter(|next| next.side == side);
    own.map(|next| next.made).collect()
}

/// A way in which a pair could be played or counted wrongly. Only tests have it
/// made, to see that the claim would not hold for such a machine.
#[derive(Clone, Copy, Debug, PartialEq, Eq)]
pub enum PairMistake {
    /// The pair stops as a whole when one kernel has come to its end.
    StopsWithOne,
    /// The pair stops as a whole when one kernel has ended badly.
    StopsWithBad,
    /// Moves of the trigger are counted for the filter.
    CountsForFilter,
    /// The trigger runs on the filter's cells.
    TriggerOnFiltersCells,
    /// The trigger moves only when the filter has come to its end.
    OneAfterTheOther,
    /// A release waits for the other kernel: it has to be at a barrier too.
    ReleaseWaitsForBoth,
    /// Accesses of the two kernels to cells of one place conflict, as those of
    /// two groups do.
    KernelsRace,
}

/// The states of both kernels; none for one that has ended badly, which makes no
/// more moves.
pub type Sides<T> = [Option<T>; 2];

/// The two kernels of a pair, each with its start.
#[derive(Clone, Debug)]
pub struct Pair {
    kernels: [Kernel; 2],
    starts: [State; 2],
    mistake: Option<PairMistake>,
}

/// Where a run of a pair stands.
#[derive(Clone, Debug, PartialEq, Eq)]
pub enum PairStanding {
    /// These moves are possible.
    Open(Vec<PairMove>),
    /// Both kernels have come to their ends.
    Ended,
    /// No move is possible, and a kernel has ended badly.
    EndedBadly,
    /// No move is possible, nobody has ended badly, and a thread is left at a
    /// barrier.
    Stuck,
}

/// What a move leaves.
pub struct Effect {
    /// Of the kernel that makes it.
    pub mover: Result<State, BadEnd>,
    /// The other kernel's state where it has changed, which no move does but by
    /// a mistake.
    pub other: Option<State>,
}

impl Pair {
    /// Two kernels and their starts, which have the same common cells.
    pub fn new(kernels: [Kernel; 2], starts: [State; 2]) -> Self {
        Self {
            kernels,
            starts,
            mistake: None,
        }
    }

    /// The same pair, played or counted with a mistake.
    pub fn mistaken(mut self, mistake: PairMistake) -> Self {
        self.mistake = Some(mistake);
        if mistake == PairMistake::TriggerOnFiltersCells {
            let [filter, trigger] = &mut self.starts;
            trigger.take_cells(filter);
        }
        self
    }

    fn makes(&self, mistake: PairMistake) -> bool {
        self.mistake == Some(mistake)
    }

    /// One of the kernels.
    pub fn kernel(&self, side: Side) -> &Kernel {
        &self.kernels[side.index()]
    }

    /// The start of one of the kernels.
    pub fn start(&self, side: Side) -> &State {
        &self.starts[side.index()]
    }

    /// Whether a kernel has come to its end.
    pub fn has_ended(&self, side: Side, state: &State) -> bool {
        state.first_unended_group(self.kernel(side)).is_none()
    }

    /// Which moves are possible here: those of either kernel.
    pub fn standing(&self, sides: Sides<&State>) -> PairStanding {
        let alone = Side::BOTH.map(|side| {
            let state = sides[side.index()]?;
            Some(state.standing(self.kernel(side)))
        });
        let bad = alone.contains(&None);
        let ended = alone.iter().all(|one| *one == Some(Standing::Ended));
        if self.stops_early(&alone) {
            return if bad {
                PairStanding::EndedBadly
            } else {
                PairStanding::Ended
            };
        }
        let mut moves = vec![];
        for (side, standing) in Side::BOTH.into_iter().zip(alone) {
            if let Some(Standing::Open(own)) = standing {
                moves.extend(own.into_iter().map(|made| PairMove { side, made }));
            }
        }
        self.hold_back(sides, &mut moves);
        match (moves.is_empty(), bad, ended) {
            (false, _, _) => PairStanding::Open(moves),
            (true, true, _) => PairStanding::EndedBadly,
            (true, false, true) => PairStanding::Ended,
            (true, false, false) => PairStanding::Stuck,
        }
    }

    /// Only by a mistake does the whole pair stop before no move is possible.
    fn stops_early(&self, alone: &Sides<Standing>) -> bool {
        match self.mistake {
            Some(PairMistake::StopsWithOne) => alone.contains(&Some(Standing::Ended)),
            Some(PairMistake::StopsWithBad) => alone.contains(&None),
            _ => false,
        }
    }

    /// Only by a mistake does one kernel's move wait for the other kernel.
    fn hold_back(&self, sides: Sides<&State>, moves: &mut Vec<PairMove>) {
        if self.makes(PairMistake::OneAfterTheOther) {
            let filter_ended = sides[0].is_none_or(|state| self.has_ended(Side::Filter, state));
            moves.retain(|next| next.side == Side::Filter || filter_ended);
        }
        if self.makes(PairMistake::ReleaseWaitsForBoth) {
            let waits = Side::BOTH.map(|side| {
                moves
                    .iter()
                    .any(|next| next.side == side && is_release(next))
            });
            moves.retain(|next| !is_release(next) || waits[next.side.other().index()]);
        }
    }

    /// What a possible move leaves, made on the states of both kernels; none
    /// where the kernel has ended badly.
    pub fn effect(&self, sides: Sides<&State>, next: PairMove) -> Option<Effect> {
        let mut mover = sides[next.side.index()]?.clone();
        let mut result = mover.make(self.kernel(next.side), next.made);
        let mut other = None;
        if let Some(before) = sides[next.side.other().index()] {
            if before.common() != mover.common() {
                // They are the same cells for both, whoever has changed them.
                other = Some(before.clone().with_common(mover.common()));
            }
            if self.makes(PairMistake::TriggerOnFiltersCells) {
                other
                    .get_or_insert_with(|| before.clone())
                    .take_cells(&mover);
            }
            if self.makes(PairMistake::KernelsRace) && mover.meets(before) {
                result = Err(BadEnd::Race);
            }
        }
        Some(Effect {
            mover: result.map(|()| mover),
            other,
        })
    }
}

fn is_release(next: &PairMove) -> bool {
    matches!(next.made, Move::Release(_))
}

/// Moves made on the way to a state of a pair.
#[derive(Clone, Debug, PartialEq, Eq, PartialOrd, Ord)]
pub struct PairMade {
    /// Of each kernel, by its threads and groups.
    pub sides: [Made; 2],
    /// Of both kernels and of any kind, counted apart.
    pub all: u32,
}

impl PairMade {
    /// None yet.
    pub fn nothing(pair: &Pair) -> Self {
        Self {
            sides: Side::BOTH.map(|side| Made::nothing(pair.start(side).shape())),
            all: 0,
        }
    }

    /// One move more.
    pub fn after(mut self, pair: &Pair, next: PairMove) -> Self {
        let (mut side, mut made) = (next.side, next.made);
        if pair.makes(PairMistake::CountsForFilter) {
            side = Side::Filter;
            let shape = pair.start(side).shape();
            made = match made {
                Move::Row(thread) => Move::Row(thread % (shape.groups * shape.threads)),
                Move::Release(group) => Move::Release(group % shape.groups),
            };
        }
        self.sides[side.index()].add(made);
        self.all += 1;
        self
    }
}

/// What a run of a pair comes to when its moves are made one by one.
#[derive(Clone, Debug, PartialEq, Eq)]
pub enum PairReplay {
    /// The bad ends that the kernels have met, and where the run stands after
    /// its last move.
    Stands(Sides<BadEnd>, PairStanding),
    /// A move was not possible where it was made.
    Impossible,
}

/// Makes the moves of a run from the start, to confirm what was said of it.
pub fn replay_pair(pair: &Pair, run: &[PairMove]) -> PairReplay {
    let mut states = Side::BOTH.map(|side| Some(pair.start(side).clone()));
    let mut ends = [None; 2];
    for &next in run {
        let sides = states.each_ref().map(Option::as_ref);
        let possible = match pair.standing(sides) {
            PairStanding::Open(moves) => moves.contains(&next),
            _ => false,
        };
        let effect = if possible {
            pair.effect(sides, next)
        } else {
            None
        };
        let Some(effect) = effect else {
            return PairReplay::Impossible;
        };
        ends[next.side.index()] = effect.mover.as_ref().err().copied();
        states[next.side.index()] = effect.mover.ok();
        if effect.other.is_some() {
            states[next.side.other().index()] = effect.other;
        }
    }
    let sides = states.each_ref().map(Option::as_ref);
    PairReplay::Stands(ends, pair.standing(sides))
}
