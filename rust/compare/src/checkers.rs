//! The two checkers behind one face, in the independent checker's types.

use checker::{AccessKind, Outcome, Refusal, Subject, Verdict, MAX_LAUNCH_THREADS};

/// The words that a bare launch is lent for its threads' steps, by launch number.
pub type Steps = [u32; MAX_LAUNCH_THREADS];

/// The three entries of the specification.
pub trait Checker {
    /// The whole-file entry.
    fn check_file(
        &self,
        file: &[u8],
        cells: &mut [u32],
        global: &mut [u32],
        log: &mut [u32],
        records: &mut [u32],
        output: &mut [u8],
    ) -> Result<usize, Refusal>;

    /// The bare launch. Where it ran, the words of steps behind the last thread are 0. A launch that passed ended in no group: its
    /// outcome's is 0.
    #[allow(clippy::too_many_arguments)] // They are those of the specification.
    fn bare_launch(
        &self,
        table: &[u8],
        numbers: Numbers,
        cells: &mut [u32],
        global: &mut [u32],
        log: &mut [u32],
        records: &mut [u32],
        steps: &mut Steps,
    ) -> Result<Outcome, Refusal>;

    /// The report writer.
    fn write_report(
        &self,
        subject: Subject,
        steps: &[u32],
        cells: &[u32],
        global: &[u32],
        output: &mut [u8],
    ) -> Result<usize, Refusal>;
}

/// The entry for two kernels over common cells, a face of its own: who has the others need not have it.
pub trait PairChecker {
    /// Both reports one behind the other.
    fn pair_files(
        &self,
        filter: &[u8],
        trigger: &[u8],
        common: &[u8],
        output: &mut [u8],
    ) -> Result<usize, Refusal>;
}

/// The numbers of a bare launch.
#[derive(Clone, Copy, Debug)]
pub struct Numbers {
    /// Threads of each group.
    pub threads: u32,
    /// Own cells of each group, as the launch says.
    pub cells: u32,
    /// Groups.
    pub groups: u32,
    /// Global cells, as the launch says.
    pub global: u32,
    /// Rows that may be run.
    pub limit: u32,
}

/// The checker that was written without sight of the verified one.
pub struct Independent;

impl Checker for Independent {
    fn check_file(
        &self,
        file: &[u8],
        cells: &mut [u32],
        global: &mut [u32],
        log: &mut [u32],
        records: &mut [u32],
        output: &mut [u8],
    ) -> Result<usize, Refusal> {
        checker::check_file(file, cells, global, log, records, output)
    }

    /// This checker says of a launch that passed in which group it ended, the last one, which no report shows. The library has 0 there, as
    /// for every word without meaning.
    fn bare_launch(
        &self,
        table: &[u8],
        numbers: Numbers,
        cells: &mut [u32],
        global: &mut [u32],
        log: &mut [u32],
        records: &mut [u32],
        steps: &mut Steps,
    ) -> Result<Outcome, Refusal> {
        let Numbers {
            threads,
            cells: own,
            groups,
            global: shared,
            limit,
        } = numbers;
        let ran = checker::bare_launch(
            table, threads, own, groups, shared, limit, cells, global, log, records, steps,
        )?;
        Ok(match ran.verdict {
            Verdict::Passed => Outcome { group: 0, ..ran },
            _ => ran,
        })
    }

    fn write_report(
        &self,
        subject: Subject,
        steps: &[u32],
        cells: &[u32],
        global: &[u32],
        output: &mut [u8],
    ) -> Result<usize, Refusal> {
        checker::write_report(subject, steps, cells, global, output)
    }
}

impl PairChecker for Independent {
    fn pair_files(
        &self,
        filter: &[u8],
        trigger: &[u8],
        common: &[u8],
        output: &mut [u8],
    ) -> Result<usize, Refusal> {
        checker::pair_files(filter, trigger, common, output)
    }
}

/// The verified library.
pub struct Verified;

impl Checker for Verified {
    fn check_file(
        &self,
        file: &[u8],
        cells: &mut [u32],
        global: &mut [u32],
        log: &mut [u32],
        records: &mut [u32],
        output: &mut [u8],
    ) -> Result<usize, Refusal> {
        sekufoyi::check_file(file, cells, global, log, records, output).map_err(refusal)
    }

    fn bare_launch(
        &self,
        table: &[u8],
        numbers: Numbers,
        cells: &mut [u32],
        global: &mut [u32],
        log: &mut [u32],
        records: &mut [u32],
        steps: &mut Steps,
    ) -> Result<Outcome, Refusal> {
        let Numbers {
            threads,
            cells: own,
            groups,
            global: shared,
            limit,
        } = numbers;
        sekufoyi::bare_launch(
            table, threads, own, groups, shared, limit, cells, global, log, records, steps,
        )
        .map(outcome)
        .map_err(refusal)
    }

    fn write_report(
        &self,
        subject: Subject,
        steps: &[u32],
        cells: &[u32],
        global: &[u32],
        output: &mut [u8],
    ) -> Result<usize, Refusal> {
        sekufoyi::write_report(subject_for(subject), steps, cells, global, output).map_err(refusal)
    }
}

impl PairChecker for Verified {
    fn pair_files(
        &self,
        filter: &[u8],
        trigger: &[u8],
        common: &[u8],
        output: &mut [u8],
    ) -> Result<usize, Refusal> {
        sekufoyi::pair_files(filter, trigger, common, output).map_err(refusal)
    }
}

fn refusal(ours: sekufoyi::Refusal) -> Refusal {
    let sekufoyi::Refusal { number, place } = ours;
    Refusal { number, place }
}

fn kind(ours: sekufoyi::AccessKind) -> AccessKind {
    match ours {
        sekufoyi::AccessKind::Rw => AccessKind::Rw,
        sekufoyi::AccessKind::Wr => AccessKind::Wr,
        sekufoyi::AccessKind::Ww => AccessKind::Ww,
        sekufoyi::AccessKind::Ra => AccessKind::Ra,
        sekufoyi::AccessKind::Ar => AccessKind::Ar,
        sekufoyi::AccessKind::Wa => AccessKind::Wa,
        sekufoyi::AccessKind::Aw => AccessKind::Aw,
    }
}

fn kind_for(theirs: AccessKind) -> sekufoyi::AccessKind {
    match theirs {
        AccessKind::Rw => sekufoyi::AccessKind::Rw,
        AccessKind::Wr => sekufoyi::AccessKind::Wr,
        AccessKind::Ww => sekufoyi::AccessKind::Ww,
        AccessKind::Ra => sekufoyi::AccessKind::Ra,
        AccessKind::Ar => sekufoyi::AccessKind::Ar,
        AccessKind::Wa => sekufoyi::AccessKind::Wa,
        AccessKind::Aw => sekufoyi::AccessKind::Aw,
    }
}

/// Where a run ended and how: the group of a launch that passed is 0.
fn verdict(ours: sekufoyi::Verdict) -> (u32, Verdict) {
    match ours {
        sekufoyi::Verdict::Passed => (0, Verdict::Passed),
        sekufoyi::Verdict::Race {
            row,
            group,
            thread,
            other,
            kind: how,
            at,
        } => {
            let (other_group, other, kind) = (group, Some(other), kind(how));
            let race = Verdict::Race {
                row,
                other_group,
                thread,
                other,
                kind,
                at,
            };
            (group, race)
        }
        sekufoyi::Verdict::GroupRace {
            row,
            group,
            other_group,
            thread,
            kind: how,
            at,
        } => {
            let (other, kind) = (None, kind(how));
            let race = Verdict::Race {
                row,
                other_group,
                thread,
                other,
                kind,
                at,
            };
            (group, race)
        }
        sekufoyi::Verdict::Outside {
            row,
            group,
            thread,
            at,
        } => (group, Verdict::Outside { row, thread, at }),
        sekufoyi::Verdict::Common {
            row,
            group,
            thread,
            at,
        } => (group, Verdict::Common { row, thread, at }),
        sekufoyi::Verdict::Diverged {
            row,
            group,
            thread,
            other,
        } => (group, Verdict::Diverged { row, thread, other }),
        sekufoyi::Verdict::Spent { row, group } => (group, Verdict::Spent { row }),
    }
}

/// The same the other way. A race with another thread is in that thread's own group.
fn verdict_for(group: u32, theirs: Verdict) -> sekufoyi::Verdict {
    match theirs {
        Verdict::Passed => sekufoyi::Verdict::Passed,
        Verdict::Race {
            row,
            other_group,
            thread,
            other: Some(other),
            kind,
            at,
        } => {
            assert_eq!(other_group, group, "two threads of one group");
            sekufoyi::Verdict::Race {
                row,
                group,
                thread,
                other,
                kind: kind_for(kind),
                at,
            }
        }
        Verdict::Race {
            row,
            other_group,
            thread,
            other: None,
            kind,
            at,
        } => sekufoyi::Verdict::GroupRace {
            row,
            group,
            other_group,
            thread,
            kind: kind_for(kind),
            at,
        },
        Verdict::Outside { row, thread, at } => sekufoyi::Verdict::Outside {
            row,
            group,
            thread,
            at,
        },
        Verdict::Common { row, thread, at } => sekufoyi::Verdict::Common {
            row,
            group,
            thread,
            at,
        },
        Verdict::Diverged { row, thread, other } => sekufoyi::Verdict::Diverged {
            row,
            group,
            thread,
            other,
        },
        Verdict::Spent { row } => sekufoyi::Verdict::Spent { row, group },
    }
}

fn outcome(ours: sekufoyi::Outcome) -> Outcome {
    let (group, verdict) = verdict(ours.verdict);
    Outcome {
        verdict,
        group,
        rows: ours.rows,
        barriers: ours.barriers,
        conflicts: ours.conflicts,
    }
}

fn outcome_for(theirs: Outcome) -> sekufoyi::Outcome {
    sekufoyi::Outcome {
        verdict: verdict_for(theirs.group, theirs.verdict),
        rows: theirs.rows,
        barriers: theirs.barriers,
        conflicts: theirs.conflicts,
    }
}

fn subject_for(theirs: Subject) -> sekufoyi::Subject {
    match theirs {
        Subject::Ran(outcome) => sekufoyi::Subject::Ran(outcome_for(outcome)),
        Subject::Refused(Refusal { number, place }) => {
            sekufoyi::Subject::Refused(sekufoyi::Refusal { number, place })
        }
    }
}
