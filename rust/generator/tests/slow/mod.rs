//! A slow lock-step run: thread by thread, the costs cell by cell, the records
//! as item 5 tells them, of each cell all values stored, as item 6 does, and of
//! each global cell all accesses of all groups, as item 7 does; over the common
//! cells of item 12, if there are any. It can also make one of the mistakes that
//! are likely.
#![allow(dead_code)]

mod cells;
mod rule;

use std::collections::BTreeSet;

use checker::{op, Outcome, Verdict, INTERVAL_RECORDS};

use cells::{Cells, Uses};
pub use rule::Rule;

/// A launch that isn't refused.
#[derive(Clone, Copy)]
pub struct Launch<'a> {
    pub rows: &'a [[u8; 4]],
    pub threads: usize,
    pub groups: usize,
    pub limit: u32,
    pub cells: &'a [u32],
    pub global: &'a [u32],
    pub common: &'a [u32],
}

impl<'a> Launch<'a> {
    /// Of a file, over these common cells.
    pub fn of_file(launch: &'a checker::Launch, common: &'a [u32]) -> Self {
        Self {
            rows: launch.table.as_chunks().0,
            threads: launch.threads as usize,
            groups: launch.groups as usize,
            limit: launch.limit,
            cells: &launch.cells,
            global: &launch.global,
            common,
        }
    }
}

impl<'a> From<&'a generator::Plan> for Launch<'a> {
    fn from(plan: &'a generator::Plan) -> Self {
        Self {
            rows: &plan.rows,
            threads: plan.threads as usize,
            groups: plan.groups as usize,
            limit: plan.limit,
            cells: &plan.cells,
            global: &plan.global,
            common: &[],
        }
    }
}

/// The number of the first common cell.
pub const COMMON: usize = 65_536;

/// An access row that was run, or the one that stopped the run.
pub struct Access {
    pub row: usize,
    pub group: usize,
    /// To global cells.
    pub global: bool,
    /// Each thread that acted, with its cell or common cell.
    pub used: Vec<(usize, usize)>,
    /// What each of them stored, loaded or added.
    pub words: Vec<u32>,
    /// All that were enabled have acted.
    pub finished: bool,
    /// Intervals before this one.
    pub interval: usize,
}

impl Access {
    /// The different cells.
    pub fn cells(&self) -> BTreeSet<usize> {
        self.used.iter().map(|&(_, cell)| cell).collect()
    }

    /// The different cells that are no common ones.
    pub fn own_cells(&self) -> BTreeSet<usize> {
        let own = self.used.iter().map(|&(_, cell)| cell);
        own.filter(|&cell| cell < COMMON).collect()
    }

    /// Whether a common cell was loaded.
    pub fn is_common(&self) -> bool {
        !self.global && self.used.iter().any(|&(_, cell)| cell >= COMMON)
    }
}

/// Where and how the run ended, as the report has it; none for a hyphen.
#[derive(Clone, Debug, Default, PartialEq)]
pub struct Stop {
    pub row: Option<usize>,
    pub group: Option<usize>,
    pub other_group: Option<usize>,
    pub thread: Option<usize>,
    pub other: Option<usize>,
    pub kind: Option<String>,
    pub at: Option<u32>,
}

/// The verdict's name, and where and how the run ended.
pub fn ended(outcome: &Outcome) -> (&'static str, Stop) {
    let numbered = |number: u32| Some(number as usize);
    let at_row = |row: u32| Stop {
        row: numbered(row),
        group: numbered(outcome.group),
        ..Stop::default()
    };
    match outcome.verdict {
        Verdict::Passed => ("passed", Stop::default()),
        Verdict::Race {
            row,
            other_group,
            thread,
            other,
            kind,
            at,
        } => {
            let stop = Stop {
                other_group: numbered(other_group),
                thread: numbered(thread),
                other: other.map(|other| other as usize),
                kind: Some(format!("{kind:?}").to_lowercase()),
                at: Some(at),
                ..at_row(row)
            };
            ("race", stop)
        }
        Verdict::Outside { row, thread, at } => {
            let stop = Stop {
                thread: numbered(thread),
                at: Some(at),
                ..at_row(row)
            };
            ("outside", stop)
        }
        Verdict::Common { row, thread, at } => {
            let stop = Stop {
                thread: numbered(thread),
                at: Some(at),
                ..at_row(row)
            };
            ("common", stop)
        }
        Verdict::Diverged { row, thread, other } => {
            let stop = Stop {
                thread: numbered(thread),
                other: numbered(other),
                ..at_row(row)
            };
            ("diverged", stop)
        }
        Verdict::Spent { row } => ("spent", at_row(row)),
    }
}

/// What a launch came to.
#[derive(Debug, PartialEq)]
pub struct Told {
    pub verdict: &'static str,
    pub stop: Stop,
    pub rows: u32,
    pub barriers: u32,
    /// By launch number.
    pub steps: Vec<u32>,
    pub records: Vec<[u32; 3]>,
    pub cells: Vec<u32>,
    pub global: Vec<u32>,
    pub log: Vec<u32>,
}

impl Told {
    /// The report, line by line.
    pub fn report(&self) -> String {
        let shown = |number: Option<u32>| number.map_or("-".to_string(), |n| n.to_string());
        let place = |number: Option<usize>| shown(number.map(|n| n as u32));
        let stop = &self.stop;
        let conflicts: u32 = self.records.iter().map(|record| record[2]).sum();
        let mut lines = vec![
            format!("verdict={}", self.verdict),
            format!("row={}", place(stop.row)),
            format!("group={}", place(stop.group)),
            format!("othergroup={}", place(stop.other_group)),
            format!("thread={}", place(stop.thread)),
            format!("other={}", place(stop.other)),
            format!("kind={}", stop.kind.as_deref().unwrap_or("-")),
            format!("at={}", shown(stop.at)),
            format!("rows={}", self.rows),
        ];
        lines.extend(self.steps.iter().map(|steps| format!("steps={steps}")));
        lines.push(format!("barriers={}", self.barriers));
        lines.push(format!("conflicts={conflicts}"));
        lines.extend(self.cells.iter().map(|cell| format!("cell={cell}")));
        lines.extend(self.global.iter().map(|cell| format!("gcell={cell}")));
        lines.push("end=report\n".to_string());
        lines.join("\n")
    }
}

/// The largest number of different cells in one bank, less one.
pub fn cost(used: &BTreeSet<usize>) -> u32 {
    let in_bank = |bank| used.iter().filter(|&cell| cell % 16 == bank).count() as u32;
    let most = (0..16).map(in_bank).max().unwrap_or(0);
    most.max(1) - 1
}

/// A run of a launch that isn't refused. `see` is shown each access row.
pub fn slow_run<'a>(launch: impl Into<Launch<'a>>, see: impl FnMut(Access)) -> Told {
    run_by(Rule::Right, launch, see)
}

/// As [`slow_run`], with a mistake.
pub fn run_by<'a>(rule: Rule, launch: impl Into<Launch<'a>>, mut see: impl FnMut(Access)) -> Told {
    let launch = launch.into();
    let mut machine = Machine::new(rule, launch);
    let mut verdict = "passed";
    for group in 0..launch.groups {
        machine.start(group);
        verdict = machine.run_group(&mut see);
        let follows = group + 1 < launch.groups;
        if rule == Rule::SpentAtEnd && follows && machine.rows == launch.limit {
            verdict = "spent";
        }
        if verdict != "passed" {
            machine.stop.group = Some(group);
            break;
        }
    }
    machine.told(verdict)
}

/// The constructs around a row.
#[derive(Default)]
struct Flow {
    /// Saved masks, those of an IF with what it enabled, of a WHILE with its row.
    open: Vec<(BTreeSet<usize>, BTreeSet<usize>, usize)>,
    /// The row before was an ENDWHILE.
    from_end: bool,
}

/// A row that was finished.
struct Done {
    /// The row due then.
    next: usize,
    /// Its cost.
    paid: u32,
    /// It was a counted barrier.
    released: bool,
}

struct Machine<'a> {
    rule: Rule,
    launch: Launch<'a>,
    group: usize,
    registers: Vec<[u32; 16]>,
    enabled: BTreeSet<usize>,
    own: Vec<Cells>,
    global: Cells,
    uses: Uses,
    stop: Stop,
    rows: u32,
    /// Rows before this group.
    rows_before: u32,
    barriers: u32,
    /// Barriers of this group.
    own_barriers: usize,
    steps: Vec<u32>,
    records: Vec<[u32; 3]>,
    /// The access row before: who used which cell, and its cost.
    before: (Vec<(usize, usize)>, u32),
}

impl<'a> Machine<'a> {
    fn new(rule: Rule, launch: Launch<'a>) -> Self {
        let each = launch.cells.len() / launch.groups;
        let first = if rule == Rule::StartOpensTwo { 2 } else { 1 };
        Self {
            rule,
            launch,
            group: 0,
            registers: vec![[0; 16]; launch.threads],
            enabled: BTreeSet::new(),
            own: launch.cells.chunks(each).map(Cells::new).collect(),
            global: Cells::new(launch.global),
            uses: Uses::new(launch.global.len()),
            stop: Stop::default(),
            rows: 0,
            rows_before: 0,
            barriers: 0,
            own_barriers: 0,
            steps: vec![0; launch.groups * launch.threads],
            records: vec![[0, 0, 0]; first],
            before: (vec![], 0),
        }
    }

    fn start(&mut self, group: usize) {
        self.group = group;
        self.enabled = (0..self.launch.threads).collect();
        self.rows_before = self.rows;
        self.own_barriers = 0;
        if group == 0 {
            return;
        }
        if self.rule != Rule::RegistersStay {
            self.registers.fill([0; 16]);
        }
        if self.rule != Rule::StartKeepsGlobal {
            self.global.forget();
        }
        match self.rule {
            Rule::StartClearsGroups => self.uses.forget(),
            Rule::StartClearsOwn => self.own.iter_mut().for_each(Cells::forget),
            Rule::CellsHandedOn => self.own[group].words = self.own[group - 1].words.clone(),
            _ => {}
        }
        let past_cap = self.rule == Rule::StartPastCap;
        if self.rule != Rule::StartOpensNone && (past_cap || self.has_room()) {
            self.records.push([0, 0, 0]);
        }
    }

    fn has_room(&self) -> bool {
        self.records.len() < INTERVAL_RECORDS
    }

    fn release(&mut self, next: usize) {
        self.barriers += 1;
        self.own_barriers += 1;
        self.own_cells().forget();
        match self.rule {
            Rule::BarrierClearsGroups => self.uses.forget(),
            Rule::BarrierClearsOthers => self.own.iter_mut().for_each(Cells::forget),
            _ => {}
        }
        if self.rule != Rule::BarrierKeepsGlobal {
            self.global.forget();
        }
        if self.has_room() {
            self.records.push([next as u32, 0, 0]);
        }
    }

    fn own_cells(&mut self) -> &mut Cells {
        let group = match self.rule {
            Rule::OneGroupsCells => 0,
            _ => self.group,
        };
        &mut self.own[group]
    }

    fn spent(&self) -> bool {
        match self.rule {
            Rule::LimitAnew => self.rows - self.rows_before == self.launch.limit,
            _ => self.rows == self.launch.limit,
        }
    }

    fn step(&mut self, threads: impl IntoIterator<Item = usize>) {
        for thread in threads {
            let at = match self.rule {
                Rule::StepsInGroup => thread,
                _ => self.launch_number(thread),
            };
            self.steps[at] += 1;
        }
    }

    fn launch_number(&self, thread: usize) -> usize {
        self.group * self.launch.threads + thread
    }

    fn truth(&self, a: u8) -> BTreeSet<usize> {
        let is_true = |&t: &usize| self.registers[t][a as usize] != 0;
        self.enabled.iter().copied().filter(is_true).collect()
    }

    /// Runs a group to its end and gives the verdict.
    fn run_group(&mut self, see: &mut impl FnMut(Access)) -> &'static str {
        let mut flow = Flow::default();
        let mut row = 0;
        loop {
            if row == self.launch.rows.len() {
                return "passed";
            }
            if self.spent() {
                self.stop.row = Some(row);
                return "spent";
            }
            let done = match self.do_row(row, &mut flow, see) {
                Ok(done) => done,
                Err(verdict) => return verdict,
            };
            self.rows += 1;
            row = done.next;
            let last = self.records.last_mut().unwrap();
            last[1] += 1;
            last[2] += done.paid;
            if done.released {
                self.release(row);
            }
        }
    }

    /// One row, or the verdict where it stops the run.
    fn do_row(
        &mut self,
        row: usize,
        flow: &mut Flow,
        see: &mut impl FnMut(Access),
    ) -> Result<Done, &'static str> {
        let mut done = Done {
            next: row + 1,
            paid: 0,
            released: false,
        };
        let present = self.enabled.len();
        match self.launch.rows[row] {
            access @ [op::LOAD..=op::ATOMIC_ADD | op::GLOBAL_LOAD..=op::GLOBAL_ADD, ..] => {
                let (seen, stop) = self.access(row, access);
                if !seen.global || self.rule == Rule::GlobalBanked {
                    done.paid = self.paid(&seen);
                }
                let all_step = self.rule != Rule::CommonUnstepped;
                let stepping = seen.used.iter();
                let stepping = stepping.filter(|&&(_, cell)| all_step || cell < COMMON);
                self.step(stepping.map(|&(thread, _)| thread));
                see(seen);
                if let Some(verdict) = stop {
                    self.stop_wrongly(verdict);
                    return Err(verdict);
                }
            }
            [op::BARRIER, ..] if present == 0 => {}
            [op::BARRIER, ..] if present == self.launch.threads => done.released = true,
            [op::BARRIER, ..] => {
                self.diverge(row);
                return Err("diverged");
            }
            [op::IF..=op::ENDWHILE, ..] => done.next = self.construct(row, flow),
            plain => {
                self.plain(plain);
                self.step(self.enabled.clone());
            }
        }
        Ok(done)
    }

    /// What an access row costs: own cells only are in banks.
    fn paid(&mut self, seen: &Access) -> u32 {
        match self.rule {
            Rule::CommonBanked => cost(&seen.cells()),
            Rule::MixedUncharged if seen.is_common() => 0,
            Rule::CostRemembered => self.paid_as_before(seen),
            _ => cost(&seen.own_cells()),
        }
    }

    /// What the row before has cost, where it lies at one distance from this one.
    fn paid_as_before(&mut self, seen: &Access) -> u32 {
        let (before, paid_before) = std::mem::take(&mut self.before);
        let shifted = |(now, then): (&(usize, usize), &(usize, usize))| {
            let shift = seen.used[0].1.wrapping_sub(before[0].1);
            now.0 == then.0 && now.1.wrapping_sub(then.1) == shift
        };
        let same = before.len() == seen.used.len() && seen.used.iter().zip(&before).all(shifted);
        let paid = match same {
            true => paid_before,
            false => cost(&seen.own_cells()),
        };
        self.before = (seen.used.clone(), paid);
        paid
    }

    /// What is counted by mistake where a run stops.
    fn stop_wrongly(&mut self, verdict: &str) {
        let (Some(thread), "common") = (self.stop.thread, verdict) else {
            return;
        };
        match self.rule {
            Rule::CommonStopSteps => self.step([thread]),
            Rule::CommonStopCounts => {
                self.rows += 1;
                self.records.last_mut().unwrap()[1] += 1;
            }
            Rule::CommonFromZero => {
                self.stop.at = self.stop.at.map(|at| at.wrapping_sub(COMMON as u32));
            }
            _ => {}
        }
    }

    /// A row of a construct; gives the row due then.
    fn construct(&mut self, row: usize, flow: &mut Flow) -> usize {
        let stepping = self.enabled.clone();
        let from_end = std::mem::take(&mut flow.from_end);
        let open = &mut flow.open;
        let mut next = row + 1;
        match self.launch.rows[row] {
            [op::IF, _, a, _] => {
                self.enabled = self.truth(a);
                open.push((stepping.clone(), self.enabled.clone(), row));
            }
            [op::ELSE, ..] => {
                let (all, then, _) = open.last().unwrap();
                self.enabled = all.difference(then).copied().collect();
            }
            [op::ENDIF, ..] => {
                self.enabled = open.pop().unwrap().0;
                self.step(self.enabled.clone());
                return next;
            }
            [op::WHILE, _, a, _] => {
                if !from_end {
                    open.push((stepping.clone(), BTreeSet::new(), row));
                }
                self.enabled = self.truth(a);
                if self.enabled.is_empty() {
                    self.enabled = open.pop().unwrap().0;
                    next = behind(self.launch.rows, row);
                }
            }
            _ => {
                next = open.last().unwrap().2;
                flow.from_end = true;
            }
        }
        self.step(stepping);
        next
    }

    fn diverge(&mut self, row: usize) {
        let absent = (0..self.launch.threads).find(|thread| !self.enabled.contains(thread));
        self.stop = Stop {
            row: Some(row),
            thread: self.enabled.first().map(|&thread| self.shown(thread)),
            other: absent,
            ..Stop::default()
        };
    }

    /// A thread's number as the report has it.
    fn shown(&self, thread: usize) -> usize {
        match self.rule {
            Rule::ThreadByLaunch => self.launch_number(thread),
            _ => thread,
        }
    }

    /// An access row, and how it stops if it does.
    fn access(&mut self, row: usize, bytes: [u8; 4]) -> (Access, Option<&'static str>) {
        let [code, d, a, _] = bytes;
        let global = code >= op::GLOBAL_LOAD;
        let code = if global { code - 4 } else { code };
        let mut seen = Access {
            row,
            group: self.group,
            global,
            used: vec![],
            words: vec![],
            finished: false,
            interval: self.barriers as usize,
        };
        for mut t in self.in_turn(global, bytes) {
            let word = self.registers[t][a as usize];
            let mut at = self.number(code, t, bytes);
            if let Some((mut verdict, mut stop)) = self.one_access(global, code, (t, at, word), d) {
                if self.rule == Rule::RaceFirst && verdict == "common" {
                    if let Some((thread, cell, race)) = self.race_above(code, t, bytes) {
                        (verdict, stop, t, at) = ("race", race, thread, cell);
                    }
                }
                let (row, thread) = (Some(row), Some(self.shown(t)));
                self.stop = Stop {
                    row,
                    thread,
                    at: Some(at),
                    ..stop
                };
                return (seen, Some(verdict));
            }
            seen.used.push((t, at as usize));
            seen.words.push(match code {
                op::LOAD => self.registers[t][d as usize],
                _ => word,
            });
        }
        seen.finished = true;
        (seen, None)
    }

    /// The number that a thread's access uses.
    fn number(&self, code: u8, t: usize, [_, d, a, _]: [u8; 4]) -> u32 {
        let register = if code == op::LOAD { a } else { d };
        self.registers[t][register as usize]
    }

    /// The enabled threads, lowest first, but for a mistake.
    fn in_turn(&self, global: bool, bytes: [u8; 4]) -> Vec<usize> {
        let mut threads: Vec<usize> = self.enabled.iter().copied().collect();
        if self.rule == Rule::CommonFirst && !global && bytes[0] != op::LOAD {
            let own = |t: &usize| {
                let at = self.number(bytes[0], *t, bytes);
                self.common_cell(false, bytes[0], at).is_none()
            };
            threads.sort_by_key(own);
        }
        threads
    }

    /// The lowest thread above one that would race in a row, with its cell.
    fn race_above(&mut self, code: u8, t: usize, bytes: [u8; 4]) -> Option<(usize, u32, Stop)> {
        let above: Vec<usize> = self.enabled.range(t + 1..).copied().collect();
        above.into_iter().find_map(|other| {
            let (at, word) = (
                self.number(code, other, bytes),
                self.registers[other][bytes[2] as usize],
            );
            let there = (at as usize) < self.bound(false);
            let race = there.then(|| self.conflict(false, code, (other, at as usize, word)));
            race.flatten().map(|stop| (other, at, stop))
        })
    }

    /// Which common cell a number is, if it is one.
    fn common_cell(&self, global: bool, code: u8, at: u32) -> Option<usize> {
        if global && self.rule != Rule::GlobalIsCommon {
            return None;
        }
        let count = self.launch.common.len();
        let above = (at as usize).checked_sub(COMMON);
        match self.rule {
            Rule::CommonFrom65535 if at == 65_535 && count > 0 => Some(0),
            Rule::CommonUpToCount => above.filter(|&cell| cell <= count),
            Rule::CommonUpTo256 => above.filter(|&cell| cell < 256),
            Rule::FarIsCommon if code != op::LOAD => above,
            Rule::CommonByLowBits => above.map(|cell| cell % COMMON).filter(|&cell| cell < count),
            _ => above.filter(|&cell| cell < count),
        }
    }

    /// An access at a number of no own cell, or of no global one.
    fn beyond(
        &mut self,
        global: bool,
        code: u8,
        (t, at): (usize, u32),
        d: u8,
    ) -> Option<(&'static str, Stop)> {
        let outside = Some(("outside", Stop::default()));
        let Some(cell) = self.common_cell(global, code, at) else {
            return outside;
        };
        let stops = code != op::LOAD || self.rule == Rule::CommonLoadStops;
        match self.rule {
            Rule::CommonWritten if stops => return None,
            Rule::CommonIsOutside if stops => return outside,
            _ if stops => return Some(("common", Stop::default())),
            Rule::CommonLogged => {
                let own = self.own_cells();
                let entered = cell % own.words.len();
                own.act(Rule::Right, op::LOAD, t, entered, 0);
            }
            _ => {}
        }
        self.registers[t][d as usize] = self.launch.common.get(cell).copied().unwrap_or(0);
        None
    }

    /// One thread's access: the thread, the cell's number, and Ra. Gives how it
    /// stops the run, if it does.
    fn one_access(
        &mut self,
        global: bool,
        code: u8,
        (t, at, word): (usize, u32, u32),
        d: u8,
    ) -> Option<(&'static str, Stop)> {
        let cell = at as usize;
        if cell >= self.bound(global) {
            return self.beyond(global, code, (t, at), d);
        }
        let there = if global {
            self.global.words.len()
        } else {
            self.own_cells().words.len()
        };
        if cell >= there {
            return None; // only by mistake
        }
        if let Some(stop) = self.conflict(global, code, (t, cell, word)) {
            let rule = self.rule;
            let cells = if global {
                &mut self.global
            } else {
                self.own_cells()
            };
            cells.refuse(rule, code, cell, word);
            if global && rule == Rule::RefusedEnters {
                self.uses
                    .enter(self.group, self.own_barriers, code, cell, word);
            }
            return Some(("race", stop));
        }
        if global {
            self.uses
                .enter(self.group, self.own_barriers, code, cell, word);
        }
        let rule = self.rule;
        let cells = if global {
            &mut self.global
        } else {
            self.own_cells()
        };
        cells.act(rule, code, t, cell, word);
        if code == op::LOAD {
            self.registers[t][d as usize] = cells.words[cell];
        }
        None
    }

    /// Numbers of cells are below this.
    fn bound(&mut self, global: bool) -> usize {
        let (all, groups) = (self.launch.cells.len(), self.launch.groups);
        match self.rule {
            Rule::GlobalByOwnCount if global => all / groups,
            Rule::OwnByGlobalCount if !global => self.global.words.len(),
            Rule::OwnByAllGroups if !global => all,
            _ if global => self.global.words.len(),
            _ => all / groups,
        }
    }

    /// What an access conflicts with: in the own group first, then in others.
    fn conflict(
        &mut self,
        global: bool,
        code: u8,
        (t, cell, word): (usize, usize, u32),
    ) -> Option<Stop> {
        let rule = match self.rule {
            Rule::EqualGlobalRefused if global => Rule::EqualRefused,
            rule => rule,
        };
        let group = self.group;
        let cells = if global {
            &self.global
        } else {
            self.own_cells()
        };
        let inside = cells
            .conflict(rule, code, t, cell, word)
            .map(|(other, kind)| Stop {
                other_group: Some(group),
                other: Some(other),
                kind: Some(kind),
                ..Stop::default()
            });
        if !global {
            return inside;
        }
        let acting = (group, self.own_barriers, code);
        let across = self.uses.conflict(rule, acting, cell, word);
        let across = across.map(|(other_group, kind)| Stop {
            other_group: Some(other_group),
            other: (rule == Rule::OtherAcross).then_some(0),
            kind: Some(kind),
            ..Stop::default()
        });
        match rule {
            Rule::OthersFirst => across.or(inside),
            _ => inside.or(across),
        }
    }

    fn plain(&mut self, [code, d, a, b]: [u8; 4]) {
        let threads = self.launch.threads as u32;
        for t in self.enabled.clone() {
            let (number, launch_number) = (t as u32, self.launch_number(t) as u32);
            let rule = self.rule;
            let words = &mut self.registers[t];
            let (x, y) = (words[a as usize % 16], words[b as usize % 16]);
            words[d as usize] = match code {
                op::SET => u32::from(a) + 256 * u32::from(b),
                op::TID if rule == Rule::TidIsLaunchNumber => launch_number,
                op::LAUNCH_NUMBER if rule == Rule::LaunchNumberIsTid => number,
                op::TID => number,
                op::LAUNCH_NUMBER => launch_number,
                op::COUNT if rule == Rule::CountOfAll => threads * self.launch.groups as u32,
                op::COUNT => threads,
                op::ADD => x.wrapping_add(y),
                op::SUB => x.wrapping_sub(y),
                op::MUL => x.wrapping_mul(y),
                op::AND => x & y,
                op::OR => x | y,
                op::XOR => x ^ y,
                op::SHR => x >> (y % 32),
                op::SAR => (x as i32 >> (y % 32)) as u32,
                op::EQ => u32::from(x == y),
                op::LT => u32::from(x < y),
                _ => u32::from((x as i32) < y as i32),
            };
        }
    }

    fn told(self, verdict: &'static str) -> Told {
        let log = self.log();
        let words = |cells: &Cells| cells.words.clone();
        Told {
            verdict,
            stop: self.stop,
            rows: self.rows,
            barriers: self.barriers,
            steps: self.steps,
            records: self.records,
            cells: self.own.iter().flat_map(words).collect(),
            global: self.global.words,
            log,
        }
    }

    /// The eight kinds, each with the own cells of all groups and then the
    /// global ones.
    fn log(&self) -> Vec<u32> {
        let own: Vec<[Vec<u32>; 5]> = self.own.iter().map(|cells| cells.log(self.rule)).collect();
        let global = self.global.log(self.rule);
        let masks = self.uses.masks();
        let mut own_words: Vec<Vec<u32>> = (0..5)
            .map(|kind| own.iter().flat_map(|log| log[kind].clone()).collect())
            .collect();
        for kind in 0..3 {
            let group_masks = match self.rule {
                Rule::OwnGroupMasks => own_words[kind].iter().map(|&m| u32::from(m != 0)).collect(),
                _ => vec![0; self.launch.cells.len()],
            };
            own_words.push(group_masks);
        }
        let global_words = global.into_iter().chain(masks);
        if self.rule == Rule::LogOwnFirst {
            return own_words
                .into_iter()
                .chain(global_words)
                .flatten()
                .collect();
        }
        let both = own_words.into_iter().zip(global_words);
        both.flat_map(|(own, global)| [own, global].concat())
            .collect()
    }
}

/// The row after a construct's end, from a row inside it.
fn behind(rows: &[[u8; 4]], from: usize) -> usize {
    let mut depth = 1;
    let mut row = from;
    while depth > 0 {
        row += 1;
        depth += match rows[row][0] {
            op::IF | op::WHILE => 1,
            op::ENDIF | op::ENDWHILE => -1,
            _ => 0,
        };
    }
    row + 1
}
