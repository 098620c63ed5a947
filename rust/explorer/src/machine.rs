//! "The threads' own machine": written from that section, from "The kernel
//! table" and from items 1, 3, 6, 7 and 12 alone. Nothing here knows of masks or
//! of the lock-step run. Two kernels resident together are in `pair`.

use std::cmp::Ordering;
use std::ops::Range;

/// Where a table's constructs lie.
#[derive(Clone, Copy, Debug, Default)]
struct Jump {
    /// IF: the row after its ELSE, or its ENDIF. ELSE: the ENDIF.
    /// WHILE: the row after its ENDWHILE. ENDWHILE: the WHILE.
    to: usize,
}

/// A way in which this machine could be wrong about groups or about common
/// cells. Only tests have it made, to see that the claim would not hold for such
/// a machine.
#[derive(Clone, Copy, Debug, PartialEq, Eq)]
pub enum Mistake {
    /// TID gives the launch number.
    TidIsLaunchNumber,
    /// COUNT gives the threads of all groups.
    CountIsOfLaunch,
    /// Op 19 gives the number in the group.
    LaunchNumberIsTid,
    /// Every group uses the own cells of group 0.
    OwnCellsOfGroup0,
    /// A release is for all groups: none passes before all threads wait.
    ReleaseWaitsForAll,
    /// A release empties the whole record.
    ReleaseForgetsAll,
    /// A release forgets the accesses of the other groups too, but not its own
    /// group's to global cells.
    ReleaseForgetsOthers,
    /// Global accesses don't count against other groups behind a release.
    ReleaseForgetsGlobal,
    /// Global accesses go on counting inside the group behind its release.
    ReleaseKeepsGlobal,
    /// Equal stores of two groups are let through.
    EqualStoresAcrossAgree,
    /// Adds of two groups are a race.
    AddsAcrossRace,
    /// Loads of two groups are a race.
    LoadsAcrossRace,
    /// Two groups never race.
    GroupsNeverRace,
    /// Equal stores inside a group to one global cell are a race.
    EqualGlobalStoresRace,
    /// A load of a common cell is recorded: as one of the own cell as many
    /// places behind own cell 0, if there is one.
    CommonLoadRecorded,
    /// A store or an add there does nothing, and the run goes on.
    CommonStoreIgnored,
    /// A store or an add there is made, and the run goes on.
    CommonStoreMade,
    /// An add there is made, and the run goes on; a store ends it badly.
    CommonAddMade,
    /// A store or an add there is made, and ends the run badly.
    CommonStoreMadeAtTheEnd,
    /// Numbers past the common cells are common ones too, up to 256, and hold 0.
    PastCommonIsCommon,
    /// Ops 20 to 22 reach the common cells by the same numbers.
    GlobalReachesCommon,
    /// A common cell's number means the own cell as many places behind own
    /// cell 0.
    CommonIsOwn,
}

/// A well-formed table with its jumps.
#[derive(Clone, Debug)]
pub struct Kernel {
    rows: Vec<[u8; 4]>,
    jumps: Vec<Jump>,
    mistake: Option<Mistake>,
}

impl Kernel {
    /// Reads a table that the checker does not refuse.
    pub fn new(table: &[u8]) -> Self {
        let rows: Vec<[u8; 4]> = table
            .chunks_exact(4)
            .map(|row| [row[0], row[1], row[2], row[3]])
            .collect();
        let mut jumps = vec![Jump::default(); rows.len()];
        let mut next = 0;
        while next < rows.len() {
            next = link(&rows, &mut jumps, next);
        }
        Self {
            rows,
            jumps,
            mistake: None,
        }
    }

    /// The same kernel, run by a machine that makes a mistake.
    pub fn mistaken(self, mistake: Mistake) -> Self {
        Self {
            mistake: Some(mistake),
            ..self
        }
    }

    fn makes(&self, mistake: Mistake) -> bool {
        self.mistake == Some(mistake)
    }

    /// The number of rows.
    pub fn len(&self) -> usize {
        self.rows.len()
    }

    /// Whether there are no rows.
    pub fn is_empty(&self) -> bool {
        self.rows.is_empty()
    }
}

/// Links the construct or plain row at `row` and gives the row behind it.
fn link(rows: &[[u8; 4]], jumps: &mut [Jump], row: usize) -> usize {
    match rows[row][0] {
        IF => {
            let stop = link_body(rows, jumps, row + 1);
            if rows[stop][0] != ELSE {
                jumps[row].to = stop;
                return stop + 1;
            }
            let end = link_body(rows, jumps, stop + 1);
            jumps[row].to = stop + 1;
            jumps[stop].to = end;
            end + 1
        }
        WHILE => {
            let end = link_body(rows, jumps, row + 1);
            jumps[row].to = end + 1;
            jumps[end].to = row;
            end + 1
        }
        _ => row + 1,
    }
}

/// Links a body and gives the row that ends it: ELSE, ENDIF or ENDWHILE.
fn link_body(rows: &[[u8; 4]], jumps: &mut [Jump], mut row: usize) -> usize {
    while !matches!(rows[row][0], ELSE | ENDIF | ENDWHILE) {
        row = link(rows, jumps, row);
    }
    row
}

const IF: u8 = 32;
const ELSE: u8 = 33;
const ENDIF: u8 = 34;
const WHILE: u8 = 35;
const ENDWHILE: u8 = 36;
const BARRIER: u8 = 37;

/// How often the WHILE at `head` was found true since its loop was entered.
#[derive(Clone, Debug, PartialEq, Eq, Hash)]
struct LoopCount {
    head: usize,
    times: u32,
}

/// One thread: its row, its registers, and a count for each loop around it.
#[derive(Clone, Debug, PartialEq, Eq, Hash)]
struct Thread {
    row: usize,
    registers: [u32; 16],
    loops: Vec<LoopCount>,
}

/// What an access does to its cell.
#[derive(Clone, Copy, Debug, PartialEq, Eq, Hash, PartialOrd, Ord)]
enum Kind {
    Load,
    /// With the value stored.
    Store(u32),
    Add,
}

impl Kind {
    /// Inside a group loads agree with loads, adds with adds, and stores with
    /// stores of the same value, in any order.
    fn agrees_in_group(self, other: Self) -> bool {
        self == other
    }

    /// Between groups equal stores don't agree.
    fn agrees_across_groups(self, other: Self) -> bool {
        matches!(
            (self, other),
            (Self::Load, Self::Load) | (Self::Add, Self::Add)
        )
    }
}

/// A record of one access.
#[derive(Clone, Copy, Debug, PartialEq, Eq, Hash, PartialOrd, Ord)]
struct Access {
    /// Among all cells of the launch.
    place: usize,
    group: usize,
    /// Its number in the group. Nobody's once the group has been released since:
    /// then the access counts against other groups only.
    thread: Option<usize>,
    kind: Kind,
}

impl Access {
    fn races_with(self, other: Self, shape: Shape, mistake: Option<Mistake>) -> bool {
        self.place == other.place
            && if self.group == other.group {
                self.races_in_group(other, shape, mistake)
            } else {
                self.races_across_groups(other, mistake)
            }
    }

    /// Different threads, neither forgotten, and kinds that don't agree.
    fn races_in_group(self, other: Self, shape: Shape, mistake: Option<Mistake>) -> bool {
        let threads = self.thread.zip(other.thread);
        let agree = match mistake {
            Some(Mistake::EqualGlobalStoresRace) if shape.is_global(self.place) => {
                self.kind.agrees_across_groups(other.kind)
            }
            _ => self.kind.agrees_in_group(other.kind),
        };
        threads.is_some_and(|(one, other)| one != other) && !agree
    }

    fn races_across_groups(self, other: Self, mistake: Option<Mistake>) -> bool {
        let kinds = (self.kind, other.kind);
        match (mistake, kinds) {
            (Some(Mistake::GroupsNeverRace), _) => false,
            (Some(Mistake::AddsAcrossRace), (Kind::Add, Kind::Add)) => true,
            (Some(Mistake::LoadsAcrossRace), (Kind::Load, Kind::Load)) => true,
            (Some(Mistake::EqualStoresAcrossAgree), _) => !self.kind.agrees_in_group(other.kind),
            _ => !self.kind.agrees_across_groups(other.kind),
        }
    }
}

/// How many groups there are and what each of them has.
#[derive(Clone, Copy, Debug, PartialEq, Eq, Hash)]
pub struct Shape {
    /// Groups of the launch.
    pub groups: usize,
    /// Threads of each group.
    pub threads: usize,
    /// Own cells of each group.
    pub cells: usize,
    /// Global cells.
    pub global: usize,
}

impl Shape {
    /// The launch numbers of a group's threads.
    pub fn members(self, group: usize) -> Range<usize> {
        group * self.threads..(group + 1) * self.threads
    }

    /// A launch number's group, and the number in that group.
    pub fn member(self, launch_number: usize) -> (usize, usize) {
        (launch_number / self.threads, launch_number % self.threads)
    }

    /// The places of a group's own cells among all cells.
    fn own_places(self, group: usize) -> Range<usize> {
        group * self.cells..(group + 1) * self.cells
    }

    fn is_global(self, place: usize) -> bool {
        place >= self.groups * self.cells
    }
}

/// The cells that an access means by its number.
#[derive(Clone, Copy, Debug, PartialEq, Eq)]
enum Space {
    /// The group's own cells, and behind them the common ones.
    Own,
    Global,
}

/// Common cells are numbered from here on.
const FIRST_COMMON: usize = 65_536;
/// There are no more common cells than these.
const MOST_COMMON: usize = 256;

/// What an access reaches by its number.
#[derive(Clone, Copy, Debug, PartialEq, Eq)]
enum Reached {
    /// A place among all cells of the launch.
    Cell(usize),
    /// A common cell, from 0.
    Common(usize),
}

/// All threads, the cells and the access record between two moves.
#[derive(Clone, Debug, PartialEq, Eq, Hash)]
pub struct State {
    shape: Shape,
    /// By launch number.
    threads: Vec<Thread>,
    /// The own cells of each group, group 0 first, and then the global ones.
    cells: Vec<u32>,
    /// Words that nobody writes. They are here, and not with the kernel, so that
    /// a machine that does write them can be told from this one.
    common: Vec<u32>,
    /// Sorted, each record once.
    record: Vec<Access>,
}

/// A move of a run.
#[derive(Clone, Copy, Debug, PartialEq, Eq)]
pub enum Move {
    /// The row of the thread with this launch number.
    Row(usize),
    /// All threads of this group pass the barrier at which they wait.
    Release(usize),
}

/// A run's bad end.
#[derive(Clone, Copy, Debug, PartialEq, Eq, PartialOrd, Ord)]
pub enum BadEnd {
    /// An access outside the cells.
    Outside,
    /// A store or an add to a common cell.
    Common,
    /// Two records of one cell that conflict: by different threads of a group
    /// since its last release, which are not two loads, two adds or two stores
    /// of one value; or by different groups, which are not two loads or two adds.
    Race,
}

/// Where a run stands that has not ended badly.
#[derive(Clone, Debug, PartialEq, Eq)]
pub enum Standing {
    /// These moves are possible.
    Open(Vec<Move>),
    /// All threads are at the table's end.
    Ended,
    /// No move is possible: a thread is left at a barrier.
    Stuck,
}

impl State {
    /// The start of a launch: groups of so many threads, their own cells, group
    /// 0 first, and the global cells.
    pub fn start(groups: u32, threads: u32, own: &[u32], global: &[u32]) -> Self {
        let thread = Thread {
            row: 0,
            registers: [0; 16],
            loops: vec![],
        };
        let shape = Shape {
            groups: groups as usize,
            threads: threads as usize,
            cells: own.len() / groups as usize,
            global: global.len(),
        };
        Self {
            shape,
            threads: vec![thread; shape.groups * shape.threads],
            cells: [own, global].concat(),
            common: vec![],
            record: vec![],
        }
    }

    /// The same over these common cells.
    pub fn with_common(mut self, common: &[u32]) -> Self {
        self.common = common.to_vec();
        self
    }

    /// Groups, threads and cells.
    pub fn shape(&self) -> Shape {
        self.shape
    }

    /// All cells now: the groups' own ones, group 0 first, and the global ones.
    pub fn cells(&self) -> &[u32] {
        &self.cells
    }

    /// The common cells now, which are as they were at the start.
    pub fn common(&self) -> &[u32] {
        &self.common
    }

    /// How many accesses are in the record.
    pub fn recorded(&self) -> usize {
        self.record.len()
    }

    /// A group's own cells now.
    pub fn own_cells(&self, group: usize) -> &[u32] {
        &self.cells[self.shape.own_places(group)]
    }

    /// Takes over the words of another state's cells, place by place. Only a
    /// machine that makes a mistake does so.
    pub(crate) fn take_cells(&mut self, from: &Self) {
        for (own, word) in self.cells.iter_mut().zip(&from.cells) {
            *own = *word;
        }
    }

    /// Whether an access of another kernel would conflict, if the two were groups
    /// of one. Only a machine that makes a mistake asks.
    pub(crate) fn meets(&self, other: &Self) -> bool {
        let conflict = |one: &Access, other: &Access| {
            one.place == other.place && one.races_across_groups(*other, None)
        };
        let mut own = self.record.iter();
        own.any(|one| other.record.iter().any(|other| conflict(one, other)))
    }

    /// Which moves are possible here.
    pub fn standing(&self, kernel: &Kernel) -> Standing {
        if self.first_unended_group(kernel).is_none() {
            return Standing::Ended;
        }
        let rows = (0..self.threads.len())
            .filter(|&thread| self.may_move(kernel, thread))
            .map(Move::Row);
        let releases = (0..self.shape.groups)
            .filter(|&group| self.may_release(kernel, group))
            .map(Move::Release);
        let moves: Vec<Move> = rows.chain(releases).collect();
        if moves.is_empty() {
            Standing::Stuck
        } else {
            Standing::Open(moves)
        }
    }

    /// The lowest group with a thread that is not at the table's end.
    pub fn first_unended_group(&self, kernel: &Kernel) -> Option<usize> {
        let first = self
            .threads
            .iter()
            .position(|one| one.row != kernel.len())?;
        Some(self.shape.member(first).0)
    }

    /// The group whose move it is.
    pub fn group_of(&self, next: Move) -> usize {
        match next {
            Move::Row(thread) => self.shape.member(thread).0,
            Move::Release(group) => group,
        }
    }

    fn may_move(&self, kernel: &Kernel, thread: usize) -> bool {
        let row = kernel.rows.get(self.threads[thread].row);
        row.is_some_and(|row| row[0] != BARRIER)
    }

    /// All threads of the group wait at the same BARRIER row with equal loop
    /// counts.
    fn may_release(&self, kernel: &Kernel, group: usize) -> bool {
        let members = if kernel.makes(Mistake::ReleaseWaitsForAll) {
            &self.threads
        } else {
            &self.threads[self.shape.members(group)]
        };
        let first = &members[0];
        let at_barrier = kernel
            .rows
            .get(first.row)
            .is_some_and(|row| row[0] == BARRIER);
        at_barrier
            && members
                .iter()
                .all(|thread| thread.row == first.row && thread.loops == first.loops)
    }

    /// Makes a possible move.
    pub fn make(&mut self, kernel: &Kernel, made: Move) -> Result<(), BadEnd> {
        match made {
            Move::Row(thread) => self.do_row(kernel, thread),
            Move::Release(group) => {
                for thread in &mut self.threads[self.shape.members(group)] {
                    thread.row += 1;
                }
                self.forget(kernel, group);
                Ok(())
            }
        }
    }

    /// A released group's accesses are forgotten, but for those to global cells,
    /// which still count against other groups.
    fn forget(&mut self, kernel: &Kernel, released: usize) {
        let (shape, mistake) = (self.shape, kernel.mistake);
        self.record.retain_mut(|access| match mistake {
            Some(Mistake::ReleaseForgetsAll) => false,
            _ if access.group != released => mistake != Some(Mistake::ReleaseForgetsOthers),
            Some(Mistake::ReleaseForgetsGlobal) => false,
            Some(Mistake::ReleaseKeepsGlobal) => shape.is_global(access.place),
            _ => {
                access.thread = None;
                shape.is_global(access.place)
            }
        });
        // Accesses of several threads may have become the same.
        self.record.sort_unstable();
        self.record.dedup();
    }

    /// The effect of the thread's row alone.
    fn do_row(&mut self, kernel: &Kernel, number: usize) -> Result<(), BadEnd> {
        let row = self.threads[number].row;
        let [op, d, a, b] = kernel.rows[row];
        let jump = kernel.jumps[row].to;
        let about = self.number_told(kernel, op, number);
        let thread = &mut self.threads[number];
        let (d, x, y) = (
            usize::from(d),
            thread.registers[usize::from(a) % 16],
            thread.registers[usize::from(b) % 16],
        );
        thread.row += 1;
        let at = thread.registers[d];
        match op {
            1 => thread.registers[d] = u32::from(a) + 256 * u32::from(b),
            2 | 3 | 19 => thread.registers[d] = about,
            4..=14 => thread.registers[d] = compute(op, x, y),
            16 | 20 => {
                let loaded = match self.reach(kernel, number, space(op), x)? {
                    Reached::Cell(place) => {
                        self.enter(kernel, number, place, Kind::Load)?;
                        self.cells[place]
                    }
                    Reached::Common(cell) => self.load_common(kernel, number, cell)?,
                };
                self.threads[number].registers[d] = loaded;
            }
            17 | 21 => match self.reach(kernel, number, space(op), at)? {
                Reached::Cell(place) => {
                    self.enter(kernel, number, place, Kind::Store(x))?;
                    self.cells[place] = x;
                }
                Reached::Common(cell) => self.put_common(kernel, cell, Kind::Store(x), x)?,
            },
            18 | 22 => match self.reach(kernel, number, space(op), at)? {
                Reached::Cell(place) => {
                    self.enter(kernel, number, place, Kind::Add)?;
                    self.cells[place] = compute(4, self.cells[place], x);
                }
                Reached::Common(cell) => self.put_common(kernel, cell, Kind::Add, x)?,
            },
            IF if x == 0 => thread.row = jump,
            ELSE => thread.row = jump,
            WHILE => thread.test_loop(row, x != 0, jump),
            ENDWHILE => thread.row = jump,
            _ => {} // IF true and ENDIF go to the next row.
        }
        Ok(())
    }

    /// What ops 2, 3 and 19 tell a thread: its number in its group, the number
    /// of the group's threads, and its number in the launch.
    fn number_told(&self, kernel: &Kernel, op: u8, launch_number: usize) -> u32 {
        let (_, in_group) = self.shape.member(launch_number);
        let told = match op {
            2 if kernel.makes(Mistake::TidIsLaunchNumber) => launch_number,
            2 => in_group,
            3 if kernel.makes(Mistake::CountIsOfLaunch) => self.threads.len(),
            3 => self.shape.threads,
            _ if kernel.makes(Mistake::LaunchNumberIsTid) => in_group,
            _ => launch_number,
        };
        told as u32
    }

    /// What a thread's access reaches by that number, unless it is outside: own
    /// cells first, then common ones.
    fn reach(
        &self,
        kernel: &Kernel,
        launch_number: usize,
        space: Space,
        number: u32,
    ) -> Result<Reached, BadEnd> {
        let (shape, number) = (self.shape, number as usize);
        let (group, _) = shape.member(launch_number);
        let answering = match kernel.mistake {
            Some(Mistake::OwnCellsOfGroup0) => 0,
            _ => group,
        };
        let places = match space {
            Space::Own => shape.own_places(answering),
            Space::Global => shape.groups * shape.cells..self.cells.len(),
        };
        if number < places.len() {
            return Ok(Reached::Cell(places.start + number));
        }
        let common = match kernel.mistake {
            Some(Mistake::PastCommonIsCommon) => MOST_COMMON,
            _ => self.common.len(),
        };
        let has_common = space == Space::Own || kernel.makes(Mistake::GlobalReachesCommon);
        match number.checked_sub(FIRST_COMMON) {
            Some(cell) if has_common && kernel.makes(Mistake::CommonIsOwn) => {
                let place = places.clone().nth(cell);
                place.map(Reached::Cell).ok_or(BadEnd::Outside)
            }
            Some(cell) if has_common && cell < common => Ok(Reached::Common(cell)),
            _ => Err(BadEnd::Outside),
        }
    }

    /// A common cell's word, which is loaded without a record.
    fn load_common(
        &mut self,
        kernel: &Kernel,
        launch_number: usize,
        cell: usize,
    ) -> Result<u32, BadEnd> {
        if kernel.makes(Mistake::CommonLoadRecorded) {
            let (group, _) = self.shape.member(launch_number);
            let own = self.shape.own_places(group).nth(cell);
            let place = own.unwrap_or(self.cells.len() + cell);
            self.enter(kernel, launch_number, place, Kind::Load)?;
        }
        Ok(self.common.get(cell).copied().unwrap_or(0))
    }

    /// A store or an add to a common cell ends the run badly.
    fn put_common(
        &mut self,
        kernel: &Kernel,
        cell: usize,
        kind: Kind,
        word: u32,
    ) -> Result<(), BadEnd> {
        let (made, goes_on) = match (kernel.mistake, kind) {
            (Some(Mistake::CommonStoreIgnored), _) => (false, true),
            (Some(Mistake::CommonStoreMade), _) => (true, true),
            (Some(Mistake::CommonAddMade), Kind::Add) => (true, true),
            (Some(Mistake::CommonStoreMadeAtTheEnd), _) => (true, false),
            _ => (false, false),
        };
        if let (true, Some(common)) = (made, self.common.get_mut(cell)) {
            *common = match kind {
                Kind::Add => compute(4, *common, word),
                _ => word,
            };
        }
        if goes_on {
            Ok(())
        } else {
            Err(BadEnd::Common)
        }
    }

    /// Enters an access to that place in the record, unless it ends the run
    /// badly.
    fn enter(
        &mut self,
        kernel: &Kernel,
        launch_number: usize,
        place: usize,
        kind: Kind,
    ) -> Result<(), BadEnd> {
        let (shape, mistake) = (self.shape, kernel.mistake);
        let (group, thread) = shape.member(launch_number);
        let access = Access {
            place,
            group,
            thread: Some(thread),
            kind,
        };
        let races = |&other: &Access| access.races_with(other, shape, mistake);
        if self.record.iter().any(races) {
            return Err(BadEnd::Race);
        }
        if let Err(entry) = self.record.binary_search(&access) {
            self.record.insert(entry, access);
        }
        Ok(())
    }

    /// Subtracts from the counts of a loop what all threads of a group have in
    /// common there, where this changes no later comparison of counts: all
    /// threads of the group are inside the loop, with equal counts for all loops
    /// around it. A thread that enters the loop anew has by then another count
    /// for a loop around it, and the outermost loop is entered once. So states
    /// of endless runs come again. Counts of two groups are never compared.
    pub fn level_counts(&mut self) {
        for group in 0..self.shape.groups {
            level_group(&mut self.threads[self.shape.members(group)]);
        }
    }

    /// The state without its loop counts, on which thread moves don't depend.
    pub fn without_counts(&self) -> Self {
        let mut state = self.clone();
        for thread in &mut state.threads {
            thread.loops.clear();
        }
        state
    }
}

/// Levels the loop counts of one group's threads.
fn level_group(threads: &mut [Thread]) {
    for depth in 0.. {
        let Some(first) = threads[0].loops.get(depth).cloned() else {
            return;
        };
        let counts = || threads.iter().map(|thread| thread.loops.get(depth));
        if !counts().all(|count| count.is_some_and(|count| count.head == first.head)) {
            return;
        }
        let least = counts().flatten().map(|count| count.times).min();
        let equal = counts().flatten().all(|count| *count == first);
        for thread in &mut *threads {
            thread.loops[depth].times -= least.unwrap_or(0);
        }
        if !equal {
            return;
        }
    }
}

/// Ops 16 to 18 use the group's own cells and the common ones, 20 to 22 the
/// global ones.
fn space(op: u8) -> Space {
    if op < 20 {
        Space::Own
    } else {
        Space::Global
    }
}

impl Thread {
    /// WHILE: true goes into the body and is counted, false leaves the loop.
    fn test_loop(&mut self, head: usize, found_true: bool, exit: usize) {
        let inside = self.loops.last().is_some_and(|last| last.head == head);
        match (found_true, inside) {
            (true, true) => {
                if let Some(last) = self.loops.last_mut() {
                    last.times += 1;
                }
            }
            (true, false) => self.loops.push(LoopCount { head, times: 1 }),
            (false, _) => {
                if inside {
                    self.loops.pop();
                }
                self.row = exit;
            }
        }
    }
}

/// Ops 4 to 14, worked out in 64 bits so that no rule of overflow is needed.
/// Shifts divide and round down, so that no rule of far shifts is needed.
fn compute(op: u8, x: u32, y: u32) -> u32 {
    let (wide_x, wide_y) = (u64::from(x), u64::from(y));
    let signed = |word: u32| i64::from(word) - if word >> 31 == 1 { 1 << 32 } else { 0 };
    let low = |wide: u64| (wide % (1 << 32)) as u32;
    match op {
        4 => low(wide_x + wide_y),
        5 => low((1 << 32) + wide_x - wide_y),
        6 => low(wide_x * wide_y),
        7 => x & y,
        8 => x | y,
        9 => x ^ y,
        10 => low(wide_x / power(y)),
        11 => low(signed(x).div_euclid(power(y) as i64) as u64),
        12 => u32::from(x == y),
        13 => u32::from(x.cmp(&y) == Ordering::Less),
        _ => u32::from(signed(x) < signed(y)),
    }
}

/// What a shift by this amount divides by: 2 for each place, and the places
/// are the amount modulo 32.
fn power(amount: u32) -> u64 {
    (0..amount % 32).fold(1, |power, _| 2 * power)
}

#[cfg(test)]
mod tests {
    use super::*;

    #[test]
    fn words_at_their_edges() {
        let (top, most) = (1 << 31, u32::MAX);
        assert_eq!(compute(4, most, 1), 0);
        assert_eq!(compute(5, 0, 1), most);
        assert_eq!(compute(6, most, most), 1);
        assert_eq!((compute(13, top, 0), compute(14, top, 0)), (0, 1));
    }

    #[test]
    fn amounts_count_modulo_32() {
        let (top, most) = (1 << 31, u32::MAX);
        let amounts = [0, 1, 31, 32, 33, 63, 64, top, most];
        let shift = |op, word| amounts.map(|amount| compute(op, word, amount));
        assert_eq!(
            amounts.map(power).map(u64::ilog2),
            [0, 1, 31, 0, 1, 31, 0, 0, 31]
        );
        // By 0, 1 and 31 places.
        let all = |[none, one, far]: [u32; 3]| [none, one, far, none, one, far, none, none, far];
        assert_eq!([shift(10, 0), shift(11, 0)], [[0; 9]; 2]);
        assert_eq!([shift(10, 1), shift(11, 1)], [all([1, 0, 0]); 2]);
        let halved = all([top - 1, top / 2 - 1, 0]);
        assert_eq!([shift(10, top - 1), shift(11, top - 1)], [halved; 2]);
        assert_eq!(shift(10, top), all([top, top / 2, 1]));
        assert_eq!(shift(11, top), all([top, top + top / 2, most]));
        assert_eq!(shift(10, most), all([most, top - 1, 1]));
        assert_eq!(shift(11, most), [most; 9]);
    }

    #[test]
    fn sar_rounds_down() {
        // -5 and 5 by one place and by two, with 32 places more or fewer.
        for more in [0, 32, 64, 1 << 31] {
            let both = |word: u32| [1, 2].map(|places| compute(11, word, more + places));
            assert_eq!(both(5), [2, 1]);
            assert_eq!(both(5u32.wrapping_neg()), [3, 2].map(u32::wrapping_neg));
        }
    }

    const KINDS: [Kind; 5] = [
        Kind::Load,
        Kind::Store(0),
        Kind::Store(1),
        Kind::Store(1 << 31),
        Kind::Add,
    ];

    #[test]
    fn only_loads_only_adds_and_in_a_group_equal_stores_agree() {
        for (i, one) in KINDS.into_iter().enumerate() {
            for (j, other) in KINDS.into_iter().enumerate() {
                let equal = i == j;
                assert_eq!(one.agrees_in_group(other), equal, "{one:?}, {other:?}");
                let store = matches!(one, Kind::Store(_));
                let agree = one.agrees_across_groups(other);
                assert_eq!(agree, equal && !store, "{one:?}, {other:?}");
            }
        }
    }

    /// Two groups of two threads, each with one own cell, and one global cell.
    const TWO_BY_TWO: Shape = Shape {
        groups: 2,
        threads: 2,
        cells: 1,
        global: 1,
    };

    #[test]
    fn threads_of_a_group_race_until_forgotten_and_groups_always() {
        for place in [0, 2] {
            let of = |group, thread, kind| Access {
                place,
                group,
                thread,
                kind,
            };
            let race = |one: Access, other| one.races_with(other, TWO_BY_TWO, None);
            for one in KINDS {
                for other in KINDS {
                    let first = of(0, Some(0), one);
                    let apart = !one.agrees_in_group(other);
                    assert_eq!(race(first, of(0, Some(1), other)), apart);
                    assert!(!race(first, of(0, Some(0), other)));
                    assert!(!race(first, of(0, None, other)));
                    let across = !one.agrees_across_groups(other);
                    for thread in [Some(0), Some(1), None] {
                        assert_eq!(race(first, of(1, thread, other)), across);
                    }
                    let elsewhere = Access {
                        place: 1,
                        ..of(0, Some(1), other)
                    };
                    assert!(!race(first, elsewhere));
                }
            }
        }
    }

    fn access(state: &mut State, thread: usize, cell: (Space, u32), kind: Kind) -> Option<BadEnd> {
        let (kernel, (space, number)) = (Kernel::new(&[]), cell);
        match state.reach(&kernel, thread, space, number) {
            Ok(Reached::Cell(place)) => state.enter(&kernel, thread, place, kind).err(),
            Ok(Reached::Common(_)) => None,
            Err(end) => Some(end),
        }
    }

    /// Every value that a thread has stored is kept, each once.
    #[test]
    fn the_record_keeps_all_values_of_a_thread() {
        let mut state = State::start(1, 2, &[0, 0], &[]);
        let store = |state: &mut State, thread, cell, value| {
            access(state, thread, (Space::Own, cell), Kind::Store(value))
        };
        for value in [6, 5, 6, 0, 5] {
            assert_eq!(store(&mut state, 0, 1, value), None);
        }
        let kept: Vec<Kind> = state.record.iter().map(|access| access.kind).collect();
        assert_eq!(kept, [0, 5, 6].map(Kind::Store));
        for value in [0, 5, 6, 7] {
            let met = store(&mut state, 1, 1, value);
            assert_eq!(met, Some(BadEnd::Race), "{value}");
            assert_eq!(store(&mut state, 1, 0, 5), None);
        }
        assert_eq!(store(&mut state, 0, 0, 5), None);
        assert_eq!(store(&mut state, 0, 0, 6), Some(BadEnd::Race));
    }

    /// Own cells are 2 for each group, global ones 3 for all of them.
    #[test]
    fn cells_are_outside_by_their_own_count() {
        let mut state = State::start(2, 1, &[0; 4], &[0; 3]);
        let mut outside = |thread, space, number| {
            let met = access(&mut state, thread, (space, number), Kind::Load);
            assert!(met.is_none_or(|end| end == BadEnd::Outside));
            met.is_some()
        };
        for thread in [0, 1] {
            for number in [0, 1, 2, 3, 4, u32::MAX] {
                assert_eq!(outside(thread, Space::Own, number), number >= 2);
                assert_eq!(outside(thread, Space::Global, number), number >= 3);
            }
        }
    }

    /// Common cells are behind the own ones for ops 16 to 18 alone, in every
    /// group.
    #[test]
    fn numbers_reach_own_cells_then_common_ones_then_nothing() {
        let state = State::start(2, 1, &[0; 4], &[0; 3]).with_common(&[7, 8]);
        let reach = |thread, space, number| {
            let reached = state.reach(&Kernel::new(&[]), thread, space, number);
            assert!(reached.is_ok() || reached == Err(BadEnd::Outside));
            reached.ok()
        };
        for thread in [0, 1] {
            let own = |number| reach(thread, Space::Own, number);
            assert_eq!(own(1), Some(Reached::Cell(2 * thread + 1)));
            assert_eq!(own(65_536), Some(Reached::Common(0)));
            assert_eq!(own(65_537), Some(Reached::Common(1)));
            for number in [2, 65_534, 65_535, 65_538, 131_072, u32::MAX] {
                assert_eq!(own(number), None, "{number}");
            }
            for number in [3, 65_535, 65_536, 65_537, 65_538] {
                assert_eq!(reach(thread, Space::Global, number), None, "{number}");
            }
        }
        let without = State::start(1, 1, &[0], &[]);
        let reached = without.reach(&Kernel::new(&[]), 0, Space::Own, 65_536);
        assert_eq!(reached, Err(BadEnd::Outside));
        let full = without.with_common(&[1; 256]);
        let last = |number| full.reach(&Kernel::new(&[]), 0, Space::Own, number);
        assert_eq!(last(65_791), Ok(Reached::Common(255)));
        assert_eq!(last(65_792), Err(BadEnd::Outside));
    }

    /// A release leaves of its own group's accesses those to global cells, and
    /// these are no thread's any more; other groups' accesses are as they were.
    #[test]
    fn a_release_forgets_its_own_group() {
        let mut state = State::start(2, 2, &[0, 0], &[0]);
        for thread in 0..4 {
            for space in [Space::Own, Space::Global] {
                assert_eq!(access(&mut state, thread, (space, 0), Kind::Load), None);
            }
        }
        let other_group = |access: &&Access| access.group == 0;
        let before: Vec<Access> = state.record.iter().filter(other_group).copied().collect();
        let barrier = Kernel::new(&[BARRIER, 0, 0, 0]);
        assert_eq!(state.make(&barrier, Move::Release(1)), Ok(()));
        let after: Vec<Access> = state.record.iter().filter(other_group).copied().collect();
        assert_eq!((before.len(), after), (4, before));
        let left = Access {
            place: 2,
            group: 1,
            thread: None,
            kind: Kind::Load,
        };
        assert_eq!(
            (state.record.len(), state.record.contains(&left)),
            (5, true)
        );
        let rows: Vec<usize> = state.threads.iter().map(|thread| thread.row).collect();
        assert_eq!(rows, [0, 0, 1, 1]);
    }

    #[test]
    fn numbers_in_the_group_and_in_the_launch() {
        // R0 = TID, R1 = COUNT, R2 = launch number.
        let kernel = Kernel::new(&[2, 0, 0, 0, 3, 1, 0, 0, 19, 2, 0, 0]);
        let mut state = State::start(3, 2, &[0; 3], &[]);
        for thread in 0..6 {
            for _ in 0..3 {
                assert_eq!(state.make(&kernel, Move::Row(thread)), Ok(()));
            }
        }
        let told = |thread: &Thread| [0, 1, 2].map(|register| thread.registers[register]);
        let told: Vec<[u32; 3]> = state.threads.iter().map(told).collect();
        let expected = [
            [0, 2, 0],
            [1, 2, 1],
            [0, 2, 2],
            [1, 2, 3],
            [0, 2, 4],
            [1, 2, 5],
        ];
        assert_eq!(told, expected);
    }

    #[test]
    fn jumps_follow_the_constructs() {
        // IF ELSE IF ENDIF ENDIF WHILE ENDWHILE
        let table = [32, 33, 32, 34, 34, 35, 36]
            .map(|op| [op, 0, 0, 0])
            .concat();
        let kernel = Kernel::new(&table);
        let to: Vec<usize> = kernel.jumps.iter().map(|jump| jump.to).collect();
        assert_eq!(to, [2, 4, 3, 0, 0, 7, 5]);
    }
}
