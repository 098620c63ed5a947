//! The rules that the slow run goes by: the right ones, or one mistake with equal
//! stores (item 6), with groups and global cells (item 7) or with common cells
//! (item 12).

/// Items 6, 7 and 12 as they are, or with one mistake.
#[derive(Clone, Copy, Debug, PartialEq, Eq)]
pub enum Rule {
    Right,
    /// As before item 6.
    EqualRefused,
    /// The last value is kept in place of the first.
    LastKept,
    /// A store is compared with the last one only.
    LastCompared,
    /// A store is compared with what the cell holds.
    CellCompared,
    /// One thread's unequal stores leave no mark.
    Unmarked,
    /// Every second store leaves a mark.
    EqualMarked,
    /// A first value of 0 is taken for none.
    ZeroIsNone,
    /// A barrier leaves the marks.
    MarkStays,
    /// A barrier leaves the first values.
    ValueStays,
    /// A load beside another's equal stores is let through.
    LoadLetThrough,
    /// An add beside another's equal stores is let through.
    AddLetThrough,
    /// Readers and adders that stored the same value are let through.
    BesidesLetThrough,
    /// Another that stored is always shown as one.
    ShownAsStore,
    /// A refused store becomes the first value.
    RefusedIsFirst,
    /// A refused store leaves a mark.
    RefusedMarks,
    /// Only so many low bits are compared.
    LowBits(u32),
    /// A store by another takes the place of the writers before.
    OneWriter,
    /// The value counts for the thread that stored first, not for others.
    FirstThreadOnly,
    /// A barrier waits for all groups, and parts their accesses.
    BarrierHoldsAll,
    /// A barrier clears the group masks.
    BarrierClearsGroups,
    /// A barrier clears the own cells' log of all groups.
    BarrierClearsOthers,
    /// A barrier leaves the log of the global cells.
    BarrierKeepsGlobal,
    /// A group's start clears the group masks.
    StartClearsGroups,
    /// A group's start clears the own cells' log of the groups before it.
    StartClearsOwn,
    /// A group's start leaves the log of the global cells.
    StartKeepsGlobal,
    /// Equal stores of two groups are let through.
    EqualAcrossLetThrough,
    /// Adds of two groups are refused.
    AddsAcrossRefused,
    /// Loads of two groups are refused.
    LoadsAcrossRefused,
    /// Equal stores in a group to a global cell are refused.
    EqualGlobalRefused,
    /// Other groups come before the own one.
    OthersFirst,
    /// The highest conflicting group is named.
    HighestGroup,
    /// Across groups a read is shown before an add, and an add before a write.
    ReadShownFirst,
    /// The lowest thread of the other group is named.
    OtherAcross,
    /// The stopping access enters the group masks.
    RefusedEnters,
    /// TID gives the launch number.
    TidIsLaunchNumber,
    /// Op 19 gives the number in the group.
    LaunchNumberIsTid,
    /// COUNT counts the threads of all groups.
    CountOfAll,
    /// A thread of the report goes by its launch number.
    ThreadByLaunch,
    /// Steps of equal numbers in their groups are counted together.
    StepsInGroup,
    /// The limit holds for each group by itself.
    LimitAnew,
    /// A group that uses up the limit is spent, though another follows.
    SpentAtEnd,
    /// The next group's start opens no interval.
    StartOpensNone,
    /// A group's start opens one though 1,025 are in use.
    StartPastCap,
    /// Group 0's start opens an interval besides the launch's.
    StartOpensTwo,
    /// Accesses to global cells are charged to banks.
    GlobalBanked,
    /// All groups use group 0's cells.
    OneGroupsCells,
    /// Each group starts with what the one before has left in its cells.
    CellsHandedOn,
    /// Global accesses are held against the number of own cells.
    GlobalByOwnCount,
    /// Accesses to own cells are held against the number of global ones.
    OwnByGlobalCount,
    /// Accesses to own cells are held against those of all groups.
    OwnByAllGroups,
    /// A group's registers start as the one before has left them.
    RegistersStay,
    /// The log has all own cells' words first, then the global ones.
    LogOwnFirst,
    /// Own cells have group masks too.
    OwnGroupMasks,
    /// A common load enters the reader mask of an own cell.
    CommonLogged,
    /// A common load is charged to a bank.
    CommonBanked,
    /// A row with a common load costs nothing, though own cells are used too.
    MixedUncharged,
    /// A row at one distance from the one before costs what that one did.
    CostRemembered,
    /// A common load is no step.
    CommonUnstepped,
    /// 65,535 is a common cell's number too.
    CommonFrom65535,
    /// The number behind the last common cell is one too.
    CommonUpToCount,
    /// All of 256 numbers are common cells', however many there are.
    CommonUpTo256,
    /// A store or add at 65,536 or any number above is one to a common cell.
    FarIsCommon,
    /// Of numbers from 65,536 on only the low 16 bits are looked at.
    CommonByLowBits,
    /// A store or add to a common cell is outside.
    CommonIsOutside,
    /// A store or add to a common cell is let through, and does nothing.
    CommonWritten,
    /// A load of a common cell stops as a store does.
    CommonLoadStops,
    /// A race of a higher thread in the row is told first.
    RaceFirst,
    /// A common cell's number is told before own cells are used, by any thread
    /// of the row.
    CommonFirst,
    /// The verdict's number counts from the first common cell.
    CommonFromZero,
    /// The thread that stops at a common cell steps.
    CommonStopSteps,
    /// The row that stops at a common cell is one of the rows run.
    CommonStopCounts,
    /// Global accesses reach common cells.
    GlobalIsCommon,
}

/// The values stored to a cell, in their order.
#[derive(Clone, Default)]
pub struct Stores {
    pub values: Vec<u32>,
    /// Of earlier intervals: the first value and whether there was a mark.
    earlier: Option<u32>,
    was_marked: bool,
}

impl Stores {
    pub fn first(&self, rule: Rule) -> u32 {
        let mut all = self.values.iter().copied();
        match rule {
            Rule::LastKept => all.next_back(),
            Rule::ZeroIsNone => all.find(|&value| value != 0),
            Rule::ValueStays => self.earlier.or(all.next()),
            _ => all.next(),
        }
        .unwrap_or(0)
    }

    pub fn marked(&self, rule: Rule) -> bool {
        let first = self.first(rule);
        let unequal = |compared: u32| self.values.iter().any(|&value| value != compared);
        match rule {
            Rule::Unmarked | Rule::LastCompared => false,
            Rule::EqualMarked => self.values.len() > 1,
            Rule::MarkStays => self.was_marked || unequal(first),
            Rule::ZeroIsNone => self
                .values
                .iter()
                .any(|&value| value != first && first != 0),
            Rule::LowBits(bits) => self
                .values
                .iter()
                .any(|&value| (value ^ first) << (32 - bits) != 0),
            Rule::LastKept => unequal(self.values.first().copied().unwrap_or(0)),
            _ => unequal(first),
        }
    }

    /// Whether a store of this value conflicts with those of others.
    pub fn meet(&self, rule: Rule, value: u32, cell: u32) -> bool {
        let first = self.first(rule);
        let differs = match rule {
            Rule::EqualRefused => true,
            Rule::CellCompared => return cell != value,
            Rule::LastCompared => self.values.last() != Some(&value),
            Rule::ZeroIsNone => first != 0 && first != value,
            Rule::LowBits(bits) => (first ^ value) << (32 - bits) != 0,
            _ => first != value,
        };
        differs || self.marked(rule)
    }

    pub fn forget(&mut self) {
        self.was_marked |= self.marked(Rule::Right);
        self.earlier = self.earlier.or(self.values.first().copied());
        self.values.clear();
    }
}
