//! The faults that a house record can have, each with its number.
//!
//! Only the number is printed. That the faults have names lets a test count
//! which of them the cases of a run meet.

/// A fault of a house-record file, as document 01 lists them.
#[derive(Copy, Clone, Debug, PartialEq, Eq, PartialOrd, Ord)]
pub enum Fault {
    // 10: unknown, cut short, misplaced, a code out of range.
    Unknown,
    Cut,
    NoEnd,
    OtherFirst,
    SheetAgain,
    RuleOutsideGroup,
    StepOutsideRule,
    RequirementWithoutStep,
    EntryOutsideStyle,
    AfterEnd,
    BeforeEnd,
    FirstCombinator,
    Combinator,
    Which,
    EntryKind,
    // 6
    Ranking,
    Origin,
    // 2: one of its own counts, then the sheet's two sums.
    Styles,
    Rules,
    Steps,
    Classes,
    Pseudos,
    Entries,
    SheetIds,
    SheetEntries,
    // 1 and 7: what a record closes.
    Ascending,
    SourceIndex,
    // 4
    Parent,
    Old,
    New,
    Asked,
    // 5
    StateRoom,
    CursorRoom,
    MatchedRoom,
    // 8, which no file meets: a sheet has no more entries than that.
    ChangedRoom,
}

impl Fault {
    /// The number of the refusal in document 01's table.
    pub fn number(self) -> u32 {
        use Fault::*;
        match self {
            Unknown
            | Cut
            | NoEnd
            | OtherFirst
            | SheetAgain
            | RuleOutsideGroup
            | StepOutsideRule
            | RequirementWithoutStep
            | EntryOutsideStyle
            | AfterEnd
            | BeforeEnd
            | FirstCombinator
            | Combinator
            | Which
            | EntryKind => 10,
            Ranking | Origin => 6,
            Styles | Rules | Steps | Classes | Pseudos | Entries | SheetIds | SheetEntries => 2,
            Ascending => 1,
            SourceIndex => 7,
            Parent | Old | New | Asked => 4,
            StateRoom | CursorRoom | MatchedRoom => 5,
            ChangedRoom => 8,
        }
    }
}
