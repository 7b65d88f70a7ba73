//! Fifty wrong engines, to show that the generated files and streams tell them apart.
//! Without the feature `quirks` nothing of them is left in the program.

/// One way of reading the rules wrongly.
#[derive(Clone, Copy, PartialEq, Eq, Debug)]
pub enum Quirk {
    /// Texts match only when their bytes are equal.
    ExactText,
    /// Texts are ordered with A..Z read as a..z.
    LowerText,
    /// Values of unlike kinds are unequal for the predicate.
    UnlikeUnequal,
    /// A sum outside 32 bits wraps.
    WrappingSum,
    /// A formal matches only what its variable held.
    OldBindings,
    /// An unbound variable in the predicate or t just has no value.
    UnboundNoValue,
    /// Selections are sets.
    SelectSet,
    /// Constants of t have no column.
    SelectDropsConstants,
    /// An update meets a rewritten row again.
    UpdateAgain,
    /// An update whose t doesn't fit is refused.
    UpdateRefuses,
    /// A partial sum outside 32 bits is refused.
    PartialSum,
    /// A loop entry with no row left holds nothing.
    HeldWhileRows,
    /// The row place counts the rows left to visit.
    PlaceAmongLeft,
    /// The limits of loops are judged before the row place.
    LimitFirst,
    /// A parallel loop binds in its own thread too.
    ForkBindsParent,
    /// The last thread takes the place of a removed one.
    SwapRemove,
    /// Names of tables are compared like texts.
    FoldedNames,
    /// Bytes 12 to 15 of a node are not looked at.
    LooseGap,
    /// A next that goes back is found before faults of later records.
    EagerNext,
    /// The seventeenth row is found before a row that doesn't fit.
    RowLimitFirst,
    /// A sequential loop keeps the formals of its first round too.
    KeptWithFormals,
    /// A sequential loop keeps what is bound after the formals of each round.
    KeptEachRound,
    /// Only variables come back after a round.
    BackVariables,
    /// Only the loop's own formals come back after a round.
    BackFormals,
    /// Bindings come back at every step of the body.
    BackEachStep,
    /// Bindings come back at the loop's next pick, after T was judged.
    BackAtNextPick,
    /// Bindings don't come back where the entry removed is a loop that is over.
    BackAfterActions,
    /// Bindings come back at the loop's next pick, before T is judged.
    BackBeforeNextPick,
    /// A sequential loop keeps what is bound before the formals of each round.
    KeptAgain,
    /// Bindings come back under a parallel loop's entry too.
    BackUnderForks,
    /// The sums of a page wrap at 32 bits.
    PageSumWraps,
    /// The page of a table without rows has no line at all.
    PageNoLastLine,
    /// The sums of a page are left-aligned.
    PageSumLeft,
    /// The pages are those of the net before the picks.
    PageBeforePicks,
    /// A minus sign stands first in its cell, before the blanks.
    PageSignApart,
    /// The field that fails is not counted among those looked at.
    LookFailingUncounted,
    /// Formals are not counted among the fields looked at.
    LookFormalsUncounted,
    /// All fields are counted, also where an earlier one fails.
    LookAllCounted,
    /// Fields are looked at from the last on.
    LookFromLast,
    /// Formals are looked at after all other fields.
    LookConstantsFirst,
    /// A window holds a row less than its width.
    WindowShort,
    /// A window holds a row more than its width.
    WindowLong,
    /// A refused record pushes the oldest row out of the window.
    WindowRefusedPushes,
    /// A refused record enters the window as 0.
    WindowRefusedZero,
    /// Least and largest are those since the beginning.
    WindowSinceBeginning,
    /// The sums of a window wrap at 32 bits.
    WindowSumWraps,
    /// A window that holds as many rows as its width is refused.
    WindowFullRefused,
    /// The columns of a window are counted from 1.
    WindowColumnFromOne,
    /// A window's column above 3 is refused as its width is.
    WindowColumnJudged,
    /// A record is judged before the window that takes it.
    WindowRecordFirst,
}

#[cfg(not(feature = "quirks"))]
#[inline(always)]
pub(crate) const fn wrong(_: Quirk) -> bool {
    false
}

#[cfg(feature = "quirks")]
mod switch {
    use super::Quirk;
    use std::cell::Cell;

    thread_local! {
        static CURRENT: Cell<Option<Quirk>> = const { Cell::new(None) };
    }

    pub(crate) fn wrong(quirk: Quirk) -> bool {
        CURRENT.get() == Some(quirk)
    }

    impl Quirk {
        /// Those that netrun's text shows.
        pub const OF_RUNS: [Quirk; 20] = [
            Quirk::ExactText,
            Quirk::LowerText,
            Quirk::UnlikeUnequal,
            Quirk::WrappingSum,
            Quirk::OldBindings,
            Quirk::UnboundNoValue,
            Quirk::SelectSet,
            Quirk::SelectDropsConstants,
            Quirk::UpdateAgain,
            Quirk::UpdateRefuses,
            Quirk::PartialSum,
            Quirk::HeldWhileRows,
            Quirk::PlaceAmongLeft,
            Quirk::LimitFirst,
            Quirk::ForkBindsParent,
            Quirk::SwapRemove,
            Quirk::FoldedNames,
            Quirk::LooseGap,
            Quirk::EagerNext,
            Quirk::RowLimitFirst,
        ];

        /// Those about what a round binds that netrun's text shows too.
        pub const OF_ROUNDS: [Quirk; 7] = [
            Quirk::KeptWithFormals,
            Quirk::KeptEachRound,
            Quirk::BackVariables,
            Quirk::BackFormals,
            Quirk::BackEachStep,
            Quirk::BackAtNextPick,
            Quirk::BackAfterActions,
        ];

        /// Those that no text shows, but the net after a pick.
        pub const OF_NETS: [Quirk; 1] = [Quirk::BackBeforeNextPick];

        /// Those that show only on sound nets that no file and picks lead to.
        pub const OF_NETS_BY_HAND: [Quirk; 2] = [Quirk::KeptAgain, Quirk::BackUnderForks];

        /// Those that only netpage's text shows.
        pub const OF_PAGES: [Quirk; 5] = [
            Quirk::PageSumWraps,
            Quirk::PageNoLastLine,
            Quirk::PageSumLeft,
            Quirk::PageBeforePicks,
            Quirk::PageSignApart,
        ];

        /// Those that only the counts of fields looked at show.
        pub const OF_LOOKS: [Quirk; 5] = [
            Quirk::LookFailingUncounted,
            Quirk::LookFormalsUncounted,
            Quirk::LookAllCounted,
            Quirk::LookFromLast,
            Quirk::LookConstantsFirst,
        ];

        /// Those that only netwindow's text shows.
        pub const OF_WINDOWS: [Quirk; 9] = [
            Quirk::WindowShort,
            Quirk::WindowLong,
            Quirk::WindowRefusedPushes,
            Quirk::WindowRefusedZero,
            Quirk::WindowSinceBeginning,
            Quirk::WindowSumWraps,
            Quirk::WindowFullRefused,
            Quirk::WindowColumnFromOne,
            Quirk::WindowColumnJudged,
        ];

        /// Those that show only on windows made by hand.
        pub const OF_WINDOWS_BY_HAND: [Quirk; 1] = [Quirk::WindowRecordFirst];

        /// Runs `work` with the engine of this thread gone wrong.
        pub fn during<T>(self, work: impl FnOnce() -> T) -> T {
            CURRENT.set(Some(self));
            let result = work();
            CURRENT.set(None);
            result
        }
    }
}

#[cfg(feature = "quirks")]
pub(crate) use switch::wrong;
