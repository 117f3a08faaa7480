//! What is counted on the way to an answer, so that a run can say what it met: a list of events with the words
//! for each, and how often each happened. Nothing here is part of an answer.

use crate::reference::Filing;

/// Defines an enum and the list of the words for its cases.
macro_rules! counted {
    ($(#[$about:meta])* $name:ident, $words:ident { $($case:ident: $in_words:expr,)* }) => {
        $(#[$about])*
        #[derive(Clone, Copy, Debug, PartialEq, Eq)]
        pub enum $name { $($case),* }

        /// The words for each, in the order of the enum.
        pub const $words: &[&str] = &[$($in_words),*];
    };
}

counted! {
    /// Something that happened on the way to an answer.
    Event, EVENT_WORDS {
        UnderTrailer: "images under 14 bytes",
        AloneMark: "wrong alone: the trailer's last two bytes, of neither form",
        AloneForm: "wrong alone: the form, which a mover doesn't take",
        AloneClasses: "wrong alone: the number of classes",
        AloneVariables: "wrong alone: the number of state variables",
        AloneFirstDistance: "wrong alone: the first distance",
        AloneRise: "wrong alone: a distance that rises",
        AloneWhole: "wrong alone: a section of broken records",
        AloneLetters: "wrong alone: the number of alphabet records",
        AloneEntries: "wrong alone: the number of contractions",
        AloneContexts: "wrong alone: the number of right contexts",
        AloneTransitions: "wrong alone: the number of transitions",
        AloneColumns: "wrong alone: the number of decisions",
        AloneSymbol: "wrong alone: a symbol outside 32..126",
        AloneBar: "wrong alone: the symbol |",
        AloneRepeated: "wrong alone: a symbol of an earlier record",
        AloneLetterClass: "wrong alone: the class of an alphabet record",
        AloneLetterSign: "wrong alone: the sign of an alphabet record",
        AloneLength: "wrong alone: the length of a string",
        AloneString: "wrong alone: a string's character",
        AlonePast: "wrong alone: a byte past the string",
        AloneNoContext: "wrong alone: a right context that does not exist",
        AloneContextAtTen: "wrong alone: a right context after ten characters",
        AloneEntryClass: "wrong alone: the class of an entry",
        AloneShift: "wrong alone: a shift",
        AloneSign: "wrong alone: a sign of an entry",
        AloneAfter99: "wrong alone: a sign after a 99",
        AloneYearsLow: "wrong alone: a first year after the last by its low byte",
        AloneYearsHigh: "wrong alone: a first year after the last by its high byte",
        AloneYearsHighAgainstLow: "wrong alone: a first year after the last by its high byte, though its low byte is lower",
        AloneContextClass: "wrong alone: a class of a right context",
        AloneTransitionByte: "wrong alone: a transition byte",
        AloneVariableByte: "wrong alone: a decision byte for a variable",
        AloneClassByte: "wrong alone: a decision byte for a class",
        FirstSymbol: "first of several wrong bytes: a symbol",
        FirstLetterClass: "first of several wrong bytes: the class of an alphabet record",
        FirstLength: "first of several wrong bytes: the length of a string",
        FirstString: "first of several wrong bytes: a string's character",
        FirstPast: "first of several wrong bytes: a byte past the string",
        FirstNoContext: "first of several wrong bytes: a right context that does not exist",
        FirstContextAtTen: "first of several wrong bytes: a right context after ten characters",
        FirstEntryClass: "first of several wrong bytes: the class of an entry",
        FirstShift: "first of several wrong bytes: a shift",
        FirstSign: "first of several wrong bytes: a sign of an entry",
        FirstAfter99: "first of several wrong bytes: a sign after a 99",
        FirstContextClass: "first of several wrong bytes: a class of a right context",
        FirstTransitionByte: "first of several wrong bytes: a transition byte",
        FirstClassByte: "first of several wrong bytes: a decision byte for a class",
        FirstVariableByte: "first of several wrong bytes: a decision byte for a variable",
        YearsNotFirst: "first years after the last where another byte of the record is wrong",
        WrongLater: "wrong records after a right one of their section",
        WrongInTwoSections: "wrong records in two sections",
        UnknownAndFollowing: "refused 7 where the following symbol is not in the alphabet",
        FollowingAndRoom: "refused 15 where the output is too short",
        FollowingUnasked: "refused 15 where no entry has a right context",
        FollowingNothing: "refused 15 where the text is empty",
        GroupedInForce: "refused 4 where the entries in force are grouped",
        OtherBreakInForce: "refused 4 where the entries in force break the grouping at a later record",
        OtherFormToDate: "dating refused for a right table of the dated form",
        OtherFormToUndate: "moving back refused for a right table of the old form",
        OtherFormDated: "dating refused for a dated table with a dated record",
        OtherFormAndRoom: "moving refused for the form where the output is too short",
        OtherFormAndWrong: "moving refused for the form where the table is wrong besides",
        WrongAndDated: "moving back refused for a wrong table where a record is dated",
        DatedAndRoom: "refused 17 where the output is too short",
        DatedRecordOnly: "refused 17 at the only record",
        DatedRecordFirst: "refused 17 at the first record of several",
        DatedRecordBetween: "refused 17 at a record between the first and the last",
        DatedRecordLast: "refused 17 at the last record of several",
        DatedByFirstYear: "refused 17 for the first year alone",
        DatedByLastYear: "refused 17 for the last year alone",
        DatedByBoth: "refused 17 for both years",
        DatedByByte18: "refused 17 for the low byte of the first year alone",
        DatedByByte19: "refused 17 for the high byte of the first year alone",
        DatedByByte20: "refused 17 for the low byte of the last year alone",
        DatedByByte21: "refused 17 for the high byte of the last year alone",
        Layout66: "layouts refused at a byte 66",
        LayoutOver66: "layouts refused at a byte over 66",
        LayoutCellOverW: "layouts refused at a cell after W cells of its line",
        LayoutBlankLast: "layouts refused at a blank in column W-1",
        LayoutLineEndsInBlank: "layouts refused at the end of a line that ends in a blank",
        LayoutCellOverP: "layouts refused at a cell after P lines of its page",
        LayoutLineOverP: "layouts refused at a line's end after P lines of its page",
        LayoutPageEndFirst: "layouts refused at a page's end that comes first",
        LayoutPageEndAgain: "layouts refused at a page's end right after another",
        LayoutPageEndInLine: "layouts refused at a page's end inside a line",
        LayoutShortInLine: "layouts that stop short inside a line",
        LayoutShortAfterFullLine: "layouts that stop short after W cells",
        LayoutShortAfterBlank: "layouts that stop short after a blank",
        LayoutShortAfterLine: "layouts that stop short after a line",
        LayoutShortAfterFullPage: "layouts that stop short after P lines",
        LayoutWrongLater: "layouts refused 16 after a whole page",
        LayoutWrongAndRoom: "layouts refused 16 where the output is too short",
        LayoutSizesAndWrong: "layouts refused 5 that are wrong besides",
        LayoutSizesAndRoom: "layouts refused 5 where the output is too short",
        FileLowerCase: "files refused at a lower-case letter",
        FileControl: "files refused at a control character that is no line feed and no form feed",
        FileOtherPrinted: "files refused at another printed character that is not in the chart",
        FileOver127: "files refused at a byte over 127",
        FileCellOverW: "files refused at a cell after W cells of its line",
        FileBlankLast: "files refused at a blank in column W-1",
        FileLineEndsInBlank: "files refused at the end of a line that ends in a blank",
        FileCellOverP: "files refused at a cell after P lines of its page",
        FileLineOverP: "files refused at a line's end after P lines of its page",
        FilePageEndFirst: "files refused at a page's end that comes first",
        FilePageEndAgain: "files refused at a page's end right after another",
        FilePageEndInLine: "files refused at a page's end inside a line",
        FileShortInLine: "files that stop short inside a line",
        FileShortAfterFullLine: "files that stop short after W cells",
        FileShortAfterBlank: "files that stop short after a blank",
        FileShortAfterLine: "files that stop short after a line",
        FileShortAfterFullPage: "files that stop short after P lines",
        FileWrongLater: "files refused 16 after a whole page",
        FileWrongAndRoom: "files refused 16 where the output is too short",
        FileSizesAndWrong: "files refused 5 that are wrong besides",
        FileSizesAndRoom: "files refused 5 where the output is too short",
        FullAlphabet: "tables of 63 alphabet records",
        FullContractions: "tables of 1,199 entries",
        FullContexts: "tables of 5 right contexts",
        FullVariables: "tables of 15 state variables",
        FullDecisions: "tables of 20 decision columns",
        FullClasses: "tables of 40 classes",
        NoEntry: "tables of no entry",
        NoColumn: "tables of no decision column",
        DatedForm: "tables of the dated form",
        DatedFull: "tables of the dated form of 1,199 entries",
        DatedNoEntry: "tables of the dated form of no entry",
        DatedNoneInForce: "tables of which no entry is in force",
        DatedOneYear: "tables with an entry of one year",
        MovedDate: "tables moved to the dated form",
        MovedUndate: "tables moved back to the old form",
        MovedNoEntry: "tables of no entry moved",
        MovedFull: "tables of 1,199 entries moved",
        StampedOld: "stamps of tables of the old form",
        StampedDated: "stamps of tables of the dated form",
        StampedNoEntry: "stamps of tables of no entry",
        StampedFull: "stamps of tables of 1,199 entries",
        StampPastTop: "stamps whose second number goes past the top",
        LayoutEmpty: "layouts of no byte written",
        LayoutPages: "layouts of two pages and more written",
        LayoutFullPage: "layouts with a page of P lines written",
        LayoutFullLine: "layouts with a line of W cells written",
        LayoutEmptyLine: "layouts with an empty line written",
        LayoutEmptyFirst: "layouts with an empty line first on a page written",
        LayoutEmptyLast: "layouts with an empty line last on a page written",
        LayoutBlankFirst: "layouts with a line that starts with a blank written",
        LayoutBlankBeforeLast: "layouts with a blank in column W-2 and a cell after it written",
        LayoutAllCells: "layouts with each of the 64 cells written",
        LayoutOver4000: "layouts over 4,000 bytes written",
        LayoutOver65536: "layouts over 65,536 bytes written",
        FileEmpty: "files of no byte read",
        FilePages: "files of two pages and more read",
        FileFullPage: "files with a page of P lines read",
        FileFullLine: "files with a line of W cells read",
        FileEmptyLine: "files with an empty line read",
        FileEmptyFirst: "files with an empty line first on a page read",
        FileEmptyLast: "files with an empty line last on a page read",
        FileBlankFirst: "files with a line that starts with a blank read",
        FileBlankBeforeLast: "files with a blank in column W-2 and a cell after it read",
        FileAllCells: "files with each of the 64 cells read",
        FileOver4000: "files over 4,000 bytes read",
        FileOver65536: "files over 65,536 bytes read",
        FullText: "texts of 16,384 bytes",
        BarDropped: "bars dropped",
        LineFeedTurned: "line feeds turned into blanks",
        BlankDropped: "blanks dropped from a run",
        SecondBlankKept: "second blanks kept after a period",
        EntryPiece: "pieces of an entry",
        AlphabetPiece: "pieces of an alphabet record",
        YearBeforeFirst: "strings met in the year before the entry's first",
        YearFirst: "strings met in the entry's first year",
        YearLast: "strings met in the entry's last year",
        YearAfterLast: "strings met in the year after the entry's last",
        YearOnly: "strings met in the entry's only year",
        YearsNotYet: "entries passed over whose years have not begun",
        YearsOver: "entries passed over whose years are over",
        Year0: "strings of entries with a last year met in year 0",
        Year65535: "strings of entries with a first year met in year 65,535",
        PassedForLetter: "pieces of an alphabet record where an entry is passed over",
        PassedForSame: "pieces of an entry where one of the same string is passed over",
        PassedForOther: "pieces of an entry where one of another string is passed over",
        ContextRejects: "entries rejected by their right context",
        ContextAtEnd: "right contexts asked past the end of the text",
        FollowingHeld: "right contexts that hold the following symbol's class and not the blank's",
        FollowingNotHeld: "right contexts that hold the blank's class and not the following symbol's",
        DecisionRejects: "entries rejected by the decision table",
        AcceptedByG: "accepted by G",
        AcceptedByY: "accepted by Y",
        RejectedByF: "rejected by F",
        RejectedByN: "rejected by N",
        NoColumnLeft: "rejected with no column left",
        ShiftShorter: "shifts shorter than the string",
        NotLongest: "pieces of an entry while a longer one is admissible",
        EntryPrintsNothing: "pieces whose signs are all 99",
        VariableReset: "variables moved by R",
        VariableSet: "variables moved by S",
        VariableTurned: "variables moved by T",
        VariableKept: "variables kept by -",
        Sign0: "signs 0",
        Sign64: "signs 64",
        Sign70: "signs 70",
        Sign71: "signs 71",
        Sign72: "signs 72",
        Sign73: "signs 73",
        WordOneUnder: "words of W-1 cells",
        WordWhole: "words of exactly W cells, not cut",
        WordCutInTwo: "words cut in two",
        WordCutInMore: "words cut in three parts and more",
        RestOf2: "rests of two cells, the fewest",
        RestOfW: "rests of exactly W cells",
        CutOpensParagraph: "cut words that open a paragraph",
        HyphenAfter36: "words cut after a cell 36 of their own",
        RestEndsIn36: "cut words whose last cell is a 36 of their own",
        ParagraphColumn0: "paragraphs in column 0",
        ParagraphColumn2: "paragraphs in column 2",
        ParagraphWaits: "paragraphs that wait through another format sign",
        LineFull: "lines filled to W exactly",
        LineEndedByWord: "lines ended because the next word does not fit",
        EmptyLine: "empty lines written",
        EmptyLineSuppressed: "empty lines suppressed at the top of a page",
        PageEndedByP: "pages ended by P",
        PageEndedBy73: "pages ended by 73",
        PageEndedByText: "pages ended by the end of the text",
    }
}

/// How often each event happened.
#[derive(Clone, Debug)]
pub struct Notes {
    pub counts: [u64; EVENT_WORDS.len()],
}

impl Notes {
    pub fn new() -> Notes {
        Notes { counts: [0; EVENT_WORDS.len()] }
    }

    pub fn note(&mut self, event: Event) {
        self.counts[event as usize] += 1;
    }

    pub fn add(&mut self, other: &Notes) {
        for (mine, theirs) in self.counts.iter_mut().zip(&other.counts) {
            *mine += theirs;
        }
    }

    /// Only what was wrong, for a case that was refused.
    pub fn add_refused(&mut self, other: &Notes) {
        for event in 0..=Event::FileSizesAndRoom as usize {
            self.counts[event] += other.counts[event];
        }
    }

    /// Notes of a wrong record, number `index` of its section, the rule that is broken alone; where several bytes
    /// are wrong, of what kind the first is.
    pub fn wrong_record(&mut self, index: usize, wrong: &[(usize, Event)]) {
        if index > 0 {
            self.note(Event::WrongLater);
        }
        let of_years = |rule: &Event| {
            [Event::AloneYearsLow, Event::AloneYearsHigh, Event::AloneYearsHighAgainstLow].contains(rule)
        };
        if wrong.len() > 1 && wrong.iter().any(|(_, rule)| of_years(rule)) {
            self.note(Event::YearsNotFirst);
        }
        let (first, rule) = wrong.iter().copied().min_by_key(|(byte, _)| *byte).expect("a byte is wrong");
        if wrong.iter().all(|(_, other)| *other == rule) {
            self.note(rule);
        }
        let alone_there = wrong.iter().filter(|(byte, _)| *byte == first).count() == 1;
        if alone_there && wrong.len() > 1 {
            self.note(first_of_several(rule));
        }
    }

    /// Notes of the first dated record, number `index` of so many, where it stands and by what it
    /// is dated.
    pub fn dated_record(&mut self, index: usize, records: usize, (first, last): (u16, u16)) {
        self.note(match (index, records - 1 - index) {
            (0, 0) => Event::DatedRecordOnly,
            (0, _) => Event::DatedRecordFirst,
            (_, 0) => Event::DatedRecordLast,
            _ => Event::DatedRecordBetween,
        });
        self.note(match (first, last) {
            (_, 65_535) => Event::DatedByFirstYear,
            (0, _) => Event::DatedByLastYear,
            _ => Event::DatedByBoth,
        });
        let ([a, b], [c, d]) = (first.to_le_bytes(), last.to_le_bytes());
        match [a != 0, b != 0, c != 255, d != 255] {
            [true, false, false, false] => self.note(Event::DatedByByte18),
            [false, true, false, false] => self.note(Event::DatedByByte19),
            [false, false, true, false] => self.note(Event::DatedByByte20),
            [false, false, false, true] => self.note(Event::DatedByByte21),
            _ => (),
        }
    }

    /// Notes of an entry whose string begins the rest how the year that is asked lies to its years.
    pub fn year_of_entry(&mut self, year: u16, (first, last): (u16, u16)) {
        let (begins, ends) = (first > 0, last < 65_535);
        let events = [
            (Event::YearBeforeFirst, begins && year == first - 1),
            (Event::YearFirst, begins && year == first),
            (Event::YearLast, ends && year == last),
            (Event::YearAfterLast, ends && year == last + 1),
            (Event::YearOnly, first == last && year == first),
            (Event::YearsNotYet, year < first),
            (Event::YearsOver, year > last),
            (Event::Year0, ends && year == 0),
            (Event::Year65535, begins && year == 65_535),
        ];
        for (event, _) in events.iter().filter(|(_, met)| *met) {
            self.note(*event);
        }
    }

    /// Notes the one event where a file is written from a layout, and the other where a file is read.
    pub fn of_filing(&mut self, filing: Filing, layout: Event, file: Event) {
        self.note(match filing {
            Filing::Write => layout,
            Filing::Read => file,
        });
    }

    /// Whether all these rules are kept; notes the one that is broken alone.
    pub fn kept(&mut self, rules: &[(Event, bool)]) -> bool {
        let mut broken = rules.iter().filter(|(_, kept)| !kept);
        match (broken.next(), broken.next()) {
            (None, _) => true,
            (Some((event, _)), None) => {
                self.note(*event);
                false
            }
            _ => false,
        }
    }
}

/// The event of a byte that breaks this rule and stands before other wrong bytes of its record.
fn first_of_several(rule: Event) -> Event {
    match rule {
        Event::AloneSymbol | Event::AloneBar | Event::AloneRepeated => Event::FirstSymbol,
        Event::AloneLetterClass => Event::FirstLetterClass,
        Event::AloneLength => Event::FirstLength,
        Event::AloneString => Event::FirstString,
        Event::AlonePast => Event::FirstPast,
        Event::AloneNoContext => Event::FirstNoContext,
        Event::AloneContextAtTen => Event::FirstContextAtTen,
        Event::AloneEntryClass => Event::FirstEntryClass,
        Event::AloneShift => Event::FirstShift,
        Event::AloneSign => Event::FirstSign,
        Event::AloneAfter99 => Event::FirstAfter99,
        Event::AloneContextClass => Event::FirstContextClass,
        Event::AloneTransitionByte => Event::FirstTransitionByte,
        Event::AloneClassByte => Event::FirstClassByte,
        Event::AloneVariableByte => Event::FirstVariableByte,
        // An alphabet record's sign is its last byte, and the other rules are of the frame.
        _ => unreachable!("{rule:?} stands before no byte of its record"),
    }
}
