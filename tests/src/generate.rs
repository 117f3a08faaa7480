//! Random cases from a seed: sound tables and damaged ones, of both forms, years at every edge of
//! their entries', texts dense in the table's own strings, words about as wide as a line or as
//! some, symbols that follow the texts, widths and page lengths across and beyond their limits,
//! tables to be moved from one form to the other, tables to be stamped, layouts and files to be
//! written and read (src/files.rs), output rooms around what is needed. The same seed gives the same
//! case on every machine. Most cases are small; a few reach every limit.

use crate::counts::Notes;
use crate::files::file_case;
use crate::ink::{marking, source};
use crate::readable::{making, showing};
use crate::reference::{emboss_planted, file_pages, move_table, stamp, Answer, Asked, Filing, Planted, Way};
use crate::table::{Entry, Table, ALWAYS};

/// The limits that the byte form of a case sets.
pub const LARGEST_IMAGE: usize = 65_536;
pub const LARGEST_TEXT: usize = 163_840;
pub const LARGEST_ROOM: usize = 163_840;

/// The longest text that the whole call is given.
const LONGEST_TEXT: usize = 17_000;

/// Tables of this many entries and more have an alphabet of more than the blank and the period.
const MANY_ENTRIES: usize = 41;

/// What is asked: the whole call, to move the table from one form to the other, or its stamp; to
/// write a file of the text, which is a layout, or to read it as a file; to show the table, or to make
/// one of the text; to mark the text, which is inkprint, or where byte W of its marked text comes from.
/// Movers, stamp and showing don't look at text, following symbol, year and sizes, and a stamp has no
/// output; the files don't look at image, following symbol and year, making and marking look at the text
/// alone, and a source has no output.
#[derive(Clone, Copy, Debug, PartialEq, Eq)]
pub enum Question {
    Emboss = 0,
    Date = 1,
    Undate = 2,
    Stamp = 3,
    WriteFile = 4,
    ReadFile = 5,
    Show = 6,
    Make = 7,
    Mark = 8,
    Source = 9,
}

impl Question {
    /// The question of a number in the byte form of a case.
    pub fn of(number: usize) -> Option<Question> {
        let questions = [
            Question::Emboss,
            Question::Date,
            Question::Undate,
            Question::Stamp,
            Question::WriteFile,
            Question::ReadFile,
            Question::Show,
            Question::Make,
            Question::Mark,
            Question::Source,
        ];
        questions.get(number).copied()
    }

    /// Whether a file is written or read, and which.
    pub fn filing(self) -> Option<Filing> {
        match self {
            Question::WriteFile => Some(Filing::Write),
            Question::ReadFile => Some(Filing::Read),
            _ => None,
        }
    }
}

/// What is lent to one call.
#[derive(Clone, Debug)]
pub struct Case {
    pub seed: u64,
    pub kinds: Vec<Kind>,
    pub question: Question,
    pub image: Vec<u8>,
    pub text: Vec<u8>,
    pub following: u8,
    pub year: u16,
    pub w: u64,
    pub p: u64,
    pub room: usize,
}

impl Case {
    /// The reference's answer, with an error planted or with none.
    pub fn answer(&self, planted: Planted, out: &mut [u8], notes: &mut Notes) -> Answer {
        let Case { following, year, w, p, .. } = *self;
        let (image, text) = (&self.image[..], &self.text[..]);
        match self.question {
            Question::Emboss => {
                emboss_planted(planted, Asked { image, text, following, year, w, p }, out, notes)
            }
            Question::Date => move_table(planted, Way::Date, image, out, notes),
            Question::Undate => move_table(planted, Way::Undate, image, out, notes),
            Question::Stamp => stamp(planted, image, notes),
            Question::WriteFile => file_pages(planted, Filing::Write, text, (w, p), out, notes),
            Question::ReadFile => file_pages(planted, Filing::Read, text, (w, p), out, notes),
            Question::Show => showing(image, out),
            Question::Make => making(text, out),
            Question::Mark => marking(text, out),
            Question::Source => source(text, w),
        }
    }
}

/// The splitmix64 generator.
pub struct Random(u64);

impl Random {
    pub fn new(seed: u64) -> Random {
        Random(seed)
    }

    pub fn next(&mut self) -> u64 {
        self.0 = self.0.wrapping_add(0x9E37_79B9_7F4A_7C15);
        let mut mixed = self.0;
        mixed = (mixed ^ (mixed >> 30)).wrapping_mul(0xBF58_476D_1CE4_E5B9);
        mixed = (mixed ^ (mixed >> 27)).wrapping_mul(0x94D0_49BB_1331_11EB);
        mixed ^ (mixed >> 31)
    }

    /// A number from `low` to `high`, both included.
    pub fn between(&mut self, low: usize, high: usize) -> usize {
        low + (self.next() % (high - low + 1) as u64) as usize
    }

    /// True once in `times`.
    pub fn once_in(&mut self, times: u64) -> bool {
        self.next() % times == 0
    }

    pub fn any<T: Copy>(&mut self, choices: &[T]) -> T {
        choices[self.between(0, choices.len() - 1)]
    }

    pub fn shuffle<T>(&mut self, list: &mut [T]) {
        for last in (1..list.len()).rev() {
            list.swap(last, self.between(0, last));
        }
    }
}

/// The seed of case number `number` in the run of `seed`.
pub fn case_seed(seed: u64, number: u64) -> u64 {
    Random::new(seed ^ number.wrapping_mul(0xD134_2543_DE82_EF95)).next()
}

counted! {
    /// What a case is made of: one kind of question, table, image, text, following symbol, year,
    /// size and room each; of a file one kind of question, pages, damage, size and room each.
    Kind, KIND_WORDS {
        AskedEmboss: "the whole call asked",
        AskedDate: "tables to be moved to the dated form",
        AskedUndate: "tables to be moved back to the old form",
        AskedStamp: "tables to be stamped",
        AskedWrite: "layouts to be written as files",
        AskedRead: "files to be read",
        OldForm: "tables of the old form",
        DatedMixed: "tables of the dated form, entries with years and without",
        DatedAlways: "tables of the dated form whose entries are all always in force",
        DatedOne: "tables of the dated form of which one entry has years",
        SmallTable: "tables of 0 to 8 entries",
        MiddleTable: "tables of 9 to 40 entries",
        LargeTable: "tables of 41 to 300 entries",
        HugeTable: "tables of 301 to 1,199 entries",
        Sound: "images of sound tables",
        BeyondLimit: "images with one section or number beyond its limit",
        NoBlank: "images without a record for the blank",
        NoBlankUngrouped: "images without one and with entries in any order",
        WrongEntry: "images with a field of an entry on its limit or beyond",
        WrongLetter: "images with a field of a letter on its limit or beyond",
        WrongYears: "images with the years of an entry on their limit or beyond",
        AnyOrder: "images with entries in any order",
        UngroupedByOthers: "images whose grouping an entry breaks that is not in force",
        OldAsDated: "images of 18-byte records that end in 52",
        DatedAsOld: "images of 22-byte records that end in 51",
        OtherMarkWhole: "images whose records are whole by the other form's size too",
        OtherMarkNoEntry: "images of no entry with the other form's mark",
        WrongRule: "images with another byte in a context, transition or decision",
        WrongEntryTwice: "images with two fields and more of an entry on their limits or beyond",
        BytesOfRecord: "images with two bytes and more of a record changed",
        TwoRecords: "images with a byte changed in each of two sections",
        ByteChanged: "images with one byte of a section changed",
        TrailerByteChanged: "images with one byte of the trailer changed",
        Exchanged: "images with two records exchanged",
        CutShort: "images cut short",
        Lengthened: "images lengthened",
        ByteMoved: "images with a byte lost or won in a section",
        DistanceMoved: "images with a distance moved by a record",
        TwiceDamaged: "images damaged twice",
        TextOf0: "texts of 0 to 2 bytes",
        TextOf3: "texts of 3 to 400 bytes",
        TextOf401: "texts of 401 to 16,379 bytes",
        TextOf16380: "texts of 16,380 to 16,384 bytes",
        TextOver: "texts over 16,384 bytes",
        StrangeCharacter: "texts with any byte put in",
        WordAtMargin: "texts with a word put in that is cut, or just isn't",
        FollowingLetter: "symbols of the alphabet following",
        FollowingBlank: "blanks following",
        FollowingOther: "symbols 33 to 126 outside the alphabet following",
        FollowingLineFeed: "line feeds following",
        FollowingBar: "bars following",
        FollowingByte0: "bytes 0 following",
        FollowingByte255: "bytes 255 following",
        FollowingByte: "other bytes following",
        YearBeforeFirst: "asked in the year before an entry's first",
        YearFirst: "asked in an entry's first year",
        YearLast: "asked in an entry's last year",
        YearAfterLast: "asked in the year after an entry's last",
        Year0: "asked in year 0",
        Year65535: "asked in year 65,535",
        YearExchanged: "asked in an entry's year with its bytes exchanged",
        YearOther: "asked in another year",
        SizesWithin: "W and P within their limits",
        SizesBeyond: "W or P beyond its limits, both below 256",
        SizesFar: "W or P of 256 and more",
        RoomNotAsked: "rooms of refused cases",
        RoomShort: "rooms shorter by two bytes and more",
        RoomOneShort: "rooms shorter by one byte",
        RoomExact: "rooms of the bytes needed",
        RoomOneMore: "rooms longer by one byte",
        RoomAmple: "rooms longer by two bytes and more",
        OverShort: "rooms too short where more than 65,536 bytes are needed",
        OverEnough: "rooms long enough where more than 65,536 bytes are needed",
        DateNotAsked: "rooms of refused moves to the dated form",
        DateShort: "rooms shorter by two bytes and more for the dated form",
        DateOneShort: "rooms shorter by one byte for the dated form",
        DateExact: "rooms of the bytes needed for the dated form",
        DateOneMore: "rooms longer by one byte for the dated form",
        DateAmple: "rooms longer by two bytes and more for the dated form",
        DateOfImage: "rooms of the image's own length for the dated form",
        UndateNotAsked: "rooms of refused moves back",
        UndateShort: "rooms shorter by two bytes and more for the old form",
        UndateOneShort: "rooms shorter by one byte for the old form",
        UndateExact: "rooms of the bytes needed for the old form",
        UndateOneMore: "rooms longer by one byte for the old form",
        UndateAmple: "rooms longer by two bytes and more for the old form",
        StampNone: "rooms of no byte beside a stamp",
        StampSome: "rooms beside a stamp, to be left as lent",
        PagesNone: "no page",
        PagesFew: "pages of lines of any width",
        PagesFull: "full pages of full lines",
        PagesAllCells: "pages with each cell",
        PagesMany: "pages of several thousand bytes",
        PagesHuge: "pages of more than 65,536 bytes",
        PagesEmbossedWrite: "layouts as the whole call wrote them",
        PagesEmbossedRead: "files of layouts as the whole call wrote them",
        PagesSound: "pages without damage",
        PagesOtherByte: "pages with a byte put in that stands for nothing",
        PagesLineOver: "pages with a line made longer than W",
        PagesBlankLast: "pages with a blank put in column W-1",
        PagesLineBlank: "pages with a blank put at the end of a line",
        PagesOver: "pages made longer than P lines",
        PagesNoLine: "pages with one of no line put in",
        PagesEndInLine: "pages with a page's end put in a line",
        PagesCutShort: "pages cut short",
        PagesGoOn: "pages with text after the last",
        PagesByteChanged: "pages with any byte changed, put in or lost",
        PagesLowered: "files in lower case throughout",
        PagesCarriageReturns: "files with a carriage return before each line feed",
        PagesOtherKind: "layouts to be read, or files to be written",
        WriteNotAsked: "rooms of layouts refused",
        WriteNone: "rooms of no byte for a file",
        WriteShort: "rooms shorter by two bytes and more for a file",
        WriteOneShort: "rooms shorter by one byte for a file",
        WriteExact: "rooms of the bytes needed for a file",
        WriteOneMore: "rooms longer by one byte for a file",
        WriteAmple: "rooms longer by two bytes and more for a file",
        ReadNotAsked: "rooms of files refused",
        ReadNone: "rooms of no byte for a layout",
        ReadShort: "rooms shorter by two bytes and more for a layout",
        ReadOneShort: "rooms shorter by one byte for a layout",
        ReadExact: "rooms of the bytes needed for a layout",
        ReadOneMore: "rooms longer by one byte for a layout",
        ReadAmple: "rooms longer by two bytes and more for a layout",
    }
}

/// The case of a seed.
pub fn case(seed: u64) -> Case {
    let random = &mut Random::new(seed);
    let mut kinds = vec![];
    let question = question(random, &mut kinds);
    if let Some(filing) = question.filing() {
        return file_case(random, seed, question, filing, kinds);
    }
    let form = form(random, question);
    let (table, year, image, mut text) = if question == Question::Emboss && random.once_in(200) {
        let (table, text) = much_output(random, form);
        kinds.push(Kind::Sound);
        let year = year(random, &table, &mut kinds);
        let image = table.image();
        (table, year, image, text)
    } else {
        let mut table = sound_table(random, form);
        // Equal strings may repeat.
        let seldom = if question == Question::Stamp { 12 } else { 40 };
        if question != Question::Emboss && !table.entries.is_empty() && random.once_in(seldom) {
            table.entries.resize(1199, table.entries[table.entries.len() - 1].clone());
        }
        let year = year(random, &table, &mut kinds);
        let image = image(random, &table, year, &mut kinds);
        let text = text(random, &table, &mut kinds);
        (table, year, image, text)
    };
    let with_years = table.entries.iter().filter(|entry| entry.years != ALWAYS).count();
    kinds.push(match with_years {
        _ if !table.dated => Kind::OldForm,
        0 => Kind::DatedAlways,
        1 => Kind::DatedOne,
        _ => Kind::DatedMixed,
    });
    kinds.push(match table.entries.len() {
        0..=8 => Kind::SmallTable,
        9..=40 => Kind::MiddleTable,
        41..=300 => Kind::LargeTable,
        _ => Kind::HugeTable,
    });
    kinds.push(match text.len() {
        0..=2 => Kind::TextOf0,
        3..=400 => Kind::TextOf3,
        401..=16_379 => Kind::TextOf401,
        16_380..=16_384 => Kind::TextOf16380,
        _ => Kind::TextOver,
    });
    let (w, p) = sizes(random, &mut kinds);
    word_at_margin(random, &table, w, &mut text, &mut kinds);
    end_in_entry(random, &table, &mut text);
    let following = following(random, &table, &mut kinds);
    let mut case = Case { seed, kinds, question, image, text, following, year, w, p, room: 0 };
    case.room = room(random, &mut case);
    case
}

/// A sound table for a readable text. Now and then a symbol of it is one that the form itself uses.
pub fn some_table(random: &mut Random) -> Table {
    let form = form(random, Question::Make);
    let mut table = sound_table(random, form);
    for new in *b"#_\\" {
        let has = table.alphabet.iter().any(|letter| letter[0] == new);
        let chosen = random.between(0, table.alphabet.len() - 1);
        let old = table.alphabet[chosen][0];
        if has || old == b' ' || !random.once_in(4) {
            continue;
        }
        table.alphabet[chosen][0] = new;
        for entry in &mut table.entries {
            for symbol in &mut entry.string {
                *symbol = if *symbol == old { new } else { *symbol };
            }
        }
    }
    table
}

/// The image of such a table, mostly sound.
pub fn some_image(random: &mut Random) -> Vec<u8> {
    let table = some_table(random);
    if random.once_in(4) {
        return image(random, &table, 65_535, &mut vec![]);
    }
    table.image()
}

/// What is asked: mostly the whole call.
fn question(random: &mut Random, kinds: &mut Vec<Kind>) -> Question {
    let (kind, question) = match random.between(0, 99) {
        0..=79 => (Kind::AskedEmboss, Question::Emboss),
        80..=84 => (Kind::AskedDate, Question::Date),
        85..=89 => (Kind::AskedUndate, Question::Undate),
        90..=92 => (Kind::AskedStamp, Question::Stamp),
        93..=95 => (Kind::AskedWrite, Question::WriteFile),
        _ => (Kind::AskedRead, Question::ReadFile),
    };
    kinds.push(kind);
    question
}

// Tables

/// The form of a table and how many of its entries have years.
#[derive(Clone, Copy, Debug, PartialEq, Eq)]
enum Form {
    Old,
    Mixed,
    Always,
    One,
}

/// The form of a case's table: for a mover mostly one that it takes, for moving back mostly one
/// without years or with few.
fn form(random: &mut Random, question: Question) -> Form {
    match (question, random.between(0, 19)) {
        (Question::Emboss | Question::Stamp, 0..=8) => Form::Old,
        (Question::Emboss | Question::Stamp, 9..=17) => Form::Mixed,
        (Question::Emboss | Question::Stamp, 18) => Form::Always,
        (Question::Emboss | Question::Stamp, _) => Form::One,
        (Question::Date, 0..=16) => Form::Old,
        (Question::Date, 17) => Form::Mixed,
        (Question::Date, _) => Form::Always,
        (Question::Undate, 0..=8) => Form::Always,
        (Question::Undate, 9..=13) => Form::One,
        (Question::Undate, 14..=16) => Form::Mixed,
        (Question::Undate, _) => Form::Old,
        (Question::Show | Question::Make, 0..=6) => Form::Old,
        (Question::Show | Question::Make, 7..=17) => Form::Mixed,
        (Question::Show | Question::Make, 18) => Form::Always,
        (Question::Show | Question::Make, _) => Form::One,
        (Question::WriteFile | Question::ReadFile, _) => unreachable!("a file has no table"),
        (Question::Mark | Question::Source, _) => unreachable!("inkprint has no table"),
    }
}

/// The image of a sound table, in three cases of ten with something wrong in it.
fn image(random: &mut Random, sound: &Table, year: u16, kinds: &mut Vec<Kind>) -> Vec<u8> {
    let mut table = sound.clone();
    let (kind, mut image) = match random.between(0, 99) {
        0 => other_mark(random, &mut table),
        1..=2 if table.dated && !table.entries.is_empty() => {
            let chosen = random.between(0, table.entries.len() - 1);
            table.entries[chosen].years = any_years(random);
            (Kind::WrongYears, table.image())
        }
        3..=4 if table.dated && table.entries.len() > 1 => {
            ungroup_by_another(random, &mut table, year);
            (Kind::UngroupedByOthers, table.image())
        }
        5 if table.entries.len() > 1 => {
            random.shuffle(&mut table.entries);
            (Kind::AnyOrder, table.image())
        }
        0..=67 => {
            kinds.push(Kind::Sound);
            return table.image();
        }
        68..=70 => {
            beyond_a_limit(random, &mut table);
            (Kind::BeyondLimit, table.image())
        }
        71..=72 => {
            table.alphabet.retain(|letter| letter[0] != b' ');
            let in_any_order = random.once_in(3);
            if in_any_order || random.once_in(2) {
                table.entries.retain(|entry| !entry.string.contains(&b' '));
            }
            if in_any_order {
                random.shuffle(&mut table.entries);
            }
            (if in_any_order { Kind::NoBlankUngrouped } else { Kind::NoBlank }, table.image())
        }
        73..=76 if !table.entries.is_empty() => {
            let chosen = random.between(0, table.entries.len() - 1);
            wrong_entry(random, &mut table, chosen);
            (Kind::WrongEntry, table.image())
        }
        77..=79 if !table.entries.is_empty() => {
            let chosen = random.between(0, table.entries.len() - 1);
            for _ in 0..random.between(2, 4) {
                wrong_entry(random, &mut table, chosen);
            }
            (Kind::WrongEntryTwice, table.image())
        }
        80..=81 => {
            wrong_letter(random, &mut table);
            (Kind::WrongLetter, table.image())
        }
        82..=84 => {
            wrong_rule(random, &mut table);
            (Kind::WrongRule, table.image())
        }
        _ => damaged(random, &table),
    };
    if !image.is_empty() && random.once_in(8) {
        let at = random.between(0, image.len() - 1);
        image[at] = one_byte(random, image[at]);
        kinds.push(Kind::TwiceDamaged);
    } else {
        kinds.push(kind);
    }
    image
}

/// The image with the last byte of the other form, and the records as they were; of some tables so
/// many that their bytes are whole records of the other size too.
fn other_mark(random: &mut Random, table: &mut Table) -> (Kind, Vec<u8>) {
    let whole = if table.dated { 9 } else { 11 };
    if random.once_in(2) {
        table.entries.truncate(table.entries.len() / whole * whole);
    }
    let mut image = table.image();
    *image.last_mut().expect("the trailer's last byte") = if table.dated { 51 } else { 52 };
    let kind = match table.entries.len() {
        0 => Kind::OtherMarkNoEntry,
        entries if entries % whole == 0 => Kind::OtherMarkWhole,
        _ if table.dated => Kind::DatedAsOld,
        _ => Kind::OldAsDated,
    };
    (kind, image)
}

/// One entry more that isn't in force in this year, a copy of another, put anywhere: mostly it
/// breaks the grouping, and those in force are grouped.
fn ungroup_by_another(random: &mut Random, table: &mut Table, year: u16) {
    let chosen = random.between(0, table.entries.len() - 1);
    let mut another = table.entries[chosen].clone();
    another.years = match year {
        0 => (1, 65_535),
        65_535 => (0, 65_534),
        _ => random.any(&[(0, year - 1), (year + 1, 65_535)]),
    };
    let place = random.between(0, table.entries.len());
    table.entries.insert(place, another);
    table.entries.truncate(1199);
}

/// Years on their limit or just beyond: the first after the last by one of its bytes or by both, or
/// not after it though it would be with its bytes exchanged, or equal to it.
fn any_years(random: &mut Random) -> (u16, u16) {
    let (low, lower) = (random.between(1, 255) as u16, random.between(0, 255) as u16);
    let (low, lower) = (low, lower % low);
    let (high, less) = (random.between(1, 255) as u16, random.between(0, 255) as u16);
    let (high, less) = (high * 256, less % high * 256);
    match random.between(0, 11) {
        0..=1 => (high + low, high + lower),
        2..=3 => (high + low, less + lower),
        4..=5 => (high + lower, less + low),
        6 => (less + low, high + lower),
        7 => (high + low, high + low),
        8 => (high + lower, high + low),
        9 => random.any(&[(65_535, 0), (1, 0), (65_535, 65_534), (256, 255), (256, 0), (257, 256)]),
        10 => random.any(&[(0, 0), (65_535, 65_535), (0, 1), (255, 256), (65_534, 65_535), ALWAYS]),
        _ => (random.next() as u16, random.next() as u16),
    }
}

/// Right years for an entry, from the few in which the tables of a shop change.
fn right_years(random: &mut Random, editions: &[u16]) -> (u16, u16) {
    let (one, other) = (random.any(editions), random.any(editions));
    match random.between(0, 15) {
        0..=4 => ALWAYS,
        5..=7 => (0, one),
        8..=10 => (one, 65_535),
        11 => (one, one),
        _ => (one.min(other), one.max(other)),
    }
}

/// Years of which a few bytes, mostly one, differ from those of an entry that is always in force.
fn hardly_dated(random: &mut Random) -> (u16, u16) {
    let [mut a, mut b, mut c, mut d] = [0, 0, 255, 255];
    let other = random.between(1, 254) as u8;
    match random.between(0, 5) {
        0 => a = other,
        1 => b = other,
        2 => c = other,
        3 => d = other,
        4 => (a, c) = (other, other),
        _ => (b, d) = (other, other),
    }
    (u16::from_le_bytes([a, b]), u16::from_le_bytes([c, d]))
}

/// Gives the entries of a table of the dated form their years.
fn give_years(random: &mut Random, form: Form, entries: &mut [Entry]) {
    let near = [0, 1, 255, 256, 257, 1931, 1932, 2015, 2016, 65_279, 65_280, 65_534, 65_535];
    let editions: Vec<u16> = (0..random.between(1, 4))
        .map(|_| if random.once_in(2) { random.any(&near) } else { random.next() as u16 })
        .collect();
    match form {
        Form::Mixed => {
            for entry in entries {
                entry.years = right_years(random, &editions);
            }
        }
        Form::One if !entries.is_empty() => {
            let last = entries.len() - 1;
            let between = random.between(0, last);
            entries[random.any(&[0, between, last])].years = hardly_dated(random);
        }
        _ => (),
    }
}

/// The year that is asked: mostly one at an edge of an entry's years.
fn year(random: &mut Random, table: &Table, kinds: &mut Vec<Kind>) -> u16 {
    let dated: Vec<&Entry> = table.entries.iter().filter(|entry| entry.years != ALWAYS).collect();
    let (kind, year) = match random.between(0, 19) {
        0..=15 if !dated.is_empty() => {
            let (first, last) = random.any(&dated).years;
            match random.between(0, 8) {
                0..=1 if first > 0 => (Kind::YearBeforeFirst, first - 1),
                2..=3 => (Kind::YearFirst, first),
                4..=5 => (Kind::YearLast, last),
                6..=7 if last < 65_535 => (Kind::YearAfterLast, last + 1),
                _ => (Kind::YearExchanged, random.any(&[first, last]).swap_bytes()),
            }
        }
        16 => (Kind::Year0, 0),
        17 => (Kind::Year65535, 65_535),
        _ => (Kind::YearOther, random.next() as u16),
    };
    kinds.push(kind);
    year
}

fn sound_table(random: &mut Random, form: Form) -> Table {
    let classes = match random.between(0, 9) {
        0..=6 => random.between(1, 6),
        7..=8 => random.between(1, 40),
        _ => random.any(&[1, 39, 40]),
    };
    let variables = match random.between(0, 9) {
        0..=6 => random.between(0, 3),
        7..=8 => random.between(0, 15),
        _ => random.any(&[0, 14, 15]),
    };
    let entries = match random.between(0, 999) {
        0..=599 => random.between(0, 8),
        600..=949 => random.between(5, 40),
        950..=984 => random.between(30, 300),
        985..=992 => random.between(300, 1199),
        _ => random.any(&[1197, 1198, 1199, 1199]),
    };
    let alphabet = alphabet(random, classes, entries);
    let contexts: Vec<[u8; 4]> =
        (0..random.between(0, 5)).map(|_| [0; 4].map(|_| random.between(1, classes) as u8)).collect();
    let symbols: Vec<u8> = alphabet.iter().map(|letter| letter[0]).collect();
    let plain = random.once_in(4);
    let mut entries: Vec<Entry> = grouped_strings(random, &symbols, entries)
        .into_iter()
        .map(|string| entry(random, string, classes, contexts.len(), plain))
        .collect();
    give_years(random, form, &mut entries);
    let transitions = (0..variables)
        .map(|_| (0..classes).map(|_| random.any(b"RSTRS---")).collect())
        .collect();
    Table {
        dated: form != Form::Old,
        classes: classes as u8,
        variables: variables as u8,
        alphabet,
        entries,
        contexts,
        transitions,
        decisions: decisions(random, classes, variables),
    }
}

fn alphabet(random: &mut Random, classes: usize, entries: usize) -> Vec<[u8; 3]> {
    let mut symbols: Vec<u8> = (33..=126).filter(|symbol| *symbol != b'|' && *symbol != b'.').collect();
    random.shuffle(&mut symbols);
    let least = if entries >= MANY_ENTRIES { 4 } else { 0 };
    let letters = match random.between(0, 9) {
        0..=6 => random.between(least, 8),
        7..=8 => random.between(least, 40),
        _ => random.any(&[60, 61]),
    };
    symbols.truncate(letters);
    symbols.push(b' ');
    if !random.once_in(6) {
        symbols.push(b'.');
    }
    random.shuffle(&mut symbols);
    let odd = random.once_in(3);
    symbols
        .into_iter()
        .map(|symbol| {
            let sign = match symbol {
                b' ' if !random.once_in(8) => random.any(&[0, 64]),
                _ if odd && random.once_in(4) => random.any(&[0, 64, 99]),
                _ => random.between(1, 63) as u8,
            };
            [symbol, random.between(1, classes) as u8, sign]
        })
        .collect()
}

/// So many strings, some equal and some beginning others, in a random order that keeps the grouping.
fn grouped_strings(random: &mut Random, symbols: &[u8], count: usize) -> Vec<Vec<u8>> {
    // In some tables the last string begins with a character that begins no other, so that none stands before it.
    if count > 0 && symbols.len() > 1 && random.once_in(3) {
        let mut last = vec![symbols[0]];
        for _ in 0..random.between(0, 3) {
            last.push(random.any(symbols));
        }
        let mut strings = grouped_strings(random, &symbols[1..], count - 1);
        strings.push(last);
        return strings;
    }
    let few = random.between(1, symbols.len().min(if count >= MANY_ENTRIES { 12 } else { 4 }));
    let mut strings: Vec<Vec<u8>> = vec![];
    while strings.len() < count {
        let from = if random.once_in(3) { symbols } else { &symbols[..few] };
        let mut string: Vec<u8> = match random.between(0, 7) {
            0 if !strings.is_empty() => {
                let other = random.between(0, strings.len() - 1);
                strings[other].clone()
            }
            1..=3 if !strings.is_empty() => {
                let other = random.between(0, strings.len() - 1);
                let length = strings[other].len();
                let kept = random.between(1, length);
                strings[other][..kept].to_vec()
            }
            _ => vec![random.any(from)],
        };
        let length = match random.between(0, 15) {
            0 => 10,
            1..=2 => random.between(1, 10),
            _ => random.between(1, 4),
        };
        if !random.once_in(4) {
            while string.len() < length {
                string.push(random.any(from));
            }
        }
        strings.push(string);
    }
    arrange(random, strings, 0)
}

/// Strings that agree in their first `depth` characters, in a random order that keeps the grouping: those
/// that end here stand alone, the others by their next character, and these blocks are shuffled.
fn arrange(random: &mut Random, strings: Vec<Vec<u8>>, depth: usize) -> Vec<Vec<u8>> {
    let mut blocks: Vec<(Option<u8>, Vec<Vec<u8>>)> = vec![];
    for string in strings {
        let next = string.get(depth).copied();
        match blocks.iter_mut().find(|(character, _)| next.is_some() && *character == next) {
            Some((_, block)) => block.push(string),
            None => blocks.push((next, vec![string])),
        }
    }
    random.shuffle(&mut blocks);
    blocks
        .into_iter()
        .flat_map(|(next, block)| if next.is_some() { arrange(random, block, depth + 1) } else { block })
        .collect()
}

fn entry(random: &mut Random, string: Vec<u8>, classes: usize, contexts: usize, plain: bool) -> Entry {
    let length = string.len();
    let context = if length < 10 && contexts > 0 && random.once_in(3) { random.between(1, contexts) } else { 0 };
    let shift = if random.once_in(3) { random.between(1, length) } else { length };
    let mut signs = [99; 4];
    let least = if random.once_in(4) { 0 } else { 1 };
    let printed = random.between(least, 4);
    for sign in &mut signs[..printed] {
        *sign = match random.between(0, 19) {
            0..=1 if !plain => random.any(&[0, 64]),
            2..=5 if !plain => random.any(&[70, 71, 72, 73]),
            _ => random.between(1, 63) as u8,
        };
    }
    let class = random.between(1, classes) as u8;
    Entry { string, context: context as u8, class, shift: shift as u8, signs, years: ALWAYS }
}

fn decisions(random: &mut Random, classes: usize, variables: usize) -> Vec<Vec<u8>> {
    let columns = match random.between(0, 9) {
        0..=6 => random.between(1, 4),
        7..=8 => random.between(0, 20),
        _ => random.any(&[0, 19, 20]),
    };
    // The more columns, the fewer of them decide, so that the last one is reached.
    let mut bytes = b"GFYYYNNN".to_vec();
    bytes.resize(8 + 2 * columns, b'-');
    (0..columns)
        .map(|column| {
            let bytes = if column + 1 == columns { b"GGGGYN-F" } else { bytes.as_slice() };
            let of_classes: Vec<u8> = (0..classes).map(|_| random.any(bytes)).collect();
            let of_variables: Vec<u8> = (0..variables).map(|_| random.any(b"YN----")).collect();
            [of_classes, of_variables].concat()
        })
        .collect()
}

/// One section, or one number of the trailer, just beyond its limit, and all else as it has to be.
fn beyond_a_limit(random: &mut Random, table: &mut Table) {
    let (classes, variables) = (table.classes as usize, table.variables as usize);
    match random.between(0, 8) {
        0 => table.alphabet.clear(),
        1 => {
            let mut symbol = 32;
            while table.alphabet.len() < 64 {
                if symbol != b'|' && table.alphabet.iter().all(|letter| letter[0] != symbol) {
                    table.alphabet.push([symbol, 1, 1]);
                }
                symbol += 1;
            }
        }
        2 if random.once_in(2) => {
            let signs = [99; 4];
            let last = Entry { string: vec![b' '], context: 0, class: 1, shift: 1, signs, years: ALWAYS };
            table.entries.resize(1200, last);
        }
        2 | 3 => table.contexts.resize(6, [1; 4]),
        4 => table.decisions.resize(21, vec![b'-'; classes + variables]),
        5 => table.transitions.push(vec![b'-'; classes]),
        6 => reshape(table, classes, 16),
        7 => reshape(table, 41, variables),
        _ => {
            table.decisions.clear();
            reshape(table, 0, 0);
        }
    }
}

/// The same table with other numbers of classes and variables.
fn reshape(table: &mut Table, classes: usize, variables: usize) {
    let before = table.classes as usize;
    table.transitions.resize(variables, vec![]);
    table.transitions.iter_mut().for_each(|transition| transition.resize(classes, b'-'));
    for column in &mut table.decisions {
        let mut of_variables = column.split_off(before);
        column.resize(classes, b'-');
        of_variables.resize(variables, b'-');
        column.append(&mut of_variables);
    }
    table.classes = classes as u8;
    table.variables = variables as u8;
}

/// One field of one alphabet record on, or just beyond, its limit.
fn wrong_letter(random: &mut Random, table: &mut Table) {
    let chosen = random.between(0, table.alphabet.len() - 1);
    let other = random.between(0, table.alphabet.len() - 1);
    let (symbol, classes) = (table.alphabet[other][0], table.classes);
    let letter = &mut table.alphabet[chosen];
    match random.between(0, 2) {
        0 => letter[0] = random.any(&[symbol, symbol, b'|', b'|', 0, 10, 31, 32, 126, 127, 255]),
        1 => letter[1] = random.any(&[0, 1, classes, classes + 1, 255]),
        _ => letter[2] = random.any(&[0, 64, 65, 70, 73, 98, 99, 100, 255]),
    }
}

/// One field of this contraction record on, or just beyond, its limit.
fn wrong_entry(random: &mut Random, table: &mut Table, chosen: usize) {
    let contexts = table.contexts.len() as u8;
    let classes = table.classes;
    let entry = &mut table.entries[chosen];
    let length = entry.string.len() as u8;
    match random.between(0, 8) {
        8 => entry.years = any_years(random),
        0 => entry.class = random.any(&[0, 1, classes, classes + 1, 255]),
        1 => entry.shift = random.any(&[0, 0, 1, length, length + 1, length + 1, 255]),
        2 => entry.context = random.any(&[0, contexts, contexts + 1, 255]),
        3 => {
            let character = entry.string[0];
            entry.string.resize(10, character);
            entry.context = random.any(&[0, 1, contexts, contexts]);
        }
        // The length byte says 11, and the eleventh character gives way to the context.
        4 => {
            let character = entry.string[0];
            entry.string.resize(11, character);
            entry.context = 0;
        }
        5..=6 => entry.signs[random.between(0, 3)] = random.any(&[0, 64, 65, 69, 70, 73, 74, 98, 99, 100]),
        _ => {
            entry.signs = [1, 1, 1, 1];
            entry.signs[random.between(0, 3)] = 99;
            entry.signs[random.between(0, 3)] = 99;
        }
    }
}

/// One byte of a right context, a transition or a decision record: for a context a class on, or just beyond, its
/// limit, else a byte that some of these records may have.
fn wrong_rule(random: &mut Random, table: &mut Table) {
    let (classes, variables) = (table.classes as usize, table.variables as usize);
    let (records, byte) = match random.between(0, 3) {
        0 if !table.contexts.is_empty() => {
            let chosen = random.between(0, table.contexts.len() - 1);
            let class = random.any(&[0, 1, classes, classes + 1, 255]);
            table.contexts[chosen][random.between(0, 3)] = class as u8;
            return;
        }
        1 => (&mut table.transitions, random.between(0, classes - 1)),
        2 if variables > 0 => (&mut table.decisions, classes + random.between(0, variables - 1)),
        _ => (&mut table.decisions, random.between(0, classes - 1)),
    };
    if !records.is_empty() {
        let chosen = random.between(0, records.len() - 1);
        records[chosen][byte] = random.any(b"GFYNRST- ");
    }
}

/// The image of a sound table, damaged in one of its bytes or in some, in its records, its length or its distances.
fn damaged(random: &mut Random, table: &Table) -> (Kind, Vec<u8>) {
    let mut image = table.image();
    let sections = table.sections();
    let classes = table.classes as usize;
    let sizes = [3, table.entry_size(), 4, classes, classes + table.variables as usize];
    let start = |section: usize| sections[..section].iter().map(Vec::len).sum::<usize>();
    let filled: Vec<usize> = (0..5).filter(|section| !sections[*section].is_empty()).collect();
    let kind = match random.between(0, 26) {
        0..=8 => {
            let section = random.any(&filled);
            let at = start(section) + random.between(0, sections[section].len() - 1);
            image[at] = one_byte(random, image[at]);
            Kind::ByteChanged
        }
        // anywhere in the record, or from one of its bytes on
        20..=24 => {
            let section = random.any(&filled);
            let size = sizes[section];
            let record = start(section) + size * random.between(0, sections[section].len() / size - 1);
            let from = if random.once_in(2) { 0 } else { random.between(0, size - 1) };
            for _ in 0..random.between(2, 4) {
                let at = record + random.between(from, size - 1);
                image[at] = one_byte(random, image[at]);
            }
            Kind::BytesOfRecord
        }
        25..=26 if filled.len() > 1 => {
            let mut chosen = filled.clone();
            random.shuffle(&mut chosen);
            for section in &chosen[..2] {
                let at = start(*section) + random.between(0, sections[*section].len() - 1);
                image[at] = one_byte(random, image[at]);
            }
            Kind::TwoRecords
        }
        9..=10 => {
            let at = image.len() - random.between(1, 14);
            image[at] = one_byte(random, image[at]);
            Kind::TrailerByteChanged
        }
        // mostly two contractions
        11..=15 => {
            let section = if random.once_in(4) || sections[1].is_empty() { random.any(&filled) } else { 1 };
            let size = sizes[section];
            let records = sections[section].len() / size;
            let (one, other) = (random.between(0, records - 1), random.between(0, records - 1));
            for byte in 0..size {
                image.swap(start(section) + one * size + byte, start(section) + other * size + byte);
            }
            Kind::Exchanged
        }
        // at the end or at the front
        16 => {
            let length = image.len();
            let dropped = match random.between(0, 3) {
                0 => random.between(1, length),
                1 => length - random.between(0, length.min(15)),
                _ => random.between(1, length.min(20)),
            };
            if random.once_in(2) {
                image.truncate(length - dropped);
            } else {
                image.drain(..dropped);
            }
            Kind::CutShort
        }
        // at the end or at the front
        17 => {
            let most = if random.once_in(20) { LARGEST_IMAGE - image.len() } else { 40 };
            let more: Vec<u8> = (0..random.between(1, most)).map(|_| random.next() as u8).collect();
            image = if random.once_in(2) { [image, more].concat() } else { [more, image].concat() };
            Kind::Lengthened
        }
        // with the distances as they were, or as the new length has them
        18 => {
            let section = random.any(&filled);
            let won = random.once_in(2);
            if won {
                image.insert(start(section), random.next() as u8);
            } else {
                image.remove(start(section));
            }
            if random.once_in(2) {
                for earlier in 0..=section {
                    move_distance(&mut image, earlier, won, 1);
                }
            }
            Kind::ByteMoved
        }
        _ => {
            let section = random.any(&filled);
            move_distance(&mut image, section, random.once_in(2), sizes[section]);
            Kind::DistanceMoved
        }
    };
    (kind, image)
}

/// Makes the distance of a section longer or shorter by so many bytes.
fn move_distance(image: &mut [u8], section: usize, longer: bool, bytes: usize) {
    let low = image.len() - 14 + 2 * section;
    let distance = u16::from_le_bytes([image[low], image[low + 1]]);
    let moved = if longer { distance.wrapping_add(bytes as u16) } else { distance.wrapping_sub(bytes as u16) };
    image[low..low + 2].copy_from_slice(&moved.to_le_bytes());
}

/// Another byte in place of this one: a neighbour, one that stands on a limit, or any.
fn one_byte(random: &mut Random, byte: u8) -> u8 {
    match random.between(0, 3) {
        0 => random.any(&[byte.wrapping_add(1), byte.wrapping_sub(1)]),
        1 => random.any(&[0, 1, 6, 10, 11, 31, 32, 40, 41, 63, 64, 65, 69, 70, 73, 74, 98, 99, 100, 124, 126, 127, 255]),
        2 => random.any(b"GFYNRST- ."),
        _ => random.next() as u8,
    }
}

// Texts

fn text(random: &mut Random, table: &Table, kinds: &mut Vec<Kind>) -> Vec<u8> {
    let length = match random.between(0, 999) {
        0..=39 => random.between(0, 2),
        40..=749 => random.between(3, 60),
        750..=978 => random.between(40, 400),
        979..=982 => random.between(400, 5000),
        983..=993 => random.between(16_385, 16_388),
        994..=997 => random.between(16_380, 16_384),
        _ => random.any(&[16_383, 16_384, 16_385, LONGEST_TEXT]),
    };
    let mut symbols: Vec<u8> = table.alphabet.iter().map(|letter| letter[0]).collect();
    symbols.push(b' ');
    let has_period = symbols.contains(&b'.');
    let gaps = random.any(&[3, 6, 20, 100]);
    let mut text = vec![];
    while text.len() < length {
        if random.once_in(gaps) {
            if has_period && random.once_in(3) {
                text.push(b'.');
            }
            for _ in 0..random.between(1, 4) {
                text.push(random.any(b"    \n|"));
            }
        }
        match random.between(0, 19) {
            0..=12 if !table.entries.is_empty() => {
                let last = table.entries.len() - 1;
                let chosen = if random.once_in(8) { last } else { random.between(0, last) };
                let string = &table.entries[chosen].string;
                let kept = if random.once_in(6) { random.between(1, string.len()) } else { string.len() };
                let (front, back) = string[..kept].split_at(random.between(0, kept));
                text.extend(front);
                // A bar in a string is dropped before the search.
                if random.once_in(8) {
                    text.push(b'|');
                }
                text.extend(back);
            }
            13 => text.push(random.any(b"|\n")),
            _ => text.push(random.any(&symbols)),
        }
    }
    text.truncate(length);
    let strange = if length > 16_384 { 3 } else { 16 };
    if !text.is_empty() && random.once_in(strange) {
        kinds.push(Kind::StrangeCharacter);
        for _ in 0..random.between(1, 2) {
            let at = random.between(0, text.len() - 1);
            text[at] = match random.between(0, 2) {
                0 => random.any(&[0, 9, 11, 13, 31, 127, 128, 255]),
                1 => random.between(33, 126) as u8,
                _ => random.next() as u8,
            };
        }
    }
    text
}

/// In some texts characters give way to a word that is cut, or just isn't: so many times one
/// character that prints a cell and begins no entry, between two blanks.
fn word_at_margin(random: &mut Random, table: &Table, w: u64, text: &mut [u8], kinds: &mut Vec<Kind>) {
    let begins_none = |symbol: u8| table.entries.iter().all(|entry| entry.string[0] != symbol);
    let cells: Vec<u8> = table
        .alphabet
        .iter()
        .filter(|[symbol, _, sign]| (1..=63).contains(sign) && begins_none(*symbol))
        .map(|letter| letter[0])
        .collect();
    if cells.is_empty() || !(8..=60).contains(&w) || !random.once_in(4) {
        return;
    }
    let w = w as usize;
    let length = random.any(&[w - 1, w, w + 1, 2 * w - 2, 2 * w - 1, 2 * w, 3 * w - 3, 3 * w - 2, 3 * w - 1]);
    if let Some(last) = text.len().checked_sub(length + 2) {
        let put_in = &mut text[random.between(0, last)..][..length + 2];
        put_in.fill(random.any(&cells));
        put_in[0] = b' ';
        put_in[length + 1] = b' ';
        kinds.push(Kind::WordAtMargin);
    }
}

/// In some texts the last characters give way to the whole string of an entry with a right context, so that the
/// following symbol decides.
fn end_in_entry(random: &mut Random, table: &Table, text: &mut [u8]) {
    let asking: Vec<&Entry> = table.entries.iter().filter(|entry| entry.context != 0).collect();
    if asking.is_empty() || !random.once_in(3) {
        return;
    }
    let string = &random.any(&asking).string;
    if let Some(from) = text.len().checked_sub(string.len()) {
        text[from..].copy_from_slice(string);
    }
}

/// The symbol that follows the text: mostly one of the table's.
fn following(random: &mut Random, table: &Table, kinds: &mut Vec<Kind>) -> u8 {
    let symbols: Vec<u8> = table.alphabet.iter().map(|letter| letter[0]).collect();
    let following = match random.between(0, 99) {
        0..=64 => random.any(&symbols),
        65..=88 => b' ',
        89..=91 => random.between(33, 126) as u8,
        92..=93 => b'\n',
        94..=95 => b'|',
        96 => 0,
        97 => 255,
        _ => random.next() as u8,
    };
    kinds.push(match following {
        b' ' => Kind::FollowingBlank,
        b'\n' => Kind::FollowingLineFeed,
        b'|' => Kind::FollowingBar,
        0 => Kind::FollowingByte0,
        255 => Kind::FollowingByte255,
        _ if symbols.contains(&following) => Kind::FollowingLetter,
        33..=126 => Kind::FollowingOther,
        _ => Kind::FollowingByte,
    });
    following
}

/// What the whole call writes, with so much room, for some table and text with these sizes: nothing
/// where they are outside their limits.
pub fn embossed(random: &mut Random, (w, p): (u64, u64), room: usize) -> Vec<u8> {
    let (table, mut text) = if random.once_in(20) {
        much_output(random, Form::Old)
    } else {
        let table = sound_table(random, Form::Old);
        let text = text(random, &table, &mut vec![]);
        (table, text)
    };
    text.retain(|character| table.alphabet.iter().any(|letter| letter[0] == *character));
    text.truncate(room.min(16_384));
    let asked = Asked { image: &table.image(), text: &text, following: b' ', year: 0, w, p };
    let mut out = vec![0; room];
    let answer = emboss_planted(Planted::Nothing, asked, &mut out, &mut Notes::new());
    out.truncate(answer.written as usize);
    out
}

/// A table each of whose entries prints as much as four signs can, and a long text of its strings: up to nine
/// bytes for each character, some 147,500 in all.
fn much_output(random: &mut Random, form: Form) -> (Table, Vec<u8>) {
    let mut table = sound_table(random, form);
    let (classes, variables) = (table.classes as usize, table.variables as usize);
    table.decisions = vec![[vec![b'G'; classes], vec![b'-'; variables]].concat()];
    table.alphabet = alphabet(random, classes, MANY_ENTRIES);
    table.entries.clear();
    for letter in &table.alphabet {
        let (one, other) = (random.any(&[72, 72, 72, 71, 73]), random.any(&[72, 72, 72, 71, 73]));
        let signs = [one, random.between(1, 63) as u8, other, random.between(1, 63) as u8];
        let (string, years) = (vec![letter[0]], ALWAYS);
        table.entries.push(Entry { string, context: 0, class: letter[1], shift: 1, signs, years });
    }
    let letters: Vec<u8> = table.alphabet.iter().map(|letter| letter[0]).filter(|symbol| *symbol != b' ').collect();
    let length = if random.once_in(3) { 16_384 } else { random.between(12_000, 16_384) };
    let text = (0..length).map(|_| random.any(&letters)).collect();
    (table, text)
}

// Widths, page lengths, rooms

/// W and P of a case.
pub fn sizes(random: &mut Random, kinds: &mut Vec<Kind>) -> (u64, u64) {
    let (w, p) = (width(random), page_length(random));
    kinds.push(match (w, p) {
        (8..=60, 2..=40) => Kind::SizesWithin,
        (0..=255, 0..=255) => Kind::SizesBeyond,
        _ => Kind::SizesFar,
    });
    (w, p)
}

fn width(random: &mut Random) -> u64 {
    match random.between(0, 49) {
        0..=1 => beyond(random, &[0, 1, 7, 7, 61, 61, 64, 255], 8, 60),
        2..=5 => random.any(&[8, 9, 59, 60]),
        6..=30 => random.between(8, 14) as u64,
        _ => random.between(8, 60) as u64,
    }
}

fn page_length(random: &mut Random) -> u64 {
    match random.between(0, 49) {
        0..=1 => beyond(random, &[0, 1, 1, 41, 41, 42, 64, 255], 2, 40),
        2..=5 => random.any(&[2, 3, 39, 40]),
        6..=35 => random.between(2, 6) as u64,
        _ => random.between(2, 40) as u64,
    }
}

/// One of these numbers, or a large one: its low 8, 16, 32 or 63 bits are within the limits, or it is any.
fn beyond(random: &mut Random, near: &[u64], low: usize, high: usize) -> u64 {
    let within = random.between(low, high) as u64;
    let bits = random.any(&[8, 16, 32, 63]);
    let far = random.next();
    match random.between(0, 7) {
        0..=3 => random.any(near),
        4..=5 => (far << bits).max(1 << bits) + within,
        6 => far,
        _ => u64::MAX,
    }
}

fn room(random: &mut Random, case: &mut Case) -> usize {
    if case.question == Question::Stamp {
        let room = random.any(&[0, 1, 40, 200]);
        case.kinds.push(if room == 0 { Kind::StampNone } else { Kind::StampSome });
        return room;
    }
    let without_room = case.answer(Planted::Nothing, &mut [], &mut Notes::new());
    let (question, kinds) = (case.question, &mut case.kinds);
    let needed = match without_room.number {
        0 => 0,
        8 => without_room.place as usize,
        _ => {
            kinds.push(match question {
                Question::Emboss => Kind::RoomNotAsked,
                Question::Date => Kind::DateNotAsked,
                _ => Kind::UndateNotAsked,
            });
            return if question == Question::Emboss {
                random.any(&[0, 1, 40, 200])
            } else {
                random.any(&[0, case.image.len() / 2, case.image.len() + 8, 40_000])
            };
        }
    };
    if question != Question::Emboss {
        return room_of_mover(random, question, case.image.len(), needed, kinds);
    }
    let room = match random.between(0, 39) {
        0..=1 => needed.saturating_sub(1),
        2 => random.between(0, needed),
        3 => needed / 2,
        4 if random.once_in(20) => random.between(needed, LARGEST_ROOM),
        4 => random.between(needed.saturating_sub(9), needed + 9),
        5..=9 if needed > 65_536 => random.any(&[65_536, needed - 1]),
        5..=20 => needed,
        21..=24 => needed + 1,
        _ => needed + random.between(0, 40),
    };
    kinds.push(match room as i64 - needed as i64 {
        -1 => Kind::RoomOneShort,
        0 => Kind::RoomExact,
        1 => Kind::RoomOneMore,
        2.. => Kind::RoomAmple,
        _ => Kind::RoomShort,
    });
    if needed > 65_536 {
        kinds.push(if room < needed { Kind::OverShort } else { Kind::OverEnough });
    }
    room
}

/// The room of a mover: short, exact or more, or as long as the image that is moved.
fn room_of_mover(
    random: &mut Random,
    question: Question,
    image: usize,
    needed: usize,
    kinds: &mut Vec<Kind>,
) -> usize {
    let room = match random.between(0, 9) {
        0 => random.between(0, needed - 1),
        1..=2 => needed - 1,
        3..=5 => needed,
        6 => needed + 1,
        7 => image,
        _ => needed + random.between(0, 40),
    };
    let date = question == Question::Date;
    kinds.push(match (room as i64 - needed as i64, date) {
        (-1, true) => Kind::DateOneShort,
        (-1, false) => Kind::UndateOneShort,
        (0, true) => Kind::DateExact,
        (0, false) => Kind::UndateExact,
        (1, true) => Kind::DateOneMore,
        (1, false) => Kind::UndateOneMore,
        (2.., true) => Kind::DateAmple,
        (2.., false) => Kind::UndateAmple,
        (_, true) if room == image => Kind::DateOfImage,
        (_, true) => Kind::DateShort,
        (_, false) => Kind::UndateShort,
    });
    room
}

#[cfg(test)]
mod tests {
    use super::*;
    use crate::reference::emboss;

    const FORMS: [Form; 4] = [Form::Old, Form::Mixed, Form::Always, Form::One];

    #[test]
    fn sound_tables_are_accepted() {
        for seed in 0..2000 {
            let table = sound_table(&mut Random::new(seed), FORMS[seed as usize % 4]);
            let asked = Asked { image: &table.image(), text: b"", following: b' ', year: 0, w: 8, p: 2 };
            let answer = emboss(asked, &mut [], &mut Notes::new());
            assert_eq!((answer.number, answer.place), (0, 0), "seed {seed}");
        }
    }

    /// The answer and output of a text by a table, in a year, with ample room.
    fn printed(table: &Table, text: &[u8], year: u16) -> (Answer, Vec<u8>) {
        let mut out = vec![200; LARGEST_ROOM];
        let asked = Asked { image: &table.image(), text, following: b' ', year, w: 8, p: 2 };
        let answer = emboss(asked, &mut out, &mut Notes::new());
        out.truncate(answer.written as usize);
        (answer, out)
    }

    /// Two tables with the same entries in force in a year, in the same order, and otherwise equal,
    /// print alike in that year: the table, the one without the entries that aren't in force, and
    /// this one in the old form.
    #[test]
    fn tables_print_alike_in_a_year() {
        let mut unlike_all = 0;
        for seed in 0..1000 {
            let random = &mut Random::new(seed);
            let table = sound_table(random, Form::Mixed);
            let year = year(random, &table, &mut vec![]);
            let mut text = text(random, &table, &mut vec![]);
            text.truncate(1000);
            let mut in_force = table.clone();
            in_force.entries.retain(|entry| entry.years.0 <= year && year <= entry.years.1);
            let mut old = in_force.clone();
            old.dated = false;
            let right = printed(&table, &text, year);
            assert_eq!(printed(&in_force, &text, year), right, "seed {seed}");
            for any_year in [0, year, random.next() as u16, 65_535] {
                assert_eq!(printed(&old, &text, any_year), right, "seed {seed}");
            }
            let mut all = table.clone();
            all.dated = false;
            unlike_all += (printed(&all, &text, year) != right) as u64;
        }
        assert!(unlike_all > 200, "{unlike_all}");
    }

    /// A table that is moved and moved back is the table; the moved one prints alike in every year.
    #[test]
    fn moved_tables_come_back() {
        let moved = |way: Way, image: &[u8]| {
            let mut out = vec![200; 40_000];
            let answer = move_table(Planted::Nothing, way, image, &mut out, &mut Notes::new());
            assert!(out[answer.written as usize..].iter().all(|byte| *byte == 200));
            out.truncate(answer.written as usize);
            (answer.number, out)
        };
        for seed in 0..1000 {
            let random = &mut Random::new(seed);
            let mut table = sound_table(random, Form::Old);
            let old = table.image();
            table.dated = true;
            let dated = table.image();
            assert_eq!(moved(Way::Date, &old), (0, dated.clone()), "seed {seed}");
            assert_eq!(moved(Way::Undate, &dated), (0, old.clone()), "seed {seed}");
            assert_eq!(moved(Way::Date, &dated), (1, vec![]), "seed {seed}");
            assert_eq!(moved(Way::Undate, &old), (1, vec![]), "seed {seed}");
            let mut text = text(random, &table, &mut vec![]);
            text.truncate(1000);
            let year = random.next() as u16;
            let right = printed(&table, &text, year);
            table.dated = false;
            assert_eq!(printed(&table, &text, year), right, "seed {seed}");
        }
    }

    #[test]
    fn cases_keep_their_limits() {
        for number in 0..2000 {
            let case = case(case_seed(3, number));
            assert!(case.image.len() <= LARGEST_IMAGE);
            assert!(case.text.len() <= LARGEST_TEXT);
            assert!(case.room <= LARGEST_ROOM);
        }
    }
}
