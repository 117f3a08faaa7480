//! The readable form of a table, read again from docs/TABLES.md: words are cut out of each line first and then taken one
//! after another, where the proved reader goes byte by byte. `make` gives the image of a text or the first byte that isn't
//! of the form; `show` writes the text of an accepted image. And random cases of both: images that are shown, texts that
//! are made, as people write them and with every kind of slip.

use crate::counts::Notes;
use crate::generate::{some_image, some_table, Case, Question, Random};
use crate::reference::{stamp, Answer, Planted};
use crate::table::{Entry, Table, ALWAYS};

// What was expected where a text isn't of the form

#[derive(Clone, Copy, Debug, PartialEq, Eq)]
pub enum Expected {
    /// One of the lines that may stand after the stage that was reached.
    Line(usize),
    Fewer,
    Number(u64, u64),
    Symbol,
    Escaped,
    WordEnd,
    Row(usize),
    Colon,
    LineEnd,
    Letter,
    Transition,
}

/// Each kind of slip, for the counts.
const SLIPS: [&str; 11] = [
    "a line out of order or unknown",
    "a line too many",
    "a number missing or out of its limits",
    "a symbol missing or none",
    "a backslash before another symbol",
    "a word that goes on",
    "a row too short",
    "no colon",
    "a line that goes on",
    "no letter",
    "a transition missing",
];

impl Expected {
    /// Which of SLIPS it is.
    fn slip(self) -> usize {
        match self {
            Expected::Line(_) => 0,
            Expected::Fewer => 1,
            Expected::Number(..) => 2,
            Expected::Symbol => 3,
            Expected::Escaped => 4,
            Expected::WordEnd => 5,
            Expected::Row(_) => 6,
            Expected::Colon => 7,
            Expected::LineEnd => 8,
            Expected::Letter => 9,
            Expected::Transition => 10,
        }
    }

    /// The number that stands for it in an answer: the slip, and its numbers above that.
    fn code(self) -> u64 {
        let (first, second) = match self {
            Expected::Line(stage) => (stage as u64, 0),
            Expected::Number(least, most) => (least, most),
            Expected::Row(count) => (count as u64, 0),
            _ => (0, 0),
        };
        self.slip() as u64 + 16 * first + 16 * 65_536 * second
    }
}

/// Where a text isn't of the form.
#[derive(Clone, Copy, Debug, PartialEq, Eq)]
pub struct Slip {
    pub at: usize,
    pub expected: Expected,
}

impl Slip {
    /// Line and column, both counted from 1.
    pub fn line_and_column(&self, text: &[u8]) -> (usize, usize) {
        let before = &text[..self.at];
        let line = 1 + before.iter().filter(|byte| **byte == b'\n').count();
        let column = 1 + before.iter().rev().take_while(|byte| **byte != b'\n').count();
        (line, column)
    }
}

// Reading

/// The words of a line that are left, with the place of each, and where the line ends: at a remark, or at its end.
struct Words<'a> {
    words: std::collections::VecDeque<(usize, &'a [u8])>,
    end: usize,
    remark: bool,
}

fn is_gap(byte: &u8) -> bool {
    matches!(byte, b' ' | b'\t' | b'\r')
}

impl<'a> Words<'a> {
    fn of(line: &'a [u8], start: usize) -> Words<'a> {
        let mut words = std::collections::VecDeque::new();
        let (mut end, mut remark, mut at) = (start + line.len(), false, 0);
        for word in line.split(|byte| is_gap(byte)) {
            if word.first() == Some(&b'#') {
                (end, remark) = (start + at, true);
                break;
            }
            if !word.is_empty() {
                words.push_back((start + at, word));
            }
            at += word.len() + 1;
        }
        Words { words, end, remark }
    }

    /// The next word, or what is expected where there is none.
    fn next(&mut self, expected: Expected) -> Result<(usize, &'a [u8]), Slip> {
        self.words.pop_front().ok_or(Slip { at: self.end, expected })
    }

    fn starts_with(&self, test: impl Fn(&[u8]) -> bool) -> bool {
        self.words.front().is_some_and(|(_, word)| test(word))
    }

    fn number(&mut self, least: u64, most: u64) -> Result<u64, Slip> {
        let expected = Expected::Number(least, most);
        let (start, word) = self.next(expected)?;
        let digits = word.iter().take_while(|byte| byte.is_ascii_digit()).count();
        if digits == 0 {
            return Err(Slip { at: start, expected });
        }
        // The digits that a number of at most `most` can begin with.
        for upto in 1..=digits {
            let value = word[..upto].iter().fold(0u64, |value, digit| (value * 10 + u64::from(digit - b'0')).min(1 << 40));
            if value > most {
                return Err(Slip { at: start + upto - 1, expected });
            }
        }
        let value = word[..digits].iter().fold(0, |value, digit| value * 10 + u64::from(digit - b'0'));
        match digits {
            _ if value < least => Err(Slip { at: start + digits, expected }),
            _ if digits < word.len() => Err(Slip { at: start + digits, expected: Expected::WordEnd }),
            _ => Ok(value),
        }
    }

    fn byte(&mut self) -> Result<u8, Slip> {
        Ok(self.number(0, 255)? as u8)
    }

    /// A mark that stands for a value, or a number.
    fn mark_or(&mut self, mark: u8, value: u8) -> Result<u8, Slip> {
        if self.starts_with(|word| word[0] == mark) {
            let (start, word) = self.next(Expected::Colon)?;
            return if word.len() > 1 { Err(Slip { at: start + 1, expected: Expected::WordEnd }) } else { Ok(value) };
        }
        self.byte()
    }

    /// A word of at most so many symbols.
    fn symbols(&mut self, most: usize, expected: Expected) -> Result<(Vec<u8>, usize), Slip> {
        let nothing = if self.remark { Expected::Symbol } else { expected };
        let (start, word) = self.next(nothing)?;
        let (mut symbols, mut at) = (vec![], 0);
        while at < word.len() {
            let place = start + at;
            if symbols.len() == most {
                return Err(Slip { at: place, expected: Expected::WordEnd });
            }
            match word[at] {
                b'_' => symbols.push(b' '),
                b'\\' => {
                    at += 1;
                    match word.get(at) {
                        Some(byte @ (b'#' | b'_' | b'\\')) => symbols.push(*byte),
                        _ => return Err(Slip { at: place + 1, expected: Expected::Escaped }),
                    }
                }
                byte @ (33..=34 | 36..=126) => symbols.push(byte),
                _ => return Err(Slip { at: place, expected: Expected::Symbol }),
            }
            at += 1;
        }
        Ok((symbols, start + word.len()))
    }

    /// A word of just so many symbols.
    fn row(&mut self, count: usize) -> Result<Vec<u8>, Slip> {
        let (symbols, end) = self.symbols(count, Expected::Row(count))?;
        if symbols.len() < count {
            return Err(Slip { at: end, expected: Expected::Row(count) });
        }
        Ok(symbols)
    }

    /// A year after its word, or what is meant without it.
    fn year(&mut self, word: &[u8], unsaid: u16) -> Result<u16, Slip> {
        if !self.starts_with(|next| next == word) {
            return Ok(unsaid);
        }
        self.next(Expected::LineEnd)?;
        Ok(self.number(0, 65_535)? as u16)
    }

    fn entry(&mut self, dated: bool) -> Result<Entry, Slip> {
        let (string, _) = self.symbols(10, Expected::Symbol)?;
        let class = self.byte()?;
        let context = self.mark_or(b'-', 0)?;
        let shift = self.mark_or(b'=', string.len() as u8)?;
        let (start, colon) = self.next(Expected::Colon)?;
        if colon != b":" {
            return Err(Slip { at: start, expected: Expected::Colon });
        }
        let mut signs = [99; 4];
        for sign in &mut signs {
            if !self.starts_with(|word| word[0].is_ascii_digit()) {
                break;
            }
            *sign = self.byte()?;
        }
        let mut years = ALWAYS;
        if dated {
            years = (self.year(b"from", ALWAYS.0)?, self.year(b"to", ALWAYS.1)?);
        }
        Ok(Entry { string, context, class, shift, signs, years })
    }
}

const LINES: [&[u8]; 8] =
    [b"dated", b"classes", b"variables", b"letter", b"entry", b"context", b"transition", b"decision"];

/// The table of a text.
pub fn read(text: &[u8]) -> Result<Table, Slip> {
    let mut table = Table::default();
    // The rank of the last line, from 1; 0 where there is none.
    let mut stage = 0;
    let mut start = 0;
    for line in text.split(|byte| *byte == b'\n') {
        let mut words = Words::of(line, start);
        start += line.len() + 1;
        let Ok((at, word)) = words.next(Expected::LineEnd) else { continue };
        let rank = 1 + LINES.iter().position(|known| *known == word).ok_or(Slip { at, expected: Expected::Line(stage) })?;
        let may = match rank {
            1 => stage == 0,
            2 => stage < 2,
            3 => stage == 2,
            _ => stage > 2 && stage <= rank,
        };
        if !may {
            return Err(Slip { at, expected: Expected::Line(stage) });
        }
        let full = match rank {
            4 => table.alphabet.len() == 63,
            5 => table.entries.len() == 1199,
            6 => table.contexts.len() == 5,
            7 => table.transitions.len() == usize::from(table.variables),
            8 => table.decisions.len() == 20,
            _ => false,
        };
        if full {
            return Err(Slip { at, expected: Expected::Fewer });
        }
        let (classes, variables) = (usize::from(table.classes), usize::from(table.variables));
        match rank {
            1 => table.dated = true,
            2 => table.classes = words.number(1, 40)? as u8,
            3 => table.variables = words.number(0, 15)? as u8,
            4 => {
                let symbol = words.row(1)?[0];
                table.alphabet.push([symbol, words.byte()?, words.byte()?]);
            }
            5 => {
                let entry = words.entry(table.dated)?;
                table.entries.push(entry);
            }
            6 => table.contexts.push([words.byte()?, words.byte()?, words.byte()?, words.byte()?]),
            7 => table.transitions.push(words.row(classes)?),
            _ => {
                let mut column = words.row(classes)?;
                if variables > 0 {
                    column.extend(words.row(variables)?);
                }
                table.decisions.push(column);
            }
        }
        if let Some((at, _)) = words.words.front() {
            return Err(Slip { at: *at, expected: Expected::LineEnd });
        }
        stage = rank;
    }
    let missing = match table {
        _ if stage < 3 => Some(Expected::Line(stage)),
        _ if table.alphabet.is_empty() => Some(Expected::Letter),
        _ if table.transitions.len() < usize::from(table.variables) => Some(Expected::Transition),
        _ => None,
    };
    missing.map_or(Ok(table), |expected| Err(Slip { at: text.len(), expected }))
}

/// The table of a file, or where it isn't of the form.
pub fn read_named(file: &str, text: &[u8]) -> Result<Table, String> {
    read(text).map_err(|slip| {
        let (line, column) = slip.line_and_column(text);
        format!("{file}: line {line}, column {column}: expected {:?}", slip.expected)
    })
}

// Showing

fn written(symbols: &[u8]) -> String {
    let mut word = String::new();
    for symbol in symbols {
        match symbol {
            b' ' => word.push('_'),
            b'#' | b'_' | b'\\' => word.extend(['\\', *symbol as char]),
            _ => word.push(*symbol as char),
        }
    }
    word
}

/// The text of an image that is accepted: the records are found by the trailer, and each line is put together by Rust's
/// own columns.
pub fn show(image: &[u8]) -> String {
    let trailer = image.len() - 14;
    let two = |at: usize| usize::from(image[at]) + 256 * usize::from(image[at + 1]);
    let starts: Vec<usize> = (0..5).map(|section| trailer - two(trailer + 2 * section)).chain([trailer]).collect();
    let (classes, variables) = (usize::from(image[trailer + 10]), usize::from(image[trailer + 11]));
    let dated = image[trailer + 13] == 52;
    let sizes = [3, if dated { 22 } else { 18 }, 4, classes, classes + variables];
    let mut text = if dated { "dated\n".to_string() } else { String::new() };
    text += &format!("classes {classes:>2}\nvariables {variables:>2}\n");
    for (section, size) in sizes.into_iter().enumerate() {
        let records: Vec<&[u8]> = image[starts[section]..starts[section + 1]].chunks(size).collect();
        if !records.is_empty() {
            text.push('\n');
        }
        for record in records {
            text += &match section {
                0 => format!("letter {:<2} {:>2} {:>2}", written(&record[..1]), record[1], record[2]),
                1 => show_entry(record, dated),
                2 => format!("context {:>2} {:>2} {:>2} {:>2}", record[0], record[1], record[2], record[3]),
                3 => format!("transition {}", written(record)),
                _ if variables == 0 => format!("decision {}", written(record)),
                _ => format!("decision {} {}", written(&record[..classes]), written(&record[classes..])),
            };
            text.push('\n');
        }
    }
    text
}

fn show_entry(record: &[u8], dated: bool) -> String {
    let length = record[0];
    let string = written(&record[1..1 + usize::from(length)]);
    let context = if record[11] == 0 { "-".to_string() } else { record[11].to_string() };
    let shift = if record[13] == length { "=".to_string() } else { record[13].to_string() };
    let signs: String = record[14..18].iter().take_while(|sign| **sign != 99).map(|sign| format!(" {sign:>2}")).collect();
    let mut line = format!("entry {string:<10} {:>2} {context} {shift:>2} :{signs}", record[12]);
    if dated {
        let year = |at: usize| u16::from_le_bytes([record[at], record[at + 1]]);
        let (first, last) = (year(18), year(20));
        if (first, last) != ALWAYS {
            line += &" ".repeat(12 - signs.len());
            if first != ALWAYS.0 {
                line += &format!(" from {first:>4}");
            }
            if last != ALWAYS.1 {
                line += &format!(" to {last:>4}");
            }
        }
    }
    line
}

// The two calls

fn into_room(bytes: &[u8], out: &mut [u8]) -> Answer {
    if out.len() < bytes.len() {
        return Answer { number: 8, place: bytes.len() as u64, ..Answer::default() };
    }
    out[..bytes.len()].copy_from_slice(bytes);
    Answer { written: bytes.len() as u64, ..Answer::default() }
}

/// The answer of `show`.
pub fn showing(image: &[u8], out: &mut [u8]) -> Answer {
    let verdict = stamp(Planted::Nothing, image, &mut Notes::new());
    if verdict.number != 0 {
        return Answer { number: verdict.number, place: verdict.place, ..Answer::default() };
    }
    into_room(show(image).as_bytes(), out)
}

/// The answer of `make`: of a slip line, column and what was expected stand in the place of pieces, lines and pages.
pub fn making(text: &[u8], out: &mut [u8]) -> Answer {
    match read(text) {
        Ok(table) => into_room(&table.image(), out),
        Err(slip) => {
            let (line, column) = slip.line_and_column(text);
            let place = slip.at as u64;
            Answer { number: 22, place, written: 0, pieces: line as u64, lines: column as u64, pages: slip.expected.code() }
        }
    }
}

// Random cases

/// A table as a person might write it: other gaps, remarks, numbers for marks, years that needn't be said.
fn by_hand(random: &mut Random, table: &Table) -> Vec<u8> {
    let mut lines: Vec<String> = vec![];
    if table.dated {
        lines.push("dated".to_string());
    }
    lines.push(format!("classes {}", table.classes));
    lines.push(format!("variables {}", table.variables));
    for letter in &table.alphabet {
        lines.push(format!("letter {} {} {}", written(&letter[..1]), letter[1], letter[2]));
    }
    for entry in &table.entries {
        let mark = |random: &mut Random, same: bool, mark: &str, value: u8| {
            if same && !random.once_in(4) { mark.to_string() } else { value.to_string() }
        };
        let context = mark(random, entry.context == 0, "-", entry.context);
        let shift = mark(random, usize::from(entry.shift) == entry.string.len(), "=", entry.shift);
        let shown = if random.once_in(6) { 4 } else { entry.signs.iter().rposition(|sign| *sign != 99).map_or(0, |last| last + 1) };
        let signs: Vec<String> = entry.signs[..shown].iter().map(u8::to_string).collect();
        let mut line = format!("entry {} {} {context} {shift} : {}", written(&entry.string), entry.class, signs.join(" "));
        if table.dated {
            if entry.years.0 != ALWAYS.0 || random.once_in(6) {
                line += &format!(" from {}", entry.years.0);
            }
            if entry.years.1 != ALWAYS.1 || random.once_in(6) {
                line += &format!(" to {}", entry.years.1);
            }
        }
        lines.push(line);
    }
    for context in &table.contexts {
        lines.push(format!("context {} {} {} {}", context[0], context[1], context[2], context[3]));
    }
    for transition in &table.transitions {
        lines.push(format!("transition {}", written(transition)));
    }
    for column in &table.decisions {
        let classes = usize::from(table.classes);
        lines.push(format!("decision {} {}", written(&column[..classes]), written(&column[classes..])));
    }
    let mut text = vec![];
    for line in lines {
        if random.once_in(12) {
            text.extend(random.any::<&[u8]>(&[b"\n", b"# a remark\n", b"  \t\n", b" #\n", "# Latin \u{e9}\n".as_bytes()]));
        }
        for word in line.split(' ').filter(|word| !word.is_empty()) {
            let gap: &[u8] = if random.once_in(10) { random.any::<&[u8]>(&[b"  ", b"\t", b" \t ", b"     "]) } else { b" " };
            text.extend(gap);
            if word.bytes().all(|byte| byte.is_ascii_digit()) && random.once_in(30) {
                text.extend(b"00");
            }
            text.extend(word.as_bytes());
        }
        text.extend(random.any::<&[u8]>(&[b"\n", b"\n", b"\n", b"\n", b" \n", b"\r\n", b" # so\n", b"\t#\n"]));
    }
    if random.once_in(8) {
        text.pop();
    }
    text
}

/// Words that lines are made of, right and wrong.
const WORDS: [&[u8]; 44] = [
    b"dated", b"classes", b"variables", b"letter", b"entry", b"context", b"transition", b"decision", b"from", b"to", b":",
    b"-", b"=", b"#", b"\\#", b"\\_", b"\\\\", b"\\", b"\\a", b"_", b"|", b"0", b"1", b"2", b"5", b"15", b"16", b"40", b"41",
    b"99", b"255", b"256", b"1932", b"65535", b"65536", b"007", b"99999999999999999999", b"A", b"COM", b"ABCDEFGHIJ",
    b"ABCDEFGHIJK", b"SR-SS", b"letters", b"\xc3\xa9",
];

/// A text with a slip: a byte, a word or a line changed, lost, put in or exchanged.
fn slipped(random: &mut Random, text: &mut Vec<u8>) {
    let mut lines: Vec<Vec<u8>> = text.split(|byte| *byte == b'\n').map(<[u8]>::to_vec).collect();
    let chosen = random.between(0, lines.len() - 1);
    match random.between(0, 10) {
        10 => {
            // Every line of one kind.
            let word = random.any(&LINES);
            lines.retain(|line| !Words::of(line, 0).starts_with(|first| first == word));
        }
        0 => {
            lines.remove(chosen);
        }
        1 => lines.insert(chosen, lines[chosen].clone()),
        2 => {
            let other = random.between(0, lines.len() - 1);
            lines.swap(chosen, other);
        }
        3 => {
            let line = random.any(&lines.iter().map(Vec::as_slice).collect::<Vec<_>>()).to_vec();
            for _ in 0..random.any(&[1, 6, 21, 64]) {
                lines.insert(chosen, line.clone());
            }
        }
        4..=6 => {
            let mut words: Vec<&[u8]> = lines[chosen].split(|byte| *byte == b' ').collect();
            let place = random.between(0, words.len() - 1);
            match random.between(0, 2) {
                0 => words[place] = random.any(&WORDS),
                1 => words.insert(place, random.any(&WORDS)),
                _ => {
                    words.remove(place);
                }
            }
            lines[chosen] = words.join(&b' ');
        }
        _ => {
            let line = &mut lines[chosen];
            let place = random.between(0, line.len());
            let byte = match random.between(0, 3) {
                0 => random.between(0, 255) as u8,
                1 => random.any(b"#_\\-=: 0129AZaz|~\t\r\x7f"),
                _ => random.between(32, 126) as u8,
            };
            match random.between(0, 2) {
                0 => line.insert(place, byte),
                1 if place < line.len() => line[place] = byte,
                _ if place < line.len() => {
                    line.remove(place);
                }
                _ => line.push(byte),
            }
        }
    }
    *text = lines.join(&b'\n');
}

/// The case of a seed: one in four an image to be shown, the others texts to be made.
pub fn case(seed: u64) -> Case {
    let random = &mut Random::new(seed);
    let show = random.once_in(4);
    let (mut image, mut text) = (vec![], vec![]);
    if show {
        image = some_image(random);
    } else if random.once_in(12) {
        for _ in 0..random.between(0, 40) {
            text.extend(random.any(&WORDS));
            text.push(random.any(b"   \n\n\t"));
        }
    } else {
        let table = some_table(random);
        // The alphabet has the symbols that the form itself uses, now and then.
        text = by_hand(random, &table);
        if random.once_in(4) && reading_is_good(&text) {
            text = show_of(&table);
        }
        for _ in 0..random.any(&[0, 0, 1, 1, 1, 2]) {
            slipped(random, &mut text);
        }
    }
    let question = if show { Question::Show } else { Question::Make };
    let mut case =
        Case { seed, kinds: vec![], question, image, text, following: b' ', year: 0, w: 40, p: 25, room: 0 };
    let mut ample = vec![0; 163_840];
    let answer = case.answer(Planted::Nothing, &mut ample, &mut Notes::new());
    let needed = answer.written as usize;
    case.room = match random.between(0, 9) {
        0 => needed.saturating_sub(random.between(2, 30)),
        1 => needed.saturating_sub(1),
        2 => 0,
        3 => needed + 1,
        4 => needed + random.between(2, 300),
        _ => needed,
    };
    case
}

fn reading_is_good(text: &[u8]) -> bool {
    read(text).is_ok()
}

fn show_of(table: &Table) -> Vec<u8> {
    show(&table.image()).into_bytes()
}

/// Counts what was met: shown, made, refused 8 and by the verdict, and each slip.
pub struct Met {
    pub cases: u64,
    pub shown: u64,
    pub shown_dated: u64,
    pub made: u64,
    pub wrong_made: u64,
    pub back: u64,
    pub rooms: u64,
    pub not_accepted: u64,
    pub slips: [u64; SLIPS.len()],
}

impl Met {
    pub fn new() -> Met {
        let slips = [0; SLIPS.len()];
        Met { cases: 0, shown: 0, shown_dated: 0, made: 0, wrong_made: 0, back: 0, rooms: 0, not_accepted: 0, slips }
    }

    /// One case, with the answer and the buffer that both gave.
    pub fn meet(&mut self, case: &Case, answer: &Answer, buffer: &[u8]) -> Result<(), String> {
        self.cases += 1;
        let bytes = &buffer[..answer.written as usize];
        match (case.question, answer.number) {
            (_, 8) => self.rooms += 1,
            (_, 22) => self.slips[(answer.pages % 16) as usize] += 1,
            (Question::Show, 0) => {
                self.shown += 1;
                self.shown_dated += u64::from(bytes.starts_with(b"dated"));
                // Made again, it is the image.
                let again = read(bytes).map_err(|slip| format!("what was shown isn't of the form: {slip:?}"))?.image();
                if again != case.image {
                    return Err("making what was shown gives another image".to_string());
                }
                self.back += 1;
            }
            (Question::Show, _) => self.not_accepted += 1,
            _ => {
                self.made += 1;
                let verdict = stamp(Planted::Nothing, bytes, &mut Notes::new()).number;
                if verdict == 1 {
                    return Err("what was made has a wrong frame".to_string());
                }
                self.wrong_made += u64::from(verdict != 0);
            }
        }
        Ok(())
    }

    /// Each count with its words; none may be 0.
    pub fn lines(&self) -> Vec<(u64, String)> {
        let mut lines = vec![
            (self.cases, "cases of readable tables, no difference".to_string()),
            (self.shown, "images shown".to_string()),
            (self.shown_dated, "images of the dated form shown".to_string()),
            (self.back, "images shown and made again".to_string()),
            (self.not_accepted, "images that aren't accepted".to_string()),
            (self.made, "texts made".to_string()),
            (self.wrong_made, "texts made whose table is wrong".to_string()),
            (self.rooms, "rooms too short".to_string()),
        ];
        lines.extend(self.slips.iter().zip(SLIPS).map(|(count, words)| (*count, format!("refused 22: {words}"))));
        lines
    }
}

#[cfg(test)]
mod tests {
    use super::*;

    fn slip(text: &str) -> (usize, usize, Expected) {
        let slip = read(text.as_bytes()).expect_err("it isn't of the form");
        let (line, column) = slip.line_and_column(text.as_bytes());
        (line, column, slip.expected)
    }

    const HEAD: &str = "classes 5\nvariables 1\n";

    #[test]
    fn slips_are_placed() {
        assert_eq!(slip(""), (1, 1, Expected::Line(0)));
        assert_eq!(slip("# nothing\n"), (2, 1, Expected::Line(0)));
        assert_eq!(slip("letter A 1 1\n"), (1, 1, Expected::Line(0)));
        assert_eq!(slip("classes 0\n"), (1, 10, Expected::Number(1, 40)));
        assert_eq!(slip("classes 41\n"), (1, 10, Expected::Number(1, 40)));
        assert_eq!(slip("classes\n"), (1, 8, Expected::Number(1, 40)));
        assert_eq!(slip("classes 5\nletter A 1 1"), (2, 1, Expected::Line(2)));
        assert_eq!(slip("classes 5\nvariables 16"), (2, 12, Expected::Number(0, 15)));
        assert_eq!(slip(HEAD), (3, 1, Expected::Letter));
        assert_eq!(slip(&format!("{HEAD}letter _ 2 0\n")), (4, 1, Expected::Transition));
        assert_eq!(slip(&format!("{HEAD}letter AB 1 1")), (3, 9, Expected::WordEnd));
        assert_eq!(slip(&format!("{HEAD}letter # 1 1")), (3, 8, Expected::Symbol));
        assert_eq!(slip(&format!("{HEAD}letter \\A 1 1")), (3, 9, Expected::Escaped));
        assert_eq!(slip(&format!("{HEAD}letter A 256 1")), (3, 12, Expected::Number(0, 255)));
        assert_eq!(slip(&format!("{HEAD}letter A 1 1 1")), (3, 14, Expected::LineEnd));
        assert_eq!(slip(&format!("{HEAD}letters A 1 1")), (3, 1, Expected::Line(3)));
        assert_eq!(slip(&format!("{HEAD}letter _ 1 1\nentry COM 4 - = 36")), (4, 17, Expected::Colon));
        assert_eq!(slip(&format!("{HEAD}letter _ 1 1\nentry COM 4 - = : 36 from 1932")), (4, 22, Expected::LineEnd));
        assert_eq!(slip(&format!("{HEAD}letter _ 1 1\ntransition SR-S # short\n")), (4, 16, Expected::Row(5)));
        assert_eq!(slip(&format!("{HEAD}letter _ 1 1\ntransition SR-SS\ntransition SR-SS")), (5, 1, Expected::Fewer));
        assert_eq!(slip(&format!("{HEAD}entry A 1 - = :\nletter _ 1 1")), (4, 1, Expected::Line(5)));
    }

    #[test]
    fn symbols_of_the_form_are_written() {
        let text = format!("{HEAD}letter _ 1 1\nletter \\_ 1 2\nletter \\# 1 3\nletter \\\\ 1 4\nentry A\\__\\# 1 - = :\ntransition SR-SS\n");
        let table = read(text.as_bytes()).expect("it is of the form");
        assert_eq!(table.alphabet.iter().map(|letter| letter[0]).collect::<Vec<u8>>(), b" _#\\");
        assert_eq!(table.entries[0].string, b"A_ #");
        assert_eq!(table.entries[0].signs, [99; 4]);
    }
}
