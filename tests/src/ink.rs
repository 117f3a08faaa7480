//! The marking of inkprint, written again: the text is cut into characters by Rust's own UTF-8, each character is sorted by
//! what it looks like, and then whole lines and whole words are marked, where the proved code goes byte by byte and looks
//! ahead. `marking` answers the marked text, or the first character that has no mark; `source` the character that a marked
//! byte comes from. And random cases of both: prose of every kind of character, and broken UTF-8.

use crate::generate::{Case, Question, Random, LARGEST_TEXT};
use crate::reference::Answer;

/// No text may be longer.
const MOST: usize = 1_073_741_824;

// Characters

/// What a character is to the marks.
#[derive(Clone, Debug, PartialEq, Eq)]
enum Ink {
    Letter { capital: char, was_capital: bool, accented: bool },
    /// Always written so.
    Written(String),
    Apostrophe,
    Opens,
    Closes,
    Gap,
    Nothing,
    LineEnd,
    NoMark,
}

/// The letters that are written with an accent sign, after the letter without it; of each the small one too.
const ACCENTED: [&str; 19] = [
    "AÀÁÂÃÄÅĀĂĄ", "CÇĆĈĊČ", "DĎĐ", "EÈÉÊËĒĔĖĘĚ", "GĜĞĠĢ", "HĤĦ", "IÌÍÎÏĨĪĬĮ", "JĴ", "KĶ", "LĹĻĽŁ", "NÑŃŅŇ", "OÒÓÔÕÖØŌŎŐ",
    "RŔŖŘ", "SŚŜŞŠ", "TŢŤŦ", "UÙÚÛÜŨŪŬŮŰŲ", "WŴ", "YÝŶŸ", "ZŹŻŽ",
];

/// An accented letter: its capital without the accent, and whether it is one.
fn accented(character: char) -> Option<(char, bool)> {
    // The dot of İ and ı has no other letter of the same kind.
    match character {
        'İ' => return Some(('I', true)),
        'ı' => return Some(('I', false)),
        _ => {}
    }
    for row in ACCENTED {
        let mut letters = row.chars();
        let Some(plain) = letters.next() else { continue };
        for letter in letters {
            if letter == character {
                return Some((plain, true));
            }
            if letter.to_lowercase().eq([character]) {
                return Some((plain, false));
            }
        }
    }
    None
}

fn ink(character: char) -> Ink {
    if character.is_ascii_alphabetic() {
        let was_capital = character.is_ascii_uppercase();
        return Ink::Letter { capital: character.to_ascii_uppercase(), was_capital, accented: false };
    }
    if let Some((capital, was_capital)) = accented(character) {
        return Ink::Letter { capital, was_capital, accented: true };
    }
    match character {
        ' ' | '\t' | '\u{a0}' | '\u{2000}'..='\u{200a}' | '\u{202f}' => Ink::Gap,
        '\r' | '\u{ad}' | '\u{feff}' => Ink::Nothing,
        '\n' => Ink::LineEnd,
        '\u{c}' => Ink::Written("$N".to_string()),
        '|' => Ink::Written("$:I".to_string()),
        '$' | '%' | '+' | '<' | '=' | '>' | '_' => Ink::Written(format!("$:{character}")),
        '[' => Ink::Written("<".to_string()),
        ']' => Ink::Written(">".to_string()),
        '\'' => Ink::Apostrophe,
        '‘' => Ink::Opens,
        '’' => Ink::Closes,
        '“' | '”' => Ink::Written("\"".to_string()),
        '\u{2010}'..='\u{2013}' | '\u{2212}' => Ink::Written("-".to_string()),
        '\u{2014}' | '\u{2015}' => Ink::Written("--".to_string()),
        '…' => Ink::Written("...".to_string()),
        _ if character.is_ascii_graphic() => Ink::Written(character.to_string()),
        _ => Ink::NoMark,
    }
}

impl Ink {
    fn is_letter(&self) -> bool {
        matches!(self, Ink::Letter { .. })
    }

    fn is_capital(&self) -> bool {
        matches!(self, Ink::Letter { was_capital: true, .. })
    }

    fn may_be_apostrophe(&self) -> bool {
        matches!(self, Ink::Apostrophe | Ink::Closes)
    }
}

/// The characters of a text, each with its place. A byte that begins none has none.
fn characters(text: &[u8]) -> Vec<(usize, Option<char>)> {
    let (mut found, mut start) = (vec![], 0);
    loop {
        let (right, wrong) = match std::str::from_utf8(&text[start..]) {
            Ok(right) => (right, false),
            Err(error) => (std::str::from_utf8(&text[start..start + error.valid_up_to()]).expect("it is valid up to there"), true),
        };
        found.extend(right.char_indices().map(|(at, character)| (start + at, Some(character))));
        start += right.len();
        if !wrong {
            return found;
        }
        found.push((start, None));
        start += 1;
    }
}

// Words and lines

/// Where the word that goes on at `from` ends: after its letters. An apostrophe before a capital is in it.
fn word_end(inks: &[Ink], from: usize) -> usize {
    let mut end = from;
    while let Some(ink) = inks.get(end) {
        let goes_on = ink.is_letter() || ink.may_be_apostrophe() && inks.get(end + 1).is_some_and(Ink::is_capital);
        if !goes_on {
            break;
        }
        end += 1;
    }
    end
}

/// How many signs of a capital stand before each character.
fn capital_signs(inks: &[Ink]) -> Vec<usize> {
    let mut signs = vec![0; inks.len()];
    let mut at = 0;
    while at < inks.len() {
        if !inks[at].is_letter() {
            at += 1;
            continue;
        }
        let mut end = word_end(inks, at);
        let letters: Vec<&Ink> = inks[at..end].iter().filter(|ink| ink.is_letter()).collect();
        let all = letters.len() > 1 && letters.iter().all(|ink| ink.is_capital());
        // What has no mark doesn't end the word, which `source` alone can see.
        while inks.get(end) == Some(&Ink::NoMark) {
            end = word_end(inks, end + 1);
        }
        if all {
            signs[at] = 2;
        } else {
            for place in at..end {
                signs[place] = usize::from(inks[place].is_capital());
            }
        }
        at = end;
    }
    signs
}

fn is_blank(line: &[Ink]) -> bool {
    let Some((Ink::LineEnd, before)) = line.split_last() else { return false };
    before.iter().skip_while(|ink| matches!(ink, Ink::Nothing | Ink::NoMark)).all(|ink| matches!(ink, Ink::Gap | Ink::Nothing))
}

/// The mark of each character.
fn marks(inks: &[Ink]) -> Vec<String> {
    let signs = capital_signs(inks);
    let mut marks = vec![];
    let mut quoted = false;
    for line in inks.split_inclusive(|ink| *ink == Ink::LineEnd) {
        if is_blank(line) {
            marks.extend(line.iter().map(|ink| if *ink == Ink::LineEnd { "$P".to_string() } else { String::new() }));
            quoted = false;
            continue;
        }
        for ink in line {
            let at = marks.len();
            let mark = match ink {
                Ink::Letter { capital, accented, .. } => {
                    format!("{}{}{capital}", "=".repeat(signs[at]), if *accented { "%" } else { "" })
                }
                Ink::Written(mark) => mark.clone(),
                Ink::Apostrophe => "'".to_string(),
                Ink::Opens => {
                    quoted = true;
                    "$'".to_string()
                }
                Ink::Closes if quoted && !inks.get(at + 1).is_some_and(Ink::is_letter) => {
                    quoted = false;
                    "$'R".to_string()
                }
                Ink::Closes => "'".to_string(),
                Ink::Gap => " ".to_string(),
                Ink::LineEnd => "\n".to_string(),
                Ink::Nothing | Ink::NoMark => String::new(),
            };
            marks.push(mark);
        }
    }
    marks
}

// The whole text

/// A text as it was marked.
struct Marked {
    bytes: Vec<u8>,
    /// Of each byte the place of the character that it comes from.
    sources: Vec<usize>,
    /// The first character that has no mark, and whether it is broken UTF-8.
    unmarked: Option<(usize, bool)>,
}

fn marked(text: &[u8]) -> Marked {
    let characters = characters(text);
    let inks: Vec<Ink> = characters.iter().map(|(_, character)| character.map_or(Ink::NoMark, ink)).collect();
    let (mut bytes, mut sources, mut unmarked) = (vec![], vec![], None);
    for (((at, character), ink), mark) in characters.iter().zip(&inks).zip(marks(&inks)) {
        if *ink == Ink::NoMark && unmarked.is_none() {
            unmarked = Some((*at, character.is_none()));
        }
        bytes.extend(mark.as_bytes());
        sources.resize(bytes.len(), *at);
    }
    Marked { bytes, sources, unmarked }
}

/// The answer of `mark`.
pub fn marking(text: &[u8], out: &mut [u8]) -> Answer {
    if text.len() > MOST {
        return Answer { number: 6, place: MOST as u64, ..Answer::default() };
    }
    let Marked { bytes, unmarked, .. } = marked(text);
    match unmarked {
        Some((at, _)) => Answer { number: 21, place: at as u64, ..Answer::default() },
        None if out.len() < bytes.len() => Answer { number: 8, place: bytes.len() as u64, ..Answer::default() },
        None => {
            out[..bytes.len()].copy_from_slice(&bytes);
            Answer { written: bytes.len() as u64, ..Answer::default() }
        }
    }
}

/// The answer of `source`: its place is the place in the text that byte `n` of the marked text comes from.
pub fn source(text: &[u8], n: u64) -> Answer {
    let place = usize::try_from(n).ok().and_then(|n| marked(text).sources.get(n).copied()).unwrap_or(text.len());
    Answer { place: place as u64, ..Answer::default() }
}

// Random cases

fn put_word(random: &mut Random, text: &mut String) {
    let way = random.between(0, 9);
    let length = random.any(&[1, 1, 2, 2, 3, 4, 5, 7, 12]);
    for place in 0..length {
        let letter = if random.once_in(12) { some_accented(random) } else { random.between(97, 122) as u8 as char };
        let capital = match way {
            0..=3 => false,
            4..=5 => place == 0,
            6..=7 => true,
            8 => random.once_in(2),
            // All but one.
            _ => !random.once_in(length as u64),
        };
        // The long s and the like have no capital of one character, and some no small one.
        let mut turned = letter.to_uppercase();
        match (turned.next(), turned.next()) {
            (Some(large), None) if capital => text.push(large),
            _ => text.push(letter),
        }
        if random.once_in(14) {
            text.push(random.any(&['\'', '’', '’', '\'', '\u{ad}', '‘', '-', '\u{2011}', '7']));
        }
    }
}

/// A letter of Latin-1 or Latin Extended-A that has a mark, as it stands or small.
fn some_accented(random: &mut Random) -> char {
    loop {
        let chosen = char::from_u32(random.between(0xc0, 0x17f) as u32).expect("it is a character");
        if ink(chosen).is_letter() {
            return chosen;
        }
    }
}

const SIGNS: [char; 62] = [
    '.', ',', ';', ':', '!', '?', '(', ')', '/', '&', '*', '#', '@', '-', '"', '\'', '‘', '‘', '’', '’', '‘', '’', '“', '”', '–', '—', '―',
    '‐', '\u{2011}', '‒', '−', '…', '$', '%', '=', '_', '+', '<', '>', '|', '[', ']', '{', '}', '~', '^', '`', '\\', '\u{ad}',
    '\u{feff}', '\u{a0}', '\u{202f}', '\u{2003}', '\u{2000}', '\u{200a}', '\t', '\r', '\u{c}', '0', '9', '3', '\'',
];

/// Characters that have no mark, the neighbours of those that have one among them.
const STRANGE: [char; 44] = [
    '\0', '\u{7}', '\u{8}', '\u{b}', '\u{e}', '\u{1f}', '\u{7f}', '\u{80}', '\u{9f}', '£', '¡', '¬', '®', '¿', '×', '÷', 'Æ', 'æ', 'Ð',
    'þ', 'ß', 'Ĳ', 'ĸ', 'ŀ', 'ŉ', 'ŋ', 'Œ', 'ſ', 'ƀ', '\u{1fff}', '\u{200b}', '\u{200f}', '\u{2016}', '‚', '„', '\u{2025}', '\u{2027}',
    '\u{2030}', 'α', '€', '\u{d7ff}', '\u{fffd}', '😀', '\u{10ffff}',
];

fn put_line_end(random: &mut Random, text: &mut String) {
    let gaps = |random: &mut Random, text: &mut String| {
        for _ in 0..random.any(&[0, 0, 0, 1, 2, 4]) {
            text.push(random.any(&[' ', ' ', '\t', '\u{a0}', '\r', '\u{2009}', '\u{feff}', '\u{ad}']));
        }
    };
    let end = if random.once_in(4) { "\r\n" } else { "\n" };
    text.push_str(end);
    for _ in 0..random.any(&[0, 0, 1, 1, 2, 3]) {
        gaps(random, text);
        text.push_str(end);
    }
    gaps(random, text);
}

fn prose(random: &mut Random, length: usize) -> String {
    let mut text = String::new();
    if random.once_in(8) {
        text.push('\u{feff}');
    }
    if random.once_in(8) {
        put_line_end(random, &mut text);
    }
    while text.len() < length {
        match random.between(0, 19) {
            0..=8 => {
                put_word(random, &mut text);
                text.push(' ');
            }
            9..=11 => put_word(random, &mut text),
            12 => text.push_str(random.any(&["‘", "’", " ‘a’ ", "’ ", "‘“", "”’", "O’Brien", "I’M", "I'M", "‘I’", "’TIS", "DON’T"])),
            13..=15 => text.push(random.any(&SIGNS)),
            16 => text.push(random.any(&SIGNS)),
            17 => text += &random.between(0, 2040).to_string(),
            18 => put_line_end(random, &mut text),
            _ => text.push(' '),
        }
    }
    text
}

/// Bytes that are no UTF-8, or only just: overlong forms, surrogates, codes past the last, characters cut short.
fn broken(random: &mut Random) -> Vec<u8> {
    let goes_on = |random: &mut Random| random.between(128, 191) as u8;
    let (one, two, three) = (goes_on(random), goes_on(random), goes_on(random));
    let mut bytes = match random.between(0, 9) {
        0 => vec![random.any(&[192, 193]), one],
        1 => vec![224, random.between(128, 159) as u8, two],
        2 => vec![240, random.between(128, 143) as u8, two, three],
        3 => vec![237, random.between(160, 191) as u8, two],
        4 => vec![244, random.between(144, 191) as u8, two, three],
        5 => vec![random.between(245, 255) as u8, one, two, three],
        6 => vec![one],
        // An apostrophe and an em dash, overlong.
        7 => random.any::<&[u8]>(&[&[0xc0, 0xa7], &[0xe0, 0x80, 0xa7], &[0xf0, 0x82, 0x80, 0x94], &[0xf0, 0x82, 0x80, 0x99]]).to_vec(),
        8 => random.any(&['é', '’', '—', 'Ž', '😀']).to_string().into_bytes(),
        _ => vec![random.between(194, 244) as u8, one, two, three],
    };
    if random.once_in(2) {
        bytes.truncate(random.between(1, bytes.len()));
    }
    bytes
}

/// Changes, loses, puts in or cuts off a byte.
fn damage(random: &mut Random, text: &mut Vec<u8>) {
    let place = random.between(0, text.len());
    match random.between(0, 5) {
        0 => text.truncate(place),
        1 if place < text.len() => {
            text.remove(place);
        }
        2 if place < text.len() => text[place] = random.next() as u8,
        3 => text.insert(place, random.next() as u8),
        _ => {
            let bytes = broken(random);
            text.splice(place..place, bytes);
        }
    }
}

/// The case of a seed: one in three asks where a byte comes from, the others are marked.
pub fn case(seed: u64) -> Case {
    let random = &mut Random::new(seed);
    let length = match random.between(0, 499) {
        0 => random.between(8_000, 40_000),
        1..=99 => random.between(0, 8),
        100..=299 => random.between(0, 60),
        _ => random.between(0, 500),
    };
    let mut text = prose(random, length);
    let wrong = random.between(0, 9);
    if wrong < 3 {
        // At a character's edge, so that the rest is as it was.
        let edges: Vec<usize> = text.char_indices().map(|(at, _)| at).chain([text.len()]).collect();
        for _ in 0..random.any(&[1, 1, 2, 5]) {
            let edge = random.any(&edges);
            let strange = if random.once_in(4) {
                char::from_u32(random.between(0, 0x10ffff) as u32).unwrap_or('\u{1}')
            } else {
                random.any(&STRANGE)
            };
            if text.is_char_boundary(edge) {
                text.insert(edge, strange);
            }
        }
    }
    let mut text = text.into_bytes();
    if wrong == 2 || wrong == 3 || wrong == 4 {
        for _ in 0..random.any(&[1, 1, 2, 6]) {
            damage(random, &mut text);
        }
    }
    text.truncate(LARGEST_TEXT);
    let question = if random.once_in(3) { Question::Source } else { Question::Mark };
    let Marked { bytes, .. } = marked(&text);
    let needed = bytes.len();
    let mut w = 40;
    let mut room = match random.between(0, 9) {
        0 => needed.saturating_sub(random.between(2, 30)),
        1 => needed.saturating_sub(1),
        2 => 0,
        3 => needed + 1,
        4 => needed + random.between(2, 300),
        _ => needed,
    };
    if question == Question::Source {
        w = match random.between(0, 9) {
            0 => needed as u64,
            1 => (needed + random.between(0, 9)) as u64,
            2 => random.next() >> random.between(0, 63),
            3 => needed.saturating_sub(1) as u64,
            _ => random.between(0, needed) as u64,
        };
        room = random.any(&[0, 0, 1, 40]);
    }
    Case { seed, kinds: vec![], question, image: vec![], text, following: b' ', year: 0, w, p: 25, room }
}

// What was met

/// What a marked text may show, with the words of its count.
const SHOWN: [&str; 20] = [
    "a capital",
    "a word of capitals",
    "a word of capitals with an apostrophe",
    "an accent",
    "an accented capital",
    "a word of capitals that begins with an accent",
    "an opening single quote",
    "a closing single quote",
    "a right single quote that is an apostrophe",
    "a double quote",
    "a long dash",
    "three dots",
    "a sign in its literal form",
    "the bar in its literal form",
    "a bracket",
    "a blank line",
    "a blank line with gaps",
    "a page's end",
    "a soft hyphen or a byte order mark left out",
    "a no-break space or another that becomes a blank",
];

fn shown(text: &str, marked: &str) -> [bool; SHOWN.len()] {
    let has = |part: &str| marked.contains(part);
    let pairs = || marked.as_bytes().windows(3);
    let apostrophes = marked.replace("$'", "").matches('\'').count();
    [
        pairs().any(|three| three[0] != b'=' && three[0] != b':' && three[1] == b'=' && three[2].is_ascii_uppercase()),
        has("=="),
        has("==I'M") || has("==DON'T"),
        has("%"),
        has("=%"),
        has("==%"),
        has("$'"),
        text.contains('‘') && has("$'R"),
        text.contains('’') && apostrophes > text.matches('\'').count(),
        has("\""),
        has("--"),
        text.contains('…') && has("..."),
        has("$:$") && has("$:%"),
        has("$:I"),
        text.contains('[') && has("<"),
        text.contains("\n\n") && has("$P"),
        text.lines().any(|line| line.contains([' ', '\t']) && line.trim().is_empty()) && has("$P"),
        has("$N"),
        text.contains(['\u{ad}', '\u{feff}']),
        text.contains(['\u{a0}', '\u{2003}', '\u{202f}']) && has(" "),
    ]
}

/// Counts what was met: marked, refused, and what the marks show; and where bytes come from.
pub struct Met {
    pub cases: u64,
    marked: u64,
    empty: u64,
    no_mark: u64,
    broken: u64,
    rooms: u64,
    sources: u64,
    sources_past: u64,
    sources_far: u64,
    sources_unmarked: u64,
    shown: [u64; SHOWN.len()],
}

impl Met {
    pub fn new() -> Met {
        Met {
            cases: 0,
            marked: 0,
            empty: 0,
            no_mark: 0,
            broken: 0,
            rooms: 0,
            sources: 0,
            sources_past: 0,
            sources_far: 0,
            sources_unmarked: 0,
            shown: [0; SHOWN.len()],
        }
    }

    /// One case, with the answer and the buffer that both gave.
    pub fn meet(&mut self, case: &Case, answer: &Answer, buffer: &[u8]) -> Result<(), String> {
        self.cases += 1;
        let text = &case.text[..];
        if case.question == Question::Source {
            let marked = marked(text);
            self.sources += u64::from(answer.place < text.len() as u64);
            self.sources_past += u64::from(answer.place == text.len() as u64);
            self.sources_far += u64::from(case.w > u64::from(u32::MAX));
            self.sources_unmarked += u64::from(marked.unmarked.is_some());
            return if answer.place <= text.len() as u64 { Ok(()) } else { Err("a source past the text".to_string()) };
        }
        match answer.number {
            0 => {
                self.marked += 1;
                self.meet_marked(text, &buffer[..answer.written as usize])
            }
            8 => {
                self.rooms += 1;
                Ok(())
            }
            _ => {
                // What stands before it can be marked, and the character itself can't.
                let before = &text[..answer.place as usize];
                if marked(before).unmarked.is_some() {
                    return Err("a character before the place has no mark".to_string());
                }
                match marked(text).unmarked {
                    Some((_, true)) => self.broken += 1,
                    _ => self.no_mark += 1,
                }
                Ok(())
            }
        }
    }

    fn meet_marked(&mut self, text: &[u8], bytes: &[u8]) -> Result<(), String> {
        if !bytes.iter().all(|byte| matches!(byte, 32..=126 | 10)) {
            return Err("a marked text has another symbol".to_string());
        }
        self.empty += u64::from(bytes.is_empty());
        let text = std::str::from_utf8(text).map_err(|_| "a text that is no UTF-8 was marked".to_string())?;
        let folded: Vec<u8> = text
            .chars()
            .filter_map(|character| match ink(character) {
                Ink::Letter { capital, .. } => Some(capital as u8),
                _ => character.is_ascii_digit().then_some(character as u8),
            })
            .collect();
        // Of the marked text those letters and digits that come from a letter or a digit.
        let own = |at: usize| {
            let character = text[at..].chars().next().expect("a byte comes from a character");
            ink(character).is_letter() || character.is_ascii_digit()
        };
        let sources = marked(text.as_bytes()).sources;
        let kept: Vec<u8> = bytes
            .iter()
            .zip(sources)
            .filter(|(byte, at)| (byte.is_ascii_uppercase() || byte.is_ascii_digit()) && own(*at))
            .map(|(byte, _)| *byte)
            .collect();
        if kept != folded {
            return Err("letters or digits were lost".to_string());
        }
        let marked = std::str::from_utf8(bytes).expect("it is ASCII");
        for (count, shown) in self.shown.iter_mut().zip(shown(text, marked)) {
            *count += u64::from(shown);
        }
        Ok(())
    }

    /// Each count with its words; none may be 0.
    pub fn lines(&self) -> Vec<(u64, String)> {
        let mut lines = vec![
            (self.cases, "cases of inkprint, no difference".to_string()),
            (self.marked, "texts marked".to_string()),
            (self.empty, "marked texts of no byte".to_string()),
            (self.no_mark, "refused 21: a character that has no mark".to_string()),
            (self.broken, "refused 21: broken UTF-8".to_string()),
            (self.rooms, "rooms too short".to_string()),
            (self.sources, "sources of a marked byte".to_string()),
            (self.sources_past, "sources past all".to_string()),
            (self.sources_far, "sources of a byte past 32 bits".to_string()),
            (self.sources_unmarked, "sources in a text that can't be marked".to_string()),
        ];
        lines.extend(self.shown.iter().zip(SHOWN).map(|(count, words)| (*count, format!("marked: {words}"))));
        lines
    }
}

#[cfg(test)]
mod tests {
    use super::*;

    /// The marked text, or the place of what has no mark.
    fn of(text: impl AsRef<[u8]>) -> Result<String, usize> {
        let marked = marked(text.as_ref());
        marked.unmarked.map_or(Ok(String::from_utf8(marked.bytes).expect("it is ASCII")), |(at, _)| Err(at))
    }

    fn all(pairs: &[(&str, &str)]) {
        for (text, right) in pairs {
            assert_eq!(of(text), Ok(right.to_string()), "{text:?}");
        }
    }

    #[test]
    fn capitals() {
        all(&[
            ("The NASA man's", "=THE ==NASA MAN'S"),
            ("NASA's", "==NASA'S"),
            ("I'm", "=I'M"),
            ("I'M", "==I'M"),
            ("O'Brien", "=O'=BRIEN"),
            ("DON'T", "==DON'T"),
            ("McX", "=MC=X"),
            ("B2B", "=B2=B"),
            ("AB-CD", "==AB-==CD"),
            ("DON’T", "==DON'T"),
        ]);
    }

    #[test]
    fn signs() {
        all(&[
            ("$5 %=_+<>|", "$:$5 $:%$:=$:_$:+$:<$:>$:I"),
            ("[a]", "<A>"),
            ("a\nb\n", "A\nB\n"),
            ("a\n\nb", "A\n$PB"),
            ("a\n \t\r\nb", "A\n$PB"),
            ("\na", "$PA"),
            ("a\r\nb", "A\nB"),
            (" a \n", " A \n"),
            ("a\u{c}b", "A$NB"),
        ]);
    }

    #[test]
    fn typographic() {
        all(&[
            ("café", "CAF%E"),
            ("Ét", "=%ET"),
            ("ÉTÉ", "==%ET%E"),
            ("‘a’ it’s’", "$'A$'R IT'S'"),
            ("“a”", "\"A\""),
            ("a–b—c…\u{a0}d", "A-B--C... D"),
        ]);
    }

    #[test]
    fn without_mark() {
        let wrong: [(&[u8], usize); 9] = [
            (b"a\x07", 1),
            ("a£".as_bytes(), 1),
            ("α".as_bytes(), 0),
            (&[97, 128], 1),
            (&[192, 128], 0),
            (&[224, 128, 128], 0),
            (&[237, 160, 128], 0),
            (&[244, 144, 128, 128], 0),
            (&[97, 98, 226, 128], 2),
        ];
        for (text, at) in wrong {
            assert_eq!(of(text), Err(at), "{text:?}");
        }
    }

    #[test]
    fn sources() {
        let places: Vec<u64> = (0..8).map(|n| source("ÉTÉ".as_bytes(), n).place).collect();
        assert_eq!(places, [0, 0, 0, 0, 2, 3, 3, 5]);
        assert_eq!(source(b"", u64::MAX).place, 0);
    }

    #[test]
    fn rooms() {
        let mut out = [7; 5];
        assert_eq!(marking("É".as_bytes(), &mut out[..2]), Answer { number: 8, place: 3, ..Answer::default() });
        assert_eq!(marking("É".as_bytes(), &mut out), Answer { written: 3, ..Answer::default() });
        assert_eq!(&out, b"=%E\x07\x07");
    }

    /// The accented letters of the rows are those of the blocks, each once.
    #[test]
    fn accents() {
        let letters: Vec<char> = ('À'..='ſ').filter(|character| ink(*character).is_letter()).collect();
        let without: String = ('À'..='ſ').filter(|character| !letters.contains(character)).collect();
        assert_eq!(without, "ÆÐ×Þßæð÷þĲĳĸĿŀŉŊŋŒœſ");
    }
}
