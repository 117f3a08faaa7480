//! Compares the proved program with the reference: random cases go to the program's standard input,
//! its answers and whole buffers come back, and every value and every byte has to be the
//! reference's. tests/README.md has the byte form of a case. It also writes table images from their
//! readable form, runs the outside vectors, and prints what `brailleout` has to print.

#[macro_use]
mod counts;
mod files;
mod generate;
mod ink;
mod programs;
mod readable;
mod reference;
mod table;
mod vectors;

#[cfg(test)]
mod paper;

use counts::{Notes, EVENT_WORDS};
use generate::{case, case_seed, Case, Question, KIND_WORDS};
use reference::{Answer, Planted};
use std::io::{Read, Write};
use std::process::{exit, Command, Stdio};

const USAGE: &str = "compare --seed S --cases N --program WORD [--program WORD ...] [--planted 1..30] [--batch N] [--all-counts]
compare tables --seed S --cases N --program WORD [--program WORD ...] [--batch N]
compare ink --seed S --cases N --program WORD [--program WORD ...] [--batch N]
compare case SEED
compare table FILE IMAGE
compare shown IMAGE
compare marked TEXT
compare vectors FOLDER --program WORD [--program WORD ...]
compare brailleout TABLE < TEXT
  The words after --program are the program and its arguments; the word self alone stands for the reference.";

/// Cases that go to one run of the program.
const BATCH: u64 = 500;

fn main() {
    let words: Vec<String> = std::env::args().skip(1).collect();
    let words: Vec<&str> = words.iter().map(String::as_str).collect();
    let ended = match words.as_slice() {
        ["--serve"] => serve(),
        ["case", seed] => show(seed),
        ["shown", image] => print_shown(image),
        ["marked", text] => print_marked(text),
        ["table", file, image] => write_image(file, image),
        ["ink", rest @ ..] => Settings::read(rest).and_then(|settings| compare_ink(&settings)),
        ["tables", rest @ ..] => Settings::read(rest).and_then(|settings| compare_tables(&settings)),
        ["brailleout", table] => programs::brailleout(table),
        ["vectors", folder, rest @ ..] => Settings::read(rest).and_then(|settings| vectors::run(folder, &settings.program)),
        rest => Settings::read(rest).and_then(|settings| compare(&settings)),
    };
    if let Err(why) = ended {
        println!("compare: {why}");
        exit(1);
    }
}

struct Settings {
    seed: u64,
    cases: u64,
    batch: u64,
    planted: Planted,
    all_counts: bool,
    program: Vec<String>,
}

impl Settings {
    fn read(words: &[&str]) -> Result<Settings, String> {
        let mut settings =
            Settings { seed: 1, cases: 0, batch: BATCH, planted: Planted::Nothing, all_counts: false, program: vec![] };
        let mut words = words.iter();
        while let Some(&option) = words.next() {
            if option == "--all-counts" {
                settings.all_counts = true;
                continue;
            }
            let value = *words.next().ok_or(USAGE)?;
            match option {
                "--seed" => settings.seed = number(value)?,
                "--cases" => settings.cases = number(value)?,
                "--batch" => settings.batch = number(value)?.max(1),
                "--program" => settings.program.push(value.to_string()),
                "--planted" => {
                    settings.planted = match value {
                        "1" => Planted::LongestEntry,
                        "2" => Planted::ContextAfterShift,
                        "3" => Planted::StatesAfterPiece,
                        "4" => Planted::BlankLineAtTop,
                        "5" => Planted::RecordAsPlace,
                        "6" => Planted::ShiftAtLength,
                        "7" => Planted::SignAtThe99,
                        "8" => Planted::NumbersExchanged,
                        "9" => Planted::BlankWhateverFollows,
                        "10" => Planted::FollowingInside,
                        "11" => Planted::FollowingBeforeText,
                        "12" => Planted::HyphenOnWhole,
                        "13" => Planted::HyphenOverWidth,
                        "14" => Planted::HyphenOnRest,
                        "15" => Planted::LastYearOut,
                        "16" => Planted::FirstYearOut,
                        "17" => Planted::GroupingInForce,
                        "18" => Planted::YearsHighFirst,
                        "19" => Planted::IndexAsPlace,
                        "20" => Planted::SecondByOldFirst,
                        "21" => Planted::RefusedStamped,
                        "22" => Planted::LowerCaseFolded,
                        "23" => Planted::BlankAtLineEnd,
                        "24" => Planted::PageOfNoLine,
                        "25" => Planted::PlaceOneFurther,
                        "26" => Planted::PageOverP,
                        "27" => Planted::CharactersExchanged,
                        "28" => Planted::BlankFoundLate,
                        "29" => Planted::RoomBeforeFile,
                        "30" => Planted::LineOverW,
                        _ => return Err(USAGE.to_string()),
                    }
                }
                _ => return Err(USAGE.to_string()),
            }
        }
        if settings.program.is_empty() {
            return Err(USAGE.to_string());
        }
        Ok(settings)
    }
}

fn number(word: &str) -> Result<u64, String> {
    word.parse().map_err(|_| format!("{word} is not a number"))
}

// The byte form of a case and of its answer

/// Byte `index` of the buffer as it is lent.
fn lent(index: usize) -> u8 {
    (index.wrapping_mul(7).wrapping_add(13) & 0xff) as u8
}

fn lent_buffer(room: usize) -> Vec<u8> {
    (0..room).map(lent).collect()
}

fn write_case(case: &Case, bytes: &mut Vec<u8>) {
    bytes.extend((case.question as u32).to_le_bytes());
    bytes.extend((case.image.len() as u32).to_le_bytes());
    bytes.extend((case.text.len() as u32).to_le_bytes());
    bytes.extend(case.w.to_le_bytes());
    bytes.extend(case.p.to_le_bytes());
    bytes.extend((case.following as u64).to_le_bytes());
    bytes.extend((case.year as u64).to_le_bytes());
    bytes.extend((case.room as u32).to_le_bytes());
    bytes.extend(&case.image);
    bytes.extend(&case.text);
}

fn write_answer(answer: &Answer, bytes: &mut Vec<u8>) {
    bytes.push(answer.number);
    for value in [answer.place, answer.written, answer.pieces, answer.lines, answer.pages] {
        bytes.extend(value.to_le_bytes());
    }
}

/// Takes the next `count` bytes from the front.
fn take<'a>(bytes: &mut &'a [u8], count: usize) -> Option<&'a [u8]> {
    if bytes.len() < count {
        return None;
    }
    let (taken, rest) = bytes.split_at(count);
    *bytes = rest;
    Some(taken)
}

fn take_u32(bytes: &mut &[u8]) -> Option<usize> {
    Some(u32::from_le_bytes(take(bytes, 4)?.try_into().ok()?) as usize)
}

fn take_u64(bytes: &mut &[u8]) -> Option<u64> {
    Some(u64::from_le_bytes(take(bytes, 8)?.try_into().ok()?))
}

fn read_case(bytes: &mut &[u8]) -> Option<Case> {
    let question = Question::of(take_u32(bytes)?)?;
    let (image, text) = (take_u32(bytes)?, take_u32(bytes)?);
    let (w, p) = (take_u64(bytes)?, take_u64(bytes)?);
    let (following, year) = (take_u64(bytes)? as u8, take_u64(bytes)? as u16);
    let room = take_u32(bytes)?;
    let (image, text) = (take(bytes, image)?.to_vec(), take(bytes, text)?.to_vec());
    Some(Case { seed: 0, kinds: vec![], question, image, text, following, year, w, p, room })
}

fn read_answer(bytes: &mut &[u8], room: usize) -> Option<(Answer, Vec<u8>)> {
    let answer = Answer {
        number: take(bytes, 1)?[0],
        place: take_u64(bytes)?,
        written: take_u64(bytes)?,
        pieces: take_u64(bytes)?,
        lines: take_u64(bytes)?,
        pages: take_u64(bytes)?,
    };
    Some((answer, take(bytes, room)?.to_vec()))
}

/// Plays the program over standard input and output, with the reference.
fn serve() -> Result<(), String> {
    let mut input = vec![];
    std::io::stdin().read_to_end(&mut input).map_err(|why| why.to_string())?;
    let mut rest = input.as_slice();
    let mut output = vec![];
    while let Some(case) = read_case(&mut rest) {
        let mut buffer = lent_buffer(case.room);
        let answer = case.answer(Planted::Nothing, &mut buffer, &mut Notes::new());
        write_answer(&answer, &mut output);
        output.extend(buffer);
    }
    std::io::stdout().write_all(&output).map_err(|why| why.to_string())
}

/// The answers and buffers that one run of the program gives to these cases; `meanwhile` runs beside it.
pub fn run_program<T>(
    program: &[String],
    cases: &[Case],
    meanwhile: impl FnOnce() -> T,
) -> Result<(Vec<(Answer, Vec<u8>)>, T), String> {
    let own = std::env::current_exe().map_err(|why| why.to_string())?;
    let mut command = if program == ["self"] {
        let mut command = Command::new(own);
        command.arg("--serve");
        command
    } else {
        let mut command = Command::new(&program[0]);
        command.args(&program[1..]);
        command
    };
    let mut child = command
        .stdin(Stdio::piped())
        .stdout(Stdio::piped())
        .spawn()
        .map_err(|why| format!("the program does not start: {why}"))?;
    let mut to_program = child.stdin.take().expect("its input is a pipe");
    let mut from_program = child.stdout.take().expect("its output is a pipe");
    let mut input = vec![];
    for case in cases {
        write_case(case, &mut input);
    }
    // A program that stops reading shows in what it writes and in how it ends.
    let writer = std::thread::spawn(move || {
        let _ = to_program.write_all(&input);
    });
    let reader = std::thread::spawn(move || {
        let mut output = vec![];
        from_program.read_to_end(&mut output).map(|_| output)
    });
    let beside = meanwhile();
    let _ = writer.join();
    let output = reader.join().expect("the reader ends").map_err(|why| why.to_string())?;
    let status = child.wait().map_err(|why| why.to_string())?;
    let mut rest = output.as_slice();
    let mut answers = vec![];
    for case in cases {
        match read_answer(&mut rest, case.room) {
            Some(answer) => answers.push(answer),
            None => {
                return Err(format!(
                    "the program ended ({status}) after {} of {} answers, before that of case {}",
                    answers.len(),
                    cases.len(),
                    case.seed
                ))
            }
        }
    }
    if !rest.is_empty() {
        return Err(format!("the program wrote {} bytes after the last answer", rest.len()));
    }
    if !status.success() {
        return Err(format!("the program ended with {status}"));
    }
    Ok((answers, beside))
}

// The random comparison

/// What can be asked, in which words, and the numbers of its answers in the order in which they are
/// met.
const NUMBERS: [(Question, &str, &[u8]); 6] = [
    (Question::Emboss, "answer", &[0, 1, 2, 11, 12, 13, 14, 3, 4, 5, 6, 7, 15, 8]),
    (Question::Date, "dating: answer", &[0, 1, 2, 11, 12, 13, 14, 3, 4, 8]),
    (Question::Undate, "moving back: answer", &[0, 1, 2, 11, 12, 13, 14, 3, 4, 17, 8]),
    (Question::Stamp, "stamp: answer", &[0, 1, 2, 11, 12, 13, 14, 3, 4]),
    (Question::WriteFile, "writing a file: answer", &[0, 5, 16, 8]),
    (Question::ReadFile, "reading a file: answer", &[0, 5, 16, 8]),
];

struct Counts {
    cases: u64,
    kinds: [u64; KIND_WORDS.len()],
    /// Of each of NUMBERS so many of each number.
    answers: [[u64; 256]; NUMBERS.len()],
    with_cells: u64,
}

fn compare(settings: &Settings) -> Result<(), String> {
    let answers = [[0; 256]; NUMBERS.len()];
    let mut counts = Counts { cases: 0, kinds: [0; KIND_WORDS.len()], answers, with_cells: 0 };
    let mut notes = Notes::new();
    while counts.cases < settings.cases {
        let upto = settings.cases.min(counts.cases + settings.batch);
        let cases: Vec<Case> =
            (counts.cases..upto).map(|number| case(case_seed(settings.seed, number))).collect();
        let (answers, expected) = run_program(&settings.program, &cases, || expect(settings.planted, &cases))?;
        for ((case, answer), (own, own_notes)) in cases.iter().zip(&answers).zip(&expected) {
            counts.cases += 1;
            if let Some(difference) = difference(answer, own) {
                if settings.planted != Planted::Nothing {
                    println!("{:?}: found by case {} of the run: {difference}", settings.planted, counts.cases);
                    return Ok(());
                }
                println!("case {} of the run, seed {}", counts.cases, case.seed);
                println!("  program   {:?}", answer.0);
                println!("  reference {:?}", own.0);
                return Err(format!("a difference: {difference}"));
            }
            for kind in &case.kinds {
                counts.kinds[*kind as usize] += 1;
            }
            counts.answers[case.question as usize][own.0.number as usize] += 1;
            if own.0.number == 0 {
                notes.add(own_notes);
                // The first line of a page always has a cell.
                if own.0.lines > 0 {
                    counts.with_cells += 1;
                }
            } else {
                notes.add_refused(own_notes);
            }
        }
    }
    if settings.planted != Planted::Nothing {
        return Err(format!("{:?} is not found in {} cases", settings.planted, counts.cases));
    }
    report(settings, &counts, &notes)
}

/// The comparison of readable tables: images shown, texts made.
fn compare_tables(settings: &Settings) -> Result<(), String> {
    let mut met = readable::Met::new();
    while met.cases < settings.cases {
        let upto = settings.cases.min(met.cases + settings.batch);
        let cases: Vec<Case> =
            (met.cases..upto).map(|number| readable::case(case_seed(settings.seed, number))).collect();
        let (answers, expected) = run_program(&settings.program, &cases, || expect(Planted::Nothing, &cases))?;
        for ((case, answer), (own, _)) in cases.iter().zip(&answers).zip(&expected) {
            if let Some(difference) = difference(answer, own) {
                println!("case {} of the run: {:?}", met.cases + 1, case.question);
                println!("image {:?}", case.image);
                println!("text {:?}", String::from_utf8_lossy(&case.text));
                return Err(format!("a difference: {difference}"));
            }
            met.meet(case, &own.0, &own.1)?;
        }
    }
    none_is_zero(met.lines())
}

/// The comparison of inkprint: texts marked, and where a marked byte comes from.
fn compare_ink(settings: &Settings) -> Result<(), String> {
    let mut met = ink::Met::new();
    while met.cases < settings.cases {
        let upto = settings.cases.min(met.cases + settings.batch);
        let cases: Vec<Case> = (met.cases..upto).map(|number| ink::case(case_seed(settings.seed, number))).collect();
        let (answers, expected) = run_program(&settings.program, &cases, || expect(Planted::Nothing, &cases))?;
        for ((case, answer), (own, _)) in cases.iter().zip(&answers).zip(&expected) {
            if let Some(difference) = difference(answer, own) {
                println!("case {} of the run: {:?}, W {}, room {}", met.cases + 1, case.question, case.w, case.room);
                println!("text {:?}", String::from_utf8_lossy(&case.text));
                println!("its bytes {:?}", case.text);
                return Err(format!("a difference: {difference}"));
            }
            met.meet(case, &own.0, &own.1)?;
        }
    }
    none_is_zero(met.lines())
}

/// Prints each count with its words, and fails where one is 0.
fn none_is_zero(lines: Vec<(u64, String)>) -> Result<(), String> {
    let mut zero = vec![];
    for (count, words) in lines {
        println!("{count:>10}  {words}");
        if count == 0 {
            zero.push(words);
        }
    }
    if zero.is_empty() { Ok(()) } else { Err(format!("counts of zero: {}", zero.join(", "))) }
}

type Outcome = (Answer, Vec<u8>);

fn expect(planted: Planted, cases: &[Case]) -> Vec<(Outcome, Notes)> {
    cases
        .iter()
        .map(|case| {
            let mut notes = Notes::new();
            let mut buffer = lent_buffer(case.room);
            let answer = case.answer(planted, &mut buffer, &mut notes);
            ((answer, buffer), notes)
        })
        .collect()
}

/// What differs first, if anything does.
fn difference(program: &Outcome, reference: &Outcome) -> Option<String> {
    if program.0 != reference.0 {
        return Some(format!("answers {:?} and {:?}", program.0, reference.0));
    }
    let at = program.1.iter().zip(&reference.1).position(|(one, other)| one != other)?;
    Some(format!("byte {at} of the buffer is {} and {}", program.1[at], reference.1[at]))
}

fn report(settings: &Settings, counts: &Counts, notes: &Notes) -> Result<(), String> {
    let mut zero = vec![];
    let mut line = |count: u64, words: &str| {
        println!("{count:>10}  {words}");
        if count == 0 {
            zero.push(words.to_string());
        }
    };
    line(counts.cases, "cases, no difference");
    for (count, words) in counts.kinds.iter().zip(KIND_WORDS) {
        line(*count, words);
    }
    for (question, words, numbers) in NUMBERS {
        for number in numbers {
            line(counts.answers[question as usize][*number as usize], &format!("{words} {number}"));
        }
    }
    line(counts.with_cells, "answer 0 with cells");
    for (count, words) in notes.counts.iter().zip(EVENT_WORDS) {
        line(*count, words);
    }
    if settings.all_counts {
        if !zero.is_empty() {
            return Err(format!("counts of zero: {}", zero.join(", ")));
        }
        let whole_calls: u64 = counts.answers[Question::Emboss as usize].iter().sum();
        if counts.with_cells * 10 < whole_calls * 4 {
            return Err("fewer than four in ten whole calls answer 0 with cells".to_string());
        }
    }
    Ok(())
}

/// Prints a case by its seed, with the reference's answer.
fn show(seed: &str) -> Result<(), String> {
    let case = case(number(seed)?);
    let mut buffer = lent_buffer(case.room);
    let answer = case.answer(Planted::Nothing, &mut buffer, &mut Notes::new());
    println!("{:?}, year {} W {} P {} room {}", case.question, case.year, case.w, case.p, case.room);
    println!("image, {} bytes: {:?}", case.image.len(), case.image);
    if case.question == Question::WriteFile {
        println!("layout, {} bytes: {:?}", case.text.len(), case.text);
    } else {
        println!("text, {} bytes: {:?}", case.text.len(), String::from_utf8_lossy(&case.text));
    }
    println!("following {} {:?}", case.following, case.following as char);
    println!("{answer:?}");
    if case.question != Question::Stamp {
        println!("{:?}", &buffer[..answer.written as usize]);
    }
    Ok(())
}

fn print_shown(image: &str) -> Result<(), String> {
    let image = std::fs::read(image).map_err(|why| format!("{image}: {why}"))?;
    print!("{}", readable::show(&image));
    Ok(())
}

fn print_marked(file: &str) -> Result<(), String> {
    let text = std::fs::read(file).map_err(|why| format!("{file}: {why}"))?;
    let mut out = vec![0; 4 * text.len()];
    let answer = ink::marking(&text, &mut out);
    if answer.number != 0 {
        return Err(format!("{file}: refused {} at {}", answer.number, answer.place));
    }
    std::io::stdout().write_all(&out[..answer.written as usize]).map_err(|why| why.to_string())
}

fn write_image(file: &str, image: &str) -> Result<(), String> {
    let text = std::fs::read(file).map_err(|why| format!("{file}: {why}"))?;
    let table = readable::read_named(file, &text)?;
    std::fs::write(image, table.image()).map_err(|why| format!("{image}: {why}"))
}
