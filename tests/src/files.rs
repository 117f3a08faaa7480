//! Random layouts and files, to be written and read: pages full to W and P or nowhere near, with
//! empty lines and blanks where they may stand, as the whole call wrote them, or long; then mostly
//! with something wrong in them, of each kind that document 02 names, or with a byte that stands for
//! nothing. Part of src/generate.rs, whose seeds and sizes it takes.

use crate::counts::Notes;
use crate::generate::{embossed, sizes, Case, Kind, Question, Random, LARGEST_ROOM, LARGEST_TEXT};
use crate::reference::{characters, Filing, Planted};

/// The cells of each line of each page.
type Pages = Vec<Vec<Vec<u8>>>;

/// The case of a file, written or read. What the call doesn't look at is there too.
pub fn file_case(random: &mut Random, seed: u64, question: Question, filing: Filing, mut kinds: Vec<Kind>) -> Case {
    let (w, p) = sizes(random, &mut kinds);
    let text = lent(random, filing, (w, p), &mut kinds);
    let image = (0..random.any(&[0, 0, 14, 30])).map(|_| random.next() as u8).collect();
    let (following, year) = (random.next() as u8, random.next() as u16);
    let mut case = Case { seed, kinds, question, image, text, following, year, w, p, room: 0 };
    case.room = room(random, filing, &mut case);
    case
}

/// The layout or file that is lent.
fn lent(random: &mut Random, filing: Filing, (w, p): (u64, u64), kinds: &mut Vec<Kind>) -> Vec<u8> {
    let mut bytes = layout(random, filing, (w.clamp(8, 60) as usize, p.clamp(2, 40) as usize), kinds);
    let turn = |bytes: &mut Vec<u8>| {
        let characters = characters();
        bytes.iter_mut().for_each(|byte| *byte = characters.get(*byte as usize).copied().unwrap_or(*byte));
    };
    match (filing, random.between(0, 59)) {
        (Filing::Write, 0) => {
            turn(&mut bytes);
            kinds.push(Kind::PagesOtherKind);
        }
        (Filing::Read, 0) => kinds.push(Kind::PagesOtherKind),
        (Filing::Write, _) => (),
        (Filing::Read, _) => turn(&mut bytes),
    }
    match (filing, random.between(0, 59)) {
        (Filing::Read, 0) => {
            bytes.make_ascii_lowercase();
            kinds.push(Kind::PagesLowered);
        }
        (Filing::Read, 1) => {
            bytes = bytes.iter().flat_map(|byte| if *byte == 10 { vec![13, 10] } else { vec![*byte] }).collect();
            kinds.push(Kind::PagesCarriageReturns);
        }
        (_, 2..=7) => {
            let other = other_byte(random, filing);
            put(random, &mut bytes, other);
            kinds.push(Kind::PagesOtherByte);
        }
        _ => (),
    }
    bytes.truncate(LARGEST_TEXT);
    bytes
}

/// A byte that stands for nothing in a layout, or in a file.
fn other_byte(random: &mut Random, filing: Filing) -> u8 {
    let characters = characters();
    let meaningless = |byte: &u8| match filing {
        Filing::Write => *byte > 65,
        Filing::Read => !characters.contains(byte),
    };
    let near = match (filing, random.between(0, 3)) {
        (Filing::Write, 0..=1) => random.any(&[66, 66, 66, 67, 70, 71, 72, 73, 99, 128, 255]),
        (Filing::Read, 0..=1) => random.between(b'a' as usize, b'z' as usize) as u8,
        (Filing::Read, 2) => random.any(b"\t\r\n`{|}~\x00\x0b\x1a\x1b\x1f\x7f\x80\xff"),
        _ => random.next() as u8,
    };
    Some(near).filter(meaningless).unwrap_or_else(|| if filing == Filing::Write { 66 } else { b'`' })
}

/// Puts a byte somewhere in place of another, or between two.
fn put(random: &mut Random, bytes: &mut Vec<u8>, byte: u8) {
    let at = random.between(0, bytes.len());
    if at < bytes.len() && random.once_in(2) {
        bytes[at] = byte;
    } else {
        bytes.insert(at, byte);
    }
}

/// The bytes of some pages as a layout, good for W and P or damaged.
fn layout(random: &mut Random, filing: Filing, (w, p): (usize, usize), kinds: &mut Vec<Kind>) -> Vec<u8> {
    let (kind, mut pages) = match random.between(0, 149) {
        0..=6 => (Kind::PagesNone, vec![]),
        7..=35 => {
            let kind = match filing {
                Filing::Write => Kind::PagesEmbossedWrite,
                Filing::Read => Kind::PagesEmbossedRead,
            };
            let room = if random.once_in(8) { LARGEST_TEXT } else { 2000 };
            (kind, pages_of(&embossed(random, (w as u64, p as u64), room)))
        }
        36..=50 => (Kind::PagesFull, full_pages(random, (w, p))),
        51..=59 => (Kind::PagesAllCells, all_cells(random, (w, p))),
        60..=69 => {
            let size = random.between(4000, 17_000);
            (Kind::PagesMany, many_pages(random, (w, p), size))
        }
        70..=74 => {
            let size = random.between(65_600, LARGEST_TEXT - 6000);
            (Kind::PagesHuge, many_pages(random, (w, p), size))
        }
        _ => (Kind::PagesFew, few_pages(random, (w, p))),
    };
    kinds.push(kind);
    let sound = if kind == Kind::PagesHuge { 9 } else { 4 };
    if random.between(0, 9) < sound {
        kinds.push(Kind::PagesSound);
        return bytes_of(&pages);
    }
    let twice = random.once_in(10);
    if twice {
        damage_pages(random, (w, p), &mut pages, kinds);
    }
    if random.once_in(2) {
        damage_pages(random, (w, p), &mut pages, kinds);
        return bytes_of(&pages);
    }
    let mut bytes = bytes_of(&pages);
    damage_bytes(random, w, &mut bytes, kinds);
    bytes
}

/// Output bytes: cells; 64 after each line; 65 after each page's last line.
fn bytes_of(pages: &Pages) -> Vec<u8> {
    let mut bytes = vec![];
    for page in pages {
        for line in page {
            bytes.extend(line);
            bytes.push(64);
        }
        bytes.push(65);
    }
    bytes
}

/// The pages of a layout as the whole call writes it.
fn pages_of(bytes: &[u8]) -> Pages {
    let lines =
        |page: &[u8]| page.split_inclusive(|byte| *byte == 64).map(|line| line[..line.len() - 1].to_vec()).collect();
    bytes.split_inclusive(|byte| *byte == 65).map(|page| lines(&page[..page.len() - 1])).collect()
}

fn cell(random: &mut Random) -> u8 {
    random.between(1, 63) as u8
}

/// A line of so many cells, of which the last is not blank and some others are.
fn line(random: &mut Random, cells: usize) -> Vec<u8> {
    let blanks = random.any(&[0, 2, 4, 9]);
    let mut line: Vec<u8> =
        (0..cells).map(|_| if blanks > 0 && random.once_in(blanks) { 0 } else { cell(random) }).collect();
    if let Some(last) = line.last_mut() {
        *last = cell(random);
    }
    line
}

/// A line of any width up to W: mostly short, empty, or about as wide as it may be.
fn any_line(random: &mut Random, w: usize) -> Vec<u8> {
    let cells = match random.between(0, 9) {
        0..=1 => 0,
        2..=3 => random.any(&[w - 1, w, w]),
        4..=6 => random.between(1, 4),
        _ => random.between(1, w),
    };
    line(random, cells)
}

fn few_pages(random: &mut Random, (w, p): (usize, usize)) -> Pages {
    let pages = random.between(1, 3);
    let few = random.between(1, p.min(5));
    (0..pages)
        .map(|_| {
            let lines = random.any(&[1, few, p - 1, p, p]);
            (0..lines).map(|_| any_line(random, w)).collect()
        })
        .collect()
}

fn full_pages(random: &mut Random, (w, p): (usize, usize)) -> Pages {
    let pages = random.between(1, 2);
    (0..pages).map(|_| (0..p).map(|_| line(random, w)).collect()).collect()
}

/// Each cell at least once.
fn all_cells(random: &mut Random, (w, p): (usize, usize)) -> Pages {
    let mut cells: Vec<u8> = (1..64).collect();
    random.shuffle(&mut cells);
    let mut lines: Vec<Vec<u8>> = cells.chunks(w - 1).map(<[u8]>::to_vec).collect();
    lines[0].insert(0, 0);
    lines.chunks(p).map(<[Vec<u8>]>::to_vec).collect()
}

/// Pages of so many bytes, and up to a page more.
fn many_pages(random: &mut Random, (w, p): (usize, usize), size: usize) -> Pages {
    let mut pages = vec![];
    let mut bytes = 0;
    while bytes < size {
        let lines = if random.once_in(3) { random.between(1, p) } else { p };
        let page: Vec<Vec<u8>> = (0..lines).map(|_| any_line(random, w)).collect();
        bytes += page.iter().map(|line| line.len() + 1).sum::<usize>() + 1;
        pages.push(page);
    }
    pages
}

/// Something wrong with a page: a line over W, a blank at its end, a page over P or of no line.
fn damage_pages(random: &mut Random, (w, p): (usize, usize), pages: &mut Pages, kinds: &mut Vec<Kind>) {
    if pages.is_empty() || random.once_in(5) {
        let between = random.between(0, pages.len());
        let at = random.any(&[0, between, pages.len()]);
        pages.insert(at, vec![]);
        kinds.push(Kind::PagesNoLine);
        return;
    }
    let last = pages.len() - 1;
    let page = random.between(0, last);
    let page = &mut pages[page];
    if page.is_empty() || random.once_in(4) {
        let extra = random.between(1, 2);
        while page.len() < p + extra {
            let extra = if random.once_in(2) { vec![] } else { any_line(random, w) };
            page.push(extra);
        }
        kinds.push(Kind::PagesOver);
        return;
    }
    let at = random.between(0, page.len() - 1);
    page[at] = match random.between(0, 2) {
        0 => {
            kinds.push(Kind::PagesLineOver);
            let mut over = line(random, w);
            let more = random.between(1, 3);
            over.extend((0..more).map(|_| random.any(&[0, 1, 36, 63])));
            over
        }
        1 => {
            kinds.push(Kind::PagesBlankLast);
            let mut line = line(random, w - 1);
            line.push(0);
            line.extend(&[1][..random.between(0, 1)]);
            line
        }
        _ => {
            kinds.push(Kind::PagesLineBlank);
            let cells = random.between(0, w - 2);
            let mut line = line(random, cells);
            line.resize(random.between(cells + 1, w - 1), 0);
            line
        }
    };
}

/// Something wrong with the bytes of a layout: a page's end inside a line, a stop before the last
/// page's end, text after it, or any byte.
fn damage_bytes(random: &mut Random, w: usize, bytes: &mut Vec<u8>, kinds: &mut Vec<Kind>) {
    let places = |wanted: &dyn Fn(usize) -> bool| -> Vec<usize> { (0..bytes.len()).filter(|at| wanted(*at)).collect() };
    let cells = places(&|at| bytes[at] < 64);
    let blanks = places(&|at| bytes[at] == 0);
    let page_ends = places(&|at| bytes[at] == 65);
    let ends_of_full_lines =
        places(&|at| bytes[at] == 64 && at >= w && bytes[at - w..at].iter().all(|byte| *byte < 64));
    let kept = match random.between(0, 11) {
        0..=1 if !cells.is_empty() => {
            bytes.insert(random.any(&cells) + 1, 65);
            kinds.push(Kind::PagesEndInLine);
            return;
        }
        2..=3 if !blanks.is_empty() => random.any(&blanks) + 1,
        4 if !ends_of_full_lines.is_empty() => random.any(&ends_of_full_lines),
        5..=6 if !page_ends.is_empty() => random.any(&page_ends),
        4..=7 => random.between(0, bytes.len()),
        8..=9 => {
            let after: &[&[u8]] = &[&[1], &[36, 17], &[0], &[64], &[1, 64], &[64, 64], &[1, 0], &[0, 0, 1, 64]];
            bytes.extend(random.any(after));
            kinds.push(Kind::PagesGoOn);
            return;
        }
        _ => {
            let byte = random.any(&[0, 0, 1, 63, 64, 64, 65, 65, 66]);
            if !bytes.is_empty() && random.once_in(3) {
                bytes.remove(random.between(0, bytes.len() - 1));
            } else {
                put(random, bytes, byte);
            }
            kinds.push(Kind::PagesByteChanged);
            return;
        }
    };
    bytes.truncate(kept);
    kinds.push(Kind::PagesCutShort);
}

/// The output room: none, short, exact or more.
fn room(random: &mut Random, filing: Filing, case: &mut Case) -> usize {
    let without_room = case.answer(Planted::Nothing, &mut [], &mut Notes::new());
    let needed = case.text.len();
    let write = filing == Filing::Write;
    if ![0, 8].contains(&without_room.number) {
        case.kinds.push(if write { Kind::WriteNotAsked } else { Kind::ReadNotAsked });
        return random.any(&[0, 1, needed / 2, needed, needed + 9]).min(LARGEST_ROOM);
    }
    let room = match random.between(0, 9) {
        0 => 0,
        1 => random.between(0, needed),
        2..=3 => needed.saturating_sub(1),
        4..=6 => needed,
        7 => needed + 1,
        _ => needed + random.between(2, 40),
    }
    .min(LARGEST_ROOM);
    case.kinds.push(match (room as i64 - needed as i64, write) {
        (..=-1, true) if room == 0 => Kind::WriteNone,
        (..=-1, false) if room == 0 => Kind::ReadNone,
        (-1, true) => Kind::WriteOneShort,
        (-1, false) => Kind::ReadOneShort,
        (0, true) => Kind::WriteExact,
        (0, false) => Kind::ReadExact,
        (1, true) => Kind::WriteOneMore,
        (1, false) => Kind::ReadOneMore,
        (2.., true) => Kind::WriteAmple,
        (2.., false) => Kind::ReadAmple,
        (_, true) => Kind::WriteShort,
        (_, false) => Kind::ReadShort,
    });
    room
}

#[cfg(test)]
mod tests {
    use super::*;
    use crate::reference::{file_pages, Answer};

    /// The answer and what is written, with so much room as is needed.
    fn filed(filing: Filing, lent: &[u8], sizes: (u64, u64)) -> (Answer, Vec<u8>) {
        let mut out = vec![200; lent.len()];
        let answer = file_pages(Planted::Nothing, filing, lent, sizes, &mut out, &mut Notes::new());
        out.truncate(answer.written as usize);
        (answer, out)
    }

    /// Reading what was written gives the same bytes; writing what was read gives the same file. What
    /// the whole call writes is good for its sizes, and so is each layout that isn't damaged.
    #[test]
    fn files_come_back() {
        let mut met = 0;
        for seed in 0..1000 {
            let random = &mut Random::new(seed);
            let (w, p) = sizes(random, &mut vec![]);
            let (w, p) = (w.clamp(8, 60), p.clamp(2, 40));
            let mut kinds = vec![];
            let made = if seed % 2 == 0 {
                embossed(random, (w, p), 5000)
            } else {
                layout(random, Filing::Write, (w as usize, p as usize), &mut kinds)
            };
            let (answer, file) = filed(Filing::Write, &made, (w, p));
            if seed % 2 == 0 || kinds.contains(&Kind::PagesSound) {
                assert_eq!(answer, Answer { written: made.len() as u64, ..Answer::default() }, "seed {seed}");
            }
            if answer.number == 0 {
                let (answer, layout) = filed(Filing::Read, &file, (w, p));
                assert_eq!(answer.number, 0, "seed {seed}");
                assert_eq!(layout, made, "seed {seed}");
                assert_eq!(filed(Filing::Write, &layout, (w, p)).1, file, "seed {seed}");
                met += !made.is_empty() as u64;
            }
        }
        assert!(met > 400, "{met}");
    }
}
