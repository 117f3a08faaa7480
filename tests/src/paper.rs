//! The paper's own examples and corners, by its table of 218 bytes, asked of the reference with a blank following;
//! what a request of document 02 changes, by the same table.

use crate::counts::Notes;
use crate::reference::{
    emboss, emboss_planted, file_pages, move_table, second_in_full, stamp, Answer, Asked, Filing, Planted, Way,
};
use crate::readable;
use crate::table;

/// The paper's table has the old form, so it doesn't care about the year.
const YEAR: u16 = 1970;

fn image() -> Vec<u8> {
    readable::read(include_bytes!("../../tables/paper.table")).unwrap().image()
}

fn ask(text: &[u8], w: u64, p: u64, room: usize) -> (Answer, Vec<u8>) {
    ask_followed(text, b' ', w, p, room)
}

fn ask_followed(text: &[u8], following: u8, w: u64, p: u64, room: usize) -> (Answer, Vec<u8>) {
    let mut out = vec![200; room];
    let answer = emboss(Asked { image: &image(), text, following, year: YEAR, w, p }, &mut out, &mut Notes::new());
    assert!(out[answer.written as usize..].iter().all(|byte| *byte == 200), "beyond the written bytes as it was");
    out.truncate(answer.written as usize);
    (answer, out)
}

fn refused(number: u8, place: u64) -> Answer {
    Answer { number, place, ..Answer::default() }
}

#[test]
fn the_image_is_the_papers() {
    let image = image();
    assert_eq!(image.len(), 218);
    assert_eq!(image[204..], [204, 0, 147, 0, 21, 0, 17, 0, 12, 0, 5, 1, 66, 51]);
}

#[test]
fn twelve_examples() {
    let examples: [(&str, &[u8], [u64; 3]); 12] = [
        ("", &[], [0, 0, 0]),
        ("COME", &[36, 17, 64, 65], [2, 1, 1]),
        ("BECOME", &[3, 17, 9, 21, 13, 17, 64, 65], [6, 1, 1]),
        ("FULFUL", &[11, 37, 7, 48, 7, 64, 65], [4, 1, 1]),
        ("BLIND", &[3, 7, 64, 65], [1, 1, 1]),
        ("BLINDED", &[3, 7, 10, 29, 25, 17, 25, 64, 65], [7, 1, 1]),
        ("A.   B", &[1, 50, 0, 3, 64, 65], [5, 1, 1]),
        ("AAAA AAA", &[1, 1, 1, 1, 0, 1, 1, 1, 64, 65], [8, 1, 1]),
        ("AAAA AAAA", &[1, 1, 1, 1, 64, 1, 1, 1, 1, 64, 65], [9, 2, 1]),
        ("A$S$SB", &[1, 64, 64, 65, 3, 64, 65], [4, 3, 2]),
        ("$PA", &[0, 0, 1, 64, 65], [2, 1, 1]),
        ("$N$N", &[], [2, 0, 0]),
    ];
    for (text, output, [pieces, lines, pages]) in examples {
        let (answer, wrote) = ask(text.as_bytes(), 8, 2, 100);
        let written = output.len() as u64;
        assert_eq!(wrote, output, "{text}");
        assert_eq!(answer, Answer { number: 0, place: 0, written, pieces, lines, pages }, "{text}");
    }
}

#[test]
fn corners() {
    assert_eq!(ask(b"$PAAAAAAA", 8, 2, 100).1, [1, 1, 1, 1, 1, 1, 1, 64, 65]);
    assert_eq!(ask(b"A|a", 8, 2, 100).0, refused(7, 2));
    assert_eq!(ask(b"COME", 8, 2, 3).0, refused(8, 4));
    assert_eq!(ask(b"COME", 8, 2, 4).0.number, 0);
    // 2,340 parts of seven A and the hyphen, and four A.
    assert_eq!(ask(&[b'A'; 16_384], 8, 2, 65_536).0.lines, 2341);
    assert_eq!(ask(&[b'A'; 16_384], 8, 2, 65_536).0.pages, 1171);
    assert_eq!(ask(&[b'A'; 16_385], 8, 2, 65_536).0, refused(6, 16_384));
    for (w, number) in [(7, 5), (8, 0), (60, 0), (61, 5)] {
        assert_eq!(ask(b"COME", w, 2, 100).0.number, number, "W {w}");
    }
    for (p, number) in [(1, 5), (2, 0), (40, 0), (41, 5)] {
        assert_eq!(ask(b"COME", 8, p, 100).0.number, number, "P {p}");
    }
}

fn check(image: &[u8]) -> (u8, u64) {
    let answer = emboss(Asked { image, text: b"", following: b' ', year: YEAR, w: 8, p: 2 }, &mut [], &mut Notes::new());
    (answer.number, answer.place)
}

#[test]
fn wrong_tables() {
    let sound = image();
    assert_eq!(check(&sound), (0, 0));
    assert_eq!(check(&[]), (1, 0));
    assert_eq!(check(&sound[..217]), (1, 0));
    assert_eq!(check(&sound[1..]), (1, 0));
    // One byte at a time: where it stands, what is put there, what is answered.
    let damages: [(usize, u8, (u8, u64)); 40] = [
        // of the blank, of the period, of U: symbol, class, sign
        (0, b'|', (2, 0)),
        (0, b'Z', (3, 0)),
        (3, b' ', (2, 3)),
        (4, 0, (2, 4)),
        (4, 6, (2, 4)),
        (5, 65, (2, 5)),
        (5, 70, (2, 5)),
        (54, b'.', (2, 54)),
        (56, 98, (2, 56)),
        // of COM: length, and what follows from another one
        (57, 0, (11, 57)),
        (57, 11, (11, 57)),
        (57, 2, (11, 60)),
        (57, 4, (11, 61)),
        (58, b'Z', (11, 58)),
        (60, 0, (11, 60)),
        (61, b'A', (11, 61)),
        (67, b'A', (11, 67)),
        (68, 2, (11, 68)),
        (68, 1, (0, 0)),
        (69, 0, (11, 69)),
        (69, 6, (11, 69)),
        (70, 0, (11, 70)),
        (70, 4, (11, 70)),
        (71, 65, (11, 71)),
        (71, 99, (0, 0)),
        (73, 7, (11, 73)),
        (74, 74, (11, 74)),
        // of BLIND, signs 3 7 99 99
        (93 + 13, 6, (11, 106)),
        (93 + 14, 99, (11, 108)),
        (93 + 17, 7, (11, 110)),
        // of the right context, of the transition, of both decisions
        (183, 6, (12, 183)),
        (186, 0, (12, 186)),
        (187, b'G', (13, 187)),
        (191, b'Y', (13, 191)),
        (192, b'T', (14, 192)),
        (196, b'R', (14, 196)),
        (197, b'G', (14, 197)),
        (198, b'S', (14, 198)),
        (203, b'F', (14, 203)),
        // $L begins as COM does, and others stand between them
        (130, b'C', (4, 129)),
    ];
    for (at, byte, answer) in damages {
        let mut image = sound.clone();
        image[at] = byte;
        assert_eq!(check(&image), answer, "byte {at} made {byte}");
    }
}

/// The paper's table with these bytes put in its place.
fn damaged(bytes: &[(usize, u8)]) -> Vec<u8> {
    let mut image = image();
    for (at, byte) in bytes {
        image[*at] = *byte;
    }
    image
}

#[test]
fn the_first_of_two_wrong_bytes() {
    // In one record: whatever the two are, the one that stands first.
    assert_eq!(check(&damaged(&[(3, b' '), (4, 0)])), (2, 3));
    assert_eq!(check(&damaged(&[(4, 0), (5, 70)])), (2, 4));
    assert_eq!(check(&damaged(&[(57, 0), (58, b'Z')])), (11, 57));
    assert_eq!(check(&damaged(&[(57, 255), (74, 74)])), (11, 57));
    assert_eq!(check(&damaged(&[(59, b'Z'), (63, 1)])), (11, 59));
    assert_eq!(check(&damaged(&[(63, 1), (68, 2)])), (11, 63));
    assert_eq!(check(&damaged(&[(69, 0), (70, 9)])), (11, 69));
    assert_eq!(check(&damaged(&[(70, 9), (71, 74)])), (11, 70));
    // Signs 36 99 7 99, 99 1 99 1, 74 99 1 99: the first that is not right, or not 99 after a 99.
    assert_eq!(check(&damaged(&[(73, 7)])), (11, 73));
    assert_eq!(check(&damaged(&[(71, 99), (72, 1), (74, 1)])), (11, 72));
    assert_eq!(check(&damaged(&[(71, 74), (73, 1)])), (11, 71));
    // Ten characters with the right context 1, and a shift over the length.
    let ten: Vec<(usize, u8)> = (58..=67).map(|at| (at, b'A')).chain([(57, 10), (68, 1), (70, 11)]).collect();
    assert_eq!(check(&damaged(&ten)), (11, 68));
    // In two sections: the one of the earlier section, before 3 and 4.
    assert_eq!(check(&damaged(&[(56, 98), (57, 0)])), (2, 56));
    assert_eq!(check(&damaged(&[(165 + 17, 7), (183, 0)])), (11, 182));
    assert_eq!(check(&damaged(&[(186, 0), (187, b'G')])), (12, 186));
    assert_eq!(check(&damaged(&[(191, b'G'), (192, b'T')])), (13, 191));
    assert_eq!(check(&damaged(&[(203, b'F'), (0, b'Z')])), (14, 203));
    assert_eq!(check(&damaged(&[(203, b'F'), (130, b'C')])), (14, 203));
}

#[test]
fn grouping() {
    let place_of = |strings: &[&str]| {
        let mut table = readable::read(include_bytes!("../../tables/paper.table")).unwrap();
        let model = table.entries[0].clone();
        table.entries = strings
            .iter()
            .map(|string| table::Entry { string: string.bytes().collect(), shift: 1, ..model.clone() })
            .collect();
        check(&table.image())
    };
    assert_eq!(place_of(&["CO", "COM", "CO", "C", "CA"]), (0, 0));
    assert_eq!(place_of(&["COM", "CO", "COM"]), (4, 57 + 36));
    assert_eq!(place_of(&["COM", "A", "BO", "CO", "COM"]), (4, 57 + 54));
    assert_eq!(place_of(&["CO", "CO", "COM", "CA", "CO"]), (4, 57 + 72));
}

/// The paper's four errors, each by a text that shows it: what is right, and that the error gives another.
#[test]
fn errors_an_implementer_will_be_drawn_to() {
    let paper = include_str!("../../tables/paper.table");
    let shows = |planted: Planted, table: &str, text: &str, right: &[u8]| {
        let image = readable::read(table.as_bytes()).unwrap().image();
        let ask = |planted| {
            let mut out = [0; 100];
            let asked = Asked { image: &image, text: text.as_bytes(), following: b' ', year: YEAR, w: 8, p: 2 };
            let answer = emboss_planted(planted, asked, &mut out, &mut Notes::new());
            assert_eq!(answer.number, 0);
            out[..answer.written as usize].to_vec()
        };
        assert_eq!(ask(Planted::Nothing), right, "{text}");
        assert_ne!(ask(planted), right, "{text}");
    };
    // CO stands before COM: COM is never used.
    let co_first = paper.replace("entry COM ", "entry CO 4 - = : 9 9\nentry COM ");
    shows(Planted::LongestEntry, &co_first, "COM", &[9, 9, 13, 64, 65]);
    // BLIND moves by one character; its right context is the end of the text all the same.
    let short_shift = paper.replace("entry BLIND 4 1 =", "entry BLIND 4 1 1");
    shows(Planted::ContextAfterShift, &short_shift, "BLIND", &[3, 7, 7, 10, 29, 25, 64, 65]);
    // FUL begins no word: the variable is still no before it, and yes after it.
    shows(Planted::StatesAfterPiece, paper, "FUL", &[11, 37, 7, 64, 65]);
    shows(Planted::BlankLineAtTop, paper, "$SA", &[1, 64, 65]);
}

/// The errors that request 1 of document 02 invites, each by a damage that shows it: what is right, and what the
/// error answers.
#[test]
fn errors_of_which_byte() {
    let shows = |planted: Planted, bytes: &[(usize, u8)], right: (u8, u64), error: (u8, u64)| {
        let ask = |planted| {
            let asked = Asked { image: &damaged(bytes), text: b"", following: b' ', year: YEAR, w: 8, p: 2 };
            let answer = emboss_planted(planted, asked, &mut [], &mut Notes::new());
            (answer.number, answer.place)
        };
        assert_eq!(ask(Planted::Nothing), right, "{bytes:?}");
        assert_eq!(ask(planted), error, "{bytes:?}");
    };
    // The class of the period.
    shows(Planted::RecordAsPlace, &[(4, 0)], (2, 4), (2, 3));
    shows(Planted::RecordAsPlace, &[(203, b'F')], (14, 203), (14, 198));
    // BLIND with shift 6.
    shows(Planted::ShiftAtLength, &[(106, 6)], (11, 106), (11, 93));
    // COM with the signs 36 99 7 99.
    shows(Planted::SignAtThe99, &[(73, 7)], (11, 73), (11, 72));
    shows(Planted::NumbersExchanged, &[(183, 6)], (12, 183), (13, 183));
    shows(Planted::NumbersExchanged, &[(187, b'G')], (13, 187), (12, 187));
}

/// The lines of a text at W 8 and P 40, so that it has one page.
fn lines(text: &str) -> Vec<Vec<u8>> {
    let (answer, wrote) = ask(text.as_bytes(), 8, 40, 1000);
    assert_eq!((answer.number, answer.pages, wrote.last()), (0, 1, Some(&65)), "{text}");
    let lines = wrote[..wrote.len() - 1].split_inclusive(|byte| *byte == 64);
    lines.map(|line| line[..line.len() - 1].to_vec()).collect()
}

/// So many A and the hyphen, or, of a rest, no hyphen.
fn part(a: usize, hyphen: &[u8]) -> Vec<u8> {
    [&vec![1; a], hyphen].concat()
}

/// Request 2 of document 02: while more than W cells of a word remain, a part is W-1 cells and then
/// cell 36; the rest, at most W, has none.
#[test]
fn cut_words_carry_a_hyphen() {
    assert_eq!(ask(b"AAAAAAAAA", 8, 2, 100).1, [1, 1, 1, 1, 1, 1, 1, 36, 64, 1, 1, 64, 65]);
    let (cut, rest) = ([36], []);
    // How many A, and how many of them each line has.
    let words: [(usize, &[usize]); 12] = [
        (7, &[7]),
        (8, &[8]),
        (9, &[7, 2]),
        (10, &[7, 3]),
        (14, &[7, 7]),
        (15, &[7, 8]),
        (16, &[7, 7, 2]),
        (17, &[7, 7, 3]),
        (21, &[7, 7, 7]),
        (22, &[7, 7, 8]),
        (23, &[7, 7, 7, 2]),
        (24, &[7, 7, 7, 3]),
    ];
    for (cells, of_lines) in words {
        let last = of_lines.len() - 1;
        let parts = of_lines.iter().enumerate();
        let right: Vec<Vec<u8>> = parts.map(|(at, a)| part(*a, if at < last { &cut } else { &rest })).collect();
        assert_eq!(lines(&"A".repeat(cells)), right, "{cells} A");
    }
    // At every width: the parts but the last have W cells and end in the hyphen, and the cells
    // without these hyphens are the word's; the rest has two cells at least.
    for w in 8..=60 {
        for cells in w + 1..=4 * w {
            let (_, wrote) = ask(&vec![b'A'; cells], w as u64, 40, 1000);
            let lines: Vec<&[u8]> = wrote[..wrote.len() - 1].split_inclusive(|byte| *byte == 64).collect();
            let (rest, parts) = lines.split_last().unwrap();
            assert!(parts.iter().all(|line| line.len() == w + 1 && line.ends_with(&[1, 36, 64])), "{cells} A at W {w}");
            assert!((3..=w + 1).contains(&rest.len()) && !rest.contains(&36), "{cells} A at W {w}");
            let printed = |line: &&[u8]| line.iter().filter(|cell| **cell == 1).count();
            assert_eq!(lines.iter().map(printed).sum::<usize>(), cells, "W {w}");
        }
    }
}

/// Parts count as words: a rest is followed on its line, a first part begins one, and is the word
/// that opens a paragraph, in column 0, since it has W cells. A rest doesn't open it any more.
#[test]
fn parts_count_as_words() {
    let nine = "A".repeat(9);
    let right = |rest: &[u8]| vec![part(7, &[36]), rest.to_vec()];
    assert_eq!(lines(&format!("{nine} AAAAA")), right(&[1, 1, 0, 1, 1, 1, 1, 1]));
    assert_eq!(lines(&format!("{nine} AAAAAA")), [right(&[1, 1]), vec![part(6, &[])]].concat());
    assert_eq!(lines(&format!("A {nine}")), [vec![part(1, &[])], right(&[1, 1])].concat());
    assert_eq!(lines(&format!("$P{nine}")), right(&[1, 1]));
    assert_eq!(lines(&format!("$P{nine}$PA")), [right(&[1, 1]), vec![vec![0, 0, 1]]].concat());
    // Two cut words: between them the gap that parted them.
    assert_eq!(lines(&format!("{nine} {nine}")), [right(&[1, 1]), right(&[1, 1])].concat());
    assert_eq!(ask(format!("$P{nine}").as_bytes(), 8, 2, 100).1, [1, 1, 1, 1, 1, 1, 1, 36, 64, 1, 1, 64, 65]);
}

/// 36 is the sign of COM and of `-` too: such a cell is the word's own, and neither stands for the
/// hyphen of a cut nor is one.
#[test]
fn cells_36_of_the_word_itself() {
    assert_eq!(lines("AAAAAA-AA"), [vec![1, 1, 1, 1, 1, 1, 36, 36], vec![1, 1]]);
    assert_eq!(lines("AAAAAAA-A"), [part(7, &[36]), vec![36, 1]]);
    assert_eq!(lines("AAAAAAAA-"), [part(7, &[36]), vec![1, 36]]);
    assert_eq!(lines("AAAAAAA-"), [part(7, &[36])]);
    assert_eq!(lines("COMAAAAAAAA"), [vec![36, 1, 1, 1, 1, 1, 1, 36], vec![1, 1]]);
    assert_eq!(lines(&"-".repeat(15)), vec![vec![36; 8]; 2]);
}

/// The errors that request 2 of document 02 invites, each by how many A stand on which line.
#[test]
fn errors_of_the_hyphen() {
    let shows = |planted: Planted, cells: usize, right: &[&[u8]], error: &[&[u8]]| {
        let ask = |planted| {
            let mut out = [0; 100];
            let asked = Asked { image: &image(), text: &vec![b'A'; cells], following: b' ', year: YEAR, w: 8, p: 40 };
            let answer = emboss_planted(planted, asked, &mut out, &mut Notes::new());
            out[..answer.written as usize].to_vec()
        };
        let bytes = |lines: &[&[u8]]| [lines.join(&64), vec![64, 65]].concat();
        assert_eq!(ask(Planted::Nothing), bytes(right), "{cells} A");
        assert_eq!(ask(planted), bytes(error), "{cells} A");
    };
    let (seven, eight) = (part(7, &[36]), part(8, &[]));
    shows(Planted::HyphenOnWhole, 8, &[&eight], &[&seven, &[1]]);
    shows(Planted::HyphenOnWhole, 15, &[&seven, &eight], &[&seven, &seven, &[1]]);
    shows(Planted::HyphenOverWidth, 9, &[&seven, &[1, 1]], &[&part(8, &[36]), &[1]]);
    shows(Planted::HyphenOnRest, 9, &[&seven, &[1, 1]], &[&seven, &[1, 1, 36]]);
    shows(Planted::HyphenOnRest, 15, &[&seven, &eight], &[&seven, &part(8, &[36])]);
    for planted in [Planted::HyphenOnWhole, Planted::HyphenOverWidth, Planted::HyphenOnRest] {
        shows(planted, 7, &[&part(7, &[])], &[&part(7, &[])]);
    }
}

/// Request 3 of document 02: BLIND by what follows it.
#[test]
fn what_follows_decides() {
    let done = |following: u8, output: &[u8], pieces: u64| {
        let (answer, wrote) = ask_followed(b"BLIND", following, 8, 2, 100);
        let written = output.len() as u64;
        assert_eq!(wrote, output, "{}", following as char);
        let right = Answer { number: 0, place: 0, written, pieces, lines: 1, pages: 1 };
        assert_eq!(answer, right, "{}", following as char);
    };
    done(b' ', &[3, 7, 64, 65], 1);
    done(b'.', &[3, 7, 64, 65], 1);
    done(b'E', &[3, 7, 10, 29, 25, 64, 65], 5);
    assert_eq!(ask_followed(b"BLIND", b'a', 8, 2, 100).0, refused(15, 0));
    // Only its class counts: that of the hyphen is the period's, that of $ the blank's.
    for (following, pieces) in [(b'-', 1), (b'$', 1), (b'A', 5), (b'U', 5)] {
        assert_eq!(ask_followed(b"BLIND", following, 8, 2, 100).0.pieces, pieces, "{}", following as char);
    }
    // It follows the text, so where a blank ends the text the character after BLIND is that blank; a bar is dropped.
    for (text, pieces) in [("BLIND ", 2), ("BLIND\n", 2), ("BLIND.", 2), ("BLIND|", 5), ("BLIND BLIND", 7)] {
        assert_eq!(ask_followed(text.as_bytes(), b'E', 8, 2, 100).0.pieces, pieces, "{text}");
    }
}

/// It is never consumed: where no right context is asked at the end, each symbol of the alphabet gives the same. No
/// section's states pass to the next: FUL is contracted after a letter of its own section alone.
#[test]
fn what_follows_is_only_looked_at() {
    for following in *b" .-$ABCDEFILMNOPRSU" {
        assert_eq!(ask_followed(b"COM", following, 8, 2, 100), ask(b"COM", 8, 2, 100));
        assert_eq!(ask_followed(b"BLINDED", following, 8, 2, 100), ask(b"BLINDED", 8, 2, 100));
        assert_eq!(ask_followed(b"", following, 8, 2, 100), ask(b"", 8, 2, 100));
        assert_eq!(ask_followed(b"A", following, 8, 2, 100).1, [1, 64, 65]);
        assert_eq!(ask_followed(b"FUL", following, 8, 2, 100).1, [11, 37, 7, 64, 65]);
    }
}

#[test]
fn what_follows_is_refused() {
    // As it is: a line feed isn't taken for a blank, and a bar isn't dropped.
    for following in [b'\n', b'|', b'a', b'Z', 0, 31, 127, 255] {
        assert_eq!(ask_followed(b"BLIND", following, 8, 2, 100).0, refused(15, 0), "{following}");
        // Whether or not a right context is asked.
        assert_eq!(ask_followed(b"A", following, 8, 2, 100).0, refused(15, 0), "{following}");
        assert_eq!(ask_followed(b"", following, 8, 2, 0).0, refused(15, 0), "{following}");
        // After 5, 6 and 7, and before 8.
        assert_eq!(ask_followed(b"COME", following, 7, 2, 100).0, refused(5, 0), "{following}");
        assert_eq!(ask_followed(&[b'A'; 16_385], following, 8, 2, 100).0, refused(6, 16_384), "{following}");
        assert_eq!(ask_followed(b"A|a", following, 8, 2, 100).0, refused(7, 2), "{following}");
        assert_eq!(ask_followed(b"COME", following, 8, 2, 3).0, refused(15, 0), "{following}");
    }
    assert_eq!(ask_followed(b"BLIND", b'E', 8, 2, 6).0, refused(8, 7));
    assert_eq!(ask_followed(b"BLIND", b'.', 8, 2, 3).0, refused(8, 4));
    // After the table's own refusals; without a right context in the whole table too.
    let unasked = include_str!("../../tables/paper.table").replace("entry BLIND 4 1 =", "entry BLIND 4 - =");
    let unasked = readable::read(unasked.as_bytes()).unwrap().image();
    for (image, answer) in [(damaged(&[(203, b'F')]), refused(14, 203)), (unasked, refused(15, 0))] {
        let asked = Asked { image: &image, text: b"BLIND", following: b'a', year: YEAR, w: 8, p: 2 };
        assert_eq!(emboss(asked, &mut [0; 100], &mut Notes::new()), answer);
    }
}

/// The errors that request 3 of document 02 invites, each by a text and what follows it: what is right, and what the
/// error answers, by number and output.
#[test]
fn errors_of_what_follows() {
    let shows = |planted: Planted, text: &str, following: u8, right: (u8, &[u8]), error: (u8, &[u8])| {
        let ask = |planted| {
            let mut out = [0; 100];
            let asked = Asked { image: &image(), text: text.as_bytes(), following, year: YEAR, w: 8, p: 2 };
            let answer = emboss_planted(planted, asked, &mut out, &mut Notes::new());
            (answer.number, out[..answer.written as usize].to_vec())
        };
        assert_eq!(ask(Planted::Nothing), (right.0, right.1.to_vec()), "{text}");
        assert_eq!(ask(planted), (error.0, error.1.to_vec()), "{text}");
    };
    let (contracted, spelled) = ([3, 7, 64, 65], [3, 7, 10, 29, 25, 64, 65]);
    shows(Planted::BlankWhateverFollows, "BLIND", b'E', (0, &spelled), (0, &contracted));
    // The character after BLIND is E in the one and a blank in the other, whatever follows the text.
    let then_ed = [3, 7, 17, 25, 64, 65];
    shows(Planted::FollowingInside, "BLINDED", b' ', (0, &[3, 7, 10, 29, 25, 17, 25, 64, 65]), (0, &then_ed));
    shows(Planted::FollowingInside, "BLIND ", b'E', (0, &contracted), (0, &spelled));
    shows(Planted::FollowingBeforeText, "a", b'a', (7, &[]), (15, &[]));
}

/// The paper's table in the dated form, COM in force from 1932 to 2015.
fn dated_image() -> Vec<u8> {
    readable::read(include_bytes!("../../tables/dated.table")).unwrap().image()
}

/// The same with other years for COM, and for `$N`, the last record, which are 0 and 65,535 in the
/// file.
fn with_years(com: (u16, u16), last: (u16, u16)) -> Vec<u8> {
    let mut table = readable::read(include_bytes!("../../tables/dated.table")).unwrap();
    table.entries[0].years = com;
    table.entries[6].years = last;
    table.image()
}

const ALWAYS: (u16, u16) = (0, 65_535);

fn ask_in(planted: Planted, image: &[u8], text: &str, year: u16) -> (Answer, Vec<u8>) {
    let mut out = vec![200; 1000];
    let asked = Asked { image, text: text.as_bytes(), following: b' ', year, w: 8, p: 2 };
    let answer = emboss_planted(planted, asked, &mut out, &mut Notes::new());
    assert!(out[answer.written as usize..].iter().all(|byte| *byte == 200), "beyond the written bytes as it was");
    out.truncate(answer.written as usize);
    (answer, out)
}

/// A mover's answer and what it wrote, with so much room.
fn moved(way: Way, image: &[u8], room: usize) -> (Answer, Vec<u8>) {
    let mut out = vec![200; room];
    let answer = move_table(Planted::Nothing, way, image, &mut out, &mut Notes::new());
    assert!(out[answer.written as usize..].iter().all(|byte| *byte == 200), "beyond the written bytes as it was");
    out.truncate(answer.written as usize);
    (answer, out)
}

fn done(written: u64) -> Answer {
    Answer { written, ..Answer::default() }
}

/// Request 6 of document 02: records are 22 bytes and the trailer's last byte is 52; two two-byte
/// years after the signs.
#[test]
fn the_dated_image() {
    let (old, dated) = (image(), dated_image());
    assert_eq!(dated.len(), 246);
    assert_eq!(dated[232..], [232, 0, 175, 0, 21, 0, 17, 0, 12, 0, 5, 1, 66, 52]);
    assert_eq!(dated[..57], old[..57]);
    for record in 0..7 {
        assert_eq!(dated[57 + 22 * record..][..18], old[57 + 18 * record..][..18]);
        let years = if record == 0 { [140, 7, 223, 7] } else { [0, 0, 255, 255] };
        assert_eq!(dated[57 + 22 * record..][18..22], years);
    }
    assert_eq!(dated[211..232], old[183..204]);
    assert_eq!(check(&dated), (0, 0));
}

#[test]
fn years_are_counted_in() {
    let (spelled, contracted) = ([9, 21, 13, 17, 64, 65], [36, 17, 64, 65]);
    let years: [(u16, u64, &[u8]); 6] = [
        (0, 4, &spelled),
        (1931, 4, &spelled),
        (1932, 2, &contracted),
        (2015, 2, &contracted),
        (2016, 4, &spelled),
        (65_535, 4, &spelled),
    ];
    for (year, pieces, output) in years {
        let (answer, wrote) = ask_in(Planted::Nothing, &dated_image(), "COME", year);
        let written = output.len() as u64;
        assert_eq!(wrote, output, "{year}");
        assert_eq!(answer, Answer { number: 0, place: 0, written, pieces, lines: 1, pages: 1 }, "{year}");
        // The other entries are always in force, and a table in the old form is in every year.
        for text in ["FULFUL", "BLIND", "$PA", "A$S$SB", "$N$N"] {
            let (answer, wrote) = ask_in(Planted::Nothing, &dated_image(), text, year);
            assert_eq!((answer, wrote), ask(text.as_bytes(), 8, 2, 1000), "{text} {year}");
            assert_eq!(ask_in(Planted::Nothing, &image(), text, year), ask(text.as_bytes(), 8, 2, 1000), "{text} {year}");
        }
        assert_eq!(ask_in(Planted::Nothing, &image(), "COME", year).1, contracted, "{year}");
    }
    // One year alone; the first and the last that there are; years whose bytes exchanged are other
    // years.
    let edges: [((u16, u16), &[u16], &[u16]); 7] = [
        ((1932, 1932), &[1932], &[1931, 1933, 0, 65_535]),
        (ALWAYS, &[0, 1, 1932, 65_534, 65_535], &[]),
        ((0, 0), &[0], &[1, 65_535]),
        ((65_535, 65_535), &[65_535], &[0, 65_534]),
        ((1, 65_534), &[1, 2, 65_534], &[0, 65_535]),
        ((255, 256), &[255, 256], &[254, 257, 0, 1]),
        ((256, 511), &[256, 511], &[255, 512, 1]),
    ];
    for (com, within, outside) in edges {
        for year in within {
            assert_eq!(ask_in(Planted::Nothing, &with_years(com, ALWAYS), "COME", *year).0.pieces, 2, "{com:?} {year}");
        }
        for year in outside {
            assert_eq!(ask_in(Planted::Nothing, &with_years(com, ALWAYS), "COME", *year).0.pieces, 4, "{com:?} {year}");
        }
    }
}

/// The paper's table with CO before COM, each with its years: the first one in force that is
/// admissible.
#[test]
fn entries_outside_their_years_give_way() {
    let image = |entries: &str| {
        let table = include_str!("../../tables/paper.table").replace("entry COM   4 - = : 36", entries);
        let table = format!("dated\n{table}");
        readable::read(table.as_bytes()).unwrap().image()
    };
    let two = image("entry CO 4 - = : 9 9 to 1958\nentry COM 4 - = : 36 from 1932");
    let two_years: [(u16, &[u8]); 4] = [
        (1931, &[9, 9, 13, 64, 65]),
        (1932, &[9, 9, 13, 64, 65]),
        (1958, &[9, 9, 13, 64, 65]),
        (1959, &[36, 64, 65]),
    ];
    for (year, output) in two_years {
        assert_eq!(ask_in(Planted::Nothing, &two, "COM", year).1, output, "{year}");
    }
    // The same string in two editions, with other signs in each, and none between them.
    let same = image("entry COM 4 - = : 36 from 1932 to 1958\nentry COM 4 - = : 9 13 from 1960 to 2015");
    let same_years: [(u16, &[u8]); 3] = [(1958, &[36, 64, 65]), (1959, &[9, 21, 13, 64, 65]), (1960, &[9, 13, 64, 65])];
    for (year, output) in same_years {
        assert_eq!(ask_in(Planted::Nothing, &same, "COM", year).1, output, "{year}");
    }
}

/// First year after last is a wrong record, 11, at the first-year byte. The other rules are as they
/// were, over records of 22 bytes; grouping is judged over all entries.
#[test]
fn wrong_dated_tables() {
    let wrong: [((u16, u16), bool); 10] = [
        ((2015, 1932), true),
        ((1933, 1932), true),
        ((1932, 1932), false),
        ((1, 0), true),
        ((65_535, 65_534), true),
        ((65_535, 0), true),
        // by the low byte, by the high byte, by the high byte alone; only with the bytes exchanged
        ((0x0702, 0x0701), true),
        ((0x0802, 0x0701), true),
        ((0x0801, 0x0702), true),
        ((0x0702, 0x0801), false),
    ];
    for (years, refused) in wrong {
        let right = |place: u64| if refused { (11, place) } else { (0, 0) };
        assert_eq!(check(&with_years(years, ALWAYS)), right(57 + 18), "{years:?}");
        assert_eq!(check(&with_years(ALWAYS, years)), right(57 + 22 * 6 + 18), "{years:?}");
    }
    assert_eq!(check(&with_years((2, 1), (2, 1))), (11, 57 + 18));
    // One byte at a time, in the dated image: where it stands, what is put there, what is answered.
    let damages: [(usize, u8, (u8, u64)); 14] = [
        (57, 0, (11, 57)),
        (74, 74, (11, 74)),
        // 1932 is 140 and 7 times 256, 2015 is 223 and 7 times 256
        (75, 223, (0, 0)),
        (75, 224, (11, 75)),
        (76, 8, (11, 75)),
        (77, 139, (11, 75)),
        (77, 140, (0, 0)),
        (78, 6, (11, 75)),
        // the length of FUL, the years of $N
        (79, 0, (11, 79)),
        (207, 1, (0, 0)),
        (210, 0, (0, 0)),
        (211, 0, (12, 211)),
        (245, 51, (1, 0)),
        (245, 53, (1, 0)),
    ];
    for (at, byte, answer) in damages {
        let mut image = dated_image();
        image[at] = byte;
        assert_eq!(check(&image), answer, "byte {at} made {byte}");
    }
    // An earlier byte of the record comes first.
    let mut two = with_years((2, 1), ALWAYS);
    two[74] = 74;
    assert_eq!(check(&two), (11, 74));
    // Trailer and records of different forms; without a record both forms are right.
    let mut old = image();
    old[217] = 52;
    assert_eq!(check(&old), (1, 0));
    for mark in [51, 52] {
        let mut table = readable::read(include_bytes!("../../tables/paper.table")).unwrap();
        table.entries.clear();
        let mut image = table.image();
        *image.last_mut().unwrap() = mark;
        assert_eq!(check(&image), (0, 0));
    }
    // 11 records of the old form are as long as 9 of the dated.
    let mut table = readable::read(include_bytes!("../../tables/paper.table")).unwrap();
    table.entries.resize(11, table.entries[6].clone());
    let mut eleven = table.image();
    assert_eq!(check(&eleven), (0, 0));
    *eleven.last_mut().unwrap() = 52;
    assert_eq!(check(&eleven).0, 11);
    // COM, FUL, COM: whatever the years.
    for (years, year) in [(ALWAYS, 1970), ((1932, 2015), 2016), ((1932, 2015), 1970), ((2016, 2020), 1970)] {
        let mut table = readable::read(include_bytes!("../../tables/dated.table")).unwrap();
        table.entries.insert(2, table.entries[0].clone());
        table.entries[2].years = years;
        assert_eq!(ask_in(Planted::Nothing, &table.image(), "A", year).0, refused(4, 57 + 44), "{years:?} {year}");
    }
}

/// The largest right images of both forms, by their numbers of records.
#[test]
fn the_largest_images() {
    for (dated, bytes) in [(false, 23_505), (true, 28_301)] {
        let entry = table::Entry { string: vec![b' '], context: 0, class: 1, shift: 1, signs: [99; 4], years: ALWAYS };
        let table = table::Table {
            dated,
            classes: 40,
            variables: 15,
            alphabet: (32..=94).map(|symbol| [symbol, 1, 1]).collect(),
            entries: vec![entry.clone(); 1199],
            contexts: vec![[1; 4]; 5],
            transitions: vec![vec![b'-'; 40]; 15],
            decisions: vec![vec![b'-'; 55]; 20],
        };
        assert_eq!(table.image().len(), bytes);
        assert_eq!(check(&table.image()), (0, 0));
        let more = table::Table { entries: vec![entry; 1200], ..table };
        assert_eq!(check(&more.image()), (1, 0));
    }
}

/// Movers both ways, a round trip where both exist; each answers 1 to a table of the other form.
#[test]
fn movers() {
    let (old, always) = (image(), with_years(ALWAYS, ALWAYS));
    assert_eq!((old.len(), always.len()), (218, 246));
    for room in [246, 247, 300] {
        assert_eq!(moved(Way::Date, &old, room), (done(246), always.clone()));
        assert_eq!(moved(Way::Undate, &always, room), (done(218), old.clone()));
    }
    assert_eq!(moved(Way::Undate, &always, 218), (done(218), old.clone()));
    for room in [0, 1, 217] {
        assert_eq!(moved(Way::Date, &old, room).0, refused(8, 246));
        assert_eq!(moved(Way::Undate, &always, room).0, refused(8, 218));
    }
    assert_eq!(moved(Way::Date, &old, 245).0, refused(8, 246));
    // The other form, any other wrong trailer, and no image at all: 1, before all else.
    for image in [&always, &dated_image()] {
        assert_eq!(moved(Way::Date, image, 300).0, refused(1, 0));
        assert_eq!(moved(Way::Date, image, 0).0, refused(1, 0));
    }
    assert_eq!(moved(Way::Undate, &old, 300).0, refused(1, 0));
    assert_eq!(moved(Way::Undate, &old, 0).0, refused(1, 0));
    assert_eq!(moved(Way::Undate, &damaged(&[(4, 0)]), 300).0, refused(1, 0));
    let mut wrong_too = with_years((2, 1), ALWAYS);
    wrong_too[4] = 0;
    assert_eq!(moved(Way::Date, &wrong_too, 300).0, refused(1, 0));
    for way in [Way::Date, Way::Undate] {
        for image in [&old[..217], &always[..245], &old[..13], &[]] {
            assert_eq!(moved(way, image, 300).0, refused(1, 0));
        }
    }
    // Without a record the two forms differ in the last byte alone.
    let mut table = readable::read(include_bytes!("../../tables/paper.table")).unwrap();
    table.entries.clear();
    let (bare, mut bare_dated) = (table.image(), table.image());
    bare_dated[91] = 52;
    assert_eq!(moved(Way::Date, &bare, 92), (done(92), bare_dated.clone()));
    assert_eq!(moved(Way::Undate, &bare_dated, 92), (done(92), bare));
}

/// Moving back answers 17 at the first dated record, after the table checks and before 8.
#[test]
fn dated_records_stay() {
    let years: [(u16, u16); 8] =
        [(1932, 2015), (0, 2015), (1932, 65_535), (1, 65_535), (256, 65_535), (0, 65_534), (0, 65_279), (65_535, 65_535)];
    for years in years {
        for room in [0, 217, 218, 300] {
            assert_eq!(moved(Way::Undate, &with_years(years, ALWAYS), room).0, refused(17, 57), "{years:?}");
            assert_eq!(moved(Way::Undate, &with_years(ALWAYS, years), room).0, refused(17, 57 + 22 * 6), "{years:?}");
            assert_eq!(moved(Way::Undate, &with_years(years, years), room).0, refused(17, 57), "{years:?}");
        }
    }
    assert_eq!(moved(Way::Undate, &dated_image(), 300).0, refused(17, 57));
    // The table's own refusals come first: a wrong letter, wrong years, a wrong decision, no blank,
    // a broken grouping.
    let damages: [(&[(usize, u8)], (u8, u64)); 6] = [
        (&[(4, 0)], (2, 4)),
        (&[(75, 224)], (11, 75)),
        (&[(210, 0)], (17, 57)),
        (&[(231, b'F')], (14, 231)),
        (&[(0, b'Z')], (3, 0)),
        (&[(57 + 22 * 4 + 1, b'C')], (4, 57 + 22 * 4)),
    ];
    for (bytes, (number, place)) in damages {
        let mut image = dated_image();
        for (at, byte) in bytes {
            image[*at] = *byte;
        }
        assert_eq!(moved(Way::Undate, &image, 0).0, refused(number, place), "{bytes:?}");
        image[245] = 51;
        assert_eq!(moved(Way::Undate, &image, 0).0, refused(1, 0), "{bytes:?}");
    }
}

/// The errors that request 6 of document 02 invites: what is right, and what the error answers.
#[test]
fn errors_of_the_years() {
    let shows = |planted: Planted, image: &[u8], year: u16, right: (u8, u64, u64), error: (u8, u64, u64)| {
        let ask = |planted| {
            let answer = ask_in(planted, image, "COME", year).0;
            (answer.number, answer.place, answer.pieces)
        };
        assert_eq!(ask(Planted::Nothing), right, "{year}");
        assert_eq!(ask(planted), error, "{year}");
    };
    shows(Planted::LastYearOut, &dated_image(), 2015, (0, 0, 2), (0, 0, 4));
    shows(Planted::LastYearOut, &dated_image(), 1932, (0, 0, 2), (0, 0, 2));
    shows(Planted::FirstYearOut, &dated_image(), 1932, (0, 0, 2), (0, 0, 4));
    shows(Planted::FirstYearOut, &dated_image(), 2015, (0, 0, 2), (0, 0, 2));
    // COM, FUL, COM, of which the last is out of force in 1970.
    let mut table = readable::read(include_bytes!("../../tables/dated.table")).unwrap();
    table.entries.insert(2, table.entries[0].clone());
    table.entries[2].years = (1971, 65_535);
    shows(Planted::GroupingInForce, &table.image(), 1970, (4, 101, 0), (0, 0, 2));
    shows(Planted::GroupingInForce, &table.image(), 1971, (4, 101, 0), (4, 101, 0));
    // 1932 is 140 and 7 times 256: with its bytes exchanged 35,847, and 2015 57,095. 255 to 256
    // would be wrong.
    shows(Planted::YearsHighFirst, &dated_image(), 1970, (0, 0, 2), (0, 0, 4));
    shows(Planted::YearsHighFirst, &with_years((255, 256), ALWAYS), 255, (0, 0, 2), (11, 75, 0));
    shows(Planted::YearsHighFirst, &with_years((256, 255), ALWAYS), 255, (11, 75, 0), (0, 0, 2));
    let mut out = [0; 300];
    let image = with_years(ALWAYS, (0, 2015));
    let mut ask = |planted| move_table(planted, Way::Undate, &image, &mut out, &mut Notes::new());
    assert_eq!(ask(Planted::Nothing), refused(17, 189));
    assert_eq!(ask(Planted::IndexAsPlace), refused(17, 6));
}

/// A stamp: its number, place and two numbers.
fn stamped(planted: Planted, image: &[u8]) -> (u8, u64, u64, u64) {
    let answer = stamp(planted, image, &mut Notes::new());
    assert_eq!((answer.lines, answer.pages), (0, 0));
    (answer.number, answer.place, answer.written, answer.pieces)
}

/// Request 14 of document 02: the stamps of the paper's table and of the same with COM dated, by the
/// definition and by the weights of the bytes; refused images have 0 and 0.
#[test]
fn stamps() {
    for (image, stamp) in [(image(), (0, 0, 6_973, 708_472)), (dated_image(), (0, 0, 10_467, 1_160_156))] {
        assert_eq!(stamped(Planted::Nothing, &image), stamp);
        assert_eq!(image.iter().map(|byte| u64::from(*byte)).sum::<u64>(), stamp.2);
        assert_eq!(second_in_full(&image), stamp.3);
    }
    for image in [&image()[..217], &image()[..13], &[]] {
        assert_eq!(stamped(Planted::Nothing, image), (1, 0, 0, 0));
    }
    assert_eq!(stamped(Planted::Nothing, &damaged(&[(4, 0)])), (2, 4, 0, 0));
    assert_eq!(stamped(Planted::Nothing, &damaged(&[(0, 33)])), (3, 0, 0, 0));
    assert_eq!(stamped(Planted::Nothing, &damaged(&[(130, 67)])), (4, 129, 0, 0));
}

/// Of the images that are accepted, one with a byte changed has another first number, and one with
/// two unequal neighbours exchanged the same first and another second. One more, two less and one
/// more, three bytes apart, cancel: A, B and C with the signs 2, 1 and 10.
#[test]
fn what_a_stamp_shows() {
    let right = image();
    let (_, _, first, second) = stamped(Planted::Nothing, &right);
    let (mut changed, mut exchanged) = (0, 0);
    for at in 0..right.len() {
        for byte in 0..=255 {
            let image = damaged(&[(at, byte)]);
            let (number, _, f, s) = stamped(Planted::Nothing, &image);
            if number == 0 && image != right {
                changed += 1;
                assert!(f != first && s != second, "{byte} at {at}");
            }
        }
        if at + 1 < right.len() && right[at] != right[at + 1] {
            let image = damaged(&[(at, right[at + 1]), (at + 1, right[at])]);
            let (number, _, f, s) = stamped(Planted::Nothing, &image);
            if number == 0 {
                exchanged += 1;
                assert!(f == first && s != second, "exchanged at {at}");
            }
        }
    }
    assert!(changed > 1000 && exchanged > 10, "{changed} {exchanged}");
    let cancelled = damaged(&[(14, 2), (17, 1), (20, 10)]);
    assert_eq!(stamped(Planted::Nothing, &cancelled), (0, 0, first, second));
}

/// The errors that request 14 of document 02 invites.
#[test]
fn errors_of_the_stamp() {
    assert_eq!(stamped(Planted::SecondByOldFirst, &image()), (0, 0, 6_973, 708_472 - 6_973));
    assert_eq!(stamped(Planted::RefusedStamped, &image()), (0, 0, 6_973, 708_472));
    assert_eq!(stamped(Planted::RefusedStamped, &damaged(&[(4, 0)])), (2, 4, 6_970, 708_472 - 3 * 214));
}

/// What writing or reading a file answers and writes, with so much room.
fn filed(planted: Planted, filing: Filing, lent: &[u8], (w, p): (u64, u64), room: usize) -> (Answer, Vec<u8>) {
    let mut out = vec![200; room];
    let answer = file_pages(planted, filing, lent, (w, p), &mut out, &mut Notes::new());
    assert!(out[answer.written as usize..].iter().all(|byte| *byte == 200), "beyond the written bytes as it was");
    out.truncate(answer.written as usize);
    (answer, out)
}

/// Number and place of a layout, and of the same as a file: both are judged by the same rules.
fn judged(planted: Planted, layout: &[u8], w: u64, p: u64) -> (u8, u64) {
    let file: Vec<u8> = layout
        .iter()
        .map(|byte| match byte {
            0 => b' ',
            1 => b'A',
            36 => b'-',
            17 => b'E',
            64 => b'\n',
            65 => b'\x0c',
            _ => b'~',
        })
        .collect();
    let [one, other] = [(Filing::Write, layout), (Filing::Read, &file[..])]
        .map(|(filing, lent)| filed(planted, filing, lent, (w, p), 1000).0);
    assert_eq!((one.number, one.place), (other.number, other.place), "{layout:?}");
    (one.number, one.place)
}

/// Request 5 of document 02: the layouts of the paper's twelve examples, written and read back, and
/// what the files of some are.
#[test]
fn files_there_and_back() {
    let files: [(&[u8], &[u8]); 4] = [
        (b"COME", b"-E\n\x0c"),
        (b"AAAA AAAA", b"AAAA\nAAAA\n\x0c"),
        (b"A$S$SB", b"A\n\n\x0cB\n\x0c"),
        (b"$PA", b"  A\n\x0c"),
    ];
    for (text, file) in files {
        let (_, layout) = ask(text, 8, 2, 100);
        assert_eq!(filed(Planted::Nothing, Filing::Write, &layout, (8, 2), 100).1, file);
    }
    for text in ["", "COME", "BECOME", "FULFUL", "BLIND", "BLINDED", "A.   B", "AAAA AAA", "$N$N"] {
        let (_, layout) = ask(text.as_bytes(), 8, 2, 100);
        let (answer, file) = filed(Planted::Nothing, Filing::Write, &layout, (8, 2), layout.len());
        assert_eq!(answer, Answer { written: layout.len() as u64, ..Answer::default() });
        let (answer, again) = filed(Planted::Nothing, Filing::Read, &file, (8, 2), layout.len());
        assert_eq!(answer, Answer { written: layout.len() as u64, ..Answer::default() });
        assert_eq!(again, layout);
    }
}

/// Each cell is written as its character of the chart, and each other byte but line feed and form
/// feed stands for nothing, lower-case letters too.
#[test]
fn each_character() {
    let chart = b" A1B'K2L@CIF/MSP\"E3H9O6R^DJG>NTQ,*5<-U8V.%[$+X!&;:4\\0Z7(_?W]#Y)=";
    for byte in 0..=255 {
        // The cell A follows, so that a blank may stand here.
        let (answer, file) = filed(Planted::Nothing, Filing::Write, &[byte, 1, 64, 65], (8, 2), 4);
        match chart.get(byte as usize) {
            Some(character) => assert_eq!(file, [*character, b'A', 10, 12]),
            None if byte == 64 => assert_eq!(file, [10, b'A', 10, 12]),
            None => assert_eq!(answer, refused(16, 0), "{byte}"),
        }
        let (answer, layout) = filed(Planted::Nothing, Filing::Read, &[byte, b'A', 10, 12], (8, 2), 4);
        match chart.iter().position(|character| *character == byte) {
            Some(cell) => assert_eq!(layout, [cell as u8, 1, 64, 65]),
            None if byte == 10 => assert_eq!(layout, [64, 1, 64, 65]),
            None => assert_eq!(answer, refused(16, 0), "{byte}"),
        }
    }
}

/// Good layouts and files, wrong ones with their places, and each refusal before the next.
#[test]
fn wrong_files() {
    let judge = |layout: &[u8]| judged(Planted::Nothing, layout, 8, 2);
    // Good: nothing; empty lines; a full line; a blank in column 6; two pages.
    for layout in [
        &[][..],
        &[64, 65],
        &[64, 64, 65],
        &[1, 1, 1, 1, 1, 1, 1, 1, 64, 65],
        &[1, 1, 1, 1, 1, 1, 0, 1, 64, 65],
        &[1, 64, 65, 36, 64, 17, 64, 65],
    ] {
        assert_eq!(judge(layout), (0, 0), "{layout:?}");
    }
    // A byte that stands for nothing, wherever it is.
    assert_eq!(judge(&[66]), (16, 0));
    assert_eq!(judge(&[36, 17, 66, 64, 65]), (16, 2));
    assert_eq!(judge(&[36, 17, 64, 65, 66]), (16, 4));
    // A line over W, at its ninth cell; one that ends in a blank; a blank that no cell can follow.
    assert_eq!(judge(&[1, 1, 1, 1, 1, 1, 1, 1, 1, 64, 65]), (16, 8));
    assert_eq!(judge(&[1, 1, 1, 1, 1, 1, 1, 1, 0, 64, 65]), (16, 8));
    assert_eq!(judge(&[36, 0, 64, 65]), (16, 2));
    assert_eq!(judge(&[0, 64, 65]), (16, 1));
    assert_eq!(judge(&[1, 1, 1, 1, 1, 1, 1, 0, 64, 65]), (16, 7));
    assert_eq!(judge(&[1, 1, 1, 1, 1, 1, 1, 0]), (16, 7));
    // A page over P, by a line and by a cell; a page without a line, first and later; a page's end
    // inside a line.
    assert_eq!(judge(&[1, 64, 1, 64, 64, 65]), (16, 4));
    assert_eq!(judge(&[1, 64, 1, 64, 1, 64, 65]), (16, 4));
    assert_eq!(judge(&[65]), (16, 0));
    assert_eq!(judge(&[1, 64, 65, 65]), (16, 3));
    assert_eq!(judge(&[1, 65]), (16, 1));
    // It merely stops short: its length.
    for layout in
        [&[1][..], &[64], &[1, 0], &[1, 64, 1, 64], &[1, 64, 65, 1], &[1, 64, 65, 0], &[1, 1, 1, 1, 1, 1, 1, 1]]
    {
        assert_eq!(judge(layout), (16, layout.len() as u64), "{layout:?}");
    }
    // 5 first, 8 last.
    for (w, p, number) in [(7, 2, 5), (8, 1, 5), (61, 2, 5), (8, 41, 5), (264, 2, 5), (60, 40, 0), (8, 2, 0)] {
        assert_eq!(judged(Planted::Nothing, &[36, 17, 64, 65], w, p), (number, 0));
    }
    assert_eq!(judged(Planted::Nothing, &[66], 7, 2), (5, 0));
    let room = |lent: &[u8], room| filed(Planted::Nothing, Filing::Read, lent, (8, 2), room).0;
    assert_eq!(room(b"-E\n\x0c", 3), refused(8, 4));
    assert_eq!(room(b"-E\n\x0c", 0), refused(8, 4));
    assert_eq!(room(b"-E\n", 0), refused(16, 3));
    assert_eq!(room(b"", 0), Answer::default());
}

/// The errors that request 5 of document 02 invites.
#[test]
fn errors_of_the_files() {
    let read = |planted, lent: &[u8]| filed(planted, Filing::Read, lent, (8, 2), 100);
    assert_eq!(read(Planted::Nothing, b"-e\n\x0c").0, refused(16, 1));
    assert_eq!(read(Planted::LowerCaseFolded, b"-e\n\x0c").1, [36, 17, 64, 65]);
    assert_eq!(judged(Planted::BlankAtLineEnd, &[36, 0, 64, 65], 8, 2), (0, 0));
    assert_eq!(judged(Planted::PageOfNoLine, &[1, 64, 65, 65], 8, 2), (0, 0));
    assert_eq!(judged(Planted::PlaceOneFurther, &[36, 0, 64, 65], 8, 2), (16, 3));
    assert_eq!(judged(Planted::PlaceOneFurther, &[36, 0], 8, 2), (16, 2));
    assert_eq!(judged(Planted::PageOverP, &[64, 64, 64, 65], 8, 2), (0, 0));
    assert_eq!(judged(Planted::BlankFoundLate, &[1, 1, 1, 1, 1, 1, 1, 0, 64, 65], 8, 2), (16, 8));
    let brackets = [42, 59, 64, 65];
    assert_eq!(filed(Planted::Nothing, Filing::Write, &brackets, (8, 2), 4).1, b"[]\n\x0c");
    assert_eq!(filed(Planted::CharactersExchanged, Filing::Write, &brackets, (8, 2), 4).1, b"][\n\x0c");
    assert_eq!(read(Planted::CharactersExchanged, b"[]\n\x0c").1, brackets);
    assert_eq!(filed(Planted::RoomBeforeFile, Filing::Read, b"-E\n", (8, 2), 0).0, refused(8, 3));
}
