//! What the program `brailleout` prints, from the paragraph of document 01 that begins with its
//! name. It is an old caller in the words of document 02: it passes a blank as the following
//! symbol, and prints by the year 65,535, so by the entries that have no end.

use crate::counts::Notes;
use crate::reference::{emboss, Asked};
use std::fmt::Write as _;
use std::io::{Read, Write as _};

/// The first bytes of a reader, at most so many.
fn first(reader: impl Read, most: u64) -> Result<Vec<u8>, String> {
    let mut bytes = vec![];
    reader.take(most).read_to_end(&mut bytes).map_err(|why| why.to_string())?;
    Ok(bytes)
}

/// Prints what the program prints for a table file and the text on standard input. A table file
/// that can't be opened counts as empty.
pub fn brailleout(table: &str) -> Result<(), String> {
    let image = match std::fs::File::open(table) {
        Ok(file) => first(file, 32_768)?,
        Err(_) => vec![],
    };
    let text = first(std::io::stdin().lock(), 16_385)?;
    std::io::stdout().write_all(printed(&image, &text).as_bytes()).map_err(|why| why.to_string())
}

/// The answer, then the pages: with a blank following, in the year 65,535, with W 8, P 2 and 65,536
/// bytes of output.
fn printed(image: &[u8], text: &[u8]) -> String {
    let mut out = vec![0; 65_536];
    let asked = Asked { image, text, following: b' ', year: 65_535, w: 8, p: 2 };
    let answer = emboss(asked, &mut out, &mut Notes::new());
    let mut printed =
        format!("{} {} {} {} {}\n", answer.number, answer.place, answer.pieces, answer.lines, answer.pages);
    // A refusal prints the first line alone: it has written nothing.
    for page in out[..answer.written as usize].split_inclusive(|byte| *byte == 65) {
        for line in page[..page.len() - 1].split_inclusive(|byte| *byte == 64) {
            let cells: Vec<String> = line[..line.len() - 1].iter().map(u8::to_string).collect();
            writeln!(printed, "{}", cells.join(" ")).expect("a string takes all");
        }
        printed.push_str("--\n");
    }
    printed
}
