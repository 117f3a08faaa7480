//! The outside vectors: texts with the cells that others printed for them, by a table made for
//! those texts. Each goes to the program and to the reference with a blank following, and both have
//! to give the printed bytes. Their tables are in the old form, so the year is any.

use crate::counts::Notes;
use crate::generate::{Case, Question};
use crate::reference::Planted;
use crate::{difference, lent_buffer, run_program};
use crate::readable;

/// Runs every vector file of a folder: NAME.vectors with its NAME.table.
pub fn run(folder: &str, program: &[String]) -> Result<(), String> {
    let mut files: Vec<_> = std::fs::read_dir(folder)
        .map_err(|why| format!("{folder}: {why}"))?
        .filter_map(|file| file.ok().map(|file| file.path()))
        .filter(|path| path.extension().map_or(false, |extension| extension == "vectors"))
        .collect();
    files.sort();
    if files.is_empty() {
        return Err(format!("{folder} has no vectors"));
    }
    for file in files {
        let name = file.file_stem().unwrap_or_default().to_string_lossy().into_owned();
        let read = |path: &std::path::Path| {
            std::fs::read_to_string(path).map_err(|why| format!("{}: {why}", path.display()))
        };
        let table = file.with_extension("table");
        let image = readable::read_named(&table.display().to_string(), read(&table)?.as_bytes())?.image();
        let vectors = vectors(&image, &read(&file)?)?;
        let cases: Vec<Case> = vectors.iter().map(|(case, _)| case.clone()).collect();
        let (answers, ()) = run_program(program, &cases, || ())?;
        for ((case, printed), outcome) in vectors.iter().zip(&answers) {
            let text = String::from_utf8_lossy(&case.text);
            let mut own = lent_buffer(case.room);
            let own_answer = case.answer(Planted::Nothing, &mut own, &mut Notes::new());
            let own_wrote = &own[..own_answer.written as usize];
            let wrong = |what: String| Err(format!("{name}: {text}: printed {printed:?}, {what}"));
            if own_answer.number != 0 || own_wrote != printed {
                return wrong(format!("the reference has {own_answer:?}, {own_wrote:?}"));
            }
            if let Some(difference) = difference(outcome, &(own_answer, own)) {
                return wrong(format!("program and reference differ: {difference}"));
            }
        }
        println!("{:>10}  vectors of {name}, no difference", vectors.len());
    }
    Ok(())
}

/// A vector file has `width W` and `page P`, then for each vector a line `text ...`, where `_` is a blank, and
/// the printed bytes, in decimal, on lines that start with `cells`. A blank line or a remark parts nothing.
pub fn vectors(image: &[u8], words: &str) -> Result<Vec<(Case, Vec<u8>)>, String> {
    let (mut w, mut p) = (0, 0);
    let mut vectors: Vec<(Case, Vec<u8>)> = vec![];
    for line in words.lines() {
        let (first, rest) = line.split_once(' ').unwrap_or((line, ""));
        let wrong = || format!("not a line of vectors: {line}");
        match first {
            "" => (),
            _ if first.starts_with('#') => (),
            "width" => w = rest.parse().map_err(|_| wrong())?,
            "page" => p = rest.parse().map_err(|_| wrong())?,
            "text" => {
                let text = rest.bytes().map(|byte| if byte == b'_' { b' ' } else { byte }).collect();
                let image = image.to_vec();
                let question = Question::Emboss;
                let (following, year, room) = (b' ', 1970, 1000);
                let case = Case { seed: 0, kinds: vec![], question, image, text, following, year, w, p, room };
                vectors.push((case, vec![]));
            }
            "cells" => {
                let (_, printed) = vectors.last_mut().ok_or_else(wrong)?;
                for cell in rest.split_whitespace() {
                    printed.push(cell.parse().map_err(|_| wrong())?);
                }
            }
            _ => return Err(wrong()),
        }
    }
    Ok(vectors)
}

#[cfg(test)]
mod tests {
    use super::*;

    #[test]
    fn the_reference_prints_the_vectors() {
        let files = [
            (include_str!("../vectors/dotsys.table"), include_str!("../vectors/dotsys.vectors")),
            (include_str!("../vectors/dictionary704.table"), include_str!("../vectors/dictionary704.vectors")),
        ];
        for (table, words) in files {
            let image = readable::read(table.as_bytes()).unwrap().image();
            for (case, printed) in vectors(&image, words).unwrap() {
                let mut out = vec![0; case.room];
                let answer = case.answer(Planted::Nothing, &mut out, &mut Notes::new());
                assert_eq!(answer.number, 0);
                assert_eq!(out[..answer.written as usize], printed, "{}", String::from_utf8_lossy(&case.text));
            }
        }
    }

    /// Each entry of the 704's extract that stands alone has the source's octal numbers in the remark before it:
    /// their parity is even, and the low six bits are the cells. 300 is a space, which ends no line.
    #[test]
    fn the_cells_of_the_704_are_its_octal_numbers() {
        let mut octal: Option<Vec<u16>> = None;
        let mut compared = 0;
        for line in include_str!("../vectors/dictionary704.vectors").lines() {
            match line.split_whitespace().collect::<Vec<_>>().as_slice() {
                ["#", number, numbers] if number.len() == 4 => {
                    octal = Some(numbers.split(',').map(|number| u16::from_str_radix(number, 8).unwrap()).collect());
                }
                ["cells", printed @ ..] => {
                    if let Some(numbers) = octal.take() {
                        assert!(numbers.iter().all(|number| number.count_ones() % 2 == 0), "{line}");
                        let cells = numbers.iter().filter(|number| **number != 0o300).map(|number| number % 64);
                        let bytes: Vec<String> = cells.chain([64, 65]).map(|byte| byte.to_string()).collect();
                        assert_eq!(bytes, printed);
                        compared += 1;
                    }
                }
                _ => (),
            }
        }
        assert_eq!(compared, 61);
    }
}
