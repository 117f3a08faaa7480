//! The tool of the English table. It translates by a readable table as document 01 says, fast enough to try every
//! exception on every word; it measures a table on judged words, and it makes the table: base rules and the
//! exceptions that mend most words, best first. `tables/tools/README.md` has its use.

use std::collections::{BinaryHeap, HashMap, HashSet};
use std::env;
use std::fs;
use std::process::exit;

const YEARS: [u16; 2] = [2015, 2016];
const ALWAYS: (u16, u16) = (0, 65_535);

// ---------------------------------------------------------------- the table

#[derive(Clone, Debug, PartialEq)]
struct Entry {
    string: Vec<u8>,
    class: u8,
    context: u8,
    shift: usize,
    signs: Vec<u8>,
    years: (u16, u16),
    /// Which hand rule, or what the generator says of it.
    remark: String,
}

impl Entry {
    fn in_force(&self, year: u16) -> bool {
        self.years.0 <= year && year <= self.years.1
    }
}

/// What a decision column says of a class: accept or reject, where the states under the mask have these values.
#[derive(Clone, Copy)]
struct Test {
    accept: bool,
    mask: u16,
    value: u16,
}

struct Table {
    head: Vec<String>,
    tail: Vec<String>,
    letter: [(u8, u8); 128],
    entries: Vec<Entry>,
    contexts: Vec<[u8; 4]>,
    /// For each class: the states that are kept, set, turned over.
    moves: Vec<(u16, u16, u16)>,
    tests: Vec<Vec<Test>>,
}

fn fail(why: &str) -> ! {
    eprintln!("english: {why}");
    exit(1)
}

fn symbols(word: &str) -> Vec<u8> {
    let mut out = Vec::new();
    let mut bytes = word.bytes();
    while let Some(byte) = bytes.next() {
        match byte {
            b'\\' => out.push(bytes.next().unwrap_or(b'\\')),
            b'_' => out.push(b' '),
            other => out.push(other),
        }
    }
    out
}

fn written(string: &[u8]) -> String {
    let mut out = String::new();
    for &byte in string {
        match byte {
            b' ' => out.push('_'),
            b'#' | b'_' | b'\\' => {
                out.push('\\');
                out.push(byte as char);
            }
            other => out.push(other as char),
        }
    }
    out
}

fn read_table(name: &str) -> Table {
    let text = fs::read_to_string(name).unwrap_or_else(|_| fail(&format!("there is no {name}")));
    let mut table = Table {
        head: Vec::new(),
        tail: Vec::new(),
        letter: [(0, 99); 128],
        entries: Vec::new(),
        contexts: Vec::new(),
        moves: Vec::new(),
        tests: Vec::new(),
    };
    let mut variables = 0;
    let mut section = String::new();
    for (number, line) in text.lines().enumerate() {
        let words: Vec<&str> = line.split_whitespace().collect();
        let wrong = || -> ! { fail(&format!("{name}, line {}: {line}", number + 1)) };
        let is_entry = words.first() == Some(&"entry");
        if !is_entry {
            if table.entries.is_empty() { &mut table.head } else { &mut table.tail }.push(line.to_string());
        }
        if words.is_empty() || words[0].starts_with('#') {
            if words.len() > 1 && words[0] == "##" {
                section = words[1..].join(" ");
            }
            continue;
        }
        let remark = words.iter().position(|word| word.starts_with('#') && *word != words[1]).unwrap_or(words.len());
        let told = words[remark..].join(" ");
        let words = &words[..remark];
        let number = |word: &str| -> u16 { word.parse().unwrap_or_else(|_| wrong()) };
        match words[0] {
            "dated" => {}
            "classes" => {
                table.moves = vec![(0, 0, 0); number(words[1]) as usize + 1];
                table.tests = vec![Vec::new(); number(words[1]) as usize + 1];
            }
            "variables" => variables = number(words[1]),
            "letter" => {
                let symbol = symbols(words[1])[0];
                table.letter[symbol as usize] = (number(words[2]) as u8, number(words[3]) as u8);
            }
            "entry" => {
                let string = symbols(words[1]);
                let shift = if words[4] == "=" { string.len() } else { number(words[4]) as usize };
                let mut signs = Vec::new();
                let mut years = ALWAYS;
                let mut at = 6;
                while at < words.len() {
                    match words[at] {
                        "from" => {
                            years.0 = number(words[at + 1]);
                            at += 1;
                        }
                        "to" => {
                            years.1 = number(words[at + 1]);
                            at += 1;
                        }
                        sign => signs.push(number(sign) as u8),
                    }
                    at += 1;
                }
                let context = if words[3] == "-" { 0 } else { number(words[3]) as u8 };
                let class = number(words[2]) as u8;
                let remark = if told.is_empty() { section.clone() } else { told };
                table.entries.push(Entry { string, class, context, shift, signs, years, remark });
            }
            "context" => {
                let classes: Vec<u8> = words[1..5].iter().map(|word| number(word) as u8).collect();
                table.contexts.push([classes[0], classes[1], classes[2], classes[3]]);
            }
            "transition" => {
                let bit = 1 << (variables - 1);
                let done = table.moves[0].0;
                let bit = bit >> (variables - 1 - done);
                table.moves[0].0 += 1;
                for (class, byte) in words[1].bytes().enumerate() {
                    let row = &mut table.moves[class + 1];
                    match byte {
                        b'S' => row.1 |= bit,
                        b'T' => row.2 |= bit,
                        b'-' => row.0 |= bit,
                        b'R' => {}
                        _ => wrong(),
                    }
                }
            }
            "decision" => {
                let (mut mask, mut value) = (0, 0);
                for (variable, byte) in words[2].bytes().enumerate() {
                    match byte {
                        b'Y' => {
                            mask |= 1 << variable;
                            value |= 1 << variable;
                        }
                        b'N' => mask |= 1 << variable,
                        _ => {}
                    }
                }
                for (class, byte) in words[1].bytes().enumerate() {
                    let row = &mut table.tests[class + 1];
                    match byte {
                        b'G' => row.push(Test { accept: true, mask: 0, value: 0 }),
                        b'F' => row.push(Test { accept: false, mask: 0, value: 0 }),
                        b'Y' => row.push(Test { accept: true, mask, value }),
                        b'N' => row.push(Test { accept: false, mask, value }),
                        _ => {}
                    }
                }
            }
            _ => wrong(),
        }
    }
    table
}

/// Longer strings before those that begin them, backwards by the alphabet: the table is grouped so. Of equal
/// strings, those with a context first, then those of narrower classes, in the order of the file.
fn order(entries: &mut Vec<Entry>) {
    entries.sort_by(|a, b| {
        b.string.cmp(&a.string).then((a.context == 0).cmp(&(b.context == 0))).then((a.class == ANYWHERE).cmp(&(b.class == ANYWHERE)))
    });
}

// The classes that the generator uses; the base table has them too.
const BEGINNING: u8 = 10;
const ANYWHERE: u8 = 11;
const WITHIN: u8 = 12;
const END: u8 = 1;
const LETTER: u8 = 2;

// ---------------------------------------------------------------- translation

struct Node {
    next: [u32; 64],
    /// Indices of the entries that end here, in table order.
    ends: Vec<u32>,
}

struct Machine<'a> {
    table: &'a Table,
    entries: Vec<Entry>,
    nodes: Vec<Node>,
}

fn slot(byte: u8) -> usize {
    (byte as usize).wrapping_sub(32) & 63
}

impl<'a> Machine<'a> {
    fn new(table: &'a Table, entries: &[Entry]) -> Machine<'a> {
        let mut machine = Machine { table, entries: Vec::new(), nodes: vec![Node { next: [0; 64], ends: Vec::new() }] };
        for entry in entries {
            machine.add(entry.clone(), false);
        }
        machine
    }

    fn node(&mut self, string: &[u8]) -> usize {
        let mut at = 0;
        for &byte in string {
            let next = self.nodes[at].next[slot(byte)];
            at = if next == 0 {
                self.nodes.push(Node { next: [0; 64], ends: Vec::new() });
                let new = self.nodes.len() - 1;
                self.nodes[at].next[slot(byte)] = new as u32;
                new
            } else {
                next as usize
            };
        }
        at
    }

    /// Puts an entry behind those of its string, or where `order` puts it.
    fn add(&mut self, entry: Entry, ordered: bool) -> (usize, usize) {
        let node = self.node(&entry.string);
        let mut place = self.nodes[node].ends.len();
        if ordered {
            let key = |entry: &Entry| (entry.context == 0, entry.class == ANYWHERE);
            place = 0;
            for &other in &self.nodes[node].ends {
                if key(&self.entries[other as usize]) < key(&entry) {
                    place += 1;
                }
            }
        }
        self.entries.push(entry);
        let index = self.entries.len() as u32 - 1;
        self.nodes[node].ends.insert(place, index);
        (node, place)
    }

    fn accepts(&self, class: u8, states: u16) -> bool {
        for test in &self.table.tests[class as usize] {
            if states & test.mask == test.value {
                return test.accept;
            }
        }
        false
    }

    /// The entry at a place of the text; entries stand with longer strings first.
    #[inline]
    fn choose(&self, text: &[u8], at: usize, states: u16, year: u16) -> Option<u32> {
        let mut path = [0u32; 10];
        let mut depth = 0;
        let mut node = 0;
        while depth < 10 && at + depth < text.len() {
            let next = self.nodes[node].next[slot(text[at + depth])];
            if next == 0 {
                break;
            }
            node = next as usize;
            path[depth] = next;
            depth += 1;
        }
        while depth > 0 {
            let ends = &self.nodes[path[depth - 1] as usize].ends;
            for &index in ends {
                let entry = &self.entries[index as usize];
                if !entry.in_force(year) {
                    continue;
                }
                if entry.context != 0 {
                    let following = *text.get(at + depth).unwrap_or(&b' ');
                    let class = self.table.letter[following as usize].0;
                    if !self.table.contexts[entry.context as usize - 1].contains(&class) {
                        continue;
                    }
                }
                if self.accepts(entry.class, states) {
                    return Some(index);
                }
            }
            depth -= 1;
        }
        None
    }

    /// The pieces of a text: start, end, signs, states before.
    fn pieces(&self, text: &[u8], year: u16, each: &mut dyn FnMut(usize, usize, &[u8], u16) -> bool) {
        let mut at = 0;
        let mut states = 0u16;
        while at < text.len() {
            let one;
            let (shift, class, signs): (usize, u8, &[u8]) = match self.choose(text, at, states, year) {
                Some(index) => {
                    let entry = &self.entries[index as usize];
                    (entry.shift, entry.class, &entry.signs)
                }
                None => {
                    let (class, sign) = self.table.letter[text[at] as usize];
                    one = [sign];
                    (1, class, if sign == 99 { &[] } else { &one })
                }
            };
            if !each(at, at + shift, signs, states) {
                return;
            }
            let (kept, set, turned) = self.table.moves[class as usize];
            states = ((states & (kept | turned)) ^ turned) | set;
            at += shift;
        }
    }

    fn translate(&self, text: &[u8], year: u16) -> Vec<u8> {
        let mut out = Vec::new();
        self.pieces(text, year, &mut |_, _, signs, _| {
            out.extend_from_slice(signs);
            true
        });
        out
    }

    /// Whether a word comes out as wanted. Where nothing is wanted in a year, anything is right.
    fn right(&self, text: &[u8], year: u16, wanted: &[u8]) -> bool {
        if wanted.is_empty() {
            return true;
        }
        let mut at = 0;
        let mut good = true;
        self.pieces(text, year, &mut |_, _, signs, _| {
            good = wanted.len() >= at + signs.len() && &wanted[at..at + signs.len()] == signs;
            at += signs.len();
            good
        });
        good && at == wanted.len()
    }
}

// ---------------------------------------------------------------- judged words

struct Word {
    text: Vec<u8>,
    cells: [Vec<u8>; 2],
    weight: f64,
}

fn numbers(field: &str) -> Vec<u8> {
    field.split_whitespace().map(|word| word.parse().unwrap_or(255)).collect()
}

/// Lines of word, cells in 2015, cells in 2016, parted by tabs.
fn read_words(name: &str, weight: f64) -> Vec<Word> {
    let text = fs::read_to_string(name).unwrap_or_else(|_| fail(&format!("there is no {name}")));
    let mut words = Vec::new();
    for line in text.lines().filter(|line| !line.starts_with('#') && !line.is_empty()) {
        let fields: Vec<&str> = line.split('\t').collect();
        if fields.len() < 3 {
            fail(&format!("{name}: {line}"));
        }
        words.push(Word { text: fields[0].to_ascii_uppercase().into_bytes(), cells: [numbers(fields[1]), numbers(fields[2])], weight });
    }
    words
}

/// Lines of year, word, right cells and rule, parted by tabs: what the judge has wrong.
fn mend_words(words: &mut [Word], name: &str) -> usize {
    let text = fs::read_to_string(name).unwrap_or_else(|_| fail(&format!("there is no {name}")));
    let mut right: HashMap<Vec<u8>, Vec<(usize, Vec<u8>)>> = HashMap::new();
    let mut count = 0;
    for line in text.lines().filter(|line| !line.starts_with('#') && !line.trim().is_empty()) {
        let fields: Vec<&str> = line.split('\t').collect();
        let years: &[usize] = match fields[0] {
            "2015" => &[0],
            "2016" => &[1],
            "both" => &[0, 1],
            _ => fail(&format!("{name}: {line}")),
        };
        for &year in years {
            right.entry(fields[1].to_ascii_uppercase().into_bytes()).or_default().push((year, numbers(fields[2])));
            count += 1;
        }
    }
    for word in words {
        if let Some(list) = right.get(&word.text) {
            for (year, cells) in list {
                word.cells[*year] = cells.clone();
            }
        }
    }
    count
}

/// The part of a word: three in ten are kept for measuring. It depends on the first five letters alone.
fn kept_out(text: &[u8]) -> bool {
    let mut sum = 0u32;
    for index in 0..5 {
        let byte = text.get(index).copied().unwrap_or(b' ');
        let byte = if byte == b'\'' { b' ' } else { byte };
        sum = sum.wrapping_mul(31).wrapping_add(byte as u32);
        if byte == b' ' {
            break;
        }
    }
    (sum ^ (sum >> 7)) % 10 < 3
}

// ---------------------------------------------------------------- the parts that the judge makes

/// The signs of a word told apart by the letters they stand for: start, end, signs. The fewest parts.
fn parts(text: &[u8], cells: &[u8], known: &HashMap<Vec<u8>, Vec<Vec<u8>>>, letter: &[(u8, u8); 128]) -> Option<Vec<(usize, usize, Vec<u8>)>> {
    let (n, m) = (text.len(), cells.len());
    let mut best = vec![vec![(u32::MAX, 0usize, 0usize); m + 1]; n + 1];
    best[0][0].0 = 0;
    for i in 0..n {
        for j in 0..m {
            let cost = best[i][j].0;
            if cost == u32::MAX {
                continue;
            }
            let mut step = |k: usize, l: usize| {
                if cost + 1 < best[k][l].0 {
                    best[k][l] = (cost + 1, i, j);
                }
            };
            let sign = letter[text[i] as usize].1;
            if cells[j] == sign {
                step(i + 1, j + 1);
            }
            if i == 0 && j == 0 && cells[0] == 48 && m > 1 && cells[1] == sign {
                step(1, 2);
            }
            for length in 2..=10.min(n - i) {
                if let Some(ways) = known.get(&text[i..i + length]) {
                    for way in ways {
                        if cells.len() >= j + way.len() && &cells[j..j + way.len()] == &way[..] {
                            step(i + length, j + way.len());
                        }
                    }
                }
            }
        }
    }
    if best[n][m].0 == u32::MAX {
        return None;
    }
    let mut out = Vec::new();
    let (mut i, mut j) = (n, m);
    while i > 0 {
        let (_, k, l) = best[i][j];
        out.push((k, i, cells[l..j].to_vec()));
        (i, j) = (k, l);
    }
    out.reverse();
    Some(out)
}

// ---------------------------------------------------------------- the generator

#[derive(Clone, PartialEq, Eq, Hash)]
struct Candidate {
    string: Vec<u8>,
    class: u8,
    context: u8,
    shift: usize,
    signs: Vec<u8>,
    years: u8,
}

fn years_of(code: u8) -> (u16, u16) {
    match code {
        1 => (0, YEARS[0]),
        2 => (YEARS[1], 65_535),
        _ => ALWAYS,
    }
}

struct Scored {
    value: f64,
    round: u32,
    candidate: usize,
}

impl PartialEq for Scored {
    fn eq(&self, other: &Scored) -> bool {
        self.cmp(other) == std::cmp::Ordering::Equal
    }
}
impl Eq for Scored {}
impl PartialOrd for Scored {
    fn partial_cmp(&self, other: &Scored) -> Option<std::cmp::Ordering> {
        Some(self.cmp(other))
    }
}
impl Ord for Scored {
    fn cmp(&self, other: &Scored) -> std::cmp::Ordering {
        self.value.partial_cmp(&other.value).unwrap().then(other.candidate.cmp(&self.candidate))
    }
}

struct Settings {
    most: usize,
    least: f64,
    longer: f64,
}

fn entry_of(candidate: &Candidate) -> Entry {
    Entry {
        string: candidate.string.clone(),
        class: candidate.class,
        context: candidate.context,
        shift: candidate.shift,
        signs: candidate.signs.clone(),
        years: years_of(candidate.years),
        remark: String::new(),
    }
}

/// The exceptions that mend most, best first.
fn exceptions(table: &Table, words: &[Word], settings: &Settings) -> Vec<Entry> {
    let mut base = table.entries.clone();
    order(&mut base);
    let mut known: [HashMap<Vec<u8>, Vec<Vec<u8>>>; 2] = [HashMap::new(), HashMap::new()];
    for entry in &base {
        if entry.shift == entry.string.len() && entry.string.iter().all(|byte| byte.is_ascii_uppercase() || *byte == b'\'') {
            for year in 0..2 {
                if entry.in_force(YEARS[year]) {
                    let ways = known[year].entry(entry.string.clone()).or_default();
                    if !ways.contains(&entry.signs) {
                        ways.push(entry.signs.clone());
                    }
                }
            }
        }
    }
    let mut machine = Machine::new(table, &base);
    let mut right: Vec<[bool; 2]> = words.iter().map(|word| [0, 1].map(|year| machine.right(&word.text, YEARS[year], &word.cells[year]))).collect();
    let mut chosen: Vec<Entry> = Vec::new();
    let mut taken: HashSet<Candidate> = HashSet::new();
    for pass in 0..40 {
        // Candidates of this pass, with the words that ask for them.
        let mut asked: HashMap<Candidate, f64> = HashMap::new();
        let mut wrong_count = 0;
        for (index, word) in words.iter().enumerate() {
            for year in 0..2 {
                if right[index][year] {
                    continue;
                }
                wrong_count += 1;
                propose(&machine, word, year, &known[year], table, &mut asked);
            }
        }
        let mut both: HashMap<Candidate, f64> = HashMap::new();
        for (candidate, weight) in &asked {
            let mut always = candidate.clone();
            always.years = 3;
            *both.entry(always).or_default() += weight;
        }
        asked.extend(both);
        let candidates: Vec<(Candidate, f64)> = {
            let mut list: Vec<(Candidate, f64)> = asked.into_iter().filter(|(candidate, weight)| *weight >= settings.least && !taken.contains(candidate)).collect();
            list.sort_by(|a, b| b.1.partial_cmp(&a.1).unwrap().then(a.0.string.len().cmp(&b.0.string.len())).then(a.0.string.cmp(&b.0.string)).then((a.0.class, a.0.context, a.0.shift, a.0.years, &a.0.signs).cmp(&(b.0.class, b.0.context, b.0.shift, b.0.years, &b.0.signs))));
            list
        };
        eprintln!("pass {pass}: {wrong_count} wrong, {} candidates, {} exceptions", candidates.len(), chosen.len());
        if candidates.is_empty() {
            break;
        }
        // Which words have the string of a candidate.
        let mut holders: HashMap<&[u8], Vec<u32>> = HashMap::new();
        for (candidate, _) in &candidates {
            holders.entry(&candidate.string).or_default();
        }
        for (index, word) in words.iter().enumerate() {
            let n = word.text.len();
            for start in 0..n {
                for end in start + 1..=n.min(start + 10) {
                    if let Some(list) = holders.get_mut(&word.text[start..end]) {
                        if list.last() != Some(&(index as u32)) {
                            list.push(index as u32);
                        }
                    }
                }
            }
        }
        let bias = |candidate: &Candidate| -> f64 {
            -settings.longer * candidate.string.len() as f64 - 0.003 * candidate.signs.len() as f64 - if candidate.context == 0 { 0.0 } else { 0.012 }
                - if candidate.class == ANYWHERE { 0.0 } else { 0.001 }
        };
        let mut queue: BinaryHeap<Scored> = BinaryHeap::new();
        for (index, (candidate, weight)) in candidates.iter().enumerate() {
            queue.push(Scored { value: weight + bias(candidate), round: u32::MAX, candidate: index });
        }
        let mut round = 0u32;
        let before = chosen.len();
        while let Some(top) = queue.pop() {
            if top.value < settings.least - 0.3 || chosen.len() >= settings.most {
                break;
            }
            let candidate = &candidates[top.candidate].0;
            let entry = entry_of(candidate);
            let same = |other: &Entry| other.string == entry.string && other.class == entry.class && other.context == entry.context;
            let (node, place) = {
                let node = machine.node(&entry.string);
                if machine.nodes[node].ends.iter().any(|&index| same(&machine.entries[index as usize]) && overlap(machine.entries[index as usize].years, entry.years)) {
                    continue;
                }
                machine.add(entry.clone(), true)
            };
            let mut value = bias(candidate);
            let mut changes = Vec::new();
            for &index in &holders[&candidate.string[..]] {
                let word = &words[index as usize];
                for year in 0..2 {
                    if !entry.in_force(YEARS[year]) {
                        continue;
                    }
                    let now = machine.right(&word.text, YEARS[year], &word.cells[year]);
                    if now != right[index as usize][year] {
                        value += if now { word.weight } else { -1.05 * word.weight };
                        changes.push((index as usize, year, now));
                    }
                }
            }
            let next_best = queue.peek().map_or(f64::MIN, |next| next.value);
            if value >= settings.least - 0.3 && (value >= next_best || top.round == round) {
                for (index, year, now) in changes {
                    right[index][year] = now;
                }
                taken.insert(candidate.clone());
                chosen.push(entry);
                round += 1;
            } else {
                machine.nodes[node].ends.remove(place);
                machine.entries.pop();
                if value >= settings.least - 0.3 {
                    queue.push(Scored { value, round, candidate: top.candidate });
                }
            }
        }
        if chosen.len() == before || chosen.len() >= settings.most {
            break;
        }
    }
    chosen
}

fn overlap(a: (u16, u16), b: (u16, u16)) -> bool {
    a.0 <= b.1 && b.0 <= a.1
}

/// Entries that would mend a word in a year: they begin where both ways still agree, and print what the judge has.
fn propose(machine: &Machine, word: &Word, year: usize, known: &HashMap<Vec<u8>, Vec<Vec<u8>>>, table: &Table, asked: &mut HashMap<Candidate, f64>) {
    let text = &word.text;
    let n = text.len();
    let Some(wanted) = parts(text, &word.cells[year], known, &table.letter) else { return };
    let mut ours: Vec<(usize, usize, Vec<u8>)> = Vec::new();
    machine.pieces(text, YEARS[year], &mut |start, end, signs, _| {
        ours.push((start, end, signs.to_vec()));
        true
    });
    // The places where both have a boundary and the same signs before it.
    let mut agreed = vec![0usize];
    let (mut i, mut j) = (0, 0);
    let (mut mine, mut theirs) = (Vec::new(), Vec::new());
    let mut differ = 0;
    loop {
        if i >= ours.len() || j >= wanted.len() {
            break;
        }
        let (a, b) = (ours[i].1, wanted[j].1);
        if a <= b {
            mine.extend_from_slice(&ours[i].2);
            i += 1;
        }
        if b <= a {
            theirs.extend_from_slice(&wanted[j].2);
            j += 1;
        }
        if a == b {
            if mine != theirs {
                break;
            }
            agreed.push(a);
            differ = a;
        }
    }
    for &start in agreed.iter().filter(|&&start| start + 8 >= differ && start < n && text[start].is_ascii_uppercase()) {
        let begins = text[..start].iter().all(|byte| !byte.is_ascii_uppercase());
        let mut signs: Vec<u8> = Vec::new();
        let mut beyond = 0;
        for part in wanted.iter().filter(|part| part.0 >= start) {
            signs.extend_from_slice(&part.2);
            if signs.len() > 4 || beyond >= 3 {
                break;
            }
            let end = part.1;
            if end <= differ {
                continue;
            }
            beyond += 1;
            for stop in end..=n.min(start + 10) {
                let length = stop - start;
                if length < 2 && n > 1 {
                    continue;
                }
                let mut contexts = vec![0];
                if length < 10 {
                    if stop == n || text[stop] == b'\'' {
                        contexts.push(END);
                    } else {
                        contexts.push(LETTER);
                    }
                }
                for &context in &contexts {
                    for class in [if begins { BEGINNING } else { WITHIN }, ANYWHERE] {
                        let candidate = Candidate { string: text[start..stop].to_vec(), class, context, shift: end - start, signs: signs.clone(), years: 1 << year };
                        *asked.entry(candidate).or_default() += word.weight;
                    }
                }
            }
        }
    }
}

// ---------------------------------------------------------------- commands

fn line_of(entry: &Entry) -> String {
    let context = if entry.context == 0 { "-".to_string() } else { entry.context.to_string() };
    let shift = if entry.shift == entry.string.len() { "=".to_string() } else { entry.shift.to_string() };
    let signs: Vec<String> = entry.signs.iter().map(|sign| format!("{sign:2}")).collect();
    let mut line = format!("entry {:<11} {:2} {} {:>2} : {}", written(&entry.string), entry.class, context, shift, signs.join(" "));
    if entry.years.0 > 0 {
        line = format!("{line:<44} from {}", entry.years.0);
    }
    if entry.years.1 < 65_535 {
        line = format!("{line:<44} to {}", entry.years.1);
    }
    if !entry.remark.is_empty() {
        line = format!("{line:<56} {}", entry.remark);
    }
    line
}

/// An entry is dead when an earlier one of its class covers its years and has a string that begins its string and no
/// context, or its string and its context.
fn drop_dead(entries: &mut Vec<Entry>) -> usize {
    let mut kept: Vec<Entry> = Vec::new();
    let mut dropped = 0;
    for entry in entries.drain(..) {
        let dead = kept.iter().any(|other| {
            other.class == entry.class
                && other.years.0 <= entry.years.0
                && entry.years.1 <= other.years.1
                && ((other.context == 0 && entry.string.starts_with(&other.string)) || (other.string == entry.string && other.context == entry.context))
        });
        if dead {
            dropped += 1;
        } else {
            kept.push(entry);
        }
    }
    *entries = kept;
    dropped
}

/// Two entries that differ in their years alone, one to 2015 and one from 2016, become one.
fn join_years(entries: &mut Vec<Entry>) -> usize {
    let mut joined = 0;
    let mut at = 0;
    while at < entries.len() {
        let other = (at + 1..entries.len()).find(|&other| {
            let (a, b) = (&entries[at], &entries[other]);
            a.string == b.string && a.class == b.class && a.context == b.context && a.shift == b.shift && a.signs == b.signs && a.years != b.years
        });
        if let Some(other) = other {
            let (a, b) = (entries[at].years, entries[other].years);
            if (a == (0, YEARS[0]) && b == (YEARS[1], 65_535)) || (b == (0, YEARS[0]) && a == (YEARS[1], 65_535)) {
                entries[at].years = ALWAYS;
                entries.remove(other);
                joined += 1;
            }
        }
        at += 1;
    }
    joined
}

/// For each entry how many words it mends, of the first `real` and of the others: those that are right with it, less
/// those that are right without it. And the words that use it.
fn mended(table: &Table, entries: &[Entry], words: &[Word], real: usize) -> (Vec<(i64, i64)>, Vec<Vec<(u32, u8)>>) {
    let mut counts = vec![(0i64, 0i64); entries.len()];
    let mut machine = Machine::new(table, entries);
    let mut users: Vec<Vec<(u32, u8)>> = vec![Vec::new(); entries.len()];
    for (index, word) in words.iter().enumerate() {
        for year in 0..2 {
            let mut at = 0;
            let mut states = 0u16;
            while at < word.text.len() {
                let (shift, class) = match machine.choose(&word.text, at, states, YEARS[year]) {
                    Some(entry) => {
                        users[entry as usize].push((index as u32, year as u8));
                        (entries[entry as usize].shift, entries[entry as usize].class)
                    }
                    None => (1, table.letter[word.text[at] as usize].0),
                };
                let (kept, set, turned) = table.moves[class as usize];
                states = ((states & (kept | turned)) ^ turned) | set;
                at += shift;
            }
        }
    }
    for entry in 0..entries.len() {
        let node = machine.node(&entries[entry].string);
        let place = machine.nodes[node].ends.iter().position(|&index| index == entry as u32).unwrap();
        users[entry].dedup();
        let right = |machine: &Machine, index: u32, year: u8| {
            let word = &words[index as usize];
            machine.right(&word.text, YEARS[year as usize], &word.cells[year as usize])
        };
        let with: Vec<bool> = users[entry].iter().map(|&(index, year)| right(&machine, index, year)).collect();
        machine.nodes[node].ends.remove(place);
        for (&(index, year), with) in users[entry].iter().zip(with) {
            let change = with as i64 - right(&machine, index, year) as i64;
            let (given, made) = &mut counts[entry];
            *if (index as usize) < real { given } else { made } += change;
        }
        machine.nodes[node].ends.insert(place, entry as u32);
    }
    (counts, users)
}

fn share(right: usize, all: usize) -> String {
    format!("{right} of {all} ({:.3} %)", 100.0 * right as f64 / all.max(1) as f64)
}

fn measure(table: &Table, entries: &[Entry], words: &[Word], shown: usize, which: &dyn Fn(&[u8]) -> bool) {
    let machine = Machine::new(table, entries);
    for year in 0..2 {
        let (mut right, mut all) = (0, 0);
        let mut wrong = Vec::new();
        for word in words.iter().filter(|word| which(&word.text)) {
            all += 1;
            if machine.right(&word.text, YEARS[year], &word.cells[year]) {
                right += 1;
            } else {
                wrong.push(word);
            }
        }
        println!("{}: {} as they should be", YEARS[year], share(right, all));
        for word in wrong.iter().take(shown) {
            println!("  {}: {:?}, should be {:?}", String::from_utf8_lossy(&word.text), machine.translate(&word.text, YEARS[year]), word.cells[year]);
        }
    }
}

fn option<'a>(words: &'a [String], name: &str) -> Option<&'a str> {
    words.iter().position(|word| word == name).and_then(|at| words.get(at + 1)).map(String::as_str)
}

fn main() {
    let words: Vec<String> = env::args().skip(1).collect();
    let usage = "english make BASE --words JUDGED [--mistakes LIST] [--also JUDGED] [--made-up JUDGED] [--weight W] [--most N] [--seven-tenths] > TABLE
english measure TABLE --words JUDGED [--mistakes LIST] [--show N] [--kept-out]
english translate TABLE YEAR < LINES
english part < WORDS";
    match words.first().map(String::as_str) {
        Some("make") => {
            let table = read_table(&words[1]);
            let mut judged = read_words(option(&words, "--words").unwrap_or_else(|| fail(usage)), 1.0);
            if let Some(name) = option(&words, "--mistakes") {
                mend_words(&mut judged, name);
            }
            let seven = words.iter().any(|word| word == "--seven-tenths");
            let (train, _rest): (Vec<Word>, Vec<Word>) = if seven { judged.into_iter().partition(|word| !kept_out(&word.text)) } else { (judged, Vec::new()) };
            let mut train = train;
            if let (Some(name), false) = (option(&words, "--also"), seven) {
                train.extend(read_words(name, 1.0));
            }
            let real = train.len();
            if let Some(name) = option(&words, "--made-up") {
                let weight = option(&words, "--weight").map_or(0.3, |word| word.parse().unwrap());
                train.extend(read_words(name, weight));
            }
            let number = |name: &str, otherwise: f64| option(&words, name).map_or(otherwise, |word| word.parse().unwrap());
            let most = number("--most", 1199.0) as usize;
            let room = most - table.entries.len();
            let settings = Settings { most: room, least: number("--least", 1.0), longer: number("--longer", 0.02) };
            let chosen = exceptions(&table, &train, &settings);
            let mut entries = table.entries.clone();
            let hand: HashSet<String> = entries.iter().map(line_of).collect();
            entries.extend(chosen);
            order(&mut entries);
            join_years(&mut entries);
            // Exceptions that mend nothing any more go. Two that mend the same word don't go at once.
            let made_up = option(&words, "--made-up").is_some();
            let little = |(given, made): (i64, i64)| given <= 0 && (!made_up || made < 8);
            let counts = loop {
                drop_dead(&mut entries);
                let (counts, users) = mended(&table, &entries, &train, real);
                let mut touched: HashSet<(u32, u8)> = HashSet::new();
                let mut gone = vec![false; entries.len()];
                // First those that no word uses: what stands before them may mend their words.
                let unused = (0..entries.len()).any(|index| users[index].is_empty() && !hand.contains(&line_of(&entries[index])));
                for index in (0..entries.len()).rev().filter(|&index| !unused || users[index].is_empty()) {
                    if little(counts[index]) && !hand.contains(&line_of(&entries[index])) && users[index].iter().all(|user| !touched.contains(user)) {
                        gone[index] = true;
                        touched.extend(&users[index]);
                    }
                }
                if !gone.contains(&true) {
                    break counts;
                }
                let mut gone = gone.iter();
                entries.retain(|_| !gone.next().unwrap());
            };
            for (entry, (given, made)) in entries.iter_mut().zip(counts) {
                let by_hand = hand.contains(&line_of(entry));
                let told = if made > 0 { format!("{given} + {made}") } else { given.to_string() };
                entry.remark = match (by_hand, given > 0 || made > 0) {
                    (true, false) => String::new(),
                    (true, true) => format!("# {told}"),
                    (false, _) => format!("# exception, {told}"),
                };
            }
            // The headings of the hand rules aren't those of the table.
            for line in table.head.iter().filter(|line| !line.starts_with("## ")) {
                println!("{line}");
            }
            for entry in &entries {
                println!("{}", line_of(entry));
            }
            for line in table.tail.iter().filter(|line| !line.starts_with("## ")) {
                println!("{line}");
            }
            let force = |year: u16| entries.iter().filter(|entry| entry.in_force(year)).count();
            eprintln!("{} entries, {} in force in 2015, {} in 2016", entries.len(), force(2015), force(2016));
        }
        Some("measure") => {
            let table = read_table(&words[1]);
            let mut judged = read_words(option(&words, "--words").unwrap_or_else(|| fail(usage)), 1.0);
            if let Some(name) = option(&words, "--mistakes") {
                println!("{} answers of the judge are mistakes, and count as they should be", mend_words(&mut judged, name));
            }
            let shown = option(&words, "--show").map_or(0, |word| word.parse().unwrap());
            let out = words.iter().any(|word| word == "--kept-out");
            measure(&table, &table.entries, &judged, shown, &|text| !out || kept_out(text));
        }
        Some("translate") => {
            let table = read_table(&words[1]);
            let machine = Machine::new(&table, &table.entries);
            let year = words[2].parse().unwrap_or_else(|_| fail(usage));
            for line in std::io::stdin().lines() {
                let line = line.unwrap();
                let cells: Vec<String> = machine.translate(line.as_bytes(), year).iter().map(|cell| cell.to_string()).collect();
                println!("{line}\t{}", cells.join(" "));
            }
        }
        Some("part") => {
            for line in std::io::stdin().lines() {
                let line = line.unwrap();
                println!("{}\t{line}", if kept_out(line.to_ascii_uppercase().as_bytes()) { "kept" } else { "given" });
            }
        }
        _ => fail(usage),
    }
}
