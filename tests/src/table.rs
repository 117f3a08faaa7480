//! A table as lists, and the image made from it. Nothing here checks a table, since damaged ones are written too;
//! src/readable.rs reads one from its readable form.

/// The years of an entry that is always in force.
pub const ALWAYS: (u16, u16) = (0, 65_535);

/// One contraction record.
#[derive(Clone, Debug)]
pub struct Entry {
    pub string: Vec<u8>,
    pub context: u8,
    pub class: u8,
    pub shift: u8,
    pub signs: [u8; 4],
    /// The first and the last year, which an image of the old form doesn't hold.
    pub years: (u16, u16),
}

impl Entry {
    /// The 18 bytes of the record in the old form.
    fn record(&self) -> [u8; 18] {
        let mut record = [0; 18];
        record[0] = self.string.len() as u8;
        record[1..1 + self.string.len()].copy_from_slice(&self.string);
        record[11] = self.context;
        record[12] = self.class;
        record[13] = self.shift;
        record[14..].copy_from_slice(&self.signs);
        record
    }

    /// The four bytes that the dated form has after these.
    fn years(&self) -> [u8; 4] {
        let ([a, b], [c, d]) = (self.years.0.to_le_bytes(), self.years.1.to_le_bytes());
        [a, b, c, d]
    }
}

/// The five sections, with the numbers that the trailer states.
#[derive(Clone, Debug, Default)]
pub struct Table {
    /// Whether the image has the dated form.
    pub dated: bool,
    pub classes: u8,
    pub variables: u8,
    /// Symbol, class, sign.
    pub alphabet: Vec<[u8; 3]>,
    pub entries: Vec<Entry>,
    pub contexts: Vec<[u8; 4]>,
    pub transitions: Vec<Vec<u8>>,
    pub decisions: Vec<Vec<u8>>,
}

impl Table {
    /// The bytes of a contraction record.
    pub fn entry_size(&self) -> usize {
        if self.dated { 22 } else { 18 }
    }

    /// The trailer's last byte.
    pub fn mark(&self) -> u8 {
        if self.dated { 52 } else { 51 }
    }

    /// The bytes of each section, in order.
    pub fn sections(&self) -> [Vec<u8>; 5] {
        let years = |entry: &Entry| if self.dated { entry.years().to_vec() } else { vec![] };
        [
            self.alphabet.concat(),
            self.entries.iter().flat_map(|entry| [entry.record().to_vec(), years(entry)].concat()).collect(),
            self.contexts.concat(),
            self.transitions.concat(),
            self.decisions.concat(),
        ]
    }

    /// The image: the five sections back to back and the trailer.
    pub fn image(&self) -> Vec<u8> {
        let sections = self.sections();
        let mut image = sections.concat();
        let mut trailer = vec![];
        let mut distance = image.len();
        for section in &sections {
            trailer.extend((distance as u16).to_le_bytes());
            distance -= section.len();
        }
        trailer.extend([self.classes, self.variables, 66, self.mark()]);
        image.extend(trailer);
        image
    }
}
