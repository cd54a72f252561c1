//! Numbers at random from fixed seeds, random rule files, damage to them, and random bytes.

use super::{encode, Row};

/// SplitMix64: small, and the same numbers on every machine.
pub struct Prng(u64);

impl Prng {
    pub fn new(seed: u64) -> Prng {
        Prng(seed)
    }

    /// The same numbers for the same bytes.
    pub fn of_bytes(bytes: &[u8]) -> Prng {
        Prng(bytes.iter().fold(bytes.len() as u64, |seed, &byte| seed.rotate_left(5) ^ u64::from(byte)))
    }

    pub fn next_u64(&mut self) -> u64 {
        self.0 = self.0.wrapping_add(0x9e37_79b9_7f4a_7c15);
        let z = (self.0 ^ self.0 >> 30).wrapping_mul(0xbf58_476d_1ce4_e5b9);
        let z = (z ^ z >> 27).wrapping_mul(0x94d0_49bb_1331_11eb);
        z ^ z >> 31
    }

    /// A number below `bound`.
    pub fn below(&mut self, bound: usize) -> usize {
        (self.next_u64() % bound as u64) as usize
    }

    /// A byte below `bound`.
    pub fn byte_below(&mut self, bound: usize) -> u8 {
        u8::try_from(self.below(bound)).expect("a bound of at most 256")
    }

    /// Fills a slice.
    pub fn fill(&mut self, bytes: &mut [u8]) {
        for chunk in bytes.chunks_mut(8) {
            chunk.copy_from_slice(&self.next_u64().to_le_bytes()[..chunk.len()]);
        }
    }
}

/// How large random files are.
#[derive(Clone, Copy)]
pub struct Shape {
    /// Names, each with its negation.
    pub names: usize,
    /// Roles, each with its inverse.
    pub roles: usize,
    /// The most rows besides the names and their negations.
    pub compound: usize,
    /// The most rules.
    pub rules: usize,
    /// The most bytes of text.
    pub text: usize,
}

/// A file that the checks accept. The wanted row is the last row, and so is built on others.
pub fn random_file(prng: &mut Prng, shape: Shape) -> Vec<u8> {
    let rows = random_rows(prng, shape);
    let rules: Vec<u8> = (0..prng.below(shape.rules + 1)).map(|_| prng.byte_below(rows.len())).collect();
    encode(&random_text(prng, shape.text), &rows, &rules, rows.len() as u8 - 1)
}

/// One file of four has a text, if the shape allows it one.
pub(crate) fn random_text(prng: &mut Prng, most: usize) -> Vec<u8> {
    if most == 0 || prng.below(4) > 0 {
        return Vec::new();
    }
    let mut text = vec![0; 1 + prng.below(most)];
    prng.fill(&mut text);
    text
}

/// Names and negations first, then other rows. "Some" over "all" with the inverse role is what asks for more in the state
/// above and so leads to alternatives; by chance alone it is rare.
fn random_rows(prng: &mut Prng, shape: Shape) -> Vec<Row> {
    let mut rows: Vec<Row> = (0..shape.names as u8).flat_map(|name| [[1, 0, name, 0], [2, 0, name, 0]]).collect();
    let count = rows.len() + 1 + prng.below(shape.compound);
    while rows.len() < count {
        let last = rows.len() - 1;
        let row = match rows[last] {
            [5, role, _, _] if prng.below(2) == 0 => [6, role ^ 1, last as u8, 0],
            _ => random_row(prng, shape, rows.len()),
        };
        if !rows.contains(&row) {
            rows.push(row);
        }
    }
    rows
}

/// A row of kind 3 to 6. Kinds 5 and 6 come more often than 3, since they drive the graph.
pub(crate) fn random_row(prng: &mut Prng, shape: Shape, number: usize) -> Row {
    let (left, right) = (argument(prng, number), argument(prng, number));
    let role = prng.byte_below(2 * shape.roles);
    match prng.below(10) {
        0..2 => [3, 0, left, right],
        2..5 => [4, 0, left, right],
        5..7 => [5, role, left, 0],
        _ => [6, role, left, 0],
    }
}

/// A lower row, rather a late one: so rows nest.
pub(crate) fn argument(prng: &mut Prng, number: usize) -> u8 {
    prng.byte_below(number).max(prng.byte_below(number))
}

/// Some byte changes, rather near the end where the trailer is, and now and then a cut or an added byte. 8 and 9 are kinds that only
/// a draft may have.
pub fn damage(prng: &mut Prng, file: &mut Vec<u8>) {
    for _ in 0..1 + prng.below(3) {
        if file.is_empty() {
            return;
        }
        let at = prng.below(file.len()).max(prng.below(file.len()));
        match prng.below(12) {
            0 => drop(file.remove(at)),
            1 => file.insert(at, prng.byte_below(8)),
            2 => file.truncate(at),
            3..8 => file[at] = prng.byte_below(8),
            8 => file[at] = 8 + prng.byte_below(2),
            _ => file[at] = prng.byte_below(256),
        }
    }
}

/// Random bytes; some end in the mark, and some in a whole trailer whose parts fill the file, so that every file check has its turn.
pub fn random_bytes(prng: &mut Prng) -> Vec<u8> {
    let mut file = vec![0; prng.below(64)];
    prng.fill(&mut file);
    match prng.below(4) {
        0 => file,
        1 => [&file, b"FIT".as_slice()].concat(),
        _ => random_parts(prng),
    }
}

/// A file whose text, one or two rows, rules and wanted row are random bytes, rather zeros.
fn random_parts(prng: &mut Prng) -> Vec<u8> {
    let (text, rows, rules) = (prng.below(4), 1 + prng.below(2), prng.below(3));
    let bound = [2, 10][prng.below(2)];
    let mut bytes =
        |count: usize| -> Vec<u8> { (0..count).map(|_| prng.byte_below(bound) * prng.byte_below(2)).collect() };
    encode(&bytes(text), bytes(4 * rows).as_chunks().0, &bytes(rules), bytes(1)[0])
}
