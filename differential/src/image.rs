//! Images as they are made: rows whose words know which of them are children, then words, then bytes.

/// A word of a row.
#[derive(Copy, Clone, Debug, PartialEq, Eq)]
pub enum Word {
    Plain(u32),
    /// A name number.
    Name(u32),
    /// An optional name: 0, or the number plus 1.
    MaybeName(Option<u32>),
    /// A node, by its index among the rows.
    Child(usize),
    /// An optional node: 0, or the number plus 1.
    MaybeChild(Option<usize>),
}

#[derive(Clone, Debug)]
pub struct Row {
    pub kind: u32,
    pub location: [u32; 2],
    pub words: Vec<Word>,
}

/// Rows in the order in which they were made, children first; names by number.
#[derive(Clone, Debug, Default)]
pub struct Sketch {
    pub rows: Vec<Row>,
    pub names: Vec<Vec<u8>>,
}

impl Sketch {
    pub fn push(&mut self, kind: u32, words: Vec<Word>) -> usize {
        self.rows.push(Row { kind, location: [0, 0], words });
        self.rows.len() - 1
    }

    pub fn operands(&self) -> usize {
        self.rows.iter().map(|r| 2 + r.words.len()).sum()
    }

    pub fn children(&self, row: usize) -> impl Iterator<Item = usize> + '_ {
        self.rows[row].words.iter().filter_map(|w| match *w {
            Word::Child(c) => Some(c),
            Word::MaybeChild(c) => c,
            _ => None,
        })
    }

    /// The words of the image whose n-th node is the row order[n].
    pub fn parts(&self, order: &[usize]) -> Parts {
        let mut number = vec![0u32; self.rows.len()];
        for (n, &row) in order.iter().enumerate() {
            number[row] = n as u32;
        }
        let mut parts = Parts::default();
        for &row in order {
            let row = &self.rows[row];
            parts.kinds.push(row.kind);
            parts.starts.push(parts.operands.len() as u32);
            parts.operands.extend(row.location);
            parts.operands.extend(row.words.iter().map(|w| match *w {
                Word::Plain(x) => x,
                Word::Name(x) => x,
                Word::MaybeName(x) => x.map_or(0, |x| x + 1),
                Word::Child(c) => number[c],
                Word::MaybeChild(c) => c.map_or(0, |c| number[c] + 1),
            }));
        }
        for name in &self.names {
            parts.bytes.extend(name);
            parts.ends.push(parts.bytes.len() as u32);
        }
        parts.sizes = parts.counted();
        parts
    }

    /// The rows as they were made.
    pub fn natural(&self) -> Vec<usize> {
        (0..self.rows.len()).collect()
    }
}

/// The words of an image. The sizes are separate, so that they can be made wrong.
#[derive(Clone, Debug, Default, PartialEq, Eq)]
pub struct Parts {
    pub sizes: [u32; 4],
    pub kinds: Vec<u32>,
    pub starts: Vec<u32>,
    pub operands: Vec<u32>,
    pub ends: Vec<u32>,
    pub bytes: Vec<u8>,
}

impl Parts {
    pub fn counted(&self) -> [u32; 4] {
        [self.kinds.len(), self.operands.len(), self.ends.len(), self.bytes.len()].map(|n| n as u32)
    }

    pub fn encode(&self) -> Vec<u8> {
        let mut image = Vec::new();
        let words = [&self.sizes[..], &self.kinds, &self.starts, &self.operands, &self.ends];
        for word in words.into_iter().flatten() {
            image.extend(word.to_le_bytes());
        }
        image.extend(&self.bytes);
        image
    }
}
