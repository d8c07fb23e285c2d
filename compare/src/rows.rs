//! Row lists as the port is lent them, and the paper's rules for them in Rust: which fault a list has, written from the paper's
//! sentences alone.

/// A row's worth.
#[derive(Clone, Copy, Debug, PartialEq)]
pub enum Worth {
    Score(f64),
    Id(u32),
}

#[derive(Clone, Copy, Debug, PartialEq)]
pub enum Kind {
    Unigram,
    WordPiece,
}

/// Why a build is refused: the number, and the row where it has one.
pub type Refusal = (u32, Option<u32>);

/// A string table and the columns of a row list.
#[derive(Clone, Debug, Default)]
pub struct Rows {
    pub tab: Vec<u8>,
    pub off: Vec<u32>,
    pub len: Vec<u32>,
    pub scored: Vec<bool>,
    pub score: Vec<f64>,
    pub id: Vec<u32>,
}

impl Rows {
    pub fn push(&mut self, off: u32, len: u32, worth: Worth) {
        self.off.push(off);
        self.len.push(len);
        // the column that does not count holds what would be refused if it did
        let (scored, score, id) = match worth {
            Worth::Score(x) => (true, x, u32::MAX),
            Worth::Id(i) => (false, f64::NAN, i),
        };
        self.scored.push(scored);
        self.score.push(score);
        self.id.push(id);
    }

    /// The tokens, end to end. A token that already stands in the table is not written again, and a byte that is no text
    /// stands between some.
    pub fn of<S: AsRef<[u8]>>(list: impl IntoIterator<Item = (S, Worth)>) -> Self {
        let mut rows = Rows::default();
        for (k, (token, worth)) in list.into_iter().enumerate() {
            let token = token.as_ref();
            let n = rows.tab.len();
            let recent = n.saturating_sub(64);
            let found = rows.tab[recent..].windows(token.len().max(1)).position(|w| w == token).map(|at| recent + at);
            let off = found.unwrap_or_else(|| {
                if k % 3 == 2 {
                    rows.tab.push(0xFF);
                }
                rows.tab.extend_from_slice(token);
                rows.tab.len() - token.len()
            });
            rows.push(off as u32, token.len() as u32, worth);
        }
        rows
    }

    pub fn token(&self, i: usize) -> &[u8] {
        &self.tab[self.off[i] as usize..][..self.len[i] as usize]
    }

    pub fn worth(&self, i: usize) -> Worth {
        if self.scored[i] { Worth::Score(self.score[i]) } else { Worth::Id(self.id[i]) }
    }

    /// "tested in the order 2, 3, 4, then 5 or 6"
    fn row_fault(&self, kind: Kind, i: usize) -> Option<u32> {
        let (off, len) = (self.off[i] as u64, self.len[i] as u64);
        if off + len > self.tab.len() as u64 {
            return Some(2);
        }
        if len > 1024 {
            return Some(3);
        }
        if std::str::from_utf8(self.token(i)).is_err() {
            return Some(4);
        }
        match (kind, self.worth(i)) {
            (Kind::Unigram, Worth::Score(x)) if x.is_finite() => None,
            (Kind::Unigram, _) => Some(5),
            (Kind::WordPiece, Worth::Id(id)) if id != u32::MAX => None,
            (Kind::WordPiece, _) => Some(6),
        }
    }

    /// "Order for a build: 1, rows"; 7 comes after.
    pub fn fault(&self, kind: Kind) -> Option<Refusal> {
        let n = self.off.len();
        let level = [self.len.len(), self.scored.len(), self.score.len(), self.id.len()].iter().all(|&l| l == n);
        if n > 1_048_576 || self.tab.len() > 16_777_216 || !level {
            return Some((1, None));
        }
        (0..n).find_map(|i| self.row_fault(kind, i).map(|number| (number, Some(i as u32))))
    }

    fn string(&self, i: usize) -> String {
        String::from_utf8(self.token(i).to_vec()).expect("the token is text")
    }

    /// The rows as the Rust takes them, where there is no fault.
    pub fn unigram(&self) -> Vec<(String, f64)> {
        (0..self.off.len()).map(|i| (self.string(i), self.score[i])).collect()
    }

    pub fn wordpiece(&self) -> Vec<(String, u32)> {
        (0..self.off.len()).map(|i| (self.string(i), self.id[i])).collect()
    }
}
