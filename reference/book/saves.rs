//! Sets of saves.

use super::rows::Rows;

/// A copy, or any set of saves. Of the saves that were entered since the book began it has one
/// yes or no for each save of the ledger. In a book that began at an admission a copy may include
/// admitted saves as well, with what is listed behind them; then it has an issue number from there.
#[derive(Clone, Default, Debug)]
pub struct Saves {
    entered: Vec<bool>,
    /// The admitted saves that it includes.
    pub admitted: Rows,
    /// The admitted saves of other sheets that stand behind it: its list.
    pub listed: Rows,
    /// The largest issue number of the admitted versions in it.
    pub number: u32,
}

impl Saves {
    /// Of a version of sheet k: "a copy then admitted includes the saves that its own row counts,
    /// and behind them stand just those in its own list".
    pub fn admitted(k: usize, rows: &Rows, number: u32) -> Saves {
        let (admitted, listed) = rows.parted(k);
        Saves { admitted, listed, number, ..Saves::default() }
    }

    pub fn has(&self, save: usize) -> bool {
        self.entered.get(save).copied().unwrap_or(false)
    }

    pub fn add(&mut self, save: usize) {
        if self.entered.len() <= save {
            self.entered.resize(save + 1, false);
        }
        self.entered[save] = true;
    }

    /// The entered saves in it.
    pub fn members(&self) -> impl Iterator<Item = usize> + '_ {
        (0..self.entered.len()).filter(|save| self.entered[*save])
    }

    pub fn is_empty(&self) -> bool {
        self.members().next().is_none() && self.admitted.is_empty()
    }

    pub fn includes(&self, other: &Saves) -> bool {
        other.members().all(|save| self.has(save)) && self.admitted.includes(&other.admitted)
    }

    pub fn same(&self, other: &Saves) -> bool {
        self.includes(other) && other.includes(self)
    }

    /// The same saves, list and number.
    pub fn alike(&self, other: &Saves) -> bool {
        self.same(other) && self.listed == other.listed && self.number == other.number
    }

    /// "Merge is union"; lists "pass on by merge".
    pub fn join(&mut self, other: &Saves) {
        for save in other.members() {
            self.add(save);
        }
        self.admitted.join(&other.admitted);
        self.listed.join(&other.listed);
        self.number = self.number.max(other.number);
    }

    /// The admitted saves in it and in its list.
    pub fn rows(&self) -> Rows {
        let mut rows = self.admitted.clone();
        rows.join(&self.listed);
        rows
    }

    /// How this copy stands against another one of its sheet: 0 if both have the same saves, 1
    /// if the other has more, 2 if this one has, 3 if each has a save that the other lacks.
    pub fn standing(&self, other: &Saves) -> u32 {
        match (self.includes(other), other.includes(self)) {
            (true, true) => 0,
            (false, true) => 1,
            (true, false) => 2,
            (false, false) => 3,
        }
    }
}
