//! "Size and layout": limits, offsets and the places of the desk's parts.

pub const HEADER: usize = 10;
/// State, number of jobs, done mask, read mask and 8 jobs of 3 words; the card follows.
pub const RUN_HEAD: usize = 28;
pub const MOST_JOBS: usize = 8;

// Words of the header.
pub const LAST_ISSUE: usize = 4;
pub const OFFSETS: usize = 5;

// Words of a version: the issue number, the mask of leading writers, then row 0, row 1 and so on.
pub const NUMBER: usize = 0;
pub const LEADERS: usize = 1;
pub const PAST: usize = 2;

// Words of a writer: its count, then its past.
pub const COUNT: usize = 0;
pub const WRITER_PAST: usize = 1;

// Words of a run.
pub const STATE: usize = 0;
pub const JOBS: usize = 1;
pub const DONE: usize = 2;
pub const READ: usize = 3;
pub const JOB_LIST: usize = 4;

/// The four counts, in range. Nothing is computed from counts that aren't.
#[derive(Clone, Copy, PartialEq, Eq, Debug)]
pub struct Sizes {
    pub k: usize,
    pub w: usize,
    pub n: usize,
    pub p: usize,
}

impl Sizes {
    /// "Sheets K 1..32, writers W 1..16, offices N 1..8, runs P 1..8".
    pub fn of(k: u32, w: u32, n: u32, p: u32) -> Option<Sizes> {
        let in_range = (1..=32).contains(&k)
            && (1..=16).contains(&w)
            && (1..=8).contains(&n)
            && (1..=8).contains(&p);
        if !in_range {
            return None;
        }
        Some(Sizes { k: k as usize, w: w as usize, n: n as usize, p: p as usize })
    }

    /// V = 2 + K*W.
    pub fn version(&self) -> usize {
        PAST + self.k * self.w
    }

    /// "Writers keep 1 + K*W."
    pub fn writer(&self) -> usize {
        WRITER_PAST + self.k * self.w
    }

    /// A version of each sheet, then the stale mark and the allowance.
    pub fn shelf(&self) -> usize {
        self.k * self.version() + 2
    }

    pub fn master(&self) -> usize {
        HEADER
    }

    pub fn shelves(&self) -> usize {
        self.master() + self.k * self.version()
    }

    pub fn writers(&self) -> usize {
        self.shelves() + self.n * self.shelf()
    }

    pub fn runs(&self) -> usize {
        self.writers() + self.w * self.writer()
    }

    /// All sheets' versions.
    pub fn card(&self) -> usize {
        self.k * self.version()
    }

    /// "A run's words gain at their end a mark, a second read mask and a second card."
    pub fn run_words(&self) -> usize {
        RUN_HEAD + self.card() + 2 + self.card()
    }

    /// Where the last picked run is: behind the runs.
    pub fn round_at(&self) -> usize {
        self.runs() + self.p * self.run_words()
    }

    /// Where the mask of sheets that an office may hold is: "the words follow the round's, offices
    /// first".
    pub fn mayhold_at(&self, office: usize) -> usize {
        self.round_at() + 1 + office
    }

    /// Where the mask of sheets that a writer may save is.
    pub fn maysave_at(&self, writer: usize) -> usize {
        self.mayhold_at(self.n) + writer
    }

    pub fn total(&self) -> usize {
        self.maysave_at(self.w)
    }

    /// The mask of all K sheets.
    pub fn all_sheets(&self) -> u32 {
        u32::MAX >> (32 - self.k)
    }

    /// The header's last five words: four offsets, then the total.
    pub fn offsets(&self) -> [u32; 5] {
        let places = [self.master(), self.shelves(), self.writers(), self.runs(), self.total()];
        places.map(|place| place as u32)
    }

    /// Where the master's version of sheet k starts.
    pub fn master_at(&self, k: usize) -> usize {
        self.master() + k * self.version()
    }

    pub fn shelf_at(&self, office: usize, k: usize) -> usize {
        self.shelves() + office * self.shelf() + k * self.version()
    }

    /// Where an office's stale mark is.
    pub fn stale_at(&self, office: usize) -> usize {
        self.shelf_at(office, self.k)
    }

    /// Where an office's allowance is: "one word after its stale mark".
    pub fn allowance_at(&self, office: usize) -> usize {
        self.stale_at(office) + 1
    }

    pub fn writer_at(&self, writer: usize) -> usize {
        self.writers() + writer * self.writer()
    }

    pub fn run_at(&self, run: usize) -> usize {
        self.runs() + run * self.run_words()
    }

    /// Where line 0's version of sheet k starts.
    pub fn card_at(&self, run: usize, k: usize) -> usize {
        self.line_card_at(run, 0, k)
    }

    /// Where a line's version of sheet k starts: line 1's card is the run's end.
    pub fn line_card_at(&self, run: usize, line: usize, k: usize) -> usize {
        self.run_at(run) + RUN_HEAD + line * (self.card() + 2) + k * self.version()
    }

    /// Where the mark is: "0 never forked, 1 forked, 2 joined".
    pub fn mark_at(&self, run: usize) -> usize {
        self.run_at(run) + RUN_HEAD + self.card()
    }

    /// Where a line's read mask is.
    pub fn read_at(&self, run: usize, line: usize) -> usize {
        match line {
            0 => self.run_at(run) + READ,
            _ => self.mark_at(run) + 1,
        }
    }

    /// The V words that start at a place.
    pub fn words<'a>(&self, desk: &'a [u32], at: usize) -> &'a [u32] {
        &desk[at..at + self.version()]
    }

    /// A writer's past.
    pub fn writer_past<'a>(&self, desk: &'a [u32], writer: usize) -> &'a [u32] {
        let at = self.writer_at(writer);
        &desk[at + WRITER_PAST..at + self.writer()]
    }
}

/// Does the mask have bit k? k is below 32.
pub fn has(mask: u32, k: usize) -> bool {
    (mask >> k) & 1 == 1
}

/// Has the mask only bits below `count`? `count` is at most 32.
pub fn among(mask: u32, count: usize) -> bool {
    u64::from(mask) < 1u64 << count
}
