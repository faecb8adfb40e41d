//! Records of older clients: "32-bit words, header K, W, number of issues, number of reads, offset
//! of issues, offset of reads, total".

/// "A read is a sheet and W counts."
#[derive(Clone, PartialEq, Eq, Debug)]
pub struct Read {
    pub sheet: usize,
    pub counts: Vec<u32>,
}

/// "An issue is writer, saved mask, first read and number of reads": the reads themselves here.
#[derive(Clone, PartialEq, Eq, Debug)]
pub struct Issue {
    pub writer: usize,
    pub saved: u32,
    pub reads: Vec<Read>,
}

/// What a record says: its issues in their order.
#[derive(Clone, PartialEq, Eq, Debug)]
pub struct Record {
    pub k: usize,
    pub w: usize,
    pub issues: Vec<Issue>,
}

/// The words of the header; "issues from word 7".
pub const HEAD: usize = 7;
/// The words of an issue.
pub const ISSUE: usize = 4;

pub fn saves(issue: &Issue, sheet: usize) -> bool {
    issue.saved >> sheet & 1 == 1
}

impl Record {
    /// Takes the words apart; nothing if the record is unreadable.
    pub fn read(words: &[u32]) -> Option<Record> {
        let [k, w, count, reads] = header(words)?;
        let mut record = Record { k, w, issues: Vec::new() };
        // Up to the offset of reads there are issues, up to the total there are reads.
        let mut lines = words[HEAD + ISSUE * count..].chunks(1 + w).take(reads);
        let mut first = 0;
        for issue in words[HEAD..].chunks(ISSUE).take(count) {
            let number = issue[3] as usize;
            // "Reads of an issue lie together, in issue order, without gaps."
            if issue[2] as usize != first || number > reads - first {
                return None;
            }
            first += number;
            let read = |line: &[u32]| Read { sheet: line[0] as usize, counts: line[1..].to_vec() };
            let reads = lines.by_ref().take(number).map(read).collect();
            record.issues.push(Issue { writer: issue[0] as usize, saved: issue[1], reads });
            record.last_fits()?;
        }
        // "Each in one issue."
        (first == reads).then_some(record)
    }

    /// The last issue, if nothing in it makes the record unreadable.
    fn last_fits(&self) -> Option<()> {
        let (issue, earlier) = self.issues.split_last()?;
        let in_range = issue.writer < self.w && u64::from(issue.saved) < 1 << self.k;
        let fits = |read: &Read| {
            read.sheet < self.k
                && read.counts.iter().any(|count| *count != 0)
                && read.counts.iter().enumerate().all(|(u, count)| {
                    *count == 0 || counted(earlier, u, *count).is_some_and(|at| {
                        saves(&earlier[at], read.sheet)
                    })
                })
        };
        (in_range && issue.saved != 0 && issue.reads.iter().all(fits)).then_some(())
    }

    /// The words of this record, if it fits the header.
    pub fn words(&self) -> Option<Vec<u32>> {
        let reads = self.issues.iter().map(|issue| issue.reads.len()).sum::<usize>();
        let from = HEAD + ISSUE * self.issues.len();
        let total = from + reads * (1 + self.w);
        u32::try_from(total).ok()?;
        let head = [self.k, self.w, self.issues.len(), reads, HEAD, from, total];
        let mut words = head.map(|word| word as u32).to_vec();
        let mut first = 0;
        for issue in &self.issues {
            let number = issue.reads.len() as u32;
            words.extend([issue.writer as u32, issue.saved, first, number]);
            first += number;
        }
        for read in self.issues.iter().flat_map(|issue| &issue.reads) {
            words.push(read.sheet as u32);
            words.extend(&read.counts);
        }
        Some(words)
    }
}

/// K, W and the numbers of issues and of reads, if "buffer, header" fit the layout: "issues from
/// word 7, reads straight after, .. then the total; the buffer may go on past it". Once the total
/// is no larger than the buffer, so is every other number.
pub fn header(words: &[u32]) -> Option<[usize; 4]> {
    let head = words.get(..HEAD)?;
    let [k, w, issues, reads, at, from, total] = [0, 1, 2, 3, 4, 5, 6].map(|n| u64::from(head[n]));
    let counts = (1..=32).contains(&k) && (1..=16).contains(&w);
    let placed = at == HEAD as u64
        && from == at + ISSUE as u64 * issues
        && total == from + reads * (1 + w)
        && total <= words.len() as u64;
    (counts && placed).then_some([k, w, issues, reads].map(|number| number as usize))
}

/// Where "the issue of that writer so counted" is, if there are so many.
pub fn counted(issues: &[Issue], writer: usize, count: u32) -> Option<usize> {
    let own = (0..issues.len()).filter(|at| issues[*at].writer == writer);
    (count as usize).checked_sub(1).and_then(|before| own.into_iter().nth(before))
}
