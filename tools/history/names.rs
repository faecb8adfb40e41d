//! Names for sheets, offices and writers, which a comment line of a script or a log gives:
//! `# names sheets Plan Schedule`. What is said of them has the names instead of the numbers.

use std::sync::OnceLock;

#[derive(Default)]
pub struct Names {
    sheets: Vec<String>,
    offices: Vec<String>,
    writers: Vec<String>,
}

static NAMES: OnceLock<Names> = OnceLock::new();

impl Names {
    /// Takes the names of a comment line, if it has any; the last line of a kind counts.
    pub fn take(&mut self, comment: &str) {
        let mut words = comment.trim_start_matches('#').split_whitespace();
        let kind = (words.next() == Some("names")).then(|| words.next()).flatten();
        if let Some(list) = kind.and_then(|kind| self.list_mut(kind)) {
            *list = words.map(String::from).collect();
        }
    }

    fn list_mut(&mut self, kind: &str) -> Option<&mut Vec<String>> {
        match kind {
            "sheets" => Some(&mut self.sheets),
            "offices" => Some(&mut self.offices),
            "writers" => Some(&mut self.writers),
            _ => None,
        }
    }

    /// The list that a word of a sentence begins, and whether several numbers may follow it.
    fn list(&self, word: &str) -> Option<(&[String], bool)> {
        match word.to_ascii_lowercase().as_str() {
            "sheet" => Some((&self.sheets, false)),
            "sheets" => Some((&self.sheets, true)),
            "office" => Some((&self.offices, false)),
            "offices" => Some((&self.offices, true)),
            "writer" => Some((&self.writers, false)),
            _ => None,
        }
    }
}

/// From now on these are the names.
pub fn set(names: Names) {
    // They are set once, when the input is read.
    let _ = NAMES.set(names);
}

/// The names of each kind that has some.
pub fn all() -> Vec<(&'static str, &'static [String])> {
    let Some(names) = NAMES.get() else {
        return Vec::new();
    };
    let kinds: [(&str, &[String]); 3] =
        [("sheets", &names.sheets), ("offices", &names.offices), ("writers", &names.writers)];
    kinds.into_iter().filter(|(_, list)| !list.is_empty()).collect()
}

/// A name of the kind ("sheet", "office", "writer"), or the number.
pub fn name(kind: &str, number: usize) -> String {
    let list = NAMES.get().and_then(|names| names.list(kind));
    list.and_then(|(list, _)| list.get(number).cloned()).unwrap_or(number.to_string())
}

/// The text with names instead of the numbers behind "sheet", "sheets 0, 1 and 4", "office" and
/// "writer".
pub fn applied(text: &str) -> String {
    let Some(names) = NAMES.get().filter(|_| !all().is_empty()) else {
        return text.to_string();
    };
    let mut list = None::<(&[String], bool)>;
    let (mut said, mut counted) = (Vec::new(), false);
    for word in text.split(' ') {
        let letters = word.trim_matches(|sign: char| !sign.is_alphanumeric());
        let number = letters.parse::<usize>().ok();
        match (list, number) {
            (Some((of, several)), Some(number)) => {
                let name = of.get(number).map_or(letters, String::as_str);
                said.push(word.replacen(letters, name, 1));
                list = list.filter(|_| several && !word.ends_with([';', '.', ':', ')']));
            }
            _ => {
                let goes_on = list.is_some_and(|list| list.1) && ["and", "to"].contains(&word);
                // "3 sheets, 2 writers" are counts.
                if !goes_on {
                    let begins = word.ends_with(letters) && !counted;
                    list = names.list(letters).filter(|_| begins);
                }
                said.push(word.to_string());
                counted = word.parse::<usize>().is_ok();
                continue;
            }
        }
        counted = false;
    }
    said.join(" ")
}

/// The same of a text of several lines.
pub fn applied_to_lines(text: &str) -> String {
    text.split('\n').map(applied).collect::<Vec<String>>().join("\n")
}
