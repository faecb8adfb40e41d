//! What a file of a desk holds, made and judged: `sheetdesk_file.rs` saves and loads by it.
//! `docs/FORMAT.md` is its page. Outside of what is proved.
#![allow(dead_code)]

use super::sheetdesk::LAYOUT;
use super::sheetdesk_why::{refused, why};
use std::{fmt, io};

pub const MAGIC: [u8; 8] = *b"\x89DESK\r\n\x1a";
/// Magic, layout and number of words; and with the sum behind them.
pub const HEAD: usize = 16;
pub const LEAST: usize = 20;
/// No desk of any layout has more bytes: nobody need read such a file.
pub const MOST: u64 = 1 << 26;

/// Why a desk isn't loaded, saved or locked.
#[derive(Debug)]
pub enum Fault {
    /// The file can't be read.
    Unread(io::Error),
    /// No desk has so many bytes.
    TooLarge(u64),
    /// It is no saved desk.
    NoMagic,
    /// It ends before its sum: how many bytes it has, and should have.
    TooShort(u64, u64),
    /// It goes on behind its sum.
    Trailing(u64, u64),
    /// A bit isn't as it was written: the sum that it has, and that of its bytes.
    WrongSum(u32, u32),
    /// Whole, and of this other layout.
    OtherLayout(u32),
    /// The words are no desk in form: why.
    NoDesk(String),
    /// The library doesn't admit it: why.
    Unadmitted(String),
    /// The file can't be written, and is as it was.
    Unsaved(io::Error),
    /// It is saved, but the folder isn't known to be on the disk.
    Unsynced(io::Error),
    /// The lock can't be had: another has it, unless there is an error.
    Locked(Option<io::Error>),
}

impl fmt::Display for Fault {
    fn fmt(&self, out: &mut fmt::Formatter) -> fmt::Result {
        match self {
            Fault::Unread(error) => write!(out, "can't be read: {error}"),
            Fault::TooLarge(size) => {
                write!(out, "too large: {size} bytes, and no desk has over {MOST}")
            }
            Fault::NoMagic => out.write_str("no saved desk: it doesn't begin with the magic"),
            Fault::TooShort(size, due) => {
                let least = if *size < HEAD as u64 { "at least " } else { "" };
                write!(out, "too short: {size} bytes, and it should have {least}{due}")
            }
            Fault::Trailing(size, due) => {
                write!(out, "trailing bytes: {size} bytes, and it should have {due}")
            }
            Fault::WrongSum(has, makes) => write!(
                out,
                "wrong sum: it has {has:08x}, and its bytes make {makes:08x}: it is damaged"
            ),
            Fault::OtherLayout(layout) => write!(
                out,
                "saved in layout {layout}, and this library has layout {LAYOUT}: its log makes it \
                 anew (docs/FORMAT.md, Other layouts)"
            ),
            Fault::NoDesk(why) => write!(out, "not in form (1): {why}"),
            Fault::Unadmitted(why) => write!(out, "not admitted (11): {why}"),
            Fault::Unsaved(error) => write!(out, "not saved, the file is as it was: {error}"),
            Fault::Unsynced(error) => {
                write!(out, "saved, but it may not outlast a power cut: {error}")
            }
            Fault::Locked(None) => out.write_str("not locked: another process has it"),
            Fault::Locked(Some(error)) => write!(out, "not locked: {error}"),
        }
    }
}

impl std::error::Error for Fault {}

/// The sum of each byte alone, for [`crc32c`].
const TABLE: [u32; 256] = {
    let mut table = [0; 256];
    let mut byte = 0;
    while byte < 256 {
        let (mut sum, mut bit) = (byte as u32, 0);
        while bit < 8 {
            sum = if sum & 1 == 1 { sum >> 1 ^ 0x82f6_3b78 } else { sum >> 1 };
            bit += 1;
        }
        table[byte] = sum;
        byte += 1;
    }
    table
};

/// CRC-32C (Castagnoli).
pub fn crc32c(bytes: &[u8]) -> u32 {
    !bytes.iter().fold(!0, |sum, byte| TABLE[(sum as u8 ^ byte) as usize] ^ sum >> 8)
}

fn word(bytes: &[u8]) -> u32 {
    bytes.iter().rev().fold(0, |word, byte| word << 8 | u32::from(*byte))
}

/// What the library says of the words, with a hint.
fn admitted(words: &[u32]) -> Result<(), Fault> {
    let Some(number) = refused(words) else {
        return Ok(());
    };
    let why = why(words).unwrap_or("no cause was found".into());
    Err(if number == 1 { Fault::NoDesk(why) } else { Fault::Unadmitted(why) })
}

/// The bytes of a file for a desk that is admitted.
pub fn pack(words: &[u32]) -> Result<Vec<u8>, Fault> {
    admitted(words)?;
    let words = &words[..words[9] as usize];
    let mut bytes = MAGIC.to_vec();
    for word in [LAYOUT, words.len() as u32].iter().chain(words) {
        bytes.extend_from_slice(&word.to_le_bytes());
    }
    let sum = crc32c(&bytes);
    bytes.extend_from_slice(&sum.to_le_bytes());
    Ok(bytes)
}

/// The words of a file's bytes, if they are a desk that is admitted.
pub fn unpack(bytes: &[u8]) -> Result<Vec<u32>, Fault> {
    let words = opened(bytes)?;
    admitted(&words)?;
    if words.len() != words[9] as usize {
        let (count, due) = (words.len(), words[9]);
        return Err(Fault::NoDesk(format!("{count} words, and its desk has {due}")));
    }
    Ok(words)
}

/// The words of a file that is whole and of this layout, whatever they hold.
pub fn opened(bytes: &[u8]) -> Result<Vec<u32>, Fault> {
    if !bytes.starts_with(&MAGIC[..bytes.len().min(MAGIC.len())]) {
        return Err(Fault::NoMagic);
    }
    let size = bytes.len() as u64;
    let count = if bytes.len() < HEAD { 0 } else { u64::from(word(&bytes[12..HEAD])) };
    let due = LEAST as u64 + 4 * count;
    if size < due {
        return Err(Fault::TooShort(size, due));
    }
    if size > due {
        return Err(Fault::Trailing(size, due));
    }
    let (summed, sum) = bytes.split_at(bytes.len() - 4);
    let (has, makes) = (word(sum), crc32c(summed));
    if has != makes {
        return Err(Fault::WrongSum(has, makes));
    }
    match word(&summed[8..12]) {
        LAYOUT => Ok(summed[HEAD..].chunks(4).map(word).collect()),
        other => Err(Fault::OtherLayout(other)),
    }
}
