//! A desk in a file through sheetdesk_file.rs, for tests/saved.sh: desk.c says what each mode does.

#[path = "../../embed/sheetdesk.rs"]
mod sheetdesk;
#[path = "../../embed/sheetdesk_file.rs"]
mod sheetdesk_file;
#[path = "../../embed/sheetdesk_format.rs"]
mod sheetdesk_format;
#[path = "../../embed/sheetdesk_places.rs"]
mod sheetdesk_places;
#[path = "../../embed/sheetdesk_why.rs"]
mod sheetdesk_why;

use sheetdesk::{Desk, Job};
use sheetdesk_file::{load, save, Lock};
use sheetdesk_format::Fault;
use std::io::Read;
use std::process::exit;
use std::time::Duration;

fn issue(words: &mut [u32], run: u32) -> u32 {
    let mut desk = Desk::lend(words);
    desk.open(run, &[Job { office: 0, reads: 0, upstream: 0 }]);
    desk.step(run, 0);
    desk.issue(run, 0, 1).ok().map_or(0, |numbers| numbers[0])
}

fn sum() {
    let mut bytes = Vec::new();
    std::io::stdin().read_to_end(&mut bytes).expect("standard input");
    println!("{:08x}", sheetdesk_format::crc32c(&bytes));
}

fn saves(path: &str) -> Result<(), Fault> {
    let mut words = load(path)?;
    loop {
        let number = issue(&mut words, 0);
        println!("start {number}");
        save(path, &words)?;
        println!("done {number}");
    }
}

fn adds(path: &str, run: u32, count: u32) -> Result<(), Fault> {
    for _ in 0..count {
        let _lock = Lock::take(path, Duration::from_secs(60))?;
        let mut words = load(path)?;
        let number = issue(&mut words, run);
        save(path, &words)?;
        println!("{number}");
    }
    Ok(())
}

fn main() {
    let words = std::env::args().skip(1).collect::<Vec<String>>();
    let words = words.iter().map(String::as_str).collect::<Vec<&str>>();
    let number = |word: &str| word.parse::<u32>().expect("a number");
    let done = match words.as_slice() {
        ["sum"] => return sum(),
        ["load", paths @ ..] => {
            for path in paths {
                match load(path) {
                    Ok(words) => println!("ok {}", words[4]),
                    Err(fault) => println!("{fault}"),
                }
            }
            return;
        }
        ["save", from, to] => load(from).and_then(|words| save(to, &words)),
        ["saves", path] => saves(path),
        ["adds", path, run, count] => adds(path, number(run), number(count)),
        _ => exit(2),
    };
    if let Err(fault) = done {
        println!("{}: {fault}", words[1]);
        exit(1);
    }
}
