//! Unread lines and long ones.

use crate::teller::Teller;

/// Most of these only just miss a form.
const MISSES: [&[u8]; 62] = [
    b"",
    b" ",
    b"new",
    b"new 2 2 2",
    b"new 2 2 2 1 0",
    b"open",
    b"open ",
    b" open 0",
    b"fetch 0 0 ",
    b"fetch  0 0",
    b"fetch 0\t0",
    b"fetch 0 0\r",
    b"fetch 0 -1",
    b"fetch 0 +1",
    b"fetch 0 0x1",
    b"Fetch 0 0",
    b"look 0 0",
    b"drop 4294967296",
    b"drop 9999999999999999999",
    b"issue 0 0 \xff",
    b"step 0 \xc2\xb2",
    b"step 0 0\0",
    b"\0",
    b"\xef\xbb\xbfdrop 0",
    b"prepare 0,0",
    b"evict 0 1e1",
    b"explain",
    b"explain 0",
    b"explain 0 0 0 0",
    b"explain 0 0 0 ",
    b"step 0",
    b"step 0 0 0 0",
    b"step 0 0 -1",
    b"fork",
    b"fork 0 0",
    b"join",
    b"join 0 1",
    b"stale",
    b"stale 0 0",
    b"stale -0",
    b"admit 0",
    b"admit ",
    b" admit",
    b"allow",
    b"allow 0",
    b"allow 0 0 0",
    b"pick 0",
    b"pick ",
    b"mayhold 0",
    b"mayhold 0 4294967296",
    b"mayhold 0 0 0",
    b"maysave 0",
    b"forecast",
    b"forecast ",
    b"forecast 0 0",
    b"forecasts 0",
    b"audit ",
    b" audit",
    b"Audit 1 1 0 0 7 7 7",
    b"audits 1 1 0 0 7 7 7",
    b"audit 1 1 0 0 7 7 7 ",
    b"audit 1 1 0 0 7 7 4294967303",
];

/// Lines that are none of the forms.
pub fn line(t: &mut Teller) {
    if t.chance(80) {
        let miss = MISSES[t.below(MISSES.len())];
        t.say(miss);
        return;
    }
    let length = t.below(40);
    let line = (0..length).map(|_| t.next() as u8).filter(|byte| *byte != b'\n');
    let line = line.collect::<Vec<u8>>();
    t.say(&line);
}

/// A line of about 400 bytes: leading zeros, or an open with many numbers.
pub fn long_line(t: &mut Teller) {
    let length = [399, 400, 401, 1000, 70_000][t.below(5)];
    let mut line = b"fetch 0 ".to_vec();
    if t.chance(50) {
        line = b"open 0".to_vec();
        while line.len() + 2 <= length {
            line.extend_from_slice(b" 0");
        }
    }
    let last = t.below(2) as u8;
    while line.len() + 1 < length {
        line.push(b'0');
    }
    line.push(b'0' + last);
    t.say(&line);
}
