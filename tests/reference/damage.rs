//! Damage to the lines of a history.

use crate::lines::LONGEST_LINE;
use crate::random::Random;
use crate::script::{History, YardFile};

/// Bytes that are no digits, most of them next to one.
const BAD_BYTES: [u8; 12] = [
    b'/', b':', b'@', b'G', b'`', b'a', b'g', b' ', b'\r', 0x00, 0x7F, 0xFF,
];

pub fn damage(random: &mut Random, history: &mut History) {
    let rate = random.pick(&[2, 4, 8, 20]);
    damage_lines(random, &mut history.lines, rate);
    history.last_newline = !random.one_in(3);
    history.yard_newline = !random.one_in(3);
    if random.one_in(40) {
        history.yard = YardFile::Missing;
    } else if random.one_in(40) {
        history.yard = YardFile::Folder;
    } else if let YardFile::Lines(lines) = &mut history.yard
        && random.one_in(6)
    {
        damage_yard(random, lines);
    }
}

fn damage_lines(random: &mut Random, lines: &mut Vec<Vec<u8>>, rate: usize) {
    let mut damaged = Vec::new();
    for line in lines.iter() {
        if random.one_in(rate) {
            // Often the good line follows, so that the history goes on.
            let keep = !random.one_in(4);
            damaged.push(damage_line(random, line.clone()));
            if keep {
                damaged.push(line.clone());
            }
        } else {
            damaged.push(line.clone());
        }
    }
    *lines = damaged;
}

fn damage_yard(random: &mut Random, lines: &mut Vec<Vec<u8>>) {
    if lines.is_empty() {
        lines.push(Vec::new());
        return;
    }
    let index = random.below(lines.len());
    match random.below(5) {
        0 => lines[index] = damage_line(random, lines[index].clone()),
        1 => lines.reverse(),
        2 => lines.insert(index, lines[index].clone()),
        3 => lines[index] = bad_lane(random),
        _ => damage_lines(random, lines, 2),
    }
}

/// A lane line whose numbers are mostly outside of what a lane may have.
fn bad_lane(random: &mut Random) -> Vec<u8> {
    let mut number = || random.pick(&[0u16, 1, 4_095, 4_096, 36_000, 36_001, 65_535]);
    format!("06{:04X}{:04X}{:04X}", number(), number(), number()).into_bytes()
}

fn damage_line(random: &mut Random, mut line: Vec<u8>) -> Vec<u8> {
    let column = random.below(line.len() + 1);
    let within = random
        .below(line.len().max(1))
        .min(line.len().saturating_sub(1));
    match random.below(16) {
        0 => Vec::new(),
        1 => line[..column].to_vec(),
        2 => lengthened(random, line),
        3 => line.to_ascii_lowercase(),
        4 => [line, vec![b'\r']].concat(),
        5 => [other_kind(random), line.split_off(line.len().min(2))].concat(),
        6 => other_kind(random),
        7 => long_line(random),
        8 => around_the_longest(random),
        9 => (0..random.below(80)).map(|_| random.byte()).collect(),
        10 => digits(random, 80),
        11 => {
            // A newline inside makes two lines of it.
            line.insert(column, b'\n');
            line
        }
        12 => {
            line.insert(column, random.pick(&BAD_BYTES));
            line
        }
        _ if line.is_empty() => line,
        13 => {
            line[within] ^= 1 << random.below(8);
            line
        }
        14 => {
            line[within] = random.pick(b"0123456789ABCDEF");
            line
        }
        _ => {
            line[within] = random.pick(&BAD_BYTES);
            line
        }
    }
}

fn lengthened(random: &mut Random, line: Vec<u8>) -> Vec<u8> {
    let tail = digits(random, 8);
    [line, tail].concat()
}

fn other_kind(random: &mut Random) -> Vec<u8> {
    let kind = if random.one_in(2) {
        random.below(10) as u8
    } else {
        random.byte()
    };
    format!("{kind:02X}").into_bytes()
}

fn digits(random: &mut Random, most: usize) -> Vec<u8> {
    let count = random.below(most + 1);
    (0..count)
        .map(|_| random.pick(b"0123456789ABCDEF"))
        .collect()
}

fn long_line(random: &mut Random) -> Vec<u8> {
    let filler = random.pick(b"0AFGz\r\x00\xFF");
    vec![filler; random.between(1_000, 20_000)]
}

/// A line of about 64 bytes, sometimes with a bad digit.
fn around_the_longest(random: &mut Random) -> Vec<u8> {
    let length = random.between(LONGEST_LINE - 2, LONGEST_LINE + 2);
    let mut line = vec![random.pick(b"0123A"); length];
    if random.one_in(3) {
        let column = random.below(length);
        line[column] = random.pick(&BAD_BYTES);
    }
    line
}
