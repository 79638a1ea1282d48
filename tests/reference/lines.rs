//! Lines, entries and replies.

use crate::judge::FoundRing;
use crate::sheet::Precedence;
use crate::yard::{Lane, Rule};

pub const LONGEST_LINE: usize = 64;
pub const LONGEST_GAP: u16 = 36_000;

/// Which of the two inputs a line is from.
#[derive(Clone, Copy, PartialEq, Eq)]
pub enum Input {
    Yard,
    Sheet,
}

#[derive(Clone, Copy)]
pub enum Entry {
    Carrier { start: u16, goal: u16 },
    Stop { carrier: u8, place: u16 },
    Precedence(Precedence),
    Strike(Precedence),
    Judge(Rule),
    Lane(Lane),
}

/// Every refusal that the program can print, with the numbers that it tells.
#[derive(Clone, Copy, Debug)]
pub enum Refusal {
    LimitReached,
    NoCarrier,
    EndTaken,
    RouteAtGoal,
    PlaceTooHigh,
    PlaceOnRoute,
    SameCarrier,
    NotOnBothRoutes,
    FirstsGoalOrSecondsStart,
    AlreadyDecided,
    NothingToStrike,
    NotAtGoal { carrier: usize },
    NoLane { stop: usize },
    Undecided { stops: (usize, usize) },
    HeadOn { stops: (usize, usize) },
    BadLane { index: usize },
    NotRising { index: usize },
    TooManyLanes,
    BadDigit { column: usize },
    BadLength,
    UnknownKind,
    BadRule,
}

impl Refusal {
    fn number(self) -> u8 {
        match self {
            Refusal::LimitReached => 1,
            Refusal::NoCarrier => 2,
            Refusal::EndTaken => 3,
            Refusal::RouteAtGoal => 4,
            Refusal::PlaceTooHigh => 5,
            Refusal::PlaceOnRoute => 6,
            Refusal::SameCarrier => 7,
            Refusal::NotOnBothRoutes => 8,
            Refusal::FirstsGoalOrSecondsStart => 9,
            Refusal::AlreadyDecided => 10,
            Refusal::NothingToStrike => 11,
            Refusal::NotAtGoal { .. } => 13,
            Refusal::NoLane { .. } => 14,
            Refusal::Undecided { .. } => 15,
            Refusal::HeadOn { .. } => 16,
            Refusal::BadLane { .. } => 18,
            Refusal::NotRising { .. } => 19,
            Refusal::TooManyLanes => 20,
            Refusal::BadDigit { .. } => 22,
            Refusal::BadLength => 23,
            Refusal::UnknownKind => 24,
            Refusal::BadRule => 25,
        }
    }

    fn told(self) -> (usize, usize) {
        match self {
            Refusal::NotAtGoal { carrier } => (carrier, 0),
            Refusal::NoLane { stop } => (stop, 0),
            Refusal::Undecided { stops } | Refusal::HeadOn { stops } => stops,
            Refusal::BadLane { index } | Refusal::NotRising { index } => (index, 0),
            Refusal::BadDigit { column } => (column, 0),
            _ => (0, 0),
        }
    }
}

pub enum Reply {
    Accepted(usize),
    Pass(Vec<i64>),
    Ring(FoundRing),
    Refused(Refusal),
}

impl Reply {
    pub fn digits(&self) -> String {
        match self {
            Reply::Accepted(number) => format!("00{number:04X}"),
            Reply::Pass(arrivals) => {
                let head = format!("00{:04X}", arrivals.len());
                arrivals
                    .iter()
                    .fold(head, |line, arrival| line + &format!("{arrival:08X}"))
            }
            Reply::Ring(found) => {
                let head = format!("11{:04X}", found.ring.len());
                found
                    .ring
                    .iter()
                    .fold(head, |line, stop| line + &format!("{stop:04X}"))
            }
            Reply::Refused(refusal) => {
                let (one, two) = refusal.told();
                format!("{:02X}{one:04X}{two:04X}", refusal.number())
            }
        }
    }
}

/// The lines of an input. What follows the last newline is a line only if it
/// has a byte.
pub fn split_lines(input: &[u8]) -> Vec<&[u8]> {
    let mut lines: Vec<&[u8]> = input.split(|&byte| byte == b'\n').collect();
    if lines.last().is_some_and(|last| last.is_empty()) {
        lines.pop();
    }
    lines
}

pub fn read_line(line: &[u8], input: Input) -> Result<Entry, Refusal> {
    if line.len() > LONGEST_LINE {
        return Err(Refusal::BadLength);
    }
    let bytes = read_bytes(line)?;
    let kind = *bytes.first().ok_or(Refusal::BadLength)?;
    let length = length_of_kind(kind, input).ok_or(Refusal::UnknownKind)?;
    if bytes.len() != length {
        return Err(Refusal::BadLength);
    }
    read_fields(kind, &bytes[1..])
}

/// A bad digit anywhere comes before an odd number of digits.
pub fn read_bytes(line: &[u8]) -> Result<Vec<u8>, Refusal> {
    let mut digits = Vec::with_capacity(line.len());
    for (column, &byte) in line.iter().enumerate() {
        digits.push(read_digit(byte).ok_or(Refusal::BadDigit { column })?);
    }
    if digits.len() % 2 == 1 {
        return Err(Refusal::BadLength);
    }
    Ok(digits
        .chunks_exact(2)
        .map(|pair| pair[0] * 16 + pair[1])
        .collect())
}

fn read_digit(byte: u8) -> Option<u8> {
    match byte {
        b'0'..=b'9' => Some(byte - b'0'),
        b'A'..=b'F' => Some(byte - b'A' + 10),
        _ => None,
    }
}

/// The length in bytes, or none where the input does not have the kind.
fn length_of_kind(kind: u8, input: Input) -> Option<usize> {
    match (input, kind) {
        (Input::Sheet, 1 | 3 | 4) => Some(5),
        (Input::Sheet, 2 | 5) => Some(4),
        (Input::Yard, 6) => Some(7),
        _ => None,
    }
}

fn read_fields(kind: u8, fields: &[u8]) -> Result<Entry, Refusal> {
    let two = |at: usize| u16::from_be_bytes([fields[at], fields[at + 1]]);
    let precedence = || Precedence {
        first: usize::from(fields[0]),
        second: usize::from(fields[1]),
        place: two(2),
    };
    Ok(match kind {
        1 => Entry::Carrier {
            start: two(0),
            goal: two(2),
        },
        2 => Entry::Stop {
            carrier: fields[0],
            place: two(1),
        },
        3 => Entry::Precedence(precedence()),
        4 => Entry::Strike(precedence()),
        5 => Entry::Judge(read_rule(fields[0], two(1)).ok_or(Refusal::BadRule)?),
        _ => Entry::Lane(Lane {
            from: two(0),
            to: two(2),
            travel: two(4),
        }),
    })
}

fn read_rule(rule: u8, gap: u16) -> Option<Rule> {
    match (rule, gap) {
        (0, 0) => Some(Rule::FullLane),
        (1, 0) => Some(Rule::LaneLessOne),
        (2, 0..=LONGEST_GAP) => Some(Rule::FixedGap(gap)),
        _ => None,
    }
}

/// The line of an entry, for the histories that are generated.
pub fn write_line(entry: Entry) -> Vec<u8> {
    match entry {
        Entry::Carrier { start, goal } => format!("01{start:04X}{goal:04X}"),
        Entry::Stop { carrier, place } => format!("02{carrier:02X}{place:04X}"),
        Entry::Precedence(p) => format!("03{:02X}{:02X}{:04X}", p.first, p.second, p.place),
        Entry::Strike(p) => format!("04{:02X}{:02X}{:04X}", p.first, p.second, p.place),
        Entry::Judge(Rule::FullLane) => "05000000".to_string(),
        Entry::Judge(Rule::LaneLessOne) => "05010000".to_string(),
        Entry::Judge(Rule::FixedGap(gap)) => format!("0502{gap:04X}"),
        Entry::Lane(lane) => format!("06{:04X}{:04X}{:04X}", lane.from, lane.to, lane.travel),
    }
    .into_bytes()
}
