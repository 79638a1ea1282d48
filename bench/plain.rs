//! The same work as the library does, in the same way, written by hand: linear searches, the later stops at a place
//! linked, marks of 64 for each stop, rounds in place over the steps and then the precedences.

use crate::scenarios::{Entry, Grid, Lane};

pub trait Yard {
    fn travel_time(&self, from: u16, to: u16) -> Option<u16>;
}

pub struct LaneYard {
    lanes: Vec<Lane>,
}

impl LaneYard {
    pub fn new() -> LaneYard {
        LaneYard { lanes: Vec::with_capacity(8192) }
    }

    pub fn lay(&mut self, lanes: &[Lane]) -> Result<(), u32> {
        if lanes.len() > 8192 {
            return Err(code(20, 0));
        }
        for (i, &(from, to, time)) in lanes.iter().enumerate() {
            if from > 4095 || to > 4095 || from == to || time < 1 || time > 36000 {
                return Err(code(18, i as u16));
            }
            if i > 0 && (lanes[i - 1].0, lanes[i - 1].1) >= (from, to) {
                return Err(code(19, i as u16));
            }
        }
        self.lanes.clear();
        self.lanes.extend_from_slice(lanes);
        Ok(())
    }
}

impl Yard for LaneYard {
    fn travel_time(&self, from: u16, to: u16) -> Option<u16> {
        match self.lanes.binary_search_by_key(&(from, to), |l| (l.0, l.1)) {
            Ok(i) => Some(self.lanes[i].2),
            Err(_) => None,
        }
    }
}

pub struct GridYard {
    grid: Grid,
}

impl GridYard {
    pub fn set_out(grid: &Grid) -> GridYard {
        GridYard { grid: grid.clone() }
    }

    fn is_open(&self, cell: u16) -> bool {
        cell < self.grid.rows * self.grid.columns
            && self.grid.closed[(cell / 64) as usize] >> (cell % 64) & 1 == 0
    }
}

impl Yard for GridYard {
    fn travel_time(&self, from: u16, to: u16) -> Option<u16> {
        if !self.is_open(from) || !self.is_open(to) {
            return None;
        }
        let columns = self.grid.columns;
        let (row, column) = (from / columns, from % columns);
        let (other_row, other_column) = (to / columns, to % columns);
        if row == other_row && column.abs_diff(other_column) == 1 {
            return Some(self.grid.along);
        }
        if column == other_column && row.abs_diff(other_row) == 1 {
            return Some(self.grid.across);
        }
        None
    }
}

/// The gap of a lane under the rule with this number.
pub fn gap_of(rule: u16, gap: u16, time: u16) -> u32 {
    match rule {
        0 => time as u32,
        1 => time as u32 - 1,
        _ => gap as u32,
    }
}

/// A refusal as one number, as the library's export has it.
pub fn code(number: u8, told: u16) -> u32 {
    65536 * (number as u32 + 1) + told as u32
}

#[derive(Clone, Copy)]
pub struct Carrier {
    pub start: u16,
    pub goal: u16,
    pub last_stop: u16,
    pub last_place: u16,
}

#[derive(Clone, Copy)]
pub struct Stop {
    pub carrier: u8,
    pub place: u16,
    pub previous: Option<u16>,
}

#[derive(Clone, Copy)]
pub struct Precedence {
    pub first: u8,
    pub second: u8,
    pub place: u16,
    pub first_stop: u16,
    pub second_stop: u16,
}

pub struct Sheet {
    pub carriers: Vec<Carrier>,
    pub stops: Vec<Stop>,
    pub precedences: Vec<Precedence>,
}

impl Sheet {
    pub fn open() -> Sheet {
        Sheet {
            carriers: Vec::with_capacity(64),
            stops: Vec::with_capacity(1024),
            precedences: Vec::with_capacity(2048),
        }
    }

    fn enter_carrier(&mut self, start: u16, goal: u16) -> Result<u16, u8> {
        if start > 4095 || goal > 4095 {
            return Err(5);
        }
        if self.carriers.len() >= 64 || self.stops.len() >= 1024 {
            return Err(1);
        }
        if self.carriers.iter().any(|c| c.start == start) || self.carriers.iter().any(|c| c.goal == goal) {
            return Err(3);
        }
        let number = self.carriers.len();
        self.carriers.push(Carrier { start, goal, last_stop: self.stops.len() as u16, last_place: start });
        self.stops.push(Stop { carrier: number as u8, place: start, previous: None });
        Ok(number as u16)
    }

    fn stop_at(&self, carrier: u8, place: u16) -> Option<usize> {
        self.stops.iter().position(|s| s.carrier == carrier && s.place == place)
    }

    fn enter_stop(&mut self, carrier: u8, place: u16) -> Result<u16, u8> {
        let Some(&found) = self.carriers.get(carrier as usize) else {
            return Err(2);
        };
        if place > 4095 {
            return Err(5);
        }
        if found.last_place == found.goal {
            return Err(4);
        }
        if self.stop_at(carrier, place).is_some() {
            return Err(6);
        }
        if self.stops.len() >= 1024 {
            return Err(1);
        }
        let number = self.stops.len() as u16;
        self.stops.push(Stop { carrier, place, previous: Some(found.last_stop) });
        self.carriers[carrier as usize].last_stop = number;
        self.carriers[carrier as usize].last_place = place;
        Ok(number)
    }

    fn index_of(&self, first: u8, second: u8, place: u16) -> Option<usize> {
        self.precedences.iter().position(|p| p.first == first && p.second == second && p.place == place)
    }

    fn check_pair(&self, first: u8, second: u8) -> Result<(), u8> {
        let count = self.carriers.len();
        if first as usize >= count || second as usize >= count {
            return Err(2);
        }
        if first == second {
            return Err(7);
        }
        Ok(())
    }

    fn enter_precedence(&mut self, first: u8, second: u8, place: u16) -> Result<u16, u8> {
        self.check_pair(first, second)?;
        let Some(first_stop) = self.stop_at(first, place) else {
            return Err(8);
        };
        let Some(second_stop) = self.stop_at(second, place) else {
            return Err(8);
        };
        if self.carriers[first as usize].goal == place || self.carriers[second as usize].start == place {
            return Err(9);
        }
        if self.index_of(first, second, place).is_some() || self.index_of(second, first, place).is_some() {
            return Err(10);
        }
        if self.precedences.len() >= 2048 {
            return Err(1);
        }
        self.precedences.push(Precedence {
            first,
            second,
            place,
            first_stop: first_stop as u16,
            second_stop: second_stop as u16,
        });
        Ok(self.precedences.len() as u16)
    }

    fn strike_precedence(&mut self, first: u8, second: u8, place: u16) -> Result<u16, u8> {
        self.check_pair(first, second)?;
        let Some(index) = self.index_of(first, second, place) else {
            return Err(11);
        };
        self.precedences.remove(index);
        Ok(self.precedences.len() as u16)
    }

    pub fn fill(entries: &[Entry]) -> Result<Sheet, u32> {
        let mut sheet = Sheet::open();
        for e in entries {
            let answer = match e[0] {
                1 => sheet.enter_carrier(e[1], e[2]),
                2 => sheet.enter_stop(e[1] as u8, e[2]),
                3 => sheet.enter_precedence(e[1] as u8, e[2] as u8, e[3]),
                _ => sheet.strike_precedence(e[1] as u8, e[2] as u8, e[3]),
            };
            if let Err(number) = answer {
                return Err(code(number, 0));
            }
        }
        Ok(sheet)
    }
}

#[derive(Clone, Copy)]
struct Lag {
    from: u16,
    to: u16,
    weight: i32,
}

/// Makes rounds until one raises nothing. Answers a stop that the last of them raised, where every round raised one.
fn settle(lags: &[Lag], arrivals: &mut [i64], parents: &mut [u16]) -> Option<u16> {
    let mut ends = [false; 1024];
    for lag in lags {
        ends[lag.to as usize] = true;
    }
    let rounds = ends.iter().filter(|e| **e).count() + 1;
    let mut raised = None;
    for _ in 0..rounds {
        raised = None;
        for (i, lag) in lags.iter().enumerate() {
            let reach = arrivals[lag.from as usize] + lag.weight as i64;
            if arrivals[lag.to as usize] < reach {
                arrivals[lag.to as usize] = reach;
                parents[lag.to as usize] = i as u16;
                raised = Some(lag.to);
            }
        }
        raised?;
    }
    raised
}

/// Goes back from a stop to the ring that raised it, and writes that, lowest stop first.
fn write_ring(lags: &[Lag], parents: &[u16], start: u16, ring: &mut [u16]) -> usize {
    let mut seen = [0u16; 1024];
    let mut way = Vec::new();
    let mut node = start;
    while seen[node as usize] == 0 {
        way.push(node);
        seen[node as usize] = way.len() as u16;
        node = lags[parents[node as usize] as usize].from;
    }
    let cycle = &mut way[seen[node as usize] as usize - 1..];
    cycle.reverse();
    let low = (0..cycle.len()).min_by_key(|i| cycle[*i]).unwrap();
    cycle.rotate_left(low);
    ring[..cycle.len()].copy_from_slice(cycle);
    cycle.len()
}

/// The lags of the steps, by stop number, and then those of the precedences.
fn gather(sheet: &Sheet, times: &[u16], nexts: &[Option<u16>], rule: u16, gap: u16, lags: &mut [Lag]) -> usize {
    let mut count = 0;
    for (i, stop) in sheet.stops.iter().enumerate() {
        if let Some(previous) = stop.previous {
            lags[count] = Lag { from: previous, to: i as u16, weight: times[i] as i32 };
            count += 1;
        }
    }
    for p in &sheet.precedences {
        if let Some(next) = nexts[p.first_stop as usize] {
            let time = times[next as usize];
            let weight = gap_of(rule, gap, time) as i32 + 1 - time as i32;
            lags[count] = Lag { from: next, to: p.second_stop, weight };
            count += 1;
        }
    }
    count
}

/// Judges the sheet, and answers as the library's export does.
pub fn judge<Y: Yard>(sheet: &Sheet, yard: &Y, rule: u16, gap: u16, timetable: &mut [u32], ring: &mut [u16]) -> u32 {
    let stops = &sheet.stops[..];
    let n = stops.len();
    if timetable.len() < n || ring.len() < n {
        return code(12, 0);
    }
    if let Some(c) = sheet.carriers.iter().position(|c| c.last_place != c.goal) {
        return code(13, c as u16);
    }
    let mut times = [0u16; 1024];
    let mut nexts = [None; 1024];
    for (i, stop) in stops.iter().enumerate() {
        if let Some(previous) = stop.previous {
            let Some(time) = yard.travel_time(stops[previous as usize].place, stop.place) else {
                return code(14, i as u16);
            };
            times[i] = time;
            nexts[previous as usize] = Some(i as u16);
        }
    }
    let mut leads = [false; 65536];
    for p in &sheet.precedences {
        leads[p.first_stop as usize * 64 + p.second as usize] = true;
    }
    let mut latest = [1024u16; 4096];
    let mut later = [1024u16; 1024];
    for s in (0..n).rev() {
        let place = stops[s].place as usize;
        later[s] = latest[place];
        latest[place] = s as u16;
    }
    for s in 0..n {
        let mut t = later[s] as usize;
        while t < n {
            if stops[s].carrier != stops[t].carrier
                && !leads[s * 64 + stops[t].carrier as usize]
                && !leads[t * 64 + stops[s].carrier as usize]
            {
                return code(15, s as u16);
            }
            t = later[t] as usize;
        }
    }
    let mut head_on: Option<(u16, u16)> = None;
    for p in &sheet.precedences {
        let t = p.first_stop;
        if let (Some(s), Some(target)) = (stops[p.second_stop as usize].previous, nexts[t as usize])
            && stops[target as usize].place == stops[s as usize].place
            && leads[s as usize * 64 + p.first as usize]
            && head_on.is_none_or(|lowest| (s, t) < lowest)
        {
            head_on = Some((s, t));
        }
    }
    if let Some((s, _)) = head_on {
        return code(16, s);
    }
    let mut lags = [Lag { from: 0, to: 0, weight: 0 }; 3072];
    let count = gather(sheet, &times, &nexts, rule, gap, &mut lags);
    let lags = &lags[..count];
    let mut arrivals = [0i64; 1024];
    let mut parents = [0u16; 1024];
    match settle(lags, &mut arrivals[..n], &mut parents) {
        None => {
            for (slot, arrival) in timetable.iter_mut().zip(&arrivals[..n]) {
                *slot = *arrival as u32;
            }
            n as u32
        }
        Some(node) => code(17, write_ring(lags, &parents, node, ring) as u16),
    }
}

/// What a line says; none where it is refused.
fn read_line(line: &[u8]) -> Option<(u8, [u16; 3])> {
    if line.len() > 64 || line.is_empty() || line.len() % 2 != 0 {
        return None;
    }
    let mut bytes = [0u8; 32];
    for (i, pair) in line.chunks_exact(2).enumerate() {
        let digit = |b: u8| match b {
            b'0'..=b'9' => Some(b - b'0'),
            b'A'..=b'F' => Some(b - b'A' + 10),
            _ => None,
        };
        bytes[i] = digit(pair[0])? * 16 + digit(pair[1])?;
    }
    let two = |a, b| u16::from_be_bytes([a, b]);
    match bytes[..line.len() / 2] {
        [1, a, b, c, d] => Some((1, [two(a, b), two(c, d), 0])),
        [2, c, a, b] => Some((2, [c as u16, two(a, b), 0])),
        [k @ (3 | 4), f, s, a, b] => Some((k, [f as u16, s as u16, two(a, b)])),
        [5, r, a, b] => {
            let gap = two(a, b);
            if (r < 2 && gap == 0) || (r == 2 && gap <= 36000) { Some((5, [r as u16, gap, 0])) } else { None }
        }
        _ => None,
    }
}

/// Reads each line and writes its entry into the page, with a newline; answers how many bytes were written.
pub fn copy_lines(text: &[u8], page: &mut [u8]) -> usize {
    let mut at = 0;
    for line in text.split(|b| *b == b'\n') {
        let Some((kind, [a, b, c])) = read_line(line) else {
            continue;
        };
        let ([a1, a0], [b1, b0], [c1, c0]) = (a.to_be_bytes(), b.to_be_bytes(), c.to_be_bytes());
        at += match kind {
            1 => write(&[1, a1, a0, b1, b0], &mut page[at..]),
            2 | 5 => write(&[kind, a0, b1, b0], &mut page[at..]),
            _ => write(&[kind, a0, b0, c1, c0], &mut page[at..]),
        };
    }
    at
}

fn write(bytes: &[u8], page: &mut [u8]) -> usize {
    let digit = |v: u8| if v < 10 { b'0' + v } else { b'A' - 10 + v };
    for (i, b) in bytes.iter().enumerate() {
        page[2 * i] = digit(b / 16);
        page[2 * i + 1] = digit(b % 16);
    }
    page[2 * bytes.len()] = b'\n';
    2 * bytes.len() + 1
}

/// How many rounds a judging makes; not measured.
pub fn rounds<Y: Yard>(sheet: &Sheet, yard: &Y, rule: u16, gap: u16) -> usize {
    let mut times = [0u16; 1024];
    let mut nexts = [None; 1024];
    for (i, stop) in sheet.stops.iter().enumerate() {
        if let Some(previous) = stop.previous {
            times[i] = yard.travel_time(sheet.stops[previous as usize].place, stop.place).unwrap_or(1);
            nexts[previous as usize] = Some(i as u16);
        }
    }
    let mut lags = [Lag { from: 0, to: 0, weight: 0 }; 3072];
    let count = gather(sheet, &times, &nexts, rule, gap, &mut lags);
    let most = sheet.stops.len() - sheet.carriers.len() + 1;
    let mut arrivals = [0i64; 1024];
    for round in 1..=most {
        let mut raised = false;
        for lag in &lags[..count] {
            let reach = arrivals[lag.from as usize] + lag.weight as i64;
            if arrivals[lag.to as usize] < reach {
                arrivals[lag.to as usize] = reach;
                raised = true;
            }
        }
        if !raised {
            return round;
        }
    }
    most
}
