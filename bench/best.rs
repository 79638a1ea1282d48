//! The best methods known to us for the same answers: hashed searches, meetings found through the stops of each place,
//! arrivals by going through the lags in the order of a topological sort, and where lags go in circles, a queue of the
//! stops that were raised, with a look for rings after every so many raisings.

use crate::plain::{Yard, code, gap_of};
use crate::scenarios::{Entry, Grid, Lane};

const NONE: u16 = u16::MAX;

/// A table of numbers by key with open addressing; the keys are below 2^32 − 1 and never go away.
struct Table {
    keys: Vec<u32>,
    values: Vec<u16>,
    shift: u32,
}

impl Table {
    fn with_bits(bits: u32) -> Table {
        Table { keys: vec![0; 1 << bits], values: vec![0; 1 << bits], shift: 32 - bits }
    }

    fn slot(&self, key: u32) -> usize {
        let mut at = ((key + 1).wrapping_mul(0x9E37_79B1) >> self.shift) as usize;
        while self.keys[at] != 0 && self.keys[at] != key + 1 {
            at = (at + 1) & (self.keys.len() - 1);
        }
        at
    }

    fn get(&self, key: u32) -> Option<u16> {
        let at = self.slot(key);
        if self.keys[at] == 0 { None } else { Some(self.values[at]) }
    }

    fn set(&mut self, key: u32, value: u16) {
        let at = self.slot(key);
        self.keys[at] = key + 1;
        self.values[at] = value;
    }
}

pub struct LaneYard {
    times: Table,
}

impl LaneYard {
    pub fn lay(lanes: &[Lane]) -> LaneYard {
        let mut times = Table::with_bits(14);
        for &(from, to, time) in lanes {
            times.set((from as u32) << 12 | to as u32, time);
        }
        LaneYard { times }
    }
}

impl Yard for LaneYard {
    fn travel_time(&self, from: u16, to: u16) -> Option<u16> {
        self.times.get((from as u32) << 12 | to as u32)
    }
}

pub struct GridYard {
    grid: Grid,
}

impl GridYard {
    pub fn set_out(grid: &Grid) -> GridYard {
        GridYard { grid: grid.clone() }
    }
}

impl Yard for GridYard {
    fn travel_time(&self, from: u16, to: u16) -> Option<u16> {
        let g = &self.grid;
        let cells = g.rows * g.columns;
        let open = |c: u16| c < cells && g.closed[(c >> 6) as usize] >> (c & 63) & 1 == 0;
        if !open(from) || !open(to) {
            return None;
        }
        let (low, high) = (from.min(to), from.max(to));
        if high - low == g.columns {
            return Some(g.across);
        }
        if high - low == 1 && high % g.columns != 0 { Some(g.along) } else { None }
    }
}

#[derive(Clone, Copy)]
struct Stop {
    carrier: u8,
    place: u16,
    previous: u16,
}

#[derive(Clone, Copy)]
struct Carrier {
    start: u16,
    goal: u16,
    last: u16,
}

#[derive(Clone, Copy)]
struct Precedence {
    first: u8,
    first_stop: u16,
    second_stop: u16,
}

pub struct Sheet {
    carriers: Vec<Carrier>,
    stops: Vec<Stop>,
    precedences: Vec<Precedence>,
    // For each place a bit for a start and one for a goal; the stops by carrier and place.
    starts: [u64; 64],
    goals: [u64; 64],
    visits: Table,
    // For each stop the carriers that its own goes before at its place.
    leads: Vec<u64>,
}

fn take_bit(bits: &mut [u64; 64], place: u16) {
    bits[(place >> 6) as usize] |= 1 << (place & 63);
}

fn has_bit(bits: &[u64; 64], place: u16) -> bool {
    bits[(place >> 6) as usize] >> (place & 63) & 1 == 1
}

impl Sheet {
    fn open() -> Sheet {
        Sheet {
            carriers: Vec::with_capacity(64),
            stops: Vec::with_capacity(1024),
            precedences: Vec::with_capacity(2048),
            starts: [0; 64],
            goals: [0; 64],
            visits: Table::with_bits(11),
            leads: Vec::with_capacity(1024),
        }
    }

    fn put_stop(&mut self, carrier: u8, place: u16, previous: u16) -> u16 {
        let number = self.stops.len() as u16;
        self.stops.push(Stop { carrier, place, previous });
        self.leads.push(0);
        self.visits.set((carrier as u32) << 12 | place as u32, number);
        number
    }

    fn enter_carrier(&mut self, start: u16, goal: u16) -> Result<u16, u8> {
        if start > 4095 || goal > 4095 {
            return Err(5);
        }
        if self.carriers.len() >= 64 || self.stops.len() >= 1024 {
            return Err(1);
        }
        if has_bit(&self.starts, start) || has_bit(&self.goals, goal) {
            return Err(3);
        }
        take_bit(&mut self.starts, start);
        take_bit(&mut self.goals, goal);
        let number = self.carriers.len() as u8;
        let last = self.put_stop(number, start, NONE);
        self.carriers.push(Carrier { start, goal, last });
        Ok(number as u16)
    }

    fn enter_stop(&mut self, carrier: u8, place: u16) -> Result<u16, u8> {
        let Some(&found) = self.carriers.get(carrier as usize) else {
            return Err(2);
        };
        if place > 4095 {
            return Err(5);
        }
        if self.stops[found.last as usize].place == found.goal {
            return Err(4);
        }
        if self.visits.get((carrier as u32) << 12 | place as u32).is_some() {
            return Err(6);
        }
        if self.stops.len() >= 1024 {
            return Err(1);
        }
        let number = self.put_stop(carrier, place, found.last);
        self.carriers[carrier as usize].last = number;
        Ok(number)
    }

    fn enter_precedence(&mut self, first: u8, second: u8, place: u16) -> Result<u16, u8> {
        let count = self.carriers.len();
        if first as usize >= count || second as usize >= count {
            return Err(2);
        }
        if first == second {
            return Err(7);
        }
        if place > 4095 {
            return Err(8);
        }
        let Some(first_stop) = self.visits.get((first as u32) << 12 | place as u32) else {
            return Err(8);
        };
        let Some(second_stop) = self.visits.get((second as u32) << 12 | place as u32) else {
            return Err(8);
        };
        if self.carriers[first as usize].goal == place || self.carriers[second as usize].start == place {
            return Err(9);
        }
        if self.leads[first_stop as usize] >> second & 1 == 1 || self.leads[second_stop as usize] >> first & 1 == 1 {
            return Err(10);
        }
        if self.precedences.len() >= 2048 {
            return Err(1);
        }
        self.leads[first_stop as usize] |= 1 << second;
        self.precedences.push(Precedence { first, first_stop, second_stop });
        Ok(self.precedences.len() as u16)
    }

    pub fn fill(entries: &[Entry]) -> Result<Sheet, u32> {
        let mut sheet = Sheet::open();
        for e in entries {
            let answer = match e[0] {
                1 => sheet.enter_carrier(e[1], e[2]),
                2 => sheet.enter_stop(e[1] as u8, e[2]),
                _ => sheet.enter_precedence(e[1] as u8, e[2] as u8, e[3]),
            };
            if let Err(number) = answer {
                return Err(code(number, 0));
            }
        }
        Ok(sheet)
    }
}

/// The lags by the stop that they begin at.
struct Graph {
    begins: [u16; 1025],
    ends: [u16; 3072],
    weights: [i32; 3072],
}

impl Graph {
    fn after(&self, s: usize) -> std::ops::Range<usize> {
        self.begins[s] as usize..self.begins[s + 1] as usize
    }
}

/// The ring in which the stops that last raised each other run, if they do.
fn find_ring(parents: &[u16]) -> Option<Vec<u16>> {
    let mut mark = [0u16; 1024];
    for start in 0..parents.len() {
        let mut node = start as u16;
        while node != NONE && mark[node as usize] == 0 {
            mark[node as usize] = start as u16 + 1;
            node = parents[node as usize];
        }
        if node != NONE && mark[node as usize] == start as u16 + 1 {
            let mut ring = vec![node];
            let mut other = parents[node as usize];
            while other != node {
                ring.push(other);
                other = parents[other as usize];
            }
            ring.reverse();
            let low = (0..ring.len()).min_by_key(|i| ring[*i]).unwrap();
            ring.rotate_left(low);
            return Some(ring);
        }
    }
    None
}

/// The arrivals at the stops that the topological sort left over, by a queue; or a ring.
fn settle_rest(g: &Graph, arrivals: &mut [i64], waiting: &[bool]) -> Option<Vec<u16>> {
    let n = arrivals.len();
    let mut parents = vec![NONE; n];
    let mut queued = vec![false; n];
    let mut queue = std::collections::VecDeque::with_capacity(n);
    for s in 0..n {
        if waiting[s] {
            queue.push_back(s as u16);
            queued[s] = true;
        }
    }
    let mut raisings = 0;
    while let Some(s) = queue.pop_front() {
        queued[s as usize] = false;
        for k in g.after(s as usize) {
            let t = g.ends[k] as usize;
            let reach = arrivals[s as usize] + g.weights[k] as i64;
            if arrivals[t] < reach {
                arrivals[t] = reach;
                parents[t] = s;
                if !queued[t] {
                    queued[t] = true;
                    queue.push_back(t as u16);
                }
                raisings += 1;
                if raisings % n == 0
                    && let Some(ring) = find_ring(&parents)
                {
                    return Some(ring);
                }
            }
        }
    }
    None
}

/// Judges the sheet, and answers as the library's export does.
pub fn judge<Y: Yard>(sheet: &Sheet, yard: &Y, rule: u16, gap: u16, timetable: &mut [u32], ring: &mut [u16]) -> u32 {
    let stops = &sheet.stops[..];
    let n = stops.len();
    if timetable.len() < n || ring.len() < n {
        return code(12, 0);
    }
    if let Some(c) = sheet.carriers.iter().position(|c| stops[c.last as usize].place != c.goal) {
        return code(13, c as u16);
    }
    let mut times = [0u16; 1024];
    let mut nexts = [NONE; 1024];
    for (i, stop) in stops.iter().enumerate() {
        if stop.previous != NONE {
            let Some(time) = yard.travel_time(stops[stop.previous as usize].place, stop.place) else {
                return code(14, i as u16);
            };
            times[i] = time;
            nexts[stop.previous as usize] = i as u16;
        }
    }
    // The later stops at the place of each stop, as lists.
    let mut front = [NONE; 4096];
    let mut later = [NONE; 1024];
    for s in (0..n).rev() {
        later[s] = front[stops[s].place as usize];
        front[stops[s].place as usize] = s as u16;
    }
    for s in 0..n {
        let mut t = later[s];
        while t != NONE {
            let (a, b) = (stops[s].carrier, stops[t as usize].carrier);
            if sheet.leads[s] >> b & 1 == 0 && sheet.leads[t as usize] >> a & 1 == 0 {
                return code(15, s as u16);
            }
            t = later[t as usize];
        }
    }
    let mut head_on = (NONE, NONE);
    for p in &sheet.precedences {
        let (t, s) = (p.first_stop, stops[p.second_stop as usize].previous);
        if s != NONE
            && stops[nexts[t as usize] as usize].place == stops[s as usize].place
            && sheet.leads[s as usize] >> p.first & 1 == 1
        {
            head_on = head_on.min((s, t));
        }
    }
    if head_on.0 != NONE {
        return code(16, head_on.0);
    }
    // The lags, sorted by where they begin by counting.
    let mut g = Graph { begins: [0; 1025], ends: [0; 3072], weights: [0; 3072] };
    let mut entering = [0u16; 1024];
    for (i, stop) in stops.iter().enumerate() {
        if stop.previous != NONE {
            g.begins[stop.previous as usize + 1] += 1;
            entering[i] += 1;
        }
    }
    for p in &sheet.precedences {
        g.begins[nexts[p.first_stop as usize] as usize + 1] += 1;
        entering[p.second_stop as usize] += 1;
    }
    for s in 0..n {
        g.begins[s + 1] += g.begins[s];
    }
    let mut fill = g.begins;
    let mut put = |from: u16, to: u16, weight: i32| {
        let at = fill[from as usize] as usize;
        fill[from as usize] += 1;
        g.ends[at] = to;
        g.weights[at] = weight;
    };
    for (i, stop) in stops.iter().enumerate() {
        if stop.previous != NONE {
            put(stop.previous, i as u16, times[i] as i32);
        }
    }
    for p in &sheet.precedences {
        let next = nexts[p.first_stop as usize];
        let time = times[next as usize];
        put(next, p.second_stop, gap_of(rule, gap, time) as i32 + 1 - time as i32);
    }
    // A topological sort that settles each stop once all lags to it have been gone through.
    let mut arrivals = [0i64; 1024];
    let mut ready = [0u16; 1024];
    let mut count = 0;
    for s in 0..n {
        if entering[s] == 0 {
            ready[count] = s as u16;
            count += 1;
        }
    }
    let mut at = 0;
    while at < count {
        let s = ready[at] as usize;
        at += 1;
        for k in g.after(s) {
            let t = g.ends[k] as usize;
            arrivals[t] = arrivals[t].max(arrivals[s] + g.weights[k] as i64);
            entering[t] -= 1;
            if entering[t] == 0 {
                ready[count] = t as u16;
                count += 1;
            }
        }
    }
    if count < n {
        let mut waiting = [false; 1024];
        for s in 0..n {
            waiting[s] = entering[s] > 0;
        }
        if let Some(found) = settle_rest(&g, &mut arrivals[..n], &waiting) {
            ring[..found.len()].copy_from_slice(&found);
            return code(17, found.len() as u16);
        }
    }
    for (slot, arrival) in timetable.iter_mut().zip(&arrivals[..n]) {
        *slot = *arrival as u32;
    }
    n as u32
}

const fn digit_values() -> [u8; 256] {
    let mut values = [255; 256];
    let mut v = 0;
    while v < 16 {
        values[b"0123456789ABCDEF"[v] as usize] = v as u8;
        v += 1;
    }
    values
}

const fn digit_pairs() -> [[u8; 2]; 256] {
    let mut pairs = [[0; 2]; 256];
    let mut v = 0;
    while v < 256 {
        pairs[v] = [b"0123456789ABCDEF"[v / 16], b"0123456789ABCDEF"[v % 16]];
        v += 1;
    }
    pairs
}

static VALUES: [u8; 256] = digit_values();
static PAIRS: [[u8; 2]; 256] = digit_pairs();

/// Reads each line by a table of digits and writes its bytes back by a table of pairs, without building the entry.
pub fn copy_lines(text: &[u8], page: &mut [u8]) -> usize {
    let mut at = 0;
    for line in text.split(|b| *b == b'\n') {
        if line.len() > 64 || line.is_empty() || line.len() % 2 != 0 {
            continue;
        }
        let mut bytes = [0u8; 32];
        let mut bad = 0;
        for (byte, pair) in bytes.iter_mut().zip(line.chunks_exact(2)) {
            let (high, low) = (VALUES[pair[0] as usize], VALUES[pair[1] as usize]);
            bad |= (high | low) & 0xF0;
            *byte = high << 4 | low;
        }
        let bytes = &bytes[..line.len() / 2];
        let good = match *bytes {
            [1 | 3 | 4, _, _, _, _] | [2, _, _, _] => true,
            [5, r, a, b] => {
                let gap = u16::from_be_bytes([a, b]);
                (r < 2 && gap == 0) || (r == 2 && gap <= 36000)
            }
            _ => false,
        };
        if bad != 0 || !good {
            continue;
        }
        let out = &mut page[at..at + 2 * bytes.len() + 1];
        for (slot, byte) in out.chunks_exact_mut(2).zip(bytes) {
            slot.copy_from_slice(&PAIRS[*byte as usize]);
        }
        out[2 * bytes.len()] = b'\n';
        at += out.len();
    }
    at
}
