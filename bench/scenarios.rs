//! The inputs that are measured: yards, sheets and lines, the same at every run.

/// A lane: from, to, travel time.
pub type Lane = (u16, u16, u16);

/// An entry of a sheet: kind, then its fields in the order of a line, then 0 where there are fewer than three.
pub type Entry = [u16; 4];

pub const FULL_LANE: u16 = 0;

#[derive(Clone)]
pub struct Grid {
    pub rows: u16,
    pub columns: u16,
    pub along: u16,
    pub across: u16,
    pub closed: Vec<u64>,
}

#[derive(Clone)]
pub enum YardPlan {
    Lanes(Vec<Lane>),
    Grid(Grid),
}

#[derive(Clone)]
pub struct Scenario {
    pub name: String,
    pub yard: YardPlan,
    pub entries: Vec<Entry>,
    pub rule: u16,
    pub gap: u16,
}

impl Scenario {
    pub fn count(&self, kind: u16) -> usize {
        self.entries.iter().filter(|e| e[0] == kind).count()
    }

    /// How many stops the sheet has: one for each carrier, and those that are entered.
    pub fn stops(&self) -> usize {
        self.count(1) + self.count(2)
    }

    /// The lines of the yard's file.
    pub fn yard_text(&self) -> String {
        let YardPlan::Lanes(lanes) = &self.yard else {
            return String::new();
        };
        lanes.iter().map(|(f, t, d)| format!("06{f:04X}{t:04X}{d:04X}\n")).collect()
    }
}

/// The line of an entry, with its newline.
pub fn line_of(e: &Entry) -> String {
    match e[0] {
        1 => format!("01{:04X}{:04X}\n", e[1], e[2]),
        2 => format!("02{:02X}{:04X}\n", e[1], e[2]),
        kind => format!("{kind:02X}{:02X}{:02X}{:04X}\n", e[1], e[2], e[3]),
    }
}

fn sorted(mut lanes: Vec<Lane>) -> Vec<Lane> {
    lanes.sort();
    lanes.dedup_by_key(|l| (l.0, l.1));
    lanes
}

/// Lanes beside these until there are so many; none of them is on a route.
fn padded(lanes: &[Lane], count: usize) -> Vec<Lane> {
    let mut lanes = lanes.to_vec();
    let taken: std::collections::HashSet<(u16, u16)> = lanes.iter().map(|l| (l.0, l.1)).collect();
    let mut step = 1;
    'all: loop {
        for from in 0..4096u32 {
            let to = ((from + 577 * step) % 4096) as u16;
            let from = from as u16;
            if lanes.len() >= count {
                break 'all;
            }
            if from != to && !taken.contains(&(from, to)) {
                lanes.push((from, to, 7));
            }
        }
        step += 1;
    }
    sorted(lanes)
}

/// The entries of routes: all carriers first, then the stops carrier by carrier.
fn routes(routes: &[Vec<u16>]) -> Vec<Entry> {
    let mut entries = Vec::new();
    for route in routes {
        entries.push([1, route[0], route[route.len() - 1], 0]);
    }
    for (c, route) in routes.iter().enumerate() {
        for place in &route[1..] {
            entries.push([2, c as u16, *place, 0]);
        }
    }
    entries
}

/// Groups of carriers that follow each other along a line of places, each group along its own. A carrier's way to the
/// line is so long that nobody has to wait: two rounds settle it. So many stops of each carrier are on the line.
fn groups(name: &str, sizes: &[usize], length: usize) -> Scenario {
    groups_and(name, sizes, length, 0)
}

/// The same, with so many more carriers that end in a ring on a circle of places.
fn groups_and(name: &str, sizes: &[usize], length: usize, ring: u16) -> Scenario {
    let mut paths: Vec<Vec<u16>> = Vec::new();
    let mut lanes = Vec::new();
    let mut precedences = Vec::new();
    let mut next = 0u16;
    for size in sizes {
        let line: Vec<u16> = (0..length as u16).map(|i| next + i).collect();
        next += length as u16;
        for pair in line.windows(2) {
            lanes.push((pair[0], pair[1], 3));
        }
        let first = paths.len();
        for i in 0..*size {
            let (start, goal) = (next, next + 1);
            next += 2;
            lanes.push((start, line[0], 1 + 1000 * i as u16));
            lanes.push((line[length - 1], goal, 3));
            let mut path = vec![start];
            path.extend(&line);
            path.push(goal);
            paths.push(path);
        }
        for place in &line {
            for a in first..paths.len() {
                for b in a + 1..paths.len() {
                    precedences.push([3, a as u16, b as u16, *place]);
                }
            }
        }
    }
    let (circle, first) = (next, paths.len() as u16);
    next += ring;
    for c in 0..ring {
        let mut path: Vec<u16> = (next..next + length as u16).collect();
        next += length as u16;
        path.push(circle + c);
        path.push(circle + (c + 1) % ring);
        for pair in path.windows(2) {
            lanes.push((pair[0], pair[1], 1));
        }
        paths.push(path);
        let ahead = (c + 1) % ring;
        precedences.push([3, first + ahead, first + c, circle + ahead]);
    }
    let mut entries = routes(&paths);
    entries.extend(precedences);
    Scenario {
        name: name.into(),
        yard: YardPlan::Lanes(sorted(lanes)),
        entries,
        rule: FULL_LANE,
        gap: 0,
    }
}

/// 64 carriers, 1,024 stops and about 2,000 precedences that two rounds settle.
pub fn full_two_rounds() -> Scenario {
    groups("full sheet, two rounds", &[6, 6, 6, 6, 6, 6, 5, 5, 5, 5, 5, 3], 14)
}

/// The same in a yard of 8,192 lanes.
pub fn full_yard() -> Scenario {
    let mut s = full_two_rounds();
    if let YardPlan::Lanes(lanes) = &s.yard {
        s.yard = YardPlan::Lanes(padded(lanes, 8192));
    }
    s.name = "full sheet, 8,192 lanes".into();
    s
}

/// Smaller sheets of the same shape: so many groups of four carriers, each with 16 stops.
pub fn sized(groups_of_four: usize) -> Scenario {
    groups("sized", &vec![4; groups_of_four], 14)
}

/// The same number of stops with groups of other sizes, so with another number of precedences.
pub fn crowded(size: usize, count: usize) -> Scenario {
    groups("crowded", &vec![size; count], 14)
}

/// A chain of waiting: carrier k mod `carriers` goes from place k + 1 to place k as the k-th link, and waits there for
/// the carrier of the link before. The precedences are entered last link first, so that each round finishes one link.
pub fn chain(name: &str, carriers: usize, turns: usize) -> Scenario {
    let links = carriers * turns;
    let start = (links + 1) as u16;
    let mut paths = Vec::new();
    let mut lanes = Vec::new();
    for c in 0..carriers {
        let mut path = vec![start + 2 * c as u16];
        for turn in 0..turns {
            let link = (c + carriers * turn) as u16;
            path.push(link + 1);
            path.push(link);
        }
        path.push(start + 2 * c as u16 + 1);
        for pair in path.windows(2) {
            lanes.push((pair[0], pair[1], 1));
        }
        paths.push(path);
    }
    let mut entries = routes(&paths);
    for link in (1..links).rev() {
        let (a, b) = ((link - 1) % carriers, link % carriers);
        entries.push([3, a as u16, b as u16, link as u16]);
    }
    Scenario {
        name: name.into(),
        yard: YardPlan::Lanes(sorted(lanes)),
        entries,
        rule: FULL_LANE,
        gap: 0,
    }
}

/// The chain on a full sheet: hundreds of rounds.
pub fn many_rounds() -> Scenario {
    chain("full sheet, many rounds", 64, 7)
}

/// 64 carriers on a circle of places, each of which goes to where the next one stands.
pub fn ring() -> Scenario {
    let n = 64u16;
    let paths: Vec<Vec<u16>> = (0..n).map(|c| vec![c, (c + 1) % n]).collect();
    let lanes = paths.iter().map(|p| (p[0], p[1], 1)).collect();
    let mut entries = routes(&paths);
    for c in 0..n {
        let next = (c + 1) % n;
        entries.push([3, next, c, next]);
    }
    Scenario {
        name: "ring of 64 carriers".into(),
        yard: YardPlan::Lanes(sorted(lanes)),
        entries,
        rule: FULL_LANE,
        gap: 0,
    }
}

/// A full sheet with a ring of three: every round raises something, to the last, and goes through nearly 3,000 lags.
pub fn ring_full() -> Scenario {
    groups_and("full sheet, ring of 3", &[6, 6, 6, 6, 6, 6, 5, 5, 5, 5, 5], 14, 3)
}

/// A grid of 64 rows and 64 columns: two blocks in which 14 carriers go along rows and 14 along columns, and who goes
/// along a row goes first. Every third cell outside of the blocks is closed.
pub fn grid() -> Scenario {
    let cell = |row: u16, column: u16| row * 64 + column;
    let mut used = vec![false; 4096];
    let mut paths: Vec<Vec<u16>> = Vec::new();
    let mut precedences = Vec::new();
    for block in 0..2u16 {
        let (top, left) = (20 * block, 30 * block);
        let first = paths.len() as u16;
        for i in 1..15 {
            paths.push((0..16).map(|j| cell(top + i, left + j)).collect());
        }
        for j in 1..15 {
            paths.push((0..16).map(|i| cell(top + i, left + j)).collect());
        }
        for i in 1..15u16 {
            for j in 1..15u16 {
                precedences.push([3, first + i - 1, first + 14 + j - 1, cell(top + i, left + j)]);
            }
        }
    }
    for path in &paths {
        for place in path {
            used[*place as usize] = true;
        }
    }
    let mut closed = vec![0u64; 64];
    for c in 0..4096 {
        if c % 3 == 0 && !used[c] {
            closed[c / 64] |= 1 << (c % 64);
        }
    }
    let mut entries = routes(&paths);
    entries.extend(precedences);
    Scenario {
        name: "full grid, 64 by 64".into(),
        yard: YardPlan::Grid(Grid { rows: 64, columns: 64, along: 2, across: 3, closed }),
        entries,
        rule: FULL_LANE,
        gap: 0,
    }
}

/// So many lines of a sheet, of all its kinds.
pub fn lines(count: usize) -> Vec<u8> {
    let mut text = String::new();
    let mut seed = 1u32;
    let mut random = || {
        seed = seed.wrapping_mul(1664525).wrapping_add(1013904223);
        (seed >> 16) as u16
    };
    for _ in 0..count {
        let kind = random() % 5 + 1;
        let (a, b, c) = (random() % 64, random() % 64, random() % 4096);
        match kind {
            1 => text.push_str(&line_of(&[1, c, random() % 4096, 0])),
            2 => text.push_str(&line_of(&[2, a, c, 0])),
            5 => text.push_str(&format!("0502{:04X}\n", random() % 36000)),
            kind => text.push_str(&line_of(&[kind, a, b, c])),
        }
    }
    text.into_bytes()
}
