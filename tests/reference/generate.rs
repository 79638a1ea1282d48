//! Random histories, of several kinds.

use crate::damage;
use crate::lines::{Entry, write_line};
use crate::random::Random;
use crate::script::{History, Script, any_fixed_gap};
use crate::sheet::{MOST_PRECEDENCES, MOST_STOPS, Precedence};
use crate::walks::{Ground, Order, WalkLimits, Walks};
use crate::yard::{HIGHEST_PLACE, LONGEST_TRAVEL, Lane, MOST_LANES, Rule};

#[derive(Clone, Copy)]
pub enum Kind {
    /// Small yards, random routes, strikes and judgings.
    Random,
    /// The same with damaged lines.
    Damaged,
    /// Carriers on a cycle of places, each following the next.
    Rings,
    /// Carriers that pass each other on one line of places.
    HeadOn,
    /// Sheets at the limits.
    Large,
    /// Calls with small random numbers, most of them refused.
    Refusals,
    /// Yard files at the limits, many of them refused.
    Yards,
}

const KINDS: [(&str, Kind); 7] = [
    ("random", Kind::Random),
    ("damaged", Kind::Damaged),
    ("rings", Kind::Rings),
    ("headon", Kind::HeadOn),
    ("large", Kind::Large),
    ("refusals", Kind::Refusals),
    ("yards", Kind::Yards),
];

impl Kind {
    pub fn named(name: &str) -> Option<Kind> {
        KINDS
            .iter()
            .find(|(known, _)| *known == name)
            .map(|&(_, kind)| kind)
    }

    pub fn names() -> String {
        KINDS.map(|(name, _)| name).join(", ")
    }
}

pub fn generate(seed: u64, kind: Kind) -> History {
    let random = &mut Random::new(seed);
    match kind {
        Kind::Random => small_history(random),
        Kind::Damaged => {
            let mut history = small_history(random);
            damage::damage(random, &mut history);
            history
        }
        Kind::Rings => ring_history(random),
        Kind::HeadOn => head_on_history(random),
        Kind::Large => large_history(random),
        Kind::Refusals => refusal_history(random),
        Kind::Yards => yard_history(random),
    }
}

/// How long lanes may be; short ones let many gaps come near to them.
fn longest_travel(random: &mut Random) -> u16 {
    random.pick(&[1, 2, 3, 4, 6, 20, LONGEST_TRAVEL])
}

// Small yards.

fn small_history(random: &mut Random) -> History {
    let (mut ground, places) = small_ground(random);
    let walks = small_walks(random, &ground, &places);
    if random.one_in(14) {
        ground.drop_any(random);
    }
    let order = random.pick(&[
        Order::AsWalked,
        Order::AsWalked,
        Order::ByRank,
        Order::ByCoin,
    ]);
    let mut precedences = walks.decide(random, order);
    random.shuffle(&mut precedences);
    if random.one_in(12) {
        precedences.pop();
    }
    let mut script = Script::default();
    if random.one_in(5) {
        script.judge_any(random);
    }
    script.enter_walks(random, &walks);
    enter_precedences(random, &mut script, &precedences);
    judge_and_change(random, &mut script);
    History::new(ground.lines(), script.lines)
}

fn small_ground(random: &mut Random) -> (Ground, Vec<u16>) {
    let count = random.between(3, 12);
    let places = random.places(count);
    let longest = longest_travel(random);
    let sparse = random.between(2, 8);
    let one_way = random.one_in(3);
    let mut ground = Ground::default();
    for two in 1..count {
        // Each place is joined to one before it, and to others by chance.
        let near = random.below(two);
        for one in 0..two {
            if one == near || random.one_in(sparse) {
                ground.join(random, places[one], places[two], longest);
                if one_way {
                    ground.drop_one(random, places[one], places[two]);
                }
            }
        }
    }
    if random.one_in(4) {
        ground.drop_any(random);
    }
    (ground, places)
}

fn small_walks(random: &mut Random, ground: &Ground, places: &[u16]) -> Walks {
    let mut starts = places.to_vec();
    random.shuffle(&mut starts);
    let together = random.one_in(2);
    // Those who walk at once need free places to walk to.
    let most = if together {
        places.len() / 2 + 1
    } else {
        places.len()
    };
    starts.truncate(random.between(2, 8).min(most));
    let limits = WalkLimits {
        starts: &starts,
        most_steps: random.between(1, 7),
        most_stops: MOST_STOPS,
    };
    let mut walks = if together {
        Walks::together(random, ground, &limits)
    } else {
        Walks::alone(random, ground, &limits)
    };
    if random.one_in(20) {
        let carrier = random.below(walks.goals.len());
        walks.goals[carrier] = random.number(0, HIGHEST_PLACE);
    }
    walks
}

fn enter_precedences(random: &mut Random, script: &mut Script, precedences: &[Precedence]) {
    for &precedence in precedences {
        script.precedence(precedence);
        if random.one_in(25) {
            script.precedence(precedence.reversed());
        }
        if random.one_in(40) {
            script.judge_any(random);
        }
    }
}

fn judge_and_change(random: &mut Random, script: &mut Script) {
    script.judge_all(random);
    script.judge(any_fixed_gap(random));
    for _ in 0..random.below(5) {
        script.change_one(random);
        script.judge_any(random);
        script.judge_any(random);
    }
}

// Rings.

fn ring_history(random: &mut Random) -> History {
    let count = if random.one_in(3) {
        random.between(2, 64)
    } else {
        random.between(2, 9)
    };
    let steps = if random.one_in(2) {
        1
    } else {
        random.between(1, ring_steps(count))
    };
    let places = random.places(count);
    let longest = longest_travel(random).min(60);
    let mut ground = Ground::default();
    let mut around = 0;
    for index in 0..count {
        let travel = random.number(1, longest);
        around += usize::from(travel);
        ground.lane(places[index], places[(index + 1) % count], travel);
    }
    // With one carrier fewer there is a free place, and no ring.
    let carriers = if random.one_in(6) { count - 1 } else { count };
    let routes: Vec<Vec<u16>> = (0..carriers)
        .map(|carrier| {
            (0..=steps)
                .map(|step| places[(carrier + step) % count])
                .collect()
        })
        .collect();
    let mut precedences = ring_precedences(&routes);
    random.shuffle(&mut precedences);
    let mut script = Script::default();
    script.enter_walks(random, &Walks::of_routes(routes));
    for precedence in precedences {
        script.precedence(precedence);
    }
    judge_near_balance(random, &mut script, around, count);
    script.change_one(random);
    script.judge_any(random);
    History::new(ground.lines(), script.lines)
}

/// Few enough that the sheet stays small.
fn ring_steps(count: usize) -> usize {
    (200 / count - 1).min(count - 1).clamp(1, 6)
}

/// Who starts nearer before a place goes first there.
fn ring_precedences(routes: &[Vec<u16>]) -> Vec<Precedence> {
    let mut precedences = Vec::new();
    for (first, nearer) in routes.iter().enumerate() {
        for (near, &place) in nearer.iter().enumerate() {
            for (second, farther) in routes.iter().enumerate() {
                let far = farther.iter().position(|&other| other == place);
                if far.is_some_and(|far| far > near) {
                    precedences.push(Precedence {
                        first,
                        second,
                        place,
                    });
                }
            }
        }
    }
    precedences
}

/// Gaps for which the lag sum round the cycle is just below, at and above 0.
fn judge_near_balance(random: &mut Random, script: &mut Script, around: usize, count: usize) {
    script.judge_all(random);
    let balance = (around / count) as u16;
    for gap in balance.saturating_sub(2)..=balance + 1 {
        script.judge(Rule::FixedGap(gap));
    }
}

// Head on.

fn head_on_history(random: &mut Random) -> History {
    let length = random.between(2, 10);
    let carriers = random.between(2, 6);
    let places = random.places(length + 2 * carriers);
    let (line, sides) = places.split_at(length);
    let longest = longest_travel(random);
    let mut ground = Ground::default();
    for pair in line.windows(2) {
        ground.join(random, pair[0], pair[1], longest);
    }
    let mut routes = Vec::new();
    for carrier in 0..carriers {
        let mut route = stretch(random, line, carrier % 2 == 1);
        // Mostly a start and a goal beside the line, where nobody else comes.
        if !random.one_in(12) {
            route.insert(0, sides[2 * carrier]);
            ground.join(random, route[0], route[1], longest);
        }
        if !random.one_in(12) {
            let last = *route.last().expect("a route has a start");
            route.push(sides[2 * carrier + 1]);
            ground.join(random, last, sides[2 * carrier + 1], longest);
        }
        routes.push(route);
    }
    let order = random.pick(&[Order::AsWalked, Order::ByRank, Order::ByRank, Order::ByCoin]);
    let walks = Walks::of_routes(routes);
    let mut precedences = walks.decide(random, order);
    random.shuffle(&mut precedences);
    let mut script = Script::default();
    script.enter_walks(random, &walks);
    enter_precedences(random, &mut script, &precedences);
    judge_and_change(random, &mut script);
    History::new(ground.lines(), script.lines)
}

/// A stretch of two or more places of a line, one way or the other.
fn stretch(random: &mut Random, line: &[u16], backwards: bool) -> Vec<u16> {
    let begin = random.below(line.len() - 1);
    let end = random.between(begin + 1, line.len() - 1);
    let mut route = line[begin..=end].to_vec();
    if backwards {
        route.reverse();
    }
    route
}

// Large sheets.

const LARGE_SIDE: usize = 45;

fn large_history(random: &mut Random) -> History {
    let side = random.between(12, 20);
    let ground = large_ground(random, side);
    let mut starts: Vec<u16> = (0..side * side)
        .map(|cell| block_place(cell, side))
        .collect();
    random.shuffle(&mut starts);
    starts.truncate(64);
    let limits = WalkLimits {
        starts: &starts,
        most_steps: 40,
        most_stops: MOST_STOPS,
    };
    let mut walks = Walks::together(random, &ground, &limits);
    let unfinished = random.one_in(3).then(|| random.below(64));
    if let Some(carrier) = unfinished {
        walks.goals[carrier] = HIGHEST_PLACE;
    }
    let mut precedences = walks.decide(random, Order::AsWalked);
    random.shuffle(&mut precedences);
    let mut script = Script::default();
    script.enter_walks(random, &walks);
    script.carrier(HIGHEST_PLACE, HIGHEST_PLACE - 1);
    script.stop(unfinished.unwrap_or(0), HIGHEST_PLACE - 1);
    for precedence in precedences {
        script.precedence(precedence);
    }
    script.judge_all(random);
    for _ in 0..2 {
        script.change_one(random);
        script.judge_any(random);
    }
    History::new(ground.lines(), script.lines)
}

/// The places of a square block in a corner of the large ground.
fn block_place(cell: usize, side: usize) -> u16 {
    (cell / side * LARGE_SIDE + cell % side) as u16
}

/// A square of places with lanes between neighbours, and other lanes besides.
/// No lane leads out of the block in the corner, so that many routes meet there.
fn large_ground(random: &mut Random, side: usize) -> Ground {
    let longest = longest_travel(random);
    let mut ground = Ground::default();
    let in_block = |row: usize, column: usize| row < side && column < side;
    for row in 0..LARGE_SIDE {
        for column in 0..LARGE_SIDE {
            let place = (row * LARGE_SIDE + column) as u16;
            let inside = in_block(row, column);
            if column + 1 < LARGE_SIDE && in_block(row, column + 1) == inside {
                ground.join(random, place, place + 1, longest);
            }
            if row + 1 < LARGE_SIDE && in_block(row + 1, column) == inside {
                ground.join(random, place, place + LARGE_SIDE as u16, longest);
            }
        }
    }
    let lanes = if random.one_in(2) {
        MOST_LANES
    } else {
        random.between(8_000, MOST_LANES)
    };
    while ground.count() < lanes {
        let from = random.number(2_100, HIGHEST_PLACE);
        ground.lane(
            from,
            random.number(2_000, from - 1),
            random.number(1, longest),
        );
    }
    ground
}

// Refusals.

fn refusal_history(random: &mut Random) -> History {
    let mut script = Script::default();
    match random.below(12) {
        0 => fill_carriers(&mut script),
        1 => fill_stops(random, &mut script),
        2 => fill_precedences(&mut script),
        _ => {}
    }
    let carriers = random.between(2, 6);
    let places = random.between(3, 9) as u16;
    for _ in 0..random.between(40, 300) {
        random_call(random, &mut script, carriers, places);
    }
    let mut ground = Ground::default();
    for place in 0..places {
        ground.join(random, place, (place + 1) % (places + 1), 3);
    }
    History::new(ground.lines(), script.lines)
}

fn random_call(random: &mut Random, script: &mut Script, carriers: usize, places: u16) {
    let precedence = Precedence {
        first: small_carrier(random, carriers),
        second: small_carrier(random, carriers),
        place: small_place(random, places),
    };
    match random.below(20) {
        0..=2 => script.carrier(small_place(random, places), small_place(random, places)),
        3..=8 => script.stop(small_carrier(random, carriers), small_place(random, places)),
        9..=14 => script.precedence(precedence),
        15..=16 => script.strike(precedence),
        17 if !script.sheet.precedences.is_empty() => {
            let standing = random.pick(&script.sheet.precedences);
            script.strike(standing);
        }
        18 => script.judge_any(random),
        _ => script.precedence(precedence.reversed()),
    }
}

fn small_carrier(random: &mut Random, carriers: usize) -> usize {
    if random.one_in(30) {
        random.byte().into()
    } else {
        random.below(carriers)
    }
}

fn small_place(random: &mut Random, places: u16) -> u16 {
    if random.one_in(20) {
        random.pick(&[4_094, 4_095, 4_096, 4_097, 32_768, 65_535])
    } else {
        random.number(0, places)
    }
}

fn fill_carriers(script: &mut Script) {
    for carrier in 0..64 {
        script.carrier(carrier, (carrier + 1) % 64);
    }
}

fn fill_stops(random: &mut Random, script: &mut Script) {
    let carriers = random.between(1, 40);
    for carrier in 0..carriers as u16 {
        script.carrier(carrier, carrier + 1);
    }
    for extra in 0..MOST_STOPS {
        script.stop(extra % carriers, (100 + extra / carriers) as u16);
    }
}

/// 64 carriers that share two places: 4,032 meetings, of which 2,048 are decided.
fn fill_precedences(script: &mut Script) {
    for carrier in 0..64 {
        script.carrier(carrier + 100, carrier + 200);
        script.stop(carrier.into(), 0);
        script.stop(carrier.into(), 1);
    }
    let pairs = (0..64).flat_map(|first| (first + 1..64).map(move |second| (first, second)));
    let all = pairs.flat_map(|(first, second)| {
        [0, 1].map(|place| Precedence {
            first,
            second,
            place,
        })
    });
    for precedence in all.take(MOST_PRECEDENCES + 2) {
        script.precedence(precedence);
    }
}

// Yard files.

fn yard_history(random: &mut Random) -> History {
    let mut lanes = rising_lanes(random);
    if random.one_in(3) && !lanes.is_empty() {
        spoil_lanes(random, &mut lanes);
    }
    let mut yard: Vec<Vec<u8>> = lanes
        .iter()
        .map(|&lane| write_line(Entry::Lane(lane)))
        .collect();
    if random.one_in(5) {
        let line: &[u8] = random.pick(&[b"07", b"", b"06", b"0100000001", b"0600000001000", b"G"]);
        let index = random.below(yard.len() + 1);
        yard.insert(index, line.to_vec());
    }
    let mut script = Script::default();
    for _ in 0..4 {
        let Some(lane) = (!lanes.is_empty()).then(|| random.pick(&lanes)) else {
            break;
        };
        script.carrier(lane.from, lane.to);
        script.stop(script.sheet.carriers.len().saturating_sub(1), lane.to);
        script.judge_any(random);
    }
    script.judge_all(random);
    let mut history = History::new(yard, script.lines);
    history.yard_newline = !random.one_in(4);
    history
}

fn rising_lanes(random: &mut Random) -> Vec<Lane> {
    let most = match random.below(4) {
        0 => random.below(5),
        1 => random.below(200),
        _ => random.between(MOST_LANES - 2, MOST_LANES + 2),
    };
    let width = random.between(3, 90) as u16;
    let ends = (0..=HIGHEST_PLACE)
        .flat_map(|from| (0..width).map(move |step| (from, from.saturating_sub(width) + step)))
        .filter(|(from, to)| from != to);
    ends.take(most)
        .map(|(from, to)| Lane {
            from,
            to,
            travel: random.number(1, LONGEST_TRAVEL),
        })
        .collect()
}

fn spoil_lanes(random: &mut Random, lanes: &mut [Lane]) {
    for _ in 0..random.between(1, 3) {
        let index = random.below(lanes.len());
        let other = random.below(lanes.len());
        match random.below(6) {
            0 => lanes[index].travel = 0,
            1 => lanes[index].travel = random.number(LONGEST_TRAVEL + 1, u16::MAX),
            2 => lanes[index].to = lanes[index].from,
            3 => lanes[index].from = random.number(HIGHEST_PLACE, u16::MAX),
            4 => lanes[index] = lanes[other],
            _ => lanes.swap(index, other),
        }
    }
}
