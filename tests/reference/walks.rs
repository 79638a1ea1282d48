//! Random lanes, routes along them, and who goes first where routes meet.

use std::collections::{BTreeMap, HashSet};

use crate::lines::{Entry, write_line};
use crate::random::Random;
use crate::sheet::Precedence;
use crate::yard::Lane;

/// The lanes of a yard that is being made.
#[derive(Default)]
pub struct Ground {
    lanes: BTreeMap<(u16, u16), u16>,
}

impl Ground {
    pub fn lane(&mut self, from: u16, to: u16, travel: u16) {
        self.lanes.insert((from, to), travel);
    }

    /// Lanes both ways, mostly of the same travel time.
    pub fn join(&mut self, random: &mut Random, one: u16, two: u16, longest: u16) {
        let out = random.number(1, longest);
        let back = if random.one_in(3) {
            random.number(1, longest)
        } else {
            out
        };
        self.lane(one, two, out);
        self.lane(two, one, back);
    }

    /// Leaves one lane of the two between two places.
    pub fn drop_one(&mut self, random: &mut Random, one: u16, two: u16) {
        self.lanes.remove(&if random.one_in(2) {
            (one, two)
        } else {
            (two, one)
        });
    }

    pub fn drop_any(&mut self, random: &mut Random) {
        let ends: Vec<(u16, u16)> = self.lanes.keys().copied().collect();
        if !ends.is_empty() {
            self.lanes.remove(&random.pick(&ends));
        }
    }

    pub fn exits(&self, place: u16) -> Vec<u16> {
        self.lanes
            .range((place, 0)..=(place, u16::MAX))
            .map(|(&(_, to), _)| to)
            .collect()
    }

    pub fn count(&self) -> usize {
        self.lanes.len()
    }

    pub fn lines(&self) -> Vec<Vec<u8>> {
        self.lanes
            .iter()
            .map(|(&(from, to), &travel)| write_line(Entry::Lane(Lane { from, to, travel })))
            .collect()
    }
}

/// Routes that were walked, and the order in which carriers came to each place.
#[derive(Default)]
pub struct Walks {
    pub routes: Vec<Vec<u16>>,
    /// The last place of each route, or elsewhere for a route left unfinished.
    pub goals: Vec<u16>,
    comers: BTreeMap<u16, Vec<usize>>,
}

/// How it is chosen who goes first where two routes meet.
#[derive(Clone, Copy)]
pub enum Order {
    /// As the carriers came.
    AsWalked,
    /// By one order of the carriers for all places.
    ByRank,
    ByCoin,
}

impl Walks {
    /// Walks whose comers are in the order of the carriers.
    pub fn of_routes(routes: Vec<Vec<u16>>) -> Walks {
        let mut walks = Walks {
            goals: last_places(&routes),
            ..Walks::default()
        };
        for (carrier, route) in routes.iter().enumerate() {
            for &place in route {
                walks.comers.entry(place).or_default().push(carrier);
            }
        }
        walks.routes = routes;
        walks
    }

    /// All walk at once, one step of one carrier at a time and only to a place
    /// where nobody is. The order in which they come to the places passes.
    pub fn together(random: &mut Random, ground: &Ground, limits: &WalkLimits) -> Walks {
        let mut walks = Walks::of_routes(limits.starts.iter().map(|&start| vec![start]).collect());
        let mut taken: HashSet<u16> = limits.starts.iter().copied().collect();
        let mut walking: Vec<usize> = (0..limits.starts.len()).collect();
        let mut stops = walking.len();
        while !walking.is_empty() && stops < limits.most_stops {
            let index = random.below(walking.len());
            let carrier = walking[index];
            let route = &mut walks.routes[carrier];
            let here = *route.last().expect("a route has a start");
            let mut exits = ground.exits(here);
            exits.retain(|place| !taken.contains(place) && !route.contains(place));
            if exits.is_empty() || route.len() > limits.most_steps {
                walking.swap_remove(index);
                continue;
            }
            let place = random.pick(&exits);
            route.push(place);
            walks.comers.entry(place).or_default().push(carrier);
            taken.remove(&here);
            taken.insert(place);
            stops += 1;
        }
        walks.goals = last_places(&walks.routes);
        walks
    }

    /// Each walks as if it were alone; a route that finds no free goal is left
    /// out, and mostly also one that stays at its start.
    pub fn alone(random: &mut Random, ground: &Ground, limits: &WalkLimits) -> Walks {
        let mut goals = HashSet::new();
        let mut routes = Vec::new();
        for &start in limits.starts {
            let mut route = lone_route(random, ground, start, limits.most_steps);
            while route.last().is_some_and(|goal| goals.contains(goal)) {
                route.pop();
            }
            // Who stays at its start leaves every meeting there undecided.
            let stays = route.len() < 2 && !random.one_in(4);
            if let Some(&goal) = route.last()
                && !stays
            {
                goals.insert(goal);
                routes.push(route);
            }
        }
        Walks::of_routes(routes)
    }

    pub fn decide(&self, random: &mut Random, order: Order) -> Vec<Precedence> {
        let mut ranks: Vec<usize> = (0..self.routes.len()).collect();
        random.shuffle(&mut ranks);
        let mut precedences = Vec::new();
        for (&place, comers) in &self.comers {
            for (index, &second) in comers.iter().enumerate() {
                for &first in &comers[..index] {
                    let precedence = Precedence {
                        first,
                        second,
                        place,
                    };
                    let reverse = match order {
                        Order::AsWalked => false,
                        Order::ByRank => ranks[first] > ranks[second],
                        Order::ByCoin => random.one_in(2),
                    };
                    let chosen = if reverse {
                        precedence.reversed()
                    } else {
                        precedence
                    };
                    precedences.push(self.mostly_lawful(random, chosen));
                }
            }
        }
        precedences
    }

    /// Turned round where it would be refused, but not always.
    fn mostly_lawful(&self, random: &mut Random, precedence: Precedence) -> Precedence {
        let Precedence {
            first,
            second,
            place,
        } = precedence;
        let refused = self.goals[first] == place || self.routes[second][0] == place;
        if refused && !random.one_in(100) {
            precedence.reversed()
        } else {
            precedence
        }
    }
}

pub struct WalkLimits<'a> {
    pub starts: &'a [u16],
    pub most_steps: usize,
    pub most_stops: usize,
}

fn last_places(routes: &[Vec<u16>]) -> Vec<u16> {
    routes
        .iter()
        .map(|route| *route.last().expect("a route has a start"))
        .collect()
}

fn lone_route(random: &mut Random, ground: &Ground, start: u16, most_steps: usize) -> Vec<u16> {
    let mut route = vec![start];
    let steps = random.between(most_steps.min(1), most_steps);
    for _ in 0..steps {
        let here = *route.last().expect("a route has a start");
        let mut exits = ground.exits(here);
        exits.retain(|place| !route.contains(place));
        if exits.is_empty() {
            break;
        }
        route.push(random.pick(&exits));
    }
    route
}
