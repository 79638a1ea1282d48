//! The lags between stops, and the longest ways over them.

use std::collections::HashMap;
use std::collections::HashSet;
use std::fmt;

/// Least differences between the arrivals at two stops.
pub struct Lags {
    stops: usize,
    ticks: HashMap<(usize, usize), i64>,
}

/// Why a list of stops is no ring with a lag sum above 0.
pub enum RingFault {
    Empty,
    StopTwice(usize),
    NoLag(usize, usize),
    SumNotAbove0(i64),
    LowestNotFirst,
}

impl fmt::Display for RingFault {
    fn fmt(&self, out: &mut fmt::Formatter) -> fmt::Result {
        match self {
            RingFault::Empty => write!(out, "the ring has no stops"),
            RingFault::StopTwice(stop) => write!(out, "stop {stop} is in the ring twice"),
            RingFault::NoLag(from, to) => write!(out, "there is no lag from stop {from} to {to}"),
            RingFault::SumNotAbove0(sum) => write!(out, "the ring has the lag sum {sum}"),
            RingFault::LowestNotFirst => write!(out, "the lowest stop of the ring is not first"),
        }
    }
}

impl Lags {
    pub fn new(stops: usize) -> Lags {
        Lags {
            stops,
            ticks: HashMap::new(),
        }
    }

    pub fn add(&mut self, from: usize, to: usize, ticks: i64) {
        let old = self.ticks.insert((from, to), ticks);
        assert!(old.is_none(), "two lags from stop {from} to {to}");
    }

    pub fn iter(&self) -> impl Iterator<Item = (usize, usize, i64)> {
        self.ticks
            .iter()
            .map(|(&(from, to), &ticks)| (from, to, ticks))
    }

    pub fn check_ring(&self, ring: &[usize]) -> Result<(), RingFault> {
        let lowest = *ring.iter().min().ok_or(RingFault::Empty)?;
        let mut seen = HashSet::new();
        if let Some(&twice) = ring.iter().find(|&&stop| !seen.insert(stop)) {
            return Err(RingFault::StopTwice(twice));
        }
        let sum = self.sum_round(ring)?;
        if sum <= 0 {
            return Err(RingFault::SumNotAbove0(sum));
        }
        if ring[0] != lowest {
            return Err(RingFault::LowestNotFirst);
        }
        Ok(())
    }

    fn sum_round(&self, ring: &[usize]) -> Result<i64, RingFault> {
        let mut sum = 0;
        for (index, &from) in ring.iter().enumerate() {
            let to = ring[(index + 1) % ring.len()];
            sum += self
                .ticks
                .get(&(from, to))
                .ok_or(RingFault::NoLag(from, to))?;
        }
        Ok(sum)
    }
}

/// The longest way from each stop to each, by the stops that may be passed:
/// first none, then stop 0 too, then stop 1 too, and so on.
pub struct Ways {
    stops: usize,
    /// By from × stops + to; none where there is no way.
    ticks: Vec<Option<i64>>,
    /// A stop that the longest way passes; none for a single lag.
    via: Vec<Option<usize>>,
}

impl Ways {
    /// The longest ways, or a ring with a lag sum above 0 that makes them endless.
    pub fn longest(lags: &Lags) -> Result<Ways, Vec<usize>> {
        let mut ways = Ways::of_single_lags(lags);
        for middle in 0..ways.stops {
            if let Some(walk) = ways.walk_back_to(middle) {
                return Err(ring_in_walk(lags, &walk));
            }
            ways.allow(middle);
        }
        Ok(ways)
    }

    fn of_single_lags(lags: &Lags) -> Ways {
        let stops = lags.stops;
        let mut ticks = vec![None; stops * stops];
        for (from, to, lag) in lags.iter() {
            ticks[from * stops + to] = Some(lag);
        }
        Ways {
            stops,
            ticks,
            via: vec![None; stops * stops],
        }
    }

    fn between(&self, from: usize, to: usize) -> Option<i64> {
        self.ticks[from * self.stops + to]
    }

    /// A walk of more than 0 ticks from some stop through `middle` and back.
    /// It is asked before `middle` is allowed, while every way is still finite.
    fn walk_back_to(&self, middle: usize) -> Option<Vec<usize>> {
        let other = (0..self.stops).find(|&other| {
            let there = self.between(other, middle);
            let back = self.between(middle, other);
            there
                .zip(back)
                .is_some_and(|(there, back)| there + back > 0)
        })?;
        Some(
            [
                self.stops_along(other, middle),
                self.stops_along(middle, other),
            ]
            .concat(),
        )
    }

    /// The stops of the longest way, the last one left out.
    fn stops_along(&self, from: usize, to: usize) -> Vec<usize> {
        match self.via[from * self.stops + to] {
            None => vec![from],
            Some(via) => [self.stops_along(from, via), self.stops_along(via, to)].concat(),
        }
    }

    /// Lets every way pass `middle`, where that makes it longer.
    fn allow(&mut self, middle: usize) {
        let onward: Vec<(usize, i64)> = (0..self.stops)
            .filter_map(|to| self.between(middle, to).map(|ticks| (to, ticks)))
            .collect();
        for from in 0..self.stops {
            let Some(there) = self.between(from, middle) else {
                continue;
            };
            for &(to, rest) in &onward {
                let index = from * self.stops + to;
                if self.ticks[index].is_none_or(|ticks| there + rest > ticks) {
                    self.ticks[index] = Some(there + rest);
                    self.via[index] = Some(middle);
                }
            }
        }
    }

    /// The earliest arrivals: the longest way into each stop, and at least 0.
    pub fn arrivals(&self) -> Vec<i64> {
        let longest_into = |to| {
            (0..self.stops)
                .filter_map(|from| self.between(from, to))
                .max()
        };
        (0..self.stops)
            .map(|to| longest_into(to).unwrap_or(0).max(0))
            .collect()
    }
}

/// Cuts a closed walk into rings and answers one with a lag sum above 0.
fn ring_in_walk(lags: &Lags, walk: &[usize]) -> Vec<usize> {
    let mut open: Vec<usize> = Vec::new();
    for &stop in walk.iter().chain(&walk[..1]) {
        if let Some(begin) = open.iter().position(|&earlier| earlier == stop) {
            let ring = lowest_first(open.split_off(begin));
            if lags.check_ring(&ring).is_ok() {
                return ring;
            }
        }
        open.push(stop);
    }
    panic!("a walk of more than 0 ticks has no ring of more than 0 ticks");
}

fn lowest_first(mut ring: Vec<usize>) -> Vec<usize> {
    let lowest = (0..ring.len())
        .min_by_key(|&index| ring[index])
        .unwrap_or(0);
    ring.rotate_left(lowest);
    ring
}
