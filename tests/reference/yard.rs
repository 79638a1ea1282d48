//! The lane yard and the following rules.

use std::collections::BTreeMap;

use crate::lines::{Entry, Input, Refusal, read_line, split_lines};

pub const HIGHEST_PLACE: u16 = 4_095;
pub const MOST_LANES: usize = 8_192;
pub const LONGEST_TRAVEL: u16 = 36_000;

#[derive(Clone, Copy)]
pub struct Lane {
    pub from: u16,
    pub to: u16,
    pub travel: u16,
}

#[derive(Clone, Copy)]
pub enum Rule {
    FullLane,
    LaneLessOne,
    FixedGap(u16),
}

impl Rule {
    pub fn gap(self, travel: i64) -> i64 {
        match self {
            Rule::FullLane => travel,
            Rule::LaneLessOne => travel - 1,
            Rule::FixedGap(gap) => i64::from(gap),
        }
    }
}

pub struct Yard {
    travel: BTreeMap<(u16, u16), i64>,
}

impl Yard {
    pub fn read(file: &[u8]) -> Result<Yard, Refusal> {
        let mut lanes = Vec::new();
        for line in split_lines(file) {
            match read_line(line, Input::Yard)? {
                Entry::Lane(lane) => lanes.push(lane),
                _ => unreachable!("the yard file has lane lines only"),
            }
        }
        Yard::lay(&lanes)
    }

    fn lay(lanes: &[Lane]) -> Result<Yard, Refusal> {
        if lanes.len() > MOST_LANES {
            return Err(Refusal::TooManyLanes);
        }
        let mut travel = BTreeMap::new();
        let mut before = None;
        for (index, lane) in lanes.iter().enumerate() {
            let ends = (lane.from, lane.to);
            if !is_good(lane) {
                return Err(Refusal::BadLane { index });
            }
            if before.is_some_and(|before| ends <= before) {
                return Err(Refusal::NotRising { index });
            }
            travel.insert(ends, i64::from(lane.travel));
            before = Some(ends);
        }
        Ok(Yard { travel })
    }

    pub fn travel(&self, from: u16, to: u16) -> Option<i64> {
        self.travel.get(&(from, to)).copied()
    }
}

fn is_good(lane: &Lane) -> bool {
    lane.from <= HIGHEST_PLACE
        && lane.to <= HIGHEST_PLACE
        && lane.from != lane.to
        && (1..=LONGEST_TRAVEL).contains(&lane.travel)
}
