//! The sheet: carriers, stops and precedences, and the four calls.

use crate::lines::Refusal;
use crate::yard::HIGHEST_PLACE;

pub const MOST_CARRIERS: usize = 64;
pub const MOST_STOPS: usize = 1_024;
pub const MOST_PRECEDENCES: usize = 2_048;

pub struct Carrier {
    pub start: u16,
    pub goal: u16,
}

pub struct Stop {
    pub carrier: usize,
    pub place: u16,
}

/// `first` leaves `place` before `second` reaches it.
#[derive(Clone, Copy, PartialEq, Eq, Debug)]
pub struct Precedence {
    pub first: usize,
    pub second: usize,
    pub place: u16,
}

impl Precedence {
    pub fn reversed(self) -> Precedence {
        Precedence {
            first: self.second,
            second: self.first,
            place: self.place,
        }
    }
}

#[derive(Default)]
pub struct Sheet {
    pub carriers: Vec<Carrier>,
    pub stops: Vec<Stop>,
    pub precedences: Vec<Precedence>,
}

type Answer = Result<usize, Refusal>;

impl Sheet {
    pub fn enter_carrier(&mut self, start: u16, goal: u16) -> Answer {
        if start > HIGHEST_PLACE || goal > HIGHEST_PLACE {
            return Err(Refusal::PlaceTooHigh);
        }
        if self.carriers.len() >= MOST_CARRIERS || self.stops.len() >= MOST_STOPS {
            return Err(Refusal::LimitReached);
        }
        if self
            .carriers
            .iter()
            .any(|other| other.start == start || other.goal == goal)
        {
            return Err(Refusal::EndTaken);
        }
        let carrier = self.carriers.len();
        self.carriers.push(Carrier { start, goal });
        self.stops.push(Stop {
            carrier,
            place: start,
        });
        Ok(carrier)
    }

    pub fn enter_stop(&mut self, carrier: usize, place: u16) -> Answer {
        self.carrier_exists(carrier)?;
        if place > HIGHEST_PLACE {
            return Err(Refusal::PlaceTooHigh);
        }
        if self.at_goal(carrier) {
            return Err(Refusal::RouteAtGoal);
        }
        if self.on_route(carrier, place) {
            return Err(Refusal::PlaceOnRoute);
        }
        if self.stops.len() >= MOST_STOPS {
            return Err(Refusal::LimitReached);
        }
        self.stops.push(Stop { carrier, place });
        Ok(self.stops.len() - 1)
    }

    pub fn enter_precedence(&mut self, entered: Precedence) -> Answer {
        let Precedence {
            first,
            second,
            place,
        } = entered;
        self.two_carriers(first, second)?;
        if !self.on_route(first, place) || !self.on_route(second, place) {
            return Err(Refusal::NotOnBothRoutes);
        }
        if self.carriers[first].goal == place || self.carriers[second].start == place {
            return Err(Refusal::FirstsGoalOrSecondsStart);
        }
        if self.stands(entered) || self.stands(entered.reversed()) {
            return Err(Refusal::AlreadyDecided);
        }
        if self.precedences.len() >= MOST_PRECEDENCES {
            return Err(Refusal::LimitReached);
        }
        self.precedences.push(entered);
        Ok(self.precedences.len())
    }

    pub fn strike_precedence(&mut self, struck: Precedence) -> Answer {
        self.two_carriers(struck.first, struck.second)?;
        if !self.stands(struck) {
            return Err(Refusal::NothingToStrike);
        }
        self.precedences.retain(|standing| *standing != struck);
        Ok(self.precedences.len())
    }

    fn carrier_exists(&self, carrier: usize) -> Result<(), Refusal> {
        if carrier < self.carriers.len() {
            Ok(())
        } else {
            Err(Refusal::NoCarrier)
        }
    }

    fn two_carriers(&self, first: usize, second: usize) -> Result<(), Refusal> {
        self.carrier_exists(first)?;
        self.carrier_exists(second)?;
        if first == second {
            Err(Refusal::SameCarrier)
        } else {
            Ok(())
        }
    }

    pub fn stands(&self, precedence: Precedence) -> bool {
        self.precedences.contains(&precedence)
    }

    pub fn on_route(&self, carrier: usize, place: u16) -> bool {
        self.stops
            .iter()
            .any(|stop| stop.carrier == carrier && stop.place == place)
    }

    pub fn at_goal(&self, carrier: usize) -> bool {
        self.on_route(carrier, self.carriers[carrier].goal)
    }
}
