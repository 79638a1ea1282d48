//! Judging: the checks 13 to 16 as they are defined, then the lags, then the
//! longest ways between all stops.

use std::collections::HashSet;

use crate::lines::Refusal;
use crate::plan;
use crate::sheet::Sheet;
use crate::ways::{Lags, Ways};
use crate::yard::{Rule, Yard};

pub enum Verdict {
    Pass(Vec<i64>),
    Ring(FoundRing),
    Refused(Refusal),
}

/// A ring with a lag sum above 0, and the lags by which any ring is checked.
pub struct FoundRing {
    pub ring: Vec<usize>,
    pub lags: Lags,
}

pub fn judge(sheet: &Sheet, yard: &Yard, rule: Rule) -> Verdict {
    let case = Case::new(sheet, yard, rule);
    if let Some(refusal) = case.refusal() {
        return Verdict::Refused(refusal);
    }
    let lags = case.lags();
    match Ways::longest(&lags) {
        Ok(ways) => {
            let arrivals = ways.arrivals();
            plan::assert_sound(&case, &lags, &arrivals);
            Verdict::Pass(arrivals)
        }
        Err(ring) => {
            if let Err(fault) = lags.check_ring(&ring) {
                panic!("the reference's own ring {ring:?}: {fault}");
            }
            Verdict::Ring(FoundRing { ring, lags })
        }
    }
}

/// A sheet in a yard under a rule, with each stop's neighbours on its route.
pub struct Case<'a> {
    pub sheet: &'a Sheet,
    pub yard: &'a Yard,
    pub rule: Rule,
    pub before: Vec<Option<usize>>,
    pub after: Vec<Option<usize>>,
    standing: HashSet<(usize, usize, u16)>,
}

impl<'a> Case<'a> {
    fn new(sheet: &'a Sheet, yard: &'a Yard, rule: Rule) -> Case<'a> {
        let count = sheet.stops.len();
        let mut before = vec![None; count];
        let mut after = vec![None; count];
        let mut latest = vec![None; sheet.carriers.len()];
        for (number, stop) in sheet.stops.iter().enumerate() {
            before[number] = latest[stop.carrier];
            if let Some(earlier) = latest[stop.carrier].replace(number) {
                after[earlier] = Some(number);
            }
        }
        let standing = sheet
            .precedences
            .iter()
            .map(|p| (p.first, p.second, p.place))
            .collect();
        Case {
            sheet,
            yard,
            rule,
            before,
            after,
            standing,
        }
    }

    pub fn place(&self, stop: usize) -> u16 {
        self.sheet.stops[stop].place
    }

    pub fn carrier(&self, stop: usize) -> usize {
        self.sheet.stops[stop].carrier
    }

    pub fn stops(&self) -> std::ops::Range<usize> {
        0..self.sheet.stops.len()
    }

    pub fn stop_at(&self, carrier: usize, place: u16) -> usize {
        self.stops()
            .find(|&stop| self.carrier(stop) == carrier && self.place(stop) == place)
            .expect("a precedence is at a place of both routes")
    }

    /// The travel time from a stop to the next one of its carrier.
    pub fn travel(&self, from: usize, to: usize) -> i64 {
        self.yard
            .travel(self.place(from), self.place(to))
            .expect("each step is a lane")
    }

    fn refusal(&self) -> Option<Refusal> {
        self.not_at_goal()
            .or_else(|| self.no_lane())
            .or_else(|| self.undecided())
            .or_else(|| self.head_on())
    }

    fn not_at_goal(&self) -> Option<Refusal> {
        (0..self.sheet.carriers.len())
            .find(|&carrier| !self.sheet.at_goal(carrier))
            .map(|carrier| Refusal::NotAtGoal { carrier })
    }

    fn no_lane(&self) -> Option<Refusal> {
        self.stops()
            .find(|&stop| self.lacks_lane(stop))
            .map(|stop| Refusal::NoLane { stop })
    }

    fn lacks_lane(&self, stop: usize) -> bool {
        self.before[stop].is_some_and(|before| {
            self.yard
                .travel(self.place(before), self.place(stop))
                .is_none()
        })
    }

    fn undecided(&self) -> Option<Refusal> {
        self.lowest_pair(|s, t| s < t && self.is_undecided(s, t))
            .map(|stops| Refusal::Undecided { stops })
    }

    fn is_undecided(&self, s: usize, t: usize) -> bool {
        let (one, two, place) = (self.carrier(s), self.carrier(t), self.place(s));
        place == self.place(t)
            && one != two
            && !self.standing.contains(&(one, two, place))
            && !self.standing.contains(&(two, one, place))
    }

    fn head_on(&self) -> Option<Refusal> {
        self.lowest_pair(|s, t| self.are_head_on(s, t))
            .map(|stops| Refusal::HeadOn { stops })
    }

    fn are_head_on(&self, s: usize, t: usize) -> bool {
        self.goes_to(s, self.place(t))
            && self.goes_to(t, self.place(s))
            && self
                .standing
                .contains(&(self.carrier(s), self.carrier(t), self.place(s)))
            && self
                .standing
                .contains(&(self.carrier(t), self.carrier(s), self.place(t)))
    }

    fn goes_to(&self, stop: usize, place: u16) -> bool {
        self.after[stop].is_some_and(|next| self.place(next) == place)
    }

    fn lowest_pair(&self, holds: impl Fn(usize, usize) -> bool) -> Option<(usize, usize)> {
        self.stops()
            .flat_map(|s| self.stops().map(move |t| (s, t)))
            .find(|&(s, t)| holds(s, t))
    }

    fn lags(&self) -> Lags {
        let mut lags = Lags::new(self.sheet.stops.len());
        for stop in self.stops() {
            if let Some(next) = self.after[stop] {
                lags.add(stop, next, self.travel(stop, next));
            }
        }
        for precedence in &self.sheet.precedences {
            let leaving = self.stop_at(precedence.first, precedence.place);
            let reaching = self.stop_at(precedence.second, precedence.place);
            let next = self.after[leaving].expect("first goes on from the place");
            let travel = self.travel(leaving, next);
            lags.add(next, reaching, self.rule.gap(travel) - travel + 1);
        }
        lags
    }
}
