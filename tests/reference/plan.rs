//! Asserts that the arrivals of a pass are a timed plan without conflict that
//! keeps every precedence, each by its plain definition.

use crate::judge::Case;
use crate::ways::Lags;

/// No gap of a built rule and no travel time is above this.
const LONGEST: i64 = 36_000;

/// One carrier's stay at one place.
struct Stay {
    carrier: usize,
    place: u16,
    arrival: i64,
    /// None at the goal, where the stay has no end.
    step: Option<Step>,
}

/// How a stay ends.
struct Step {
    departure: i64,
    gap: i64,
    to: u16,
    arrival: i64,
}

pub fn assert_sound(case: &Case, lags: &Lags, arrivals: &[i64]) {
    assert_timed_plan(case, arrivals);
    let stays: Vec<Stay> = case
        .stops()
        .map(|stop| stay(case, arrivals, stop))
        .collect();
    for one in &stays {
        for two in stays.iter().filter(|two| two.carrier != one.carrier) {
            assert!(!place_conflict(one, two), "place conflict at {}", one.place);
            assert!(
                !following_conflict(one, two),
                "following conflict at {}",
                one.place
            );
            assert!(
                !head_on_conflict(one, two),
                "head-on conflict from {}",
                one.place
            );
        }
    }
    assert_precedences_kept(case, &stays);
    assert_no_slack(lags, arrivals);
}

fn assert_timed_plan(case: &Case, arrivals: &[i64]) {
    let ceiling = (arrivals.len() as i64 - 1) * LONGEST;
    for stop in case.stops() {
        assert!(
            (0..=ceiling).contains(&arrivals[stop]),
            "arrival of stop {stop} out of range"
        );
        match case.before[stop] {
            None => assert_eq!(arrivals[stop], 0, "first stop {stop}"),
            Some(before) => assert!(
                arrivals[stop] >= arrivals[before] + case.travel(before, stop),
                "stop {stop} is reached too soon"
            ),
        }
    }
}

fn stay(case: &Case, arrivals: &[i64], stop: usize) -> Stay {
    let step = case.after[stop].map(|next| {
        let travel = case.travel(stop, next);
        Step {
            departure: arrivals[next] - travel,
            gap: case.rule.gap(travel),
            to: case.place(next),
            arrival: arrivals[next],
        }
    });
    Stay {
        carrier: case.carrier(stop),
        place: case.place(stop),
        arrival: arrivals[stop],
        step,
    }
}

fn place_conflict(one: &Stay, two: &Stay) -> bool {
    let lasts_to =
        |stay: &Stay, tick: i64| stay.step.as_ref().is_none_or(|step| step.departure >= tick);
    one.place == two.place && lasts_to(one, two.arrival) && lasts_to(two, one.arrival)
}

fn following_conflict(one: &Stay, two: &Stay) -> bool {
    one.place == two.place
        && one.step.as_ref().is_some_and(|step| {
            two.arrival > step.departure && two.arrival <= step.departure + step.gap
        })
}

fn head_on_conflict(one: &Stay, two: &Stay) -> bool {
    let (Some(out), Some(back)) = (&one.step, &two.step) else {
        return false;
    };
    let same_way = out.to == two.place && back.to == one.place;
    // Each is on the way at the ticks after its departure and up to its arrival.
    let first_common = out.departure.max(back.departure) + 1;
    let last_common = out.arrival.min(back.arrival);
    same_way && first_common <= last_common
}

fn assert_precedences_kept(case: &Case, stays: &[Stay]) {
    for precedence in &case.sheet.precedences {
        let leaving = &stays[case.stop_at(precedence.first, precedence.place)];
        let reaching = &stays[case.stop_at(precedence.second, precedence.place)];
        let step = leaving.step.as_ref().expect("first leaves the place");
        assert!(
            reaching.arrival > step.departure,
            "{precedence:?} is not kept"
        );
    }
}

/// An earliest arrival is 0 or just what some lag asks for.
fn assert_no_slack(lags: &Lags, arrivals: &[i64]) {
    let mut least = vec![0; arrivals.len()];
    for (from, to, ticks) in lags.iter() {
        least[to] = least[to].max(arrivals[from] + ticks);
    }
    assert_eq!(
        arrivals, least,
        "the arrivals are not what the lags ask for"
    );
}
