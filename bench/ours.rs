//! The library's calls, as crates/bench_export exports them.

use crate::scenarios::{Scenario, YardPlan};

unsafe extern "C" {
    fn vozhdeka_judge_lanes(
        lanes: *const u16,
        lane_numbers: usize,
        layings: u32,
        entries: *const u16,
        entry_numbers: usize,
        sheets: u32,
        rule: u16,
        gap: u16,
        judgings: u32,
        timetable: *mut u32,
        timetable_len: usize,
        ring: *mut u16,
        ring_len: usize,
    ) -> u32;
    fn vozhdeka_judge_grid(
        rows: u16,
        columns: u16,
        along: u16,
        across: u16,
        closed: *const u64,
        closed_len: usize,
        entries: *const u16,
        entry_numbers: usize,
        sheets: u32,
        rule: u16,
        gap: u16,
        judgings: u32,
        timetable: *mut u32,
        timetable_len: usize,
        ring: *mut u16,
        ring_len: usize,
    ) -> u32;
    fn vozhdeka_copy_lines(text: *const u8, text_len: usize, of_yard: bool, page: *mut u8, page_len: usize) -> usize;
}

/// The scenario as flat lists of numbers.
pub struct Flat {
    scenario: Scenario,
    lanes: Vec<u16>,
    entries: Vec<u16>,
}

impl Flat {
    pub fn new(scenario: &Scenario) -> Flat {
        let lanes = match &scenario.yard {
            YardPlan::Lanes(lanes) => lanes.iter().flat_map(|l| [l.0, l.1, l.2]).collect(),
            YardPlan::Grid(_) => Vec::new(),
        };
        Flat { scenario: scenario.clone(), lanes, entries: scenario.entries.concat() }
    }

    /// Lays the lanes, enters the sheet and judges it, each so many times.
    pub fn run(&self, layings: u32, sheets: u32, judgings: u32, timetable: &mut [u32], ring: &mut [u16]) -> u32 {
        let s = &self.scenario;
        // Every pointer goes with the length of its slice, and the slices outlive the call.
        unsafe {
            match &s.yard {
                YardPlan::Lanes(_) => vozhdeka_judge_lanes(
                    self.lanes.as_ptr(),
                    self.lanes.len(),
                    layings,
                    self.entries.as_ptr(),
                    self.entries.len(),
                    sheets,
                    s.rule,
                    s.gap,
                    judgings,
                    timetable.as_mut_ptr(),
                    timetable.len(),
                    ring.as_mut_ptr(),
                    ring.len(),
                ),
                YardPlan::Grid(g) => vozhdeka_judge_grid(
                    g.rows,
                    g.columns,
                    g.along,
                    g.across,
                    g.closed.as_ptr(),
                    g.closed.len(),
                    self.entries.as_ptr(),
                    self.entries.len(),
                    sheets,
                    s.rule,
                    s.gap,
                    judgings,
                    timetable.as_mut_ptr(),
                    timetable.len(),
                    ring.as_mut_ptr(),
                    ring.len(),
                ),
            }
        }
    }
}

pub fn copy_lines(text: &[u8], page: &mut [u8]) -> usize {
    unsafe { vozhdeka_copy_lines(text.as_ptr(), text.len(), false, page.as_mut_ptr(), page.len()) }
}
