//! The lines of a history that is being made, and the two files of it.

use std::fs;
use std::io;
use std::path::Path;

use crate::lines::{Entry, LONGEST_GAP, write_line};
use crate::random::Random;
use crate::sheet::{Precedence, Sheet};
use crate::walks::Walks;
use crate::yard::Rule;

/// What is at `yard.hex`.
pub enum YardFile {
    Lines(Vec<Vec<u8>>),
    Missing,
    /// A folder of that name, which cannot be read as a file.
    Folder,
}

pub struct History {
    pub yard: YardFile,
    pub lines: Vec<Vec<u8>>,
    pub yard_newline: bool,
    pub last_newline: bool,
}

impl History {
    pub fn new(yard: Vec<Vec<u8>>, lines: Vec<Vec<u8>>) -> History {
        History {
            yard: YardFile::Lines(yard),
            lines,
            yard_newline: true,
            last_newline: true,
        }
    }

    pub fn write_to(&self, folder: &Path) -> io::Result<()> {
        fs::create_dir_all(folder)?;
        match &self.yard {
            YardFile::Lines(lines) => {
                fs::write(folder.join("yard.hex"), joined(lines, self.yard_newline))?;
            }
            YardFile::Missing => {}
            YardFile::Folder => fs::create_dir(folder.join("yard.hex"))?,
        }
        fs::write(folder.join("stdin"), joined(&self.lines, self.last_newline))
    }
}

fn joined(lines: &[Vec<u8>], last_newline: bool) -> Vec<u8> {
    let mut bytes = lines.join(&b'\n');
    if last_newline && !lines.is_empty() {
        bytes.push(b'\n');
    }
    bytes
}

/// Lines with the sheet that they lead to, so that later ones can build on it.
#[derive(Default)]
pub struct Script {
    pub sheet: Sheet,
    pub lines: Vec<Vec<u8>>,
}

impl Script {
    pub fn carrier(&mut self, start: u16, goal: u16) {
        let _ = self.sheet.enter_carrier(start, goal);
        self.lines.push(write_line(Entry::Carrier { start, goal }));
    }

    pub fn stop(&mut self, carrier: usize, place: u16) {
        let _ = self.sheet.enter_stop(carrier, place);
        self.lines.push(write_line(Entry::Stop {
            carrier: carrier as u8,
            place,
        }));
    }

    pub fn precedence(&mut self, precedence: Precedence) {
        let _ = self.sheet.enter_precedence(precedence);
        self.lines.push(write_line(Entry::Precedence(precedence)));
    }

    pub fn strike(&mut self, precedence: Precedence) {
        let _ = self.sheet.strike_precedence(precedence);
        self.lines.push(write_line(Entry::Strike(precedence)));
    }

    pub fn judge(&mut self, rule: Rule) {
        self.lines.push(write_line(Entry::Judge(rule)));
    }

    /// Judges under a random rule.
    pub fn judge_any(&mut self, random: &mut Random) {
        self.judge(any_rule(random));
    }

    /// Judges under all three rules.
    pub fn judge_all(&mut self, random: &mut Random) {
        self.judge(Rule::FullLane);
        self.judge(Rule::LaneLessOne);
        self.judge(any_fixed_gap(random));
    }

    /// Enters routes; the carriers come in their order, the stops in any.
    pub fn enter_walks(&mut self, random: &mut Random, walks: &Walks) {
        let mixed = random.one_in(2);
        let mut entered = 0;
        let mut open: Vec<(usize, usize)> = Vec::new();
        while entered < walks.routes.len() || !open.is_empty() {
            let more_carriers = entered < walks.routes.len();
            if more_carriers && (open.is_empty() || !mixed || random.one_in(3)) {
                self.carrier(walks.routes[entered][0], walks.goals[entered]);
                open.push((entered, 1));
                entered += 1;
                continue;
            }
            let index = if mixed { random.below(open.len()) } else { 0 };
            let (carrier, next) = open[index];
            match walks.routes[carrier].get(next) {
                Some(&place) => {
                    self.stop(carrier, place);
                    open[index].1 += 1;
                }
                None => {
                    open.remove(index);
                }
            }
        }
    }

    /// Strikes a standing precedence, and mostly enters it again, often turned round.
    pub fn change_one(&mut self, random: &mut Random) {
        if self.sheet.precedences.is_empty() {
            return;
        }
        let standing = random.pick(&self.sheet.precedences);
        if random.one_in(8) {
            self.strike(standing.reversed());
        }
        self.strike(standing);
        match random.below(10) {
            0 => {}
            1..=3 => self.precedence(standing),
            _ => {
                self.precedence(standing.reversed());
                self.precedence(standing);
            }
        }
    }
}

pub fn any_rule(random: &mut Random) -> Rule {
    match random.below(3) {
        0 => Rule::FullLane,
        1 => Rule::LaneLessOne,
        _ => any_fixed_gap(random),
    }
}

pub fn any_fixed_gap(random: &mut Random) -> Rule {
    Rule::FixedGap(match random.below(8) {
        0 => 0,
        1 => LONGEST_GAP,
        2 => random.number(0, LONGEST_GAP),
        3 => random.number(0, 40),
        _ => random.number(0, 6),
    })
}
