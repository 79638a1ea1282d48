//! One run of the program: a yard, a sheet, and a reply for every line.

use crate::judge::{Verdict, judge};
use crate::lines::{Entry, Input, Refusal, Reply, read_line};
use crate::sheet::Sheet;
use crate::yard::Yard;

pub struct Session {
    yard: Yard,
    sheet: Sheet,
}

impl Session {
    pub fn open(yard_file: &[u8]) -> Result<Session, Refusal> {
        Ok(Session {
            yard: Yard::read(yard_file)?,
            sheet: Sheet::default(),
        })
    }

    pub fn answer(&mut self, line: &[u8]) -> Reply {
        read_line(line, Input::Sheet)
            .and_then(|entry| self.call(entry))
            .unwrap_or_else(Reply::Refused)
    }

    fn call(&mut self, entry: Entry) -> Result<Reply, Refusal> {
        let answer = match entry {
            Entry::Carrier { start, goal } => self.sheet.enter_carrier(start, goal),
            Entry::Stop { carrier, place } => self.sheet.enter_stop(carrier.into(), place),
            Entry::Precedence(precedence) => self.sheet.enter_precedence(precedence),
            Entry::Strike(precedence) => self.sheet.strike_precedence(precedence),
            Entry::Judge(rule) => {
                return match judge(&self.sheet, &self.yard, rule) {
                    Verdict::Pass(arrivals) => Ok(Reply::Pass(arrivals)),
                    Verdict::Ring(found) => Ok(Reply::Ring(found)),
                    Verdict::Refused(refusal) => Err(refusal),
                };
            }
            Entry::Lane(_) => unreachable!("standard input has no lane lines"),
        };
        answer.map(Reply::Accepted)
    }
}
