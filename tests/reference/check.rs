//! Compares the replies of another program with those of the reference.

use crate::judge::FoundRing;
use crate::lines::{Reply, read_bytes, split_lines};
use crate::session::Session;

const RING_NUMBER: u8 = 17;

/// The first reply that is not right.
pub struct Difference {
    /// The number of the reply, and so of its line, from 1.
    pub number: usize,
    pub what: String,
    pub line: Vec<u8>,
    pub expected: String,
    pub found: Vec<u8>,
}

/// Answers how many replies there are, all of them right.
pub fn compare(yard_file: &[u8], input: &[u8], replies: &[u8]) -> Result<usize, Difference> {
    let mut found = Found::new(replies);
    match Session::open(yard_file) {
        Err(refusal) => found.expect(b"(yard.hex)", &Reply::Refused(refusal))?,
        Ok(mut session) => {
            for line in split_lines(input) {
                found.expect(line, &session.answer(line))?;
            }
        }
    }
    found.expect_end()
}

/// The other program's replies, and how many of them have been compared.
struct Found<'a> {
    rest: &'a [u8],
    count: usize,
}

impl<'a> Found<'a> {
    fn new(replies: &'a [u8]) -> Found<'a> {
        Found {
            rest: replies,
            count: 0,
        }
    }

    fn expect(&mut self, line: &[u8], expected: &Reply) -> Result<(), Difference> {
        let reply = self.next();
        self.count += 1;
        let fault = match reply {
            Some(reply) => fault_in(reply, expected),
            None => Some("no reply that ends with a newline".to_string()),
        };
        match fault {
            None => Ok(()),
            Some(what) => Err(Difference {
                number: self.count,
                what,
                line: line.to_vec(),
                expected: expected.digits(),
                found: reply.unwrap_or(self.rest).to_vec(),
            }),
        }
    }

    fn next(&mut self) -> Option<&'a [u8]> {
        let end = self.rest.iter().position(|&byte| byte == b'\n')?;
        let reply = &self.rest[..end];
        self.rest = &self.rest[end + 1..];
        Some(reply)
    }

    fn expect_end(self) -> Result<usize, Difference> {
        if self.rest.is_empty() {
            return Ok(self.count);
        }
        Err(Difference {
            number: self.count + 1,
            what: "something after the last reply".to_string(),
            line: Vec::new(),
            expected: String::new(),
            found: self.rest.to_vec(),
        })
    }
}

fn fault_in(reply: &[u8], expected: &Reply) -> Option<String> {
    match expected {
        Reply::Ring(found) => fault_in_ring(reply, found).err(),
        _ => first_other_byte(reply, expected.digits().as_bytes())
            .map(|column| format!("the replies differ from column {column} on")),
    }
}

fn first_other_byte(one: &[u8], two: &[u8]) -> Option<usize> {
    let longest = one.len().max(two.len());
    (0..longest).find(|&column| one.get(column) != two.get(column))
}

/// Any ring that satisfies the definition is right.
fn fault_in_ring(reply: &[u8], found: &FoundRing) -> Result<(), String> {
    let ring = read_ring(reply).ok_or("not a well-formed ring")?;
    found
        .lags
        .check_ring(&ring)
        .map_err(|fault| fault.to_string())
}

fn read_ring(reply: &[u8]) -> Option<Vec<usize>> {
    let bytes = read_bytes(reply).ok()?;
    let (&number, fields) = bytes.split_first()?;
    let (numbers, odd) = fields.as_chunks::<2>();
    let numbers: Vec<usize> = numbers
        .iter()
        .map(|&pair| u16::from_be_bytes(pair).into())
        .collect();
    let (&length, stops) = numbers.split_first()?;
    let well_formed = number == RING_NUMBER && odd.is_empty() && stops.len() == length;
    well_formed.then(|| stops.to_vec())
}
