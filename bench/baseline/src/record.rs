//! Records of a log (document 01, The records): refusals 1 to 5, and 9 of a rule.

use crate::call::Call;
use crate::numbers::{Container, Item, Refusal};
use crate::rules::{Action, Condition, Rule};
use crate::sets::Set;

pub enum Record {
    Call(Call),
    Rule(Rule),
}

/// The records of a log, in order.
pub struct Log<'a> {
    rest: &'a [u8],
}

impl<'a> Log<'a> {
    pub fn new(log: &'a [u8]) -> Self {
        Log { rest: log }
    }
}

impl Iterator for Log<'_> {
    type Item = Result<Record, Refusal>;

    fn next(&mut self) -> Option<Self::Item> {
        if self.rest.is_empty() {
            return None;
        }
        Some(match split(self.rest) {
            Some((tag, value, rest)) => {
                self.rest = rest;
                read(tag, value)
            }
            None => {
                self.rest = &[];
                Err(Refusal::CutShort)
            }
        })
    }
}

/// The tag and the value of the first record, and what comes after it; nothing if it runs past the end.
fn split(log: &[u8]) -> Option<(u8, &[u8], &[u8])> {
    match log {
        [tag, high, low, rest @ ..] => {
            let length = usize::from(u16::from_be_bytes([*high, *low]));
            let value = rest.get(..length)?;
            Some((*tag, value, rest.get(length..)?))
        }
        _ => None,
    }
}

fn read(tag: u8, value: &[u8]) -> Result<Record, Refusal> {
    match (tag, value) {
        (0x10, &[kind, process, a, b, c]) => Call::read([kind, process, a, b, c]).map(Record::Call),
        (0x11, &[item, s0, s1, s2, s3, s4, s5, s6, s7, action, substitute]) => {
            let action = read_action(action, substitute)?;
            let containers = Set(u64::from_be_bytes([s0, s1, s2, s3, s4, s5, s6, s7]));
            Ok(forbid(Item::new(item)?, containers, action))
        }
        (0x12, &[first, second, action, substitute]) => {
            let action = read_action(action, substitute)?;
            separate(Item::new(first)?, Item::new(second)?, action)
        }
        (0x13, &[item, s0, s1, s2, s3, s4, s5, s6, s7, action, substitute]) => {
            let action = read_action(action, substitute)?;
            let containers = Set(u64::from_be_bytes([s0, s1, s2, s3, s4, s5, s6, s7]));
            Ok(forbid(Item::new(item)?, !containers, action))
        }
        (0x10..=0x13, _) => Err(Refusal::WrongLength),
        _ => Err(Refusal::UnknownTag),
    }
}

/// The number of an unknown action comes before that of any other field out of range.
fn read_action(action: u8, substitute: u8) -> Result<Action, Refusal> {
    match (action, substitute) {
        (0, 0) => Ok(Action::Inhibit),
        (0, _) => Err(Refusal::OutOfRange),
        (1, 0..=7) => Ok(Action::Divert(Container::device(substitute)?)),
        (1, _) => Ok(Action::Divert(Container::file(substitute)?)),
        _ => Err(Refusal::UnknownKind),
    }
}

fn forbid(item: Item, containers: Set, action: Action) -> Record {
    Record::Rule(Rule { condition: Condition::Forbid(item, containers), action })
}

fn separate(first: Item, second: Item, action: Action) -> Result<Record, Refusal> {
    if first == second {
        return Err(Refusal::SameTwice);
    }
    Ok(Record::Rule(Rule { condition: Condition::Separate(first, second), action }))
}
