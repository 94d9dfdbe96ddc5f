//! What a record gets (document 01, What a record gets).

use crate::call::{Act, Call};
use crate::numbers::{Container, Refusal};
use crate::record::Record;
use crate::rules::{Action, Rule, Rules};
use crate::state::{Effect, Flow, State};

pub enum Answer {
    /// With how many containers gained.
    Allow(u8),
    Inhibit(u8),
    /// With the rule, where the write went, and how many containers gained by that.
    Modify(u8, Container, u8),
    Loaded(u8),
    Refused(Refusal),
}

/// The tracker with its rules.
pub struct Monitor {
    state: State,
    rules: Rules,
}

impl Monitor {
    pub fn new() -> Monitor {
        Monitor { state: State::new(), rules: Rules::new() }
    }

    /// Answers a record, and makes its change.
    pub fn answer(&mut self, record: Result<Record, Refusal>) -> Answer {
        let answer = match record {
            Ok(Record::Call(call)) => self.call(call),
            Ok(Record::Rule(rule)) => self.load(rule),
            Err(refusal) => Err(refusal),
        };
        answer.unwrap_or_else(Answer::Refused)
    }

    fn load(&mut self, rule: Rule) -> Result<Answer, Refusal> {
        self.rules.load(rule, &self.state).map(Answer::Loaded)
    }

    fn call(&mut self, call: Call) -> Result<Answer, Refusal> {
        let Effect { flow, change } = self.state.admit(call)?;
        let mut gained = 0;
        if !flow.gainers().is_empty() {
            if let Some((number, action)) = self.rules.lowest_broken(&self.state, &flow) {
                return Ok(self.stop(call, number, action));
            }
            gained = self.state.give(&flow);
        }
        self.state.change(change);
        Ok(Answer::Allow(gained))
    }

    /// A rule stops the call: a write is diverted if it can be, all else is inhibited.
    fn stop(&mut self, call: Call, number: u8, action: Action) -> Answer {
        match self.diversion(call, action) {
            Some((flow, substitute)) => {
                let gained = self.state.give(&flow);
                Answer::Modify(number, substitute, gained)
            }
            None => Answer::Inhibit(number),
        }
    }

    /// The write to the substitute, if the action asks for one and it breaks no rule.
    fn diversion(&self, call: Call, action: Action) -> Option<(Flow, Container)> {
        match (call, action) {
            (Call::By(process, Act::Write(_)), Action::Divert(substitute)) if self.state.in_use(substitute) => {
                let flow = Flow::from(self.state.writing(process, substitute));
                match self.rules.lowest_broken(&self.state, &flow) {
                    None => Some((flow, substitute)),
                    Some(_) => None,
                }
            }
            _ => None,
        }
    }
}
