//! Rules (document 01, The records), and which of them a flow of items breaks.
//!
//! No state breaks a loaded rule: one that it breaks is refused when it comes, and a call that would break one is
//! stopped. So only the containers that gain an item are judged, each by the mask of the items that it is forbidden.

use crate::numbers::{Container, Item, Refusal};
use crate::sets::Set;
use crate::state::{Flow, State};

const LIMIT: usize = 32;

#[derive(Clone, Copy)]
pub enum Condition {
    /// The item may not be in these containers.
    Forbid(Item, Set),
    /// The two items may not be in one container.
    Separate(Item, Item),
}

#[derive(Clone, Copy)]
pub enum Action {
    Inhibit,
    Divert(Container),
}

#[derive(Clone, Copy)]
pub struct Rule {
    pub condition: Condition,
    pub action: Action,
}

fn holds_both(held: Set, first: Item, second: Item) -> bool {
    held.has(first.index()) && held.has(second.index())
}

impl Condition {
    fn is_broken(&self, state: &State) -> bool {
        match *self {
            Condition::Forbid(item, containers) => {
                containers.members().any(|n| state.items(Container::member(n)).has(item.index()))
            }
            Condition::Separate(first, second) => state.all_items().iter().any(|&held| holds_both(held, first, second)),
        }
    }

    fn is_broken_by(&self, state: &State, flow: &Flow) -> bool {
        match *self {
            Condition::Forbid(item, containers) => {
                flow.0.iter().any(|gift| gift.items.has(item.index()) && gift.to.meets(containers))
            }
            Condition::Separate(first, second) => flow.gainers().members().any(|n| {
                let container = Container::member(n);
                holds_both(state.items(container) | flow.given(container), first, second)
            }),
        }
    }
}

pub struct Rules {
    list: [Option<Rule>; LIMIT],
    count: u8,
    /// For each container the items that it may not hold.
    forbidden: [Set; Container::LIMIT],
    /// For each item the items that it may not be with.
    apart: [Set; Item::LIMIT],
    /// The items that `apart` has something for.
    separated: Set,
    /// The items of all rules.
    watched: Set,
}

impl Rules {
    pub fn new() -> Rules {
        Rules {
            list: [None; LIMIT],
            count: 0,
            forbidden: [Set::EMPTY; Container::LIMIT],
            apart: [Set::EMPTY; Item::LIMIT],
            separated: Set::EMPTY,
            watched: Set::EMPTY,
        }
    }

    /// Loads a rule and answers its number.
    pub fn load(&mut self, rule: Rule, state: &State) -> Result<u8, Refusal> {
        let number = self.count;
        let place = self.list.get_mut(usize::from(number)).ok_or(Refusal::RulesFull)?;
        if rule.condition.is_broken(state) {
            return Err(Refusal::BrokenAlready);
        }
        *place = Some(rule);
        self.count += 1;
        self.mark(rule.condition);
        Ok(number)
    }

    /// Puts a condition into the masks.
    fn mark(&mut self, condition: Condition) {
        match condition {
            Condition::Forbid(item, containers) => {
                self.watched |= Set::only(item.index());
                for n in containers.members() {
                    self.forbidden[Container::member(n).index()] |= Set::only(item.index());
                }
            }
            Condition::Separate(first, second) => {
                self.apart[first.index()] |= Set::only(second.index());
                self.apart[second.index()] |= Set::only(first.index());
                let both = Set::only(first.index()) | Set::only(second.index());
                self.separated |= both;
                self.watched |= both;
            }
        }
    }

    /// The number and the action of the lowest rule that the flow would break.
    #[inline(always)]
    pub fn lowest_broken(&self, state: &State, flow: &Flow) -> Option<(u8, Action)> {
        if flow.items().meets(self.watched) {
            self.lowest_of_all(state, flow)
        } else {
            None
        }
    }

    /// The same for a flow of items that rules speak of.
    #[inline(never)]
    fn lowest_of_all(&self, state: &State, flow: &Flow) -> Option<(u8, Action)> {
        if !flow.gainers().members().any(|n| self.is_broken_at(Container::member(n), state, flow)) {
            return None;
        }
        let rules = (0..).zip(self.list.iter().flatten());
        let mut broken = rules.filter(|(_, rule)| rule.condition.is_broken_by(state, flow));
        broken.next().map(|(number, rule)| (number, rule.action))
    }

    /// Whether the flow breaks a rule in one container.
    fn is_broken_at(&self, container: Container, state: &State, flow: &Flow) -> bool {
        let held = state.items(container);
        let given = flow.given(container);
        let mut new = ((given - held) & self.separated).members();
        given.meets(self.forbidden[container.index()])
            || new.any(|n| (held | given).meets(self.apart[usize::from(n) % Item::LIMIT]))
    }
}
