//! What the tracker keeps: items, links, counts of mappings, names, descriptors, and how often each container is used.
//!
//! An accepted call is an `Effect`: a flow of items and a change of the tables. It is worked out without touching the
//! state (`admit`), so that rules can be judged before it is made (`change`) and nothing has to be undone.

mod admit;
mod change;

use crate::numbers::{Container, Descriptor, Name, Process, Refusal, Sort};
use crate::sets::Set;

/// Items, and the containers in the reach given to that lack some of them.
#[derive(Clone, Copy)]
pub struct Gift {
    pub items: Set,
    pub to: Set,
}

impl Gift {
    const NONE: Gift = Gift { items: Set::EMPTY, to: Set::EMPTY };
}

/// The gifts of a call; only map both has two.
#[derive(Clone, Copy)]
pub struct Flow(pub [Gift; 2]);

impl Flow {
    const NONE: Flow = Flow([Gift::NONE; 2]);

    /// The items of the gifts.
    pub fn items(&self) -> Set {
        self.0[0].items | self.0[1].items
    }

    /// The containers that gain an item.
    pub fn gainers(&self) -> Set {
        self.0[0].to | self.0[1].to
    }

    /// What a container is given.
    pub fn given(&self, container: Container) -> Set {
        self.0.iter().filter(|gift| gift.to.has(container.index())).fold(Set::EMPTY, |all, gift| all | gift.items)
    }
}

impl From<Gift> for Flow {
    fn from(gift: Gift) -> Flow {
        Flow([gift, Gift::NONE])
    }
}

/// What a call does to the tables.
#[derive(Clone, Copy)]
pub enum Change {
    Nothing,
    Start(Process),
    Open(Process, Descriptor, Container),
    Create(Name, Process, Descriptor, Container),
    Pipe(Process, Descriptor, Descriptor, Container),
    Close(Process, Descriptor),
    Truncate(Container),
    MapRead(Process, Container),
    MapBoth(Process, Container),
    Unmap(Process, Container, Sort),
    Unlink(Name),
    Rename(Name, Name),
    Bind(Name, Container),
    Fork(Process, Process),
    Exit(Process),
}

#[derive(Clone, Copy)]
pub struct Effect {
    pub flow: Flow,
    pub change: Change,
}

fn refuse_if(condition: bool, refusal: Refusal) -> Result<(), Refusal> {
    if condition {
        Err(refusal)
    } else {
        Ok(())
    }
}

/// The mark of an unbound name.
const UNBOUND: u8 = 0xFF;

/// How often a process maps a container: to read, and both ways. Indexed by sort.
type Counts = [u8; 2];
const UNMAPPED: Counts = [0; 2];

pub struct State {
    items: [Set; Container::LIMIT],
    feeds: [Set; Container::LIMIT],
    fed_by: [Set; Container::LIMIT],
    /// Of each process with each container; the links follow from them.
    counts: [[Counts; Container::LIMIT]; Process::LIMIT],
    /// Names, open descriptors and ends of links; one more for a device, and for a live process.
    uses: [u16; Container::LIMIT],
    names: [u8; Name::LIMIT],
    descriptors: [[u8; Descriptor::LIMIT]; Process::LIMIT],
    /// A bit for each open descriptor.
    open: [u32; Process::LIMIT],
}

impl State {
    pub fn new() -> State {
        let mut uses = [0; Container::LIMIT];
        uses[..Container::DEVICES].fill(1);
        State {
            items: [Set::EMPTY; Container::LIMIT],
            feeds: [Set::EMPTY; Container::LIMIT],
            fed_by: [Set::EMPTY; Container::LIMIT],
            counts: [[UNMAPPED; Container::LIMIT]; Process::LIMIT],
            uses,
            names: [UNBOUND; Name::LIMIT],
            descriptors: [[0; Descriptor::LIMIT]; Process::LIMIT],
            open: [0; Process::LIMIT],
        }
    }

    pub fn items(&self, container: Container) -> Set {
        self.items[container.index()]
    }

    pub fn all_items(&self) -> &[Set] {
        &self.items
    }

    pub fn in_use(&self, container: Container) -> bool {
        self.uses[container.index()] != 0
    }

    fn is_live(&self, process: Process) -> bool {
        self.in_use(process.container())
    }

    fn is_open(&self, process: Process, descriptor: Descriptor) -> bool {
        self.open[process.index()] >> descriptor.index() & 1 != 0
    }

    fn opened(&self, process: Process, descriptor: Descriptor) -> Result<Container, Refusal> {
        refuse_if(!self.is_open(process, descriptor), Refusal::DescriptorClosed)?;
        Ok(Container::member(self.descriptors[process.index()][descriptor.index()]))
    }

    fn bound(&self, name: Name) -> Result<Container, Refusal> {
        let entry = self.names[name.index()];
        refuse_if(entry == UNBOUND, Refusal::NameUnbound)?;
        Ok(Container::member(entry))
    }

    /// How many mappings of a sort a process has of a container.
    fn count(&self, process: Process, container: Container, sort: Sort) -> u8 {
        self.counts[process.index()][container.index()][sort as usize]
    }

    fn refuse_open(&self, process: Process, descriptor: Descriptor) -> Result<(), Refusal> {
        refuse_if(self.is_open(process, descriptor), Refusal::Taken)
    }

    fn refuse_bound(&self, name: Name) -> Result<(), Refusal> {
        refuse_if(self.bound(name).is_ok(), Refusal::Taken)
    }

    fn refuse_used(&self, container: Container) -> Result<(), Refusal> {
        refuse_if(self.in_use(container), Refusal::Taken)
    }

    /// A gift of items. A container holds all that its feeders hold, so the search stops where nothing is gained.
    pub fn gift(&self, items: Set, to: Container) -> Gift {
        let mut gainers = Set::EMPTY;
        let mut found = Set::only(to.index());
        let mut left = found;
        while let Some(n) = left.pop() {
            let container = Container::member(n).index();
            if (items - self.items[container]).is_empty() {
                continue;
            }
            gainers |= Set::only(container);
            left |= self.feeds[container] - found;
            found |= self.feeds[container];
        }
        Gift { items, to: gainers }
    }
}
