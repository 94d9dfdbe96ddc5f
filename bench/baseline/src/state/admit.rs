//! Refusals 6 to 10, 14 to 16 in 8's place, and 17 (document 01, What a record gets; document 02, Papers 2 and 4), and
//! what an accepted call does.

use super::{refuse_if, Change, Effect, Flow, Gift, State};
use crate::call::{Act, Call};
use crate::numbers::{Container, Descriptor, Name, Process, Refusal, Sort};
use crate::sets::Set;

type Admitted = Result<Effect, Refusal>;

fn changing(change: Change) -> Admitted {
    Ok(Effect { flow: Flow::NONE, change })
}

fn giving(gift: Gift) -> Admitted {
    Ok(Effect { flow: gift.into(), change: Change::Nothing })
}

impl State {
    pub fn admit(&self, call: Call) -> Admitted {
        match call {
            Call::Start(process) => {
                refuse_if(self.is_live(process), Refusal::Taken)?;
                changing(Change::Start(process))
            }
            Call::Label(container, item) => {
                refuse_if(!self.in_use(container), Refusal::Missing)?;
                giving(self.gift(Set::only(item.index()), container))
            }
            Call::By(process, act) => {
                refuse_if(!self.is_live(process), Refusal::DeadProcess)?;
                self.admit_act(process, act)
            }
        }
    }

    fn admit_act(&self, process: Process, act: Act) -> Admitted {
        match act {
            Act::Open(name, descriptor) => self.admit_open(process, name, descriptor),
            Act::Create(name, descriptor, file) => self.admit_create(process, name, descriptor, file),
            Act::Pipe(one, other, file) => self.admit_pipe(process, one, other, file),
            Act::Device(descriptor, device) => self.admit_device(process, descriptor, device),
            Act::Dup(from, to) => self.admit_dup(process, from, to),
            Act::Close(descriptor) => self.admit_close(process, descriptor),
            Act::Read(descriptor) => giving(self.reading(process, self.opened(process, descriptor)?)),
            Act::Write(descriptor) => giving(self.writing(process, self.opened(process, descriptor)?)),
            Act::Truncate(descriptor) => self.admit_truncate(process, descriptor),
            Act::MapRead(descriptor) => self.admit_map_read(process, descriptor),
            Act::MapBoth(descriptor) => self.admit_map_both(process, descriptor),
            Act::Unmap(container, sort) => self.admit_unmap(process, container, sort),
            Act::Unlink(name) => self.bound(name).and_then(|_| changing(Change::Unlink(name))),
            Act::Rename(from, to) => self.bound(from).and_then(|_| changing(Change::Rename(from, to))),
            Act::Link(from, to) => self.admit_link(from, to),
            Act::Fork(child) => self.admit_fork(process, child),
            Act::Exit => changing(Change::Exit(process)),
        }
    }

    fn reading(&self, process: Process, from: Container) -> Gift {
        self.gift(self.items(from), process.container())
    }

    pub fn writing(&self, process: Process, to: Container) -> Gift {
        self.gift(self.items(process.container()), to)
    }

    fn admit_open(&self, process: Process, name: Name, descriptor: Descriptor) -> Admitted {
        self.refuse_open(process, descriptor)?;
        changing(Change::Open(process, descriptor, self.bound(name)?))
    }

    fn admit_create(&self, process: Process, name: Name, descriptor: Descriptor, file: Container) -> Admitted {
        self.refuse_open(process, descriptor)?;
        self.refuse_bound(name)?;
        self.refuse_used(file)?;
        changing(Change::Create(name, process, descriptor, file))
    }

    fn admit_pipe(&self, process: Process, one: Descriptor, other: Descriptor, file: Container) -> Admitted {
        self.refuse_open(process, one)?;
        self.refuse_open(process, other)?;
        self.refuse_used(file)?;
        refuse_if(one == other, Refusal::SameTwice)?;
        changing(Change::Pipe(process, one, other, file))
    }

    fn admit_device(&self, process: Process, descriptor: Descriptor, device: Container) -> Admitted {
        self.refuse_open(process, descriptor)?;
        changing(Change::Open(process, descriptor, device))
    }

    fn admit_dup(&self, process: Process, from: Descriptor, to: Descriptor) -> Admitted {
        self.refuse_open(process, to)?;
        changing(Change::Open(process, to, self.opened(process, from)?))
    }

    fn admit_close(&self, process: Process, descriptor: Descriptor) -> Admitted {
        self.opened(process, descriptor)?;
        changing(Change::Close(process, descriptor))
    }

    fn admit_truncate(&self, process: Process, descriptor: Descriptor) -> Admitted {
        let container = self.opened(process, descriptor)?;
        refuse_if(container.is_device(), Refusal::NoFile)?;
        changing(Change::Truncate(container))
    }

    fn admit_map_read(&self, process: Process, descriptor: Descriptor) -> Admitted {
        let container = self.opened(process, descriptor)?;
        refuse_if(self.count(process, container, Sort::ToRead) == u8::MAX, Refusal::CountFull)?;
        let flow = self.reading(process, container).into();
        Ok(Effect { flow, change: Change::MapRead(process, container) })
    }

    /// The read, then the write of what the process then holds (document 02, Paper 3).
    fn admit_map_both(&self, process: Process, descriptor: Descriptor) -> Admitted {
        let container = self.opened(process, descriptor)?;
        refuse_if(self.count(process, container, Sort::BothWays) == u8::MAX, Refusal::CountFull)?;
        let reading = self.reading(process, container);
        let writing = self.gift(self.items(process.container()) | reading.items, container);
        let flow = Flow([reading, writing]);
        Ok(Effect { flow, change: Change::MapBoth(process, container) })
    }

    fn admit_unmap(&self, process: Process, container: Container, sort: Sort) -> Admitted {
        refuse_if(self.count(process, container, sort) == 0, Refusal::NoLink)?;
        changing(Change::Unmap(process, container, sort))
    }

    fn admit_link(&self, from: Name, to: Name) -> Admitted {
        self.refuse_bound(to)?;
        changing(Change::Bind(to, self.bound(from)?))
    }

    /// The child alone gains: what the parent feeds holds the parent's items already.
    fn admit_fork(&self, process: Process, child: Process) -> Admitted {
        refuse_if(self.is_live(child), Refusal::Taken)?;
        let items = self.items(process.container());
        let to = if items.is_empty() { Set::EMPTY } else { Set::only(child.container().index()) };
        Ok(Effect { flow: Gift { items, to }.into(), change: Change::Fork(process, child) })
    }
}
