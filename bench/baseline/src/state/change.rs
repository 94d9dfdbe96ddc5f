//! Effects made on the state: document 01, the table of calls; mappings counted by document 02, Paper 4.

use super::{Change, Flow, State, UNBOUND, UNMAPPED};
use crate::numbers::{Container, Descriptor, Name, Process, Sort};
use crate::sets::Set;

impl State {
    /// Gives what flows, and answers how many containers gain an item (document 02, Paper 5). None gains by both gifts:
    /// what is in the reach of the process and of the container holds what both hold.
    pub fn give(&mut self, flow: &Flow) -> u8 {
        let [first, second] = flow.0;
        self.add(first.items, first.to) + self.add(second.items, second.to)
    }

    /// Adds the items to each container, and answers how many these are.
    fn add(&mut self, items: Set, to: Set) -> u8 {
        let mut count = 0;
        for n in to.members() {
            self.items[Container::member(n).index()] |= items;
            count += 1;
        }
        count
    }

    pub fn change(&mut self, change: Change) {
        match change {
            Change::Nothing => {}
            Change::Start(process) => self.use_once(process.container()),
            Change::Open(process, descriptor, container) => self.open(process, descriptor, container),
            Change::Create(name, process, descriptor, file) => {
                self.bind(name, file);
                self.open(process, descriptor, file);
            }
            Change::Pipe(process, one, other, file) => {
                self.open(process, one, file);
                self.open(process, other, file);
            }
            Change::Close(process, descriptor) => self.close(process, descriptor),
            Change::Truncate(container) => self.truncate(container),
            Change::MapRead(process, container) => {
                self.raise(process, container, Sort::ToRead);
                self.link(container, process.container());
            }
            Change::MapBoth(process, container) => {
                self.raise(process, container, Sort::BothWays);
                self.link(container, process.container());
                self.link(process.container(), container);
            }
            Change::Unmap(process, container, sort) => self.unmap(process, container, sort),
            Change::Unlink(name) => self.unbind(name),
            Change::Rename(from, to) => self.rename(from, to),
            Change::Bind(name, container) => self.bind(name, container),
            Change::Fork(process, child) => self.fork(process, child),
            Change::Exit(process) => self.exit(process),
        }
    }

    fn use_once(&mut self, container: Container) {
        self.uses[container.index()] += 1;
    }

    /// Ends one use; what is no longer in use is emptied.
    fn release(&mut self, container: Container) {
        let uses = &mut self.uses[container.index()];
        *uses -= 1;
        if *uses == 0 {
            self.items[container.index()] = Set::EMPTY;
        }
    }

    fn open(&mut self, process: Process, descriptor: Descriptor, container: Container) {
        self.open[process.index()] |= 1 << descriptor.index();
        self.descriptors[process.index()][descriptor.index()] = container.number();
        self.use_once(container);
    }

    fn close(&mut self, process: Process, descriptor: Descriptor) {
        self.open[process.index()] &= !(1 << descriptor.index());
        self.release(Container::member(self.descriptors[process.index()][descriptor.index()]));
    }

    fn bind(&mut self, name: Name, container: Container) {
        self.names[name.index()] = container.number();
        self.use_once(container);
    }

    fn unbind(&mut self, name: Name) {
        if let Ok(container) = self.bound(name) {
            self.names[name.index()] = UNBOUND;
            self.release(container);
        }
    }

    fn rename(&mut self, from: Name, to: Name) {
        if from == to {
            return;
        }
        self.unbind(to);
        self.names[to.index()] = self.names[from.index()];
        self.names[from.index()] = UNBOUND;
    }

    fn truncate(&mut self, container: Container) {
        if self.fed_by[container.index()].is_empty() {
            self.items[container.index()] = Set::EMPTY;
        }
    }

    /// One mapping more.
    fn raise(&mut self, process: Process, container: Container, sort: Sort) {
        self.counts[process.index()][container.index()][sort as usize] += 1;
    }

    /// One mapping less: the link to the process lasts while either count is above 0, the other while the two-way one is.
    fn unmap(&mut self, process: Process, container: Container, sort: Sort) {
        let counts = &mut self.counts[process.index()][container.index()];
        counts[sort as usize] -= 1;
        let [to_read, both_ways] = *counts;
        if both_ways == 0 {
            self.end_link(process.container(), container);
            if to_read == 0 {
                self.end_link(container, process.container());
            }
        }
    }

    fn link(&mut self, from: Container, to: Container) {
        if self.feeds[from.index()].has(to.index()) {
            return;
        }
        self.feeds[from.index()] |= Set::only(to.index());
        self.fed_by[to.index()] |= Set::only(from.index());
        self.use_once(from);
        self.use_once(to);
    }

    fn end_link(&mut self, from: Container, to: Container) {
        if !self.feeds[from.index()].has(to.index()) {
            return;
        }
        self.feeds[from.index()] -= Set::only(to.index());
        self.fed_by[to.index()] -= Set::only(from.index());
        self.release(from);
        self.release(to);
    }

    /// The open descriptors of a process.
    fn open_set(&self, process: Process) -> Set {
        Set(u64::from(self.open[process.index()]))
    }

    fn fork(&mut self, process: Process, child: Process) {
        let (own, new) = (process.container(), child.container());
        self.use_once(new);
        let entries = self.descriptors[process.index()];
        self.descriptors[child.index()] = entries;
        self.open[child.index()] = self.open[process.index()];
        for n in self.open_set(process).members() {
            self.use_once(Container::member(entries[usize::from(n) % Descriptor::LIMIT]));
        }
        self.counts[child.index()] = self.counts[process.index()];
        for n in self.fed_by[own.index()].members() {
            self.link(Container::member(n), new);
        }
        for n in self.feeds[own.index()].members() {
            self.link(new, Container::member(n));
        }
    }

    fn exit(&mut self, process: Process) {
        let own = process.container();
        let entries = self.descriptors[process.index()];
        let open = self.open_set(process);
        self.open[process.index()] = 0;
        for n in open.members() {
            self.release(Container::member(entries[usize::from(n) % Descriptor::LIMIT]));
        }
        self.counts[process.index()] = [UNMAPPED; Container::LIMIT];
        for n in self.fed_by[own.index()].members() {
            self.end_link(Container::member(n), own);
        }
        for n in self.feeds[own.index()].members() {
            self.end_link(own, Container::member(n));
        }
        self.release(own);
    }
}
