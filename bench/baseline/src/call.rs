//! A call read from its five bytes: refusals 4 and 5.

use crate::numbers::{Container, Descriptor, Item, Name, Process, Refusal, Sort};

#[derive(Clone, Copy, Debug)]
pub enum Call {
    Start(Process),
    Label(Container, Item),
    By(Process, Act),
}

/// What a live process asks for.
#[derive(Clone, Copy, Debug)]
pub enum Act {
    Open(Name, Descriptor),
    Create(Name, Descriptor, Container),
    Pipe(Descriptor, Descriptor, Container),
    Device(Descriptor, Container),
    Dup(Descriptor, Descriptor),
    Close(Descriptor),
    Read(Descriptor),
    Write(Descriptor),
    Truncate(Descriptor),
    MapRead(Descriptor),
    MapBoth(Descriptor),
    Unmap(Container, Sort),
    Unlink(Name),
    Rename(Name, Name),
    Link(Name, Name),
    Fork(Process),
    Exit,
}

/// A field that a kind does not use.
fn unused(n: u8) -> Result<(), Refusal> {
    if n == 0 {
        Ok(())
    } else {
        Err(Refusal::OutOfRange)
    }
}

/// A descriptor in `a`, with nothing behind it.
fn descriptor_alone(a: u8, b: u8, c: u8) -> Result<Descriptor, Refusal> {
    unused(b | c)?;
    Descriptor::new(a)
}

impl Call {
    /// Reads kind, process, a, b and c.
    pub fn read([kind, process, a, b, c]: [u8; 5]) -> Result<Call, Refusal> {
        match kind {
            1 => {
                unused(a | b | c)?;
                Ok(Call::Start(Process::new(process)?))
            }
            19 => {
                unused(process | c)?;
                Ok(Call::Label(Container::new(a)?, Item::new(b)?))
            }
            _ => {
                let act = Act::read(kind, a, b, c)?;
                Ok(Call::By(Process::new(process)?, act))
            }
        }
    }
}

impl Act {
    fn read(kind: u8, a: u8, b: u8, c: u8) -> Result<Act, Refusal> {
        match kind {
            2..=6 => Act::read_opening(kind, a, b, c),
            7 => Ok(Act::Close(descriptor_alone(a, b, c)?)),
            8 => Ok(Act::Read(descriptor_alone(a, b, c)?)),
            9 => Ok(Act::Write(descriptor_alone(a, b, c)?)),
            10 => Ok(Act::Truncate(descriptor_alone(a, b, c)?)),
            11 => Ok(Act::MapRead(descriptor_alone(a, b, c)?)),
            12 => Ok(Act::MapBoth(descriptor_alone(a, b, c)?)),
            13..=18 => Act::read_other(kind, a, b, c),
            _ => Err(Refusal::UnknownKind),
        }
    }

    /// The kinds 2 to 6, which make descriptors.
    fn read_opening(kind: u8, a: u8, b: u8, c: u8) -> Result<Act, Refusal> {
        match kind {
            3 => return Ok(Act::Create(Name::new(a)?, Descriptor::new(b)?, Container::file(c)?)),
            4 => return Ok(Act::Pipe(Descriptor::new(a)?, Descriptor::new(b)?, Container::file(c)?)),
            _ => unused(c)?,
        }
        match kind {
            2 => Ok(Act::Open(Name::new(a)?, Descriptor::new(b)?)),
            5 => Ok(Act::Device(Descriptor::new(a)?, Container::device(b)?)),
            _ => Ok(Act::Dup(Descriptor::new(a)?, Descriptor::new(b)?)),
        }
    }

    /// The kinds 13 to 18: unmap, names and processes.
    fn read_other(kind: u8, a: u8, b: u8, c: u8) -> Result<Act, Refusal> {
        match kind {
            13 | 15 | 16 => unused(c)?,
            _ => unused(b | c)?,
        }
        match kind {
            13 => Ok(Act::Unmap(Container::new(a)?, Sort::new(b)?)),
            14 => Ok(Act::Unlink(Name::new(a)?)),
            15 => Ok(Act::Rename(Name::new(a)?, Name::new(b)?)),
            16 => Ok(Act::Link(Name::new(a)?, Name::new(b)?)),
            17 => Ok(Act::Fork(Process::new(a)?)),
            _ => unused(a).map(|()| Act::Exit),
        }
    }
}
