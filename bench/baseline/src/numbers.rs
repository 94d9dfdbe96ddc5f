//! Numbers of the box (document 01, The box) as types of their own, and the refusals.

/// Why a record is refused: document 01, What a record gets, and document 02, Papers 2 and 4. In the order of the tests:
/// the first that applies is given.
#[derive(Clone, Copy, PartialEq, Eq, Debug)]
pub enum Refusal {
    CutShort = 1,
    UnknownTag = 2,
    WrongLength = 3,
    UnknownKind = 4,
    OutOfRange = 5,
    DeadProcess = 6,
    Taken = 7,
    Missing = 8,
    DescriptorClosed = 14,
    NameUnbound = 15,
    NoLink = 16,
    SameTwice = 9,
    NoFile = 10,
    CountFull = 17,
    RulesFull = 11,
    BrokenAlready = 12,
}

/// A number below a limit, tested when it is made. Every limit is a power of two, so `index` is one mask and lets the
/// compiler leave out the test of an array's bounds.
macro_rules! number {
    ($(#[$note:meta])* $name:ident, $limit:literal) => {
        $(#[$note])*
        #[derive(Clone, Copy, PartialEq, Eq, Debug)]
        pub struct $name(u8);

        impl $name {
            pub const LIMIT: usize = $limit;

            pub fn new(n: u8) -> Result<Self, Refusal> {
                if usize::from(n) < Self::LIMIT {
                    Ok(Self(n))
                } else {
                    Err(Refusal::OutOfRange)
                }
            }

            pub fn index(self) -> usize {
                usize::from(self.0) % Self::LIMIT
            }
        }
    };
}

number!(
    /// 0 to 7 are devices, 8 to 23 processes, 24 to 63 files and pipes.
    Container, 64
);
number!(Process, 16);
number!(Descriptor, 32);
number!(Name, 128);
number!(Item, 64);

/// The two sorts of mapping (document 02, Paper 4), by the number that unmap names them with.
#[derive(Clone, Copy, PartialEq, Eq, Debug)]
pub enum Sort {
    ToRead = 0,
    BothWays = 1,
}

impl Sort {
    pub fn new(n: u8) -> Result<Self, Refusal> {
        match n {
            0 => Ok(Sort::ToRead),
            1 => Ok(Sort::BothWays),
            _ => Err(Refusal::OutOfRange),
        }
    }
}

const FIRST_PROCESS: u8 = 8;
const FIRST_FILE: u8 = 24;

impl Container {
    pub const DEVICES: usize = FIRST_PROCESS as usize;

    /// A device.
    pub fn device(n: u8) -> Result<Self, Refusal> {
        if n < FIRST_PROCESS {
            Ok(Self(n))
        } else {
            Err(Refusal::OutOfRange)
        }
    }

    /// A file or a pipe.
    pub fn file(n: u8) -> Result<Self, Refusal> {
        if n >= FIRST_FILE {
            Self::new(n)
        } else {
            Err(Refusal::OutOfRange)
        }
    }

    /// A member of a set.
    pub fn member(n: u8) -> Self {
        Self(n % Self::LIMIT as u8)
    }

    pub fn is_device(self) -> bool {
        self.0 < FIRST_PROCESS
    }

    pub fn number(self) -> u8 {
        self.0
    }
}

impl Process {
    pub fn container(self) -> Container {
        Container(FIRST_PROCESS + self.0)
    }
}
