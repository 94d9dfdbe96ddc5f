//! Pomtvia for Rust: a data flow tracker for the system calls of a small box.
//!
//! A [`Monitor`] is a tracker with its rules. [`Monitor::new`] makes it and its methods alone change it, so no loaded rule is ever broken in
//! it; for every such monitor and all bytes the functions behind the methods are proved to answer as document 01 says, with Papers 1 to 5 of
//! document 02. Every method is safe to call with any value: what the functions ask of memory (pointers that hold as much as is said, nothing
//! shared while it is written) follows from the types here. Nothing is allocated.
#![no_std]

mod archive;

use archive as c;

/// The most records that a log of `bytes` bytes can hold.
pub const fn records_in(bytes: usize) -> usize {
    bytes / 3 + (bytes % 3 != 0) as usize
}

/// The number of a refusal (document 01, What a record gets). The constants stand in the order in which the tests are tried, and the first
/// that applies is the answer: the earliest place decides, not the lowest number (document 02, Papers 2 and 4).
#[derive(Clone, Copy, Debug, PartialEq, Eq)]
pub struct Refusal(pub u8);

impl Refusal {
    /// The header or the value runs past the end; reading ends.
    pub const CUT_SHORT: Refusal = Refusal(1);
    /// No tag of a record.
    pub const UNKNOWN_TAG: Refusal = Refusal(2);
    /// Not the tag's length.
    pub const WRONG_LENGTH: Refusal = Refusal(3);
    /// No kind of a call, or no action of a rule.
    pub const UNKNOWN_KIND: Refusal = Refusal(4);
    /// A field outside its range, or one that is not used and not 0.
    pub const OUT_OF_RANGE: Refusal = Refusal(5);
    /// The calling process is not live.
    pub const DEAD_PROCESS: Refusal = Refusal(6);
    /// What is to be new is there already: a process, a descriptor, a name or a container.
    pub const TAKEN: Refusal = Refusal(7);
    /// A label's container is not in use. The next three stand in the same place.
    pub const MISSING: Refusal = Refusal(8);
    /// The descriptor is closed (kinds 6 to 12).
    pub const DESCRIPTOR_CLOSED: Refusal = Refusal(14);
    /// The name is unbound (kinds 2, 14, 15 and 16).
    pub const NAME_UNBOUND: Refusal = Refusal(15);
    /// The process has no mapping of the container to unmap, of the sort that field b names.
    pub const NO_LINK: Refusal = Refusal(16);
    /// A pipe's two descriptors, or a rule's two items, are equal.
    pub const SAME_TWICE: Refusal = Refusal(9);
    /// A truncate of a device.
    pub const NO_FILE: Refusal = Refusal(10);
    /// The count that a map read or map both would raise is at 255.
    pub const COUNT_FULL: Refusal = Refusal(17);
    /// 32 rules are held.
    pub const RULES_FULL: Refusal = Refusal(11);
    /// The present state breaks the rule.
    pub const BROKEN_ALREADY: Refusal = Refusal(12);
    /// A lent slice is too short; of no record.
    pub const SLICE_SHORT: Refusal = Refusal(13);
}

/// The most containers that can gain by a call: all.
const CONTAINERS: u8 = 64;

/// What a record gets. A container gained if it holds after the call an item that it lacked before; each is counted once, so `gained` is at
/// most 64 (document 02, Paper 5).
#[derive(Clone, Copy, Debug, PartialEq, Eq)]
pub enum Answer {
    /// The call's change is made; so many containers gained.
    Allow { gained: u8 },
    /// Nothing changed: the call would break the rule of this number, the lowest.
    Inhibit(u8),
    /// The write would break the rule, and went to the substitute instead; so many containers gained by the write to the substitute.
    Modify { rule: u8, substitute: u8, gained: u8 },
    /// The rule is loaded under this number.
    Rule(u8),
    /// Nothing changed.
    Refused(Refusal),
}

impl Answer {
    /// An answer from its code; `None` where the number is no code.
    pub fn from_code(code: u32) -> Option<Answer> {
        let [word, number, substitute, gained] = code.to_le_bytes();
        let single = substitute == 0 && gained == 0;
        match word {
            0 if number == 0 && substitute == 0 && gained <= CONTAINERS => Some(Answer::Allow { gained }),
            1 if single => Some(Answer::Inhibit(number)),
            2 if gained <= CONTAINERS => Some(Answer::Modify { rule: number, substitute, gained }),
            3 if single => Some(Answer::Rule(number)),
            4 if single => Some(Answer::Refused(Refusal(number))),
            _ => None,
        }
    }

    /// How many containers gained: 0 for an answer that makes no call.
    pub fn gained(&self) -> u8 {
        match *self {
            Answer::Allow { gained } | Answer::Modify { gained, .. } => gained,
            Answer::Inhibit(_) | Answer::Rule(_) | Answer::Refused(_) => 0,
        }
    }

    /// The answer of a code that the library gave: it gives no other number.
    fn given(code: u32) -> Answer {
        Answer::from_code(code).expect("the library answers with a code")
    }
}

/// Field b of an unmap (kind 13) that ends a mapping for reading (document 02, Paper 4). A process has two counts of mappings with each
/// container, each at most 255: map read (kind 11) raises the first, map both (kind 12) the second alone. What comes to the container comes to
/// the process while either count is above 0, and what comes to the process comes to the container while the second is.
pub const MAPPED_READ: u8 = 0;

/// Field b of an unmap that ends a mapping both ways.
pub const MAPPED_BOTH: u8 = 1;

/// A call: its kind, the calling process, and three fields.
#[derive(Clone, Copy, Debug, PartialEq, Eq)]
pub struct Call {
    pub kind: u8,
    pub process: u8,
    pub a: u8,
    pub b: u8,
    pub c: u8,
}

/// A tracker with its rules, laid out as in `pomtvia.h`.
#[repr(C)]
#[derive(Clone, PartialEq, Eq)]
pub struct Monitor {
    words: [u64; 353],
    descriptors: [u8; 512],
    names: [u8; 128],
    sets: [u64; 32],
    fields: [u8; 129],
}

/// The name, place and size of each field and of the whole, for tests that compare layouts.
pub fn layout() -> [(&'static str, usize, usize); 6] {
    use core::mem::{size_of, size_of_val};
    let m = Monitor::new();
    let start = &m as *const Monitor as usize;
    macro_rules! field {
        ($name:ident) => {
            (stringify!($name), core::ptr::addr_of!(m.$name) as usize - start, size_of_val(&m.$name))
        };
    }
    [
        field!(words),
        field!(descriptors),
        field!(names),
        field!(sets),
        field!(fields),
        ("all", 0, size_of::<Monitor>()),
    ]
}

impl Default for Monitor {
    fn default() -> Self {
        Monitor::new()
    }
}

/// `Err` of a refusal's number, else `value`.
fn unless_refused<T>(refusal: u8, value: T) -> Result<T, Refusal> {
    if refusal == 0 {
        Ok(value)
    } else {
        Err(Refusal(refusal))
    }
}

impl Monitor {
    /// A fresh tracker: nothing live, nothing held, nothing open, no rules.
    pub fn new() -> Monitor {
        let mut m = Monitor {
            words: [0; 353],
            descriptors: [0; 512],
            names: [0; 128],
            sets: [0; 32],
            fields: [0; 129],
        };
        m.renew();
        m
    }

    /// Makes the monitor fresh again.
    pub fn renew(&mut self) {
        // The reference is to a whole monitor, whose layout is the library's.
        unsafe { c::pomtvia_new(self) }
    }

    /// What a call gets, by the hook: the monitor is copied, worked on and stored back.
    pub fn on_call(&mut self, q: Call) -> Answer {
        // As in `renew`.
        Answer::given(unsafe { c::pomtvia_on_call(self, q.kind, q.process, q.a, q.b, q.c) })
    }

    /// What a call gets, worked out where the monitor lies.
    pub fn call(&mut self, q: Call) -> Answer {
        // As in `renew`.
        Answer::given(unsafe { c::pomtvia_call(self, q.kind, q.process, q.a, q.b, q.c) })
    }

    /// What the record at the front of the bytes gets.
    pub fn answer(&mut self, bytes: &[u8]) -> Answer {
        // As in `renew`; the slice holds as many bytes as its length says.
        Answer::given(unsafe { c::pomtvia_answer_in(self, bytes.as_ptr(), bytes.len()) })
    }

    /// Answers the records of a log in order. Their codes go to the front of `codes`, and the result is how many they are.
    /// [`Refusal::SLICE_SHORT`] where `codes` is shorter; then nothing changes. [`records_in`] says how long is long enough.
    pub fn run(&mut self, log: &[u8], codes: &mut [u32]) -> Result<usize, Refusal> {
        let mut count = 0;
        // As in `answer`; `codes` is borrowed apart from the monitor and the log.
        let refusal = unsafe {
            c::pomtvia_run_in(self, log.as_ptr(), log.len(), codes.as_mut_ptr(), codes.len(), &mut count)
        };
        unless_refused(refusal, count as usize)
    }

    /// The items of a container, bit i for item i. [`Refusal::OUT_OF_RANGE`] where the number is above 63.
    pub fn items(&self, container: u8) -> Result<u64, Refusal> {
        let mut set = 0;
        // As in `renew`; the monitor is only read.
        let refusal = unsafe { c::pomtvia_items(self, container, &mut set) };
        unless_refused(refusal, set)
    }

    /// The containers that hold an item, at the front of `out`, each once, in rising number; the result is how many, and the elements
    /// behind them are as they were. [`Refusal::OUT_OF_RANGE`] where the item is above 63, [`Refusal::SLICE_SHORT`] where `out` is shorter;
    /// then `out` is as it was.
    pub fn holders(&self, item: u8, out: &mut [u16]) -> Result<usize, Refusal> {
        let mut count = 0;
        // As in `items`; `out` is borrowed apart from the monitor.
        let refusal = unsafe { c::pomtvia_holders_in(self, item, out.as_mut_ptr(), out.len(), &mut count) };
        unless_refused(refusal, count as usize)
    }
}

/// The place after the record at a place of a log; the place itself at the log's end or behind it.
pub fn next(log: &[u8], at: usize) -> usize {
    // The slice holds as many bytes as its length says.
    unsafe { c::pomtvia_next(log.as_ptr(), log.len(), at) }
}

/// The answers that the codes of a log stand for, one after the other; `None` for a number that is no code.
pub fn answers(codes: &[u32]) -> impl Iterator<Item = Option<Answer>> + '_ {
    codes.iter().map(|&code| Answer::from_code(code))
}
