//! Runs logs through the library, in three ways, and compares with what the program runlog writes. The folder POMTVIA_LOGS holds, for each
//! log NAME.log, NAME.expected with the program's lines, NAME.items with a line for each container and NAME.holders with one for each item.
use pomtvia::{answers, next, records_in, Answer, Call, Monitor, Refusal, MAPPED_BOTH, MAPPED_READ};
use std::{fs, path::PathBuf};

fn cases() -> Vec<PathBuf> {
    let folder = std::env::var("POMTVIA_LOGS").expect("POMTVIA_LOGS names the folder of logs: run tests/embed");
    let mut found: Vec<PathBuf> = fs::read_dir(folder)
        .expect("the folder of POMTVIA_LOGS can be read")
        .map(|entry| entry.expect("its entries can be read").path())
        .filter(|path| path.extension().map_or(false, |end| end == "log"))
        .collect();
    found.sort();
    assert!(found.len() > 10, "there are logs");
    found
}

fn line(answer: Answer) -> String {
    match answer {
        Answer::Allow { gained } => format!("allow {gained}\n"),
        Answer::Inhibit(rule) => format!("inhibit {rule}\n"),
        Answer::Modify { rule, substitute, gained } => format!("modify {rule} {substitute} {gained}\n"),
        Answer::Rule(number) => format!("rule {number}\n"),
        Answer::Refused(Refusal(number)) => format!("refused {number}\n"),
    }
}

/// The log at once: the lines, and the monitor after it.
fn at_once(log: &[u8]) -> (String, Monitor) {
    let mut m = Monitor::new();
    let mut codes = vec![0; records_in(log.len())];
    let n = m.run(log, &mut codes).expect("there is room");
    (answers(&codes[..n]).map(|answer| line(answer.expect("a code"))).collect(), m)
}

/// A whole record of a call.
fn call_of(record: &[u8]) -> Option<Call> {
    match *record {
        [0x10, 0, 5, kind, process, a, b, c] => Some(Call { kind, process, a, b, c }),
        _ => None,
    }
}

/// Record by record, calls by `by_call`.
fn by_records(log: &[u8], by_call: impl Fn(&mut Monitor, Call) -> Answer) -> (String, Monitor) {
    let mut m = Monitor::new();
    let (mut lines, mut at) = (String::new(), 0);
    while at < log.len() {
        let end = next(log, at);
        let record = &log[at..end];
        lines += &line(match call_of(record) {
            Some(call) => by_call(&mut m, call),
            None => m.answer(record),
        });
        at = end;
    }
    (lines, m)
}

#[test]
fn every_way_is_the_programs() {
    for path in cases() {
        let log = fs::read(&path).expect("a log");
        let expected = fs::read_to_string(path.with_extension("expected")).expect("its lines");
        let (lines, m) = at_once(&log);
        assert_eq!(lines, expected, "{} at once", path.display());
        for (how, (lines, n)) in [
            ("in place", by_records(&log, Monitor::call)),
            ("by the hook", by_records(&log, Monitor::on_call)),
        ] {
            assert_eq!(lines, expected, "{} {how}", path.display());
            assert!(m == n, "{} {how}: the monitor afterwards", path.display());
        }
    }
}

#[test]
fn queries_are_the_models() {
    for path in cases() {
        let (_, m) = at_once(&fs::read(&path).expect("a log"));
        let mut items = String::new();
        for c in 0..=64 {
            items += &match m.items(c) {
                Ok(set) => format!("{c} {set:016x}\n"),
                Err(Refusal(n)) => format!("{c} refused {n}\n"),
            };
        }
        assert_eq!(items, fs::read_to_string(path.with_extension("items")).expect("items"), "{}", path.display());
        let mut holders = String::new();
        for i in 0..=64 {
            let mut out = [999; 64];
            holders += &match m.holders(i, &mut out) {
                Ok(n) => {
                    assert!(out[n..].iter().all(|&x| x == 999), "elements behind keep their numbers");
                    format!("{i}{}\n", out[..n].iter().map(|c| format!(" {c}")).collect::<String>())
                }
                Err(Refusal(n)) => format!("{i} refused {n}\n"),
            };
        }
        assert_eq!(holders, fs::read_to_string(path.with_extension("holders")).expect("holders"), "{}", path.display());
    }
}

#[test]
fn short_slices_are_refused() {
    let log = [0x10, 0, 5, 1, 0, 0, 0, 0, 0x10, 0, 5, 19, 0, 8, 3, 0];
    let mut m = Monitor::new();
    let mut codes = [77; 1];
    assert_eq!(m.run(&log, &mut codes), Err(Refusal::SLICE_SHORT));
    assert!(codes == [77] && m == Monitor::new(), "nothing changed");
    assert_eq!(m.run(&log, &mut [0; 2]), Ok(2));
    assert_eq!(m.run(&[], &mut []), Ok(0));
    assert_eq!(m.answer(&[]), Answer::Refused(Refusal::CUT_SHORT));
    assert_eq!(m.items(8), Ok(8));
    assert_eq!(m.holders(3, &mut []), Err(Refusal::SLICE_SHORT));
    assert_eq!(m.holders(4, &mut []), Ok(0));
    assert_eq!(m.holders(67, &mut []), Err(Refusal::OUT_OF_RANGE));
    m.renew();
    assert!(m == Monitor::new(), "fresh again");
}

#[test]
fn holders_rise() {
    // Item 3 comes to device 7, process 0 and device 1, in this order.
    let log = [0x10, 0, 5, 1, 0, 0, 0, 0, 0x10, 0, 5, 19, 0, 7, 3, 0, 0x10, 0, 5, 19, 0, 8, 3, 0, 0x10, 0, 5, 19, 0, 1, 3, 0];
    let mut m = Monitor::new();
    assert_eq!(m.run(&log, &mut [0; 4]), Ok(4));
    let mut out = [99; 4];
    assert_eq!(m.holders(3, &mut out), Ok(3));
    assert_eq!(out, [1, 7, 8, 99]);
    let mut short = [99; 2];
    assert_eq!(m.holders(3, &mut short), Err(Refusal::SLICE_SHORT));
    assert_eq!(short, [99; 2], "a refused query leaves every element");
}

#[test]
fn the_number_tells_what_was_missing() {
    let mut m = Monitor::new();
    let call = |kind, a, b, c| Call { kind, process: 0, a, b, c };
    let made = [call(1, 0, 0, 0), call(3, 5, 0, 24), call(5, 1, 1, 0)];
    assert!(made.iter().all(|&q| m.call(q) == STILL), "process 0, file 24 as descriptor 0, device 1 as descriptor 1");
    let closed = (6..=12).map(|kind| (call(kind, 3, if kind == 6 { 4 } else { 0 }, 0), Refusal::DESCRIPTOR_CLOSED));
    let unbound = [2, 14, 15, 16].map(|kind| (call(kind, 6, if kind == 14 { 0 } else { 7 }, 0), Refusal::NAME_UNBOUND));
    let others = [
        (call(13, 24, MAPPED_READ, 0), Refusal::NO_LINK),
        (call(13, 24, MAPPED_BOTH, 0), Refusal::NO_LINK),
        (call(13, 24, 2, 0), Refusal::OUT_OF_RANGE),
        (call(19, 25, 0, 0), Refusal::MISSING),
        // The earliest place decides.
        (call(6, 3, 0, 0), Refusal::TAKEN),
        (call(2, 6, 0, 0), Refusal::TAKEN),
        (call(16, 6, 5, 0), Refusal::TAKEN),
        (call(10, 1, 0, 0), Refusal::NO_FILE),
        (call(4, 3, 3, 25), Refusal::SAME_TWICE),
        (call(4, 0, 0, 25), Refusal::TAKEN),
    ];
    let before = m.clone();
    for (q, refusal) in closed.chain(unbound).chain(others) {
        assert_eq!(m.call(q), Answer::Refused(refusal), "{q:?}");
        assert_eq!(m.on_call(q), Answer::Refused(refusal), "{q:?} by the hook");
    }
    assert!(m == before, "nothing changed");
}

/// Allowed, and no container gained.
const STILL: Answer = Answer::Allow { gained: 0 };

/// A call of process 0.
fn call(kind: u8, a: u8, b: u8) -> Call {
    Call { kind, process: 0, a, b, c: 0 }
}

/// Process 0 with the file 24 as descriptor 0.
fn with_a_file() -> Monitor {
    let mut m = Monitor::new();
    assert_eq!(m.call(call(1, 0, 0)), STILL);
    assert_eq!(m.call(Call { c: 24, ..call(3, 5, 0) }), STILL);
    m
}

/// Whether an item that comes to one container comes to another too. Both lack it, and no other is linked.
fn arrives(m: &mut Monitor, item: u8, from: u8, to: u8) -> bool {
    let answer = m.call(call(19, from, item));
    let arrived = m.items(to).expect("a container") >> item & 1 == 1;
    assert_eq!(answer, Answer::Allow { gained: 1 + arrived as u8 }, "a label");
    arrived
}

#[test]
fn mapped_twice_and_unmapped_once() {
    let refused = Answer::Refused(Refusal::NO_LINK);
    let mut m = with_a_file();
    for kind in [11, 11, 12, 12] {
        assert_eq!(m.call(call(kind, 0, 0)), STILL, "a mapping");
    }
    // After each unmap: whether items still come from the file to the process, and from the process to the file.
    let unmaps = [
        (MAPPED_BOTH, true, true),
        (MAPPED_BOTH, true, false),
        (MAPPED_READ, true, false),
        (MAPPED_READ, false, false),
    ];
    for (item, (sort, to_process, to_file)) in (1..).zip(unmaps) {
        assert_eq!(m.call(call(13, 24, sort)), STILL, "unmap {item}");
        assert_eq!(arrives(&mut m, item, 24, 8), to_process, "unmap {item}: to the process");
        assert_eq!(arrives(&mut m, 10 + item, 8, 24), to_file, "unmap {item}: to the file");
    }
    assert_eq!(m.call(call(13, 24, MAPPED_READ)), refused);
    assert_eq!(m.call(call(13, 24, MAPPED_BOTH)), refused);
    // A mapping both ways is none for reading.
    assert_eq!(m.call(call(12, 0, 0)), Answer::Allow { gained: 2 });
    assert_eq!(m.call(call(13, 24, MAPPED_READ)), refused);
    assert!(arrives(&mut m, 21, 24, 8) && arrives(&mut m, 22, 8, 24), "a refused unmap ends nothing");
}

#[test]
fn counts_end_at_255() {
    for (kind, sort, other) in [(11, MAPPED_READ, MAPPED_BOTH), (12, MAPPED_BOTH, MAPPED_READ)] {
        let mut m = with_a_file();
        let filled = |m: &mut Monitor, process, more| {
            let q = Call { process, ..call(kind, 0, 0) };
            assert!((0..more).all(|_| m.call(q) == STILL), "{more} mappings of kind {kind}");
            let before = m.clone();
            assert_eq!(m.call(q), Answer::Refused(Refusal::COUNT_FULL));
            assert_eq!(m.on_call(q), Answer::Refused(Refusal::COUNT_FULL));
            assert!(*m == before, "nothing changed");
        };
        filled(&mut m, 0, 255);
        assert_eq!(m.call(call(17, 1, 0)), STILL, "a fork");
        filled(&mut m, 1, 0);
        assert_eq!(m.call(call(13, 24, other)), Answer::Refused(Refusal::NO_LINK));
        assert_eq!(m.call(call(13, 24, sort)), STILL);
        filled(&mut m, 0, 1);
        assert!((0..255).all(|_| m.call(call(13, 24, sort)) == STILL), "255 unmaps");
        assert_eq!(m.call(call(13, 24, sort)), Answer::Refused(Refusal::NO_LINK));
        filled(&mut m, 1, 0);
        let child = Call { process: 1, ..call(18, 0, 0) };
        assert_eq!(m.call(child), STILL, "the child's exit");
        assert_eq!(m.call(call(17, 1, 0)), STILL, "a fork after it");
        filled(&mut m, 1, 255);
    }
}

/// The items of every container.
fn all_items(m: &Monitor) -> Vec<u64> {
    (0..64).map(|c| m.items(c).expect("a container")).collect()
}

#[test]
fn gained_is_what_the_items_say() {
    let mut most = 0;
    for path in cases() {
        let log = fs::read(&path).expect("a log");
        let (mut m, mut at) = (Monitor::new(), 0);
        let mut before = all_items(&m);
        while at < log.len() {
            let end = next(&log, at);
            let answer = m.answer(&log[at..end]);
            let after = all_items(&m);
            let gained = before.iter().zip(&after).filter(|(old, new)| *new & !*old != 0).count();
            assert_eq!(usize::from(answer.gained()), gained, "{} at {at}: {answer:?}", path.display());
            most = most.max(gained);
            (before, at) = (after, end);
        }
    }
    assert!(most > 2, "some calls reach many containers");
}

#[test]
fn the_answer_tells_how_many_gained() {
    let mut m = with_a_file();
    let told = |m: &mut Monitor, q: Call, gained: u8| {
        let mut copy = m.clone();
        let answer = m.call(q);
        assert_eq!(answer, Answer::Allow { gained }, "{q:?}");
        assert_eq!((copy.on_call(q), answer.gained()), (answer, gained), "{q:?} by the hook");
    };
    told(&mut m, call(17, 1, 0), 0); // a child of a parent that holds nothing
    told(&mut m, call(19, 24, 1), 1);
    told(&mut m, call(19, 24, 1), 0); // what it holds already
    told(&mut m, call(19, 8, 2), 1);
    told(&mut m, call(12, 0, 0), 2); // the process and the file, once each
    told(&mut m, call(12, 0, 0), 0);
    told(&mut m, call(19, 8, 3), 2); // and what the link leads to
    told(&mut m, Call { process: 1, ..call(8, 0, 0) }, 1); // three items, one container
    told(&mut m, call(17, 2, 0), 1);
    told(&mut m, call(10, 0, 0), 0); // a truncate gives nothing
    told(&mut m, Call { process: 1, ..call(18, 0, 0) }, 0);
    // Process 3 reads device 1 by a mapping, so a write to the device would reach both. Item 1 may not be there: device 2 alone gains.
    let reader = |q| Call { process: 3, ..q };
    for q in [call(5, 1, 1), reader(call(1, 0, 0)), reader(call(5, 1, 1)), reader(call(11, 1, 0))] {
        told(&mut m, q, 0);
    }
    let mut unruled = m.clone();
    told(&mut unruled, call(9, 1, 0), 2);
    let loaded = m.answer(&[0x11, 0, 11, 1, 0, 0, 0, 0, 0, 0, 0, 2, 1, 2]);
    let written = m.call(call(9, 1, 0));
    assert_eq!(written, Answer::Modify { rule: 0, substitute: 2, gained: 1 });
    assert_eq!((written.gained(), m.call(call(9, 1, 0)).gained()), (1, 0), "the second time it holds them");
    let others = [loaded, m.call(call(19, 1, 1)), m.call(call(9, 9, 0))];
    assert_eq!(others, [Answer::Rule(0), Answer::Inhibit(0), Answer::Refused(Refusal::DESCRIPTOR_CLOSED)]);
    assert!(others.iter().all(|answer| answer.gained() == 0), "no call is made");
}

#[test]
fn no_other_codes() {
    assert_eq!(Answer::from_code(5), None);
    assert_eq!(Answer::from_code(1 << 16 | 1), None);
    let modify = Answer::Modify { rule: 7, substitute: 3, gained: 64 };
    assert_eq!(Answer::from_code(64 << 24 | 3 << 16 | 7 << 8 | 2), Some(modify));
    assert_eq!(Answer::from_code(0x0103_0002), Some(Answer::Modify { rule: 0, substitute: 3, gained: 1 }));
    assert_eq!(Answer::from_code(0x0300_0000), Some(Answer::Allow { gained: 3 }));
    assert_eq!(Answer::from_code(64 << 24), Some(Answer::Allow { gained: 64 }));
    for code in [65 << 24, 65 << 24 | 2, 1 << 8, 1 << 16, 1 << 24 | 1, 1 << 24 | 3, 1 << 24 | 4] {
        assert_eq!(Answer::from_code(code), None, "{code:x}");
    }
}

/// Prints the layout for tests/embed to compare: `cargo test -- --nocapture layout`.
#[test]
fn layout() {
    for (name, place, size) in pomtvia::layout() {
        println!("layout {name} {place} {size}");
    }
}
