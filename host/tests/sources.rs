//! What no proof sees: the declarations are those of the header, the header is that of the Rattle sources, and every number of this crate is the
//! one that the sources have under its name.

use std::collections::BTreeMap;
use std::path::Path;
use std::process::Command;

use girdermoth::*;

const LIMITS: &str = include_str!("../../crates/limits/src/lib.rt");
const ROOMS: &str = include_str!("../../crates/limits/specs/Limits.antt");
const MODEL: &str = include_str!("../../crates/model/src/lib.rt");
const STREAM: &str = include_str!("../../crates/stream/src/lib.rt");
const AMOUNTS: &str = include_str!("../../crates/stream/src/amounts.rt");
const TIMER: &str = include_str!("../../crates/timer/src/lib.rt");
const REPLAY: &str = include_str!("../../crates/replay/src/main.rt");

/// `const NAME: TYPE = NUMBER;`
fn constant(line: &str) -> Option<(&str, (&str, u64))> {
    let (name, rest) = line.trim().trim_start_matches("pub ").strip_prefix("const ")?.strip_suffix(';')?.split_once(": ")?;
    let (kind, number) = rest.split_once(" = ")?;
    Some((name, (kind, number.replace('_', "").parse().ok()?)))
}

/// The constants of a Rattle source: name, type and number.
fn constants(source: &str) -> BTreeMap<&str, (&str, u64)> {
    source.lines().filter_map(constant).collect()
}

/// The numbers behind the one place of `call` in a source.
fn arguments(source: &str, call: &str) -> Vec<u64> {
    assert_eq!(source.matches(call).count(), 1, "{call}");
    let inside = source.split(call).nth(1).and_then(|rest| rest.split(')').next()).expect("arguments");
    inside.split(", ").map(|number| number.replace('_', "").parse().expect("a number")).collect()
}

/// The cases of an enum of a source, in their order, without the comments.
fn cases<'a>(source: &'a str, opening: &str) -> impl Iterator<Item = &'a str> {
    let inside = source.split(opening).nth(1).and_then(|rest| rest.split("\n}").next()).expect("the enum");
    inside.lines().map(str::trim).filter_map(|line| line.strip_suffix(',')).filter(|line| !line.starts_with("//"))
}

#[test]
fn the_declarations_are_the_headers_and_the_header_is_the_sources() {
    let root = Path::new(env!("CARGO_MANIFEST_DIR")).join("..");
    for words in [&["tools/bindings", "--check"][..], &["tools/sources"]] {
        let said = Command::new("python3").args(words).current_dir(&root).output().expect("python3 is needed for tools/bindings and tools/sources");
        assert!(said.status.success(), "{}{}", String::from_utf8_lossy(&said.stdout), String::from_utf8_lossy(&said.stderr));
    }
}

#[test]
fn limits_are_the_sources() {
    let there = constants(LIMITS);
    let here: [(&str, u64); 3] = [("CLOCK_MAX", CLOCK_MAX), ("MESSAGE_MAX", MESSAGE_MAX), ("PAYLOAD_MAX", PAYLOAD_MAX.into())];
    for (name, number) in here {
        assert_eq!(there[name].1, number, "{name}");
    }
    let rooms = format!("room01 = record {{ streams = {STREAMS}; message = {MESSAGE_MAX}; ring = {RING_ROOM}; flight = {FLIGHT_ROOM} }}");
    assert!(ROOMS.contains(&rooms), "{rooms}");
}

#[test]
fn refusals_are_the_sources() {
    let there: BTreeMap<&str, u64> = cases(LIMITS, "pub enum Refusal {")
        .filter_map(|case| case.split_once(" = "))
        .map(|(name, number)| (name, number.parse().expect("a number")))
        .collect();
    let names = Refusal::ALL.map(|refusal| (format!("{refusal:?}"), refusal.number()));
    let here: BTreeMap<&str, u64> = names.iter().map(|(name, number)| (name.as_str(), u64::from(*number))).collect();
    assert_eq!(here, there);
}

#[test]
fn kinds_are_the_sources() {
    let sentence = "kind 1 is Rexmit, 2 is Timed, any other Reliable";
    assert!(MODEL.contains(sentence), "{sentence}");
    assert_eq!((ReliabilityType::Rexmit as u8, ReliabilityType::Timed as u8, ReliabilityType::Reliable as u8), (1, 2, 0));
    for kind in 0..=255 {
        let named = ReliabilityType::from(kind);
        assert_eq!(named as u8, if kind == 1 || kind == 2 { kind } else { 0 });
    }
    assert_eq!(ReliabilityType::default(), ReliabilityType::Reliable);
    let names = [ReliabilityType::Reliable, ReliabilityType::Rexmit, ReliabilityType::Timed].map(|kind| kind.to_string());
    assert_eq!(names, ["Reliable", "Rexmit", "Timed"]);
}

#[test]
fn payload_types_are_the_sources() {
    let mut there = constants(STREAM);
    there.extend(constants(AMOUNTS));
    let here = [
        ("DCEP", PayloadProtocolIdentifier::DCEP),
        ("STRING", PayloadProtocolIdentifier::STRING),
        ("BINARY", PayloadProtocolIdentifier::BINARY),
        ("STRING_EMPTY", PayloadProtocolIdentifier::STRING_EMPTY),
        ("BINARY_EMPTY", PayloadProtocolIdentifier::BINARY_EMPTY),
    ];
    for (name, number) in here {
        assert_eq!(there[name].1, number.0.into(), "{name}");
    }
}

#[test]
fn timers_are_the_sources() {
    let values = TIMER.split("pub const VALUES").nth(1).and_then(|rest| rest.split("];").next()).expect("the order of the timers");
    let there: Vec<&str> = values.split("Timer::").skip(1).map(|name| name.trim_end_matches([',', '\n', ' '])).collect();
    let here: Vec<String> = Timer::VALUES.iter().map(|timer| format!("{timer:?}")).collect();
    assert_eq!(here, there);
    // their numbers are their places among the cases
    assert!(cases(TIMER, "pub enum Timer {").eq(there));
    for (at, timer) in Timer::VALUES.into_iter().enumerate() {
        assert_eq!(timer as usize, at);
    }
    assert_eq!(ACK_INTERVAL, 200, "as sctp-proto has it");
}

/// The proved program that replays scripts begins with the same timers and the same estimator.
#[test]
fn defaults_are_the_replays() {
    let [initial, least, most] = arguments(REPLAY, "RtoManager::new(")[..] else { panic!("three settings") };
    assert_eq!((initial, least, most), (3_000, 1_000, 60_000));
    assert_eq!(RtoManager::default(), RtoManager::new(initial, least, most).unwrap());
    let [most] = arguments(REPLAY, "TimerTable::new(None, None, ")[..] else { panic!("one setting") };
    assert_eq!(most, 60_000);
    assert_eq!(TimerTable::default(), TimerTable::new(None, None, most).unwrap());
}
