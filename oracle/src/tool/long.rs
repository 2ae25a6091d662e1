//! Scripts that take very many calls to get to their place, or go to very many places: they run after the others.

use crate::data::LONGEST;
use crate::generator::{Generator, Profile, Script, U32_MAX};
use crate::profiles::profile;
use crate::random::Random;

pub const LONG: [fn(u64, usize) -> Script; 6] =
    [wrapped_ssn, full_buffer, tiny_variance, longest_sack, last_data, doubled_waits];
/// The streams of their random numbers: far from those of the other scripts.
const STREAM: u64 = 1 << 60;

fn kind(name: &str) -> &'static Profile {
    profile(name).expect("the kind exists")
}

/// Empty messages use up a stream's SSNs; then lifetimes end on both sides of the wrap.
fn wrapped_ssn(seed: u64, calls: usize) -> Script {
    let mut g = Generator::new(Random::new(seed, STREAM));
    let lifetimes = kind("lifetimes");
    g.begin(lifetimes);
    let sid = g.oracle.open()[0];
    g.say(format_args!("rel {sid} 0 2 3"));
    for _ in 0..65_530 {
        g.say(format_args!("write {sid} 50 0 0"));
    }
    for _ in 0..12 {
        g.say(format_args!("write {sid} 53 0 1"));
    }
    g.go_on(lifetimes, g.made() + calls);
    Script { name: "wrapped-ssn", text: g.finish() }
}

/// Messages that expire at once, and whose bytes nobody releases; then writes around the limit of the buffered amount.
fn full_buffer(seed: u64, calls: usize) -> Script {
    let mut g = Generator::new(Random::new(seed, STREAM + 1));
    let streams = kind("streams");
    g.begin(kind("timers"));
    let sid = g.oracle.open()[0];
    let length = 65_515;
    g.say(format_args!("open 500 {length}"));
    g.say(format_args!("rel 500 1 2 0"));
    while buffered(&g, 500) + length <= U32_MAX {
        for _ in 0..256 {
            g.say(format_args!("write 500 53 0 {length}"));
        }
        g.say(format_args!("lifetimes 0"));
        while !g.was_idle() {
            g.say(format_args!("expire 0"));
        }
    }
    for _ in 0..calls / 10 {
        let rest = U32_MAX - buffered(&g, 500);
        let length = g.random.pick(&[rest, rest + 1, rest.saturating_sub(1), 1, 0]).min(65_536);
        let typ = g.random.pick(&[50, 51, 53, 57]);
        g.say(format_args!("write 500 {typ} 0 {length}"));
        let released = g.random.pick(&[0, 1, 5, 70_000]);
        g.say(format_args!("released 500 {released}"));
        g.say(format_args!("stream 500"));
        g.say(format_args!("write {sid} 53 0 1"));
        g.say(format_args!("expire 0"));
    }
    g.go_on(streams, g.made() + calls / 2);
    Script { name: "full-buffer", text: g.finish() }
}

fn buffered(g: &Generator, sid: u16) -> u64 {
    g.oracle.stream(sid).map_or(0, |(_, buffered, ..)| buffered)
}

/// Equal measurements, until rttvar has fallen through the smallest floats.
fn tiny_variance(seed: u64, calls: usize) -> Script {
    let mut g = Generator::new(Random::new(seed, STREAM + 2));
    let estimator = kind("estimator");
    g.begin(estimator);
    for rtt in [1, 600, U32_MAX] {
        g.say(format_args!("rreset"));
        for _ in 0..2700 {
            g.say(format_args!("measure {rtt}"));
            g.say(format_args!("getrto"));
        }
    }
    g.go_on(estimator, g.made() + calls);
    Script { name: "tiny-variance", text: g.finish() }
}

/// A SACK with as many blocks as its length field can tell, over a full flight whose TSNs wrap: refused for its last block, then taken.
fn longest_sack(seed: u64, calls: usize) -> Script {
    let mut g = Generator::new(Random::new(seed, STREAM + 3));
    let sacks = kind("sacks");
    g.begin(sacks);
    let first = U32_MAX - g.random.below(200);
    g.say(format_args!("sender {first} 0"));
    g.say(format_args!("open 500 10"));
    g.say(format_args!("write 500 53 0 2555"));
    for _ in 0..255 {
        g.say(format_args!("send 0"));
    }
    g.longest_sack();
    g.go_on(sacks, g.made() + calls / 2);
    Script { name: "longest-sack", text: g.finish() }
}

/// DATA chunks of the last stream whose SSNs and TSNs wrap, ordered and not; then the longest fragments.
fn last_data(seed: u64, calls: usize) -> Script {
    let mut g = Generator::new(Random::new(seed, STREAM + 4));
    let data = kind("data");
    g.begin(data);
    let first = U32_MAX - g.random.below(12);
    g.say(format_args!("sender {first} 0"));
    g.say(format_args!("open {} {LONGEST}", u16::MAX));
    for _ in 0..65_530 {
        g.say(format_args!("write {} 50 0 0", u16::MAX));
    }
    for length in 0..24 {
        let unordered = g.random.below(2);
        g.say(format_args!("rel {} {unordered} 0 0", u16::MAX));
        let (typ, offset) = (g.payload_type(), g.random.below(60_000));
        let (_, _, tsn) = g.oracle.flight();
        g.say(format_args!("write {} {typ} {offset} {length}", u16::MAX));
        g.say(format_args!("send 0"));
        g.say(format_args!("data {tsn} 48"));
        g.data_of(tsn);
    }
    for _ in 0..12 {
        g.long_data(u16::MAX);
    }
    g.go_on(data, g.made() + calls / 2);
    Script { name: "last-data", text: g.finish() }
}

/// Every count up to 33, with intervals of every length, and for each the ceilings at the doubled wait, beside it and at both ends.
fn doubled_waits(seed: u64, calls: usize) -> Script {
    let mut g = Generator::new(Random::new(seed, STREAM + 5));
    let timers = kind("timers");
    g.begin(timers);
    for count in 0..34 {
        for bits in 0..=32 {
            let interval = g.random.below(1 << bits);
            let doubled = interval << count.min(31);
            for ceiling in [0, doubled.saturating_sub(1), doubled, doubled + 1, doubled / 2 + 1, U32_MAX] {
                g.say(format_args!("timers 8 10 {}", ceiling.min(U32_MAX)));
                let timer = g.random.below(6);
                g.say(format_args!("setcount {timer} {count}"));
                let (call, now) = (g.random.pick(&["tstart", "trestart"]), g.now);
                g.say(format_args!("{call} {timer} {now} {interval}"));
                g.say(format_args!("tget {timer}"));
            }
        }
    }
    g.go_on(timers, g.made() + calls);
    Script { name: "doubled-waits", text: g.finish() }
}
