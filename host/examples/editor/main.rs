//! A simulated session: an editor's user edits a graph, a plugin host's passes answer each edit with analyses, and the analyses go to the editor
//! over a link that loses, reorders and is down for a while. Trees have lifetimes, so some expire: unsent, half sent, or sent and not yet
//! acknowledged. Everything that the session claims at its end is checked on the way; a claim that fails ends the program.
//!
//!     cargo run --example editor [FILE.svg [SEED]]
//!
//! It writes what happened, and draws the channel's life to `FILE.svg` (target/editor.svg if none is given). Another seed is another session.
//! The picture of the README is `cargo run --example editor -- ../docs/session.svg`.

mod chart;
mod host;
mod link;
mod receiver;
mod rng;

use std::collections::BTreeMap;
use std::error::Error;
use std::path::PathBuf;

use host::{CHANNELS, End, FIRST_WINDOW, Host, Mark, Message, PAYLOAD, RECEIVER_WINDOW, SLOT};
use link::{DELAY, DOWN, Link};
use receiver::{Handed, Receiver};
use rng::Rng;

/// The session that is shown if no other is asked for, and that docs/session.svg is of. It was picked for its picture; the checks hold of any.
const SEED: u64 = 69;
const EDITS: u32 = 10;
/// So many packets in a hundred are lost, each way.
const LOSS: u64 = 4;
/// Near the end of the numbers, so that they wrap in the middle of the session.
const FIRST_TSN: u32 = u32::MAX - 59;

/// An edit, and when the host hears of it.
pub struct Edit {
    pub version: u32,
    pub at: u64,
}

/// A whole session, as it is told and drawn.
pub struct Session {
    pub edits: Vec<Edit>,
    pub host: Host,
    pub receiver: Receiver,
    pub out: Link,
    pub back: Link,
    pub ended: u64,
    /// Where in `receiver.handed` the message of a stream and a version is.
    pub handed: BTreeMap<(u16, u32), usize>,
}

impl Session {
    pub fn handed(&self, message: &Message) -> Option<&Handed> {
        self.handed.get(&(message.stream, message.version)).map(|&at| &self.receiver.handed[at])
    }

    pub fn message(&self, stream: u16, version: u32) -> &Message {
        self.host.messages.values().find(|message| (message.stream, message.version) == (stream, version)).expect("each pass answers each edit")
    }
}

/// The bytes of a message: of which version it is, then noise that only this stream and version have.
fn content(stream: u16, version: u32, length: u64) -> Vec<u8> {
    let mut noise = Rng::new(u64::from(version) << 16 | u64::from(stream));
    let mut bytes = version.to_le_bytes().to_vec();
    bytes.extend((4..length).map(|_| noise.within(0, 255) as u8));
    bytes
}

fn run(seed: u64, loss: u64) -> Result<Session, Box<dyn Error>> {
    let mut rng = Rng::new(seed);
    let mut at = 0;
    let edits: Vec<Edit> = (1..=EDITS)
        .map(|version| {
            // The user types fast from the fourth edit to the sixth, and at the ninth.
            at += match version {
                1 => 40,
                4..=6 | 9 => rng.within(24, 45),
                _ => rng.within(95, 130),
            };
            Edit { version, at }
        })
        .collect();
    let mut host = Host::new(FIRST_TSN)?;
    let mut receiver = Receiver::new(FIRST_TSN);
    let (mut out, mut back) = (Link::new(seed ^ 1 << 40, loss), Link::new(seed ^ 2 << 40, loss));
    let mut now = 0;
    while now <= at || !host.idle() {
        for packet in out.arrivals(now) {
            let answer = receiver.take(now, packet);
            back.send(now, answer);
        }
        for packet in back.arrivals(now) {
            host.take(now, packet)?;
        }
        for edit in edits.iter().filter(|edit| edit.at == now) {
            for (stream, least, most) in [(1, 7_000, 16_000), (2, 3_000, 8_000), (3, 60, 1_000)] {
                let length = rng.within(least, most);
                host.write(now, stream, edit.version, &content(stream, edit.version, length))?;
            }
        }
        host.step(now, &mut out)?;
        now += 1;
        assert!(now < 10_000, "the channel waits for ever");
    }
    Ok(Session { edits, host, receiver, out, back, ended: now, handed: BTreeMap::new() })
}

/// What must hold of what the editor was handed. Answers how many trees came after a newer one of their channel, and how many were whole in
/// time but had to wait for the forward point past their lifetime.
fn check(session: &mut Session) -> (usize, usize) {
    let (mut older, mut waited) = (0, 0);
    let mut newest: BTreeMap<u16, u32> = BTreeMap::new();
    for (at, handed) in session.receiver.handed.iter().enumerate() {
        let version = u32::from_le_bytes(handed.bytes[..4].try_into().expect("four bytes"));
        let message = session.message(handed.stream, version);
        assert_eq!(handed.bytes, content(handed.stream, version, message.length), "the bytes are those that were written");
        assert!(session.handed.insert((handed.stream, version), at).is_none(), "nothing is handed over twice");
    }
    for handed in &session.receiver.handed {
        let version = u32::from_le_bytes(handed.bytes[..4].try_into().expect("four bytes"));
        let message = session.message(handed.stream, version);
        assert!(matches!(message.end, End::Acknowledged | End::GivenUp), "a tree that was cut or dropped is never handed over");
        assert_eq!(message.sent, message.fragments());
        // Whole in time: its last fragment left before the deadline, and was under way no longer than the link takes.
        let in_time = |moment: u64| message.deadline.is_none_or(|deadline| moment < deadline + DELAY.1);
        assert!(in_time(handed.whole_at), "a tree was whole only after its lifetime");
        let channel = CHANNELS.iter().find(|channel| channel.stream == handed.stream).expect("it is open");
        let last = newest.entry(handed.stream).or_insert(0);
        if version > *last {
            *last = version;
            waited += usize::from(!in_time(handed.at));
            assert!(in_time(handed.at) || !channel.unordered, "only an ordered tree waits");
        } else {
            assert!(channel.unordered, "an ordered channel never goes back");
            assert!(in_time(handed.at), "an older tree came expired");
            older += 1;
        }
    }
    for message in session.host.messages.values() {
        assert_ne!(message.end, End::Open, "every message has come to its end");
        assert!(message.end != End::Acknowledged || session.handed(message).is_some(), "what is acknowledged whole was handed over");
        assert!(message.deadline.is_some() || message.end == End::Acknowledged, "a message without a lifetime is delivered");
    }
    for channel in &CHANNELS {
        assert_eq!(session.host.sender.buffered_amount(channel.stream), Ok(0), "every byte was acknowledged or given up");
    }
    assert_eq!(session.receiver.unfinished(), 0, "the editor waits for nothing");
    assert_eq!(session.receiver.cumulative().wrapping_add(1), session.host.sender.next_tsn(), "every TSN is settled at both ends");
    (older, waited)
}

fn told(session: &Session, message: &Message) -> String {
    let fragments = message.fragments();
    let chunks = if fragments == 1 { " 1 chunk".into() } else { format!("{fragments:2} chunks") };
    let arrived = session.handed(message).map(|handed| handed.at - message.written);
    match message.end {
        End::Open => unreachable!("checked"),
        End::Dropped => format!("{chunks}, expired unsent"),
        End::Cut(tsn) => format!("{:2} of {fragments} sent, CUT: terminator {tsn}", message.sent),
        End::GivenUp => match arrived {
            Some(after) => format!("{chunks}, there in {after} ms, unheard"),
            None => format!("{chunks}, all sent, expired"),
        },
        End::Acknowledged => format!("{chunks}, there in {} ms", arrived.expect("checked")),
    }
}

fn tell(session: &Session, (older, waited): (usize, usize)) {
    let host = &session.host;
    println!(
        "{EDITS} edits in {} ms. Each {SLOT} ms the host sends as many {PAYLOAD}-byte chunks as its congestion window ({FIRST_WINDOW} at first) and the editor's ({RECEIVER_WINDOW}) allow.",
        session.ended
    );
    println!(
        "The link needs {} to {} ms one way, loses {LOSS}% each way, and is down from {} to {} ms. TSNs begin at {FIRST_TSN} and wrap.\n",
        DELAY.0, DELAY.1, DOWN.0, DOWN.1
    );
    let title = |at: usize| {
        let channel = &CHANNELS[at];
        let life = channel.lifetime.map_or("for ever".into(), |ms| format!("{ms} ms"));
        format!("{} ({}, {life})", channel.name, if channel.unordered { "unordered" } else { "ordered" })
    };
    println!("{:>4} {:>6}  {:38}{:38}{}", "edit", "at", title(0), title(1), title(2));
    for edit in &session.edits {
        let [a, b, c] = [1, 2, 3].map(|stream| told(session, session.message(stream, edit.version)));
        println!("{:>4} {:>6}  {a:38}{b:38}{c}", format!("v{}", edit.version), format!("{} ms", edit.at));
    }
    println!("(unheard: the editor has it, but the host gave it up before the acknowledgement came)");
    let marks = |mark: Mark| host.events.iter().filter(|event| event.mark == mark).count();
    let ends = |end: fn(&End) -> bool| host.messages.values().filter(|message| end(&message.end)).count();
    let cut = ends(|end| matches!(end, End::Cut(_)));
    let (srtt, rto) = host.estimate();
    println!(
        "\nwent out   {} chunks, {} of them again; {} forward points; {} timeouts; srtt {srtt} ms, RTO {rto} ms at the end",
        marks(Mark::Sent) + marks(Mark::Retransmitted),
        marks(Mark::Retransmitted),
        host.forwards,
        host.timeouts
    );
    println!(
        "on the way {} packets lost there, {} back; {} chunks came twice",
        session.out.losses.len(),
        session.back.losses.len(),
        session.receiver.duplicates
    );
    println!(
        "messages   {} written: {} acknowledged whole, {cut} cut half sent, {} expired all sent, {} expired unsent",
        host.messages.len(),
        ends(|end| *end == End::Acknowledged),
        ends(|end| *end == End::GivenUp),
        ends(|end| *end == End::Dropped)
    );
    assert_eq!(cut, marks(Mark::Terminator));
    println!("\nchecked    each of the {cut} cut trees ends in exactly one terminator: the next TSN, empty, never sent; no other message has one");
    println!("           no tree that was cut or dropped was handed over; none came twice; every byte is right");
    println!("           nothing left the host at or after its deadline, so each tree was whole at the editor in its lifetime and one way");
    println!("           each tree handed over was the newest of its channel so far or had not expired: on the ordered channel versions only rose");
    println!("           ({waited} waited behind a cut one past their lifetime), on the unordered one {older} came after a newer one, not expired");
    println!("           all {EDITS} messages without a lifetime came, in order; both ends are empty: nobody waits for a cut tree");
}

fn main() -> Result<(), Box<dyn Error>> {
    let path = std::env::args_os().nth(1).map_or_else(|| PathBuf::from("target/editor.svg"), PathBuf::from);
    let seed = match std::env::args().nth(2) {
        Some(seed) => seed.parse().map_err(|_| format!("the seed is a number, and not {seed}"))?,
        None => SEED,
    };
    let mut session = run(seed, LOSS)?;
    let counts = check(&mut session);
    tell(&session, counts);
    if let Some(folder) = path.parent() {
        std::fs::create_dir_all(folder)?;
    }
    std::fs::write(&path, chart::draw(&session)).map_err(|error| format!("cannot write {}: {error}", path.display()))?;
    println!("\ndrawn      {}", path.display());
    Ok(())
}

#[cfg(test)]
mod tests {
    use super::*;

    /// The picture that is committed is the one that this program draws, and shows what README.md says of it.
    #[test]
    fn the_session_that_is_shown() {
        let mut session = run(SEED, LOSS).unwrap();
        check(&mut session);
        let [t6, t7, t10, l1] = [(1, 6), (1, 7), (1, 10), (2, 1)].map(|(stream, version)| session.message(stream, version));
        assert!(matches!(t6.end, End::Cut(_)) && (t6.sent, t6.fragments()) == (8, 9));
        assert!(t7.end == End::Dropped && t7.first.is_none());
        assert!(session.handed(t10).is_some());
        assert!(l1.end == End::GivenUp && session.handed(l1).is_some_and(|handed| handed.at < l1.ended), "it arrived unheard");
        let of_l1 = |event: &&host::Event| l1.first.is_some_and(|first| (first..first + l1.fragments() as u32).contains(&event.at));
        assert_eq!(session.host.events.iter().filter(of_l1).filter(|event| event.lost).count(), 1);
        let committed = concat!(env!("CARGO_MANIFEST_DIR"), "/../docs/session.svg");
        let same = std::fs::read_to_string(committed).unwrap() == chart::draw(&session);
        assert!(same, "docs/session.svg is another: cargo run --example editor -- ../docs/session.svg");
    }

    /// What is checked holds of any session, not of the one that is shown: thirty over the same link, thirty over a worse one. Together they meet
    /// all that can happen to a tree. `GIRDERMOTH_SHARE=10` runs a tenth of them, for the slow runs of host/check.
    #[test]
    fn other_sessions() {
        let share = std::env::var("GIRDERMOTH_SHARE").map_or(1, |share| share.parse().expect("GIRDERMOTH_SHARE is a number"));
        let (mut older, mut waited, mut ends) = (0, 0, [0; 4]);
        for (sessions, loss) in [(30u64, LOSS), (30, 12)] {
            for seed in 0..sessions.div_ceil(share) {
                let mut session = run(seed, loss).unwrap();
                let counts = check(&mut session);
                (older, waited) = (older + counts.0, waited + counts.1);
                for message in session.host.messages.values() {
                    match (message.end, session.handed(message)) {
                        (End::Cut(_), _) => ends[0] += 1,
                        (End::Dropped, _) => ends[1] += 1,
                        (End::GivenUp, None) => ends[2] += 1,
                        (End::GivenUp, Some(_)) => ends[3] += 1,
                        _ => {}
                    }
                }
                assert!(chart::draw(&session).ends_with("</svg>\n"));
            }
        }
        assert!(share > 1 || older > 0 && waited > 0 && ends.iter().all(|count| *count > 0), "{older} {waited} {ends:?}");
    }
}
