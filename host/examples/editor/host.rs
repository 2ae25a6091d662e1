//! The plugin host's end: passes write trees, and what the archive says is done.

use std::collections::{BTreeMap, BTreeSet, VecDeque};
use std::iter::successors;

use girdermoth::{Chunk, FLIGHT_ROOM, PayloadProtocolIdentifier, Refusal, ReliabilityType, RtoManager, Sender, Timer, TimerTable};

use crate::link::{Link, Packet};

pub struct Channel {
    pub stream: u16,
    pub name: &'static str,
    pub unordered: bool,
    /// In milliseconds; none is for ever.
    pub lifetime: Option<u32>,
}

pub const CHANNELS: [Channel; 3] = [
    Channel { stream: 1, name: "types", unordered: false, lifetime: Some(150) },
    Channel { stream: 2, name: "liveness", unordered: true, lifetime: Some(100) },
    Channel { stream: 3, name: "problems", unordered: false, lifetime: None },
];

pub const PAYLOAD: u32 = 1200;
/// The host sends once in this many milliseconds: as many chunks as the windows allow.
pub const SLOT: u64 = 4;
/// The editor takes so many chunks that are not yet acknowledged, and always has room for them.
pub const RECEIVER_WINDOW: usize = 14;
/// The congestion window at the beginning, and the least that a loss leaves of it.
pub const FIRST_WINDOW: usize = 4;

/// How a message ended, for the host.
#[derive(Clone, Copy, Debug, PartialEq, Eq)]
pub enum End {
    Open,
    Acknowledged,
    /// Expired before any of it was sent.
    Dropped,
    /// Expired half sent: the terminator's TSN.
    Cut(u32),
    /// Expired with all of it sent, and not all acknowledged.
    GivenUp,
}

/// A message that a pass has written.
pub struct Message {
    pub stream: u16,
    pub version: u32,
    pub offset: u64,
    pub length: u64,
    pub written: u64,
    pub deadline: Option<u64>,
    /// Its first TSN, counted from the session's first; and how many of its fragments were sent, and acknowledged.
    pub first: Option<u32>,
    pub sent: usize,
    pub acknowledged: usize,
    pub end: End,
    pub ended: u64,
}

impl Message {
    pub fn fragments(&self) -> usize {
        self.length.div_ceil(u64::from(PAYLOAD)) as usize
    }
}

#[derive(Clone, Copy, PartialEq, Eq)]
pub enum Mark {
    Sent,
    Retransmitted,
    Acknowledged,
    Abandoned,
    Terminator,
}

/// Something that happened to a TSN, for the drawing; `at` counts TSNs from the first.
pub struct Event {
    pub time: u64,
    pub at: u32,
    pub mark: Mark,
    pub stream: u16,
    /// What was sent here is lost on the link. The host does not know it.
    pub lost: bool,
}

/// The congestion window in chunks, as RFC 9260 has it in bytes (section 7.2): it grows by what is acknowledged up to a threshold, beyond it by one
/// chunk in a round trip, is halved by a loss, and is one chunk after a timeout.
struct Congestion {
    window: usize,
    threshold: usize,
    acknowledged: usize,
    /// The first TSN that was not yet sent when a loss was last heard of: one round trip halves the window once.
    halved_before: Option<u32>,
}

impl Congestion {
    fn acknowledged(&mut self) {
        self.acknowledged += 1;
        if self.window < self.threshold || self.acknowledged >= self.window {
            (self.window, self.acknowledged) = ((self.window + 1).min(RECEIVER_WINDOW), 0);
        }
    }

    fn lost(&mut self, tsn: u32, next_tsn: u32) {
        if self.halved_before.is_none_or(|before| tsn.wrapping_sub(before) < 1 << 31) {
            self.threshold = (self.window / 2).max(FIRST_WINDOW);
            (self.window, self.acknowledged, self.halved_before) = (self.threshold, 0, Some(next_tsn));
        }
    }

    fn timed_out(&mut self, next_tsn: u32) {
        self.threshold = (self.window / 2).max(FIRST_WINDOW);
        (self.window, self.acknowledged, self.halved_before) = (1, 0, Some(next_tsn));
    }
}

pub struct Host {
    pub sender: Sender,
    timers: TimerTable,
    rto: RtoManager,
    congestion: Congestion,
    pub first_tsn: u32,
    /// All bytes that were written: a chunk tells which of them it carries.
    store: Vec<u8>,
    pub messages: BTreeMap<u64, Message>,
    pub events: Vec<Event>,
    /// TSNs that are to be sent again; how often each was reported missing; those that were sent twice.
    again: VecDeque<u32>,
    missing: BTreeMap<u32, u32>,
    twice: BTreeSet<u32>,
    forwarded: Option<u32>,
    pub forwards: usize,
    pub timeouts: usize,
}

impl Host {
    pub fn new(first_tsn: u32) -> Result<Host, Refusal> {
        let mut sender = Sender::new(first_tsn, 0);
        for channel in &CHANNELS {
            sender.open_stream(channel.stream, PAYLOAD)?;
            let (kind, value) = channel.lifetime.map_or((ReliabilityType::Reliable, 0), |ms| (ReliabilityType::Timed, ms));
            sender.set_reliability_params(channel.stream, channel.unordered, kind, value)?;
        }
        Ok(Host {
            sender,
            timers: TimerTable::new(None, None, 400)?,
            rto: RtoManager::new(100, 60, 400)?,
            congestion: Congestion { window: FIRST_WINDOW, threshold: RECEIVER_WINDOW, acknowledged: 0, halved_before: None },
            first_tsn,
            store: Vec::new(),
            messages: BTreeMap::new(),
            events: Vec::new(),
            again: VecDeque::new(),
            missing: BTreeMap::new(),
            twice: BTreeSet::new(),
            forwarded: None,
            forwards: 0,
            timeouts: 0,
        })
    }

    fn mark(&mut self, time: u64, chunk: &Chunk, mark: Mark, lost: bool) {
        let at = chunk.tsn.wrapping_sub(self.first_tsn);
        self.events.push(Event { time, at, mark, stream: chunk.stream_identifier, lost });
    }

    /// The TSNs in flight, oldest first.
    fn flight(&self) -> impl Iterator<Item = Chunk> + use<'_> {
        successors(self.sender.oldest_tsn(), |tsn| Some(tsn.wrapping_add(1))).map_while(|tsn| self.sender.get(tsn))
    }

    fn release(&mut self, stream: u16, bytes: u64) -> Result<(), Refusal> {
        self.sender.on_buffer_released(stream, bytes as i64).map(drop)
    }

    /// A pass writes a message about a version of the graph.
    pub fn write(&mut self, now: u64, stream: u16, version: u32, bytes: &[u8]) -> Result<(), Refusal> {
        let number = self.sender.next_message_id();
        let (offset, length) = (self.store.len() as u64, bytes.len() as u64);
        self.sender.write(stream, PayloadProtocolIdentifier::BINARY, offset, length)?;
        self.store.extend_from_slice(bytes);
        // The step of this same millisecond starts it.
        let lifetime = CHANNELS.iter().find(|channel| channel.stream == stream).and_then(|channel| channel.lifetime);
        let deadline = lifetime.map(|ms| now + u64::from(ms));
        let message =
            Message { stream, version, offset, length, written: now, deadline, first: None, sent: 0, acknowledged: 0, end: End::Open, ended: now };
        self.messages.insert(number, message);
        Ok(())
    }

    /// A message has been abandoned, and `next` was the next TSN before: what the sender must have done is checked.
    fn abandoned(&mut self, now: u64, number: u64, next: u32) {
        let message = &self.messages[&number];
        let (half, fragments) = (message.sent < message.fragments(), message.sent);
        assert_eq!(message.end, End::Open, "a message ends once");
        assert!(fragments > 0, "what was never sent is dropped");
        let entries: Vec<Chunk> = self.flight().filter(|chunk| chunk.message_id == number).collect();
        assert!(entries.iter().all(|chunk| chunk.abandoned && chunk.length == 0), "all its entries are abandoned, and hold nothing");
        let ends: Vec<&Chunk> = entries.iter().filter(|chunk| chunk.is_terminator()).collect();
        let end = if half {
            assert_eq!(ends.len(), 1, "a cut tree has one terminator");
            assert_eq!((ends[0].tsn, self.sender.next_tsn()), (next, next.wrapping_add(1)), "it takes the next TSN, and no other is taken");
            assert!(ends[0].ending_fragment && !ends[0].beginning_fragment && ends[0].since.is_none(), "it ends the message, and is not sent");
            End::Cut(next)
        } else {
            assert_eq!((ends.len(), self.sender.next_tsn()), (0, next), "a tree that was sent whole has none");
            End::GivenUp
        };
        for chunk in entries.iter().filter(|chunk| !chunk.acked) {
            let mark = if chunk.is_terminator() { Mark::Terminator } else { Mark::Abandoned };
            self.mark(now, chunk, mark, false);
        }
        let message = self.messages.get_mut(&number).expect("it is known");
        (message.end, message.ended) = (end, now);
    }

    /// Gives up what has expired in flight.
    fn expire_inflight(&mut self, now: u64) -> Result<(), Refusal> {
        let mut list = [0; FLIGHT_ROOM];
        for &tsn in self.sender.expired_inflight(now, &mut list)? {
            let Some(chunk) = self.sender.get(tsn).filter(|chunk| !chunk.abandoned) else { continue };
            let next = self.sender.next_tsn();
            let gone = self.sender.abandon(tsn).expect("it is in flight");
            self.release(gone.stream_identifier, gone.bytes)?;
            self.abandoned(now, chunk.message_id, next);
        }
        Ok(())
    }

    /// Gives up what has expired at the head of what is pending, until nothing there has.
    fn expire_pending(&mut self, now: u64) -> Result<(), Refusal> {
        loop {
            let next = self.sender.next_tsn();
            let head = self.sender.peek_pending().map(|chunk| chunk.message_id);
            if let Some(gone) = self.sender.expire_pending(now)? {
                let message = self.messages.get_mut(&head.expect("something was pending")).expect("it is known");
                assert_eq!((message.sent, message.end, message.length), (0, End::Open, gone.bytes), "only what is wholly unsent is dropped");
                assert_eq!(self.sender.next_tsn(), next, "a dropped tree takes no TSN");
                (message.end, message.ended) = (End::Dropped, now);
                self.release(gone.stream_identifier, gone.bytes)?;
            } else if let Some(gone) = self.sender.expire_pending_tail(now)? {
                self.release(gone.stream_identifier, gone.bytes)?;
                self.abandoned(now, gone.message_id, next);
            } else {
                return Ok(());
            }
        }
    }

    /// Sends a chunk, for the first time or again. What is abandoned, as a terminator is, would be refused here.
    fn transmit(&mut self, now: u64, link: &mut Link, chunk: &Chunk, mark: Mark) -> Result<(), Refusal> {
        assert!(chunk.deadline.is_none_or(|deadline| now < deadline), "nothing leaves at or after its deadline");
        let mut out = [0; 16 + PAYLOAD.next_multiple_of(4) as usize];
        let data = self.sender.data_chunk(chunk.tsn, &self.store, &mut out)?;
        let lost = link.send(now, Packet::Data { chunk: data.to_vec() });
        self.mark(now, chunk, mark, lost);
        Ok(())
    }

    /// One millisecond of the host: the loop of docs/HOST.md, in its order.
    pub fn step(&mut self, now: u64, link: &mut Link) -> Result<(), Refusal> {
        self.sender.start_timed_messages(now)?;
        self.expire_inflight(now)?;
        let fired = self.timers.is_expired(Timer::T3RTX, now)?.expired;
        if fired {
            self.timeouts += 1;
            self.congestion.timed_out(self.sender.next_tsn());
            self.sender.mark_all_to_retransmit();
            self.again = self.flight().filter(|chunk| chunk.retransmit).map(|chunk| chunk.tsn).collect();
            self.timers.start(Timer::T3RTX, now, self.rto.get_rto())?;
        }
        if now % SLOT == 0 {
            self.send_again(now, link)?;
            self.send_new(now, link)?;
        }
        self.forward(now, link, fired);
        // Also while all that is in flight is abandoned: the forward point may be lost.
        if self.sender.inflight_len() > 0 {
            return self.timers.restart_if_stale(Timer::T3RTX, now, self.rto.get_rto());
        }
        self.timers.stop(Timer::T3RTX);
        Ok(())
    }

    /// Whether one more chunk may be out and unanswered. What waits to be sent again is taken as lost, and so is not out.
    fn window_has_room(&self) -> bool {
        let out = self.flight().filter(|chunk| !chunk.acked && !chunk.abandoned && !self.again.contains(&chunk.tsn)).count();
        out < self.congestion.window.min(RECEIVER_WINDOW)
    }

    fn send_again(&mut self, now: u64, link: &mut Link) -> Result<(), Refusal> {
        while self.window_has_room() {
            let Some(tsn) = self.again.pop_front() else { break };
            if let Some(chunk) = self.sender.get(tsn).filter(|chunk| !chunk.acked && !chunk.abandoned) {
                self.twice.insert(tsn);
                self.transmit(now, link, &chunk, Mark::Retransmitted)?;
            }
        }
        Ok(())
    }

    /// As many new chunks as the windows allow. Before each of them all that is due at the head goes: behind a chunk that was sent, another message
    /// may be there.
    fn send_new(&mut self, now: u64, link: &mut Link) -> Result<(), Refusal> {
        loop {
            self.expire_pending(now)?;
            if !self.window_has_room() {
                return Ok(());
            }
            let Some(chunk) = self.sender.send_next(now)? else { return Ok(()) };
            let message = self.messages.get_mut(&chunk.message_id).expect("it is known");
            message.first.get_or_insert(chunk.tsn.wrapping_sub(self.first_tsn));
            message.sent += 1;
            self.transmit(now, link, &chunk, Mark::Sent)?;
        }
    }

    /// The forward point: what is abandoned at the front of the flight need not be waited for. It is told when it is a new one, and again each time
    /// the timer fires.
    fn forward(&mut self, now: u64, link: &mut Link, fired: bool) {
        let front: Vec<Chunk> = self.flight().take_while(|chunk| chunk.abandoned).collect();
        let Some(last) = front.last() else { return };
        if self.forwarded == Some(last.tsn) && !fired {
            return;
        }
        let mut streams = BTreeMap::new();
        for chunk in front.iter().filter(|chunk| !chunk.unordered) {
            streams.insert(chunk.stream_identifier, chunk.stream_sequence_number);
        }
        self.forwarded = Some(last.tsn);
        self.forwards += 1;
        link.send(now, Packet::Forward { tsn: last.tsn, streams: streams.into_iter().collect() });
    }

    /// An entry, as it was, is newly acknowledged.
    fn acknowledged(&mut self, now: u64, chunk: &Chunk) -> Result<(), Refusal> {
        if chunk.abandoned {
            return Ok(());
        }
        self.release(chunk.stream_identifier, chunk.length.into())?;
        self.mark(now, chunk, Mark::Acknowledged, false);
        if !self.twice.contains(&chunk.tsn) {
            self.rto.set_new_rtt(now - chunk.since.expect("it was sent"))?;
        }
        self.timers.stop(Timer::T3RTX);
        self.congestion.acknowledged();
        let message = self.messages.get_mut(&chunk.message_id).expect("it is known");
        message.acknowledged += 1;
        if message.acknowledged == message.fragments() {
            (message.end, message.ended) = (End::Acknowledged, now);
        }
        Ok(())
    }

    /// An acknowledgement has come.
    pub fn take(&mut self, now: u64, packet: Packet) -> Result<(), Refusal> {
        let Packet::Sack { chunk } = packet else { unreachable!("the editor only acknowledges") };
        let mut fresh: Vec<Chunk> = self.flight().filter(|entry| !entry.acked).collect();
        let Some(sacked) = self.sender.handle_sack(&chunk)? else { return Ok(()) };
        fresh.retain(|entry| self.sender.get(entry.tsn).is_none_or(|left| left.acked));
        assert_eq!(fresh.iter().map(|entry| u64::from(entry.length)).sum::<u64>(), sacked.bytes, "what it released is what they held");
        for entry in &fresh {
            self.acknowledged(now, entry)?;
        }
        // Three reports that a later one has newly come, and it is sent again.
        let Some(newest) = fresh.last() else { return Ok(()) };
        let before = |tsn: u32| newest.tsn.wrapping_sub(tsn).wrapping_sub(1) < 1 << 31;
        let passed: Vec<u32> =
            self.flight().take_while(|entry| before(entry.tsn)).filter(|entry| !entry.acked && !entry.abandoned).map(|entry| entry.tsn).collect();
        for tsn in passed {
            let count = self.missing.entry(tsn).or_insert(0);
            *count += 1;
            if *count == 3 && !self.again.contains(&tsn) {
                self.again.push_back(tsn);
                self.congestion.lost(tsn, self.sender.next_tsn());
            }
        }
        Ok(())
    }

    pub fn idle(&self) -> bool {
        self.sender.pending_len() == 0 && self.sender.inflight_len() == 0
    }

    /// The last round-trip estimate, and the RTO.
    pub fn estimate(&self) -> (u64, u64) {
        (self.rto.srtt(), self.rto.get_rto())
    }
}
