//! The editor's end: a small model of SCTP's receiving side. It puts messages together by TSN, hands the ordered ones over by SSN, and skips
//! what the sender has given up.

use std::collections::{BTreeMap, BTreeSet};

use crate::link::Packet;

struct Fragment {
    stream: u16,
    ssn: u16,
    protocol: u32,
    unordered: bool,
    beginning: bool,
    ending: bool,
    bytes: Vec<u8>,
}

/// Reads a DATA chunk (RFC 9260, section 3.3.1): its TSN, and what it carries.
fn read(chunk: &[u8]) -> (u32, Fragment) {
    let number = |from: usize, width: usize| chunk[from..from + width].iter().fold(0, |value, byte| value << 8 | u32::from(*byte));
    assert!(chunk[0] == 0 && chunk[1] < 8 && chunk.len() % 4 == 0, "no DATA chunk");
    let (bytes, padding) = chunk[16..].split_at(number(2, 2) as usize - 16);
    assert!(!bytes.is_empty() && padding.len() < 4 && padding.iter().all(|byte| *byte == 0), "behind the payload stand up to three zeros");
    let [ending, beginning, unordered] = [1, 2, 4].map(|bit| chunk[1] & bit != 0);
    let (stream, ssn, protocol) = (number(8, 2) as u16, number(10, 2) as u16, number(12, 4));
    (number(4, 4), Fragment { stream, ssn, protocol, unordered, beginning, ending, bytes: bytes.to_vec() })
}

/// A message that the editor is handed.
pub struct Handed {
    pub stream: u16,
    pub bytes: Vec<u8>,
    /// When its last missing fragment came, and when it was handed over: later, if it had to wait for one before it.
    pub whole_at: u64,
    pub at: u64,
}

/// TSNs are counted from the first, so that a wrap is no case of its own.
pub struct Receiver {
    first_tsn: u32,
    /// All before this one has come or is settled.
    next: u32,
    beyond: BTreeSet<u32>,
    fragments: BTreeMap<u32, Fragment>,
    next_ssn: BTreeMap<u16, u16>,
    /// Whole, but behind a message that is not: its last TSN, when it was whole, and its bytes.
    waiting: BTreeMap<(u16, u16), (u32, u64, Vec<u8>)>,
    /// The TSNs that came, and when.
    pub arrived: BTreeMap<u32, u64>,
    pub handed: Vec<Handed>,
    pub duplicates: usize,
}

impl Receiver {
    pub fn new(first_tsn: u32) -> Receiver {
        Receiver {
            first_tsn,
            next: 0,
            beyond: BTreeSet::new(),
            fragments: BTreeMap::new(),
            next_ssn: BTreeMap::new(),
            waiting: BTreeMap::new(),
            arrived: BTreeMap::new(),
            handed: Vec::new(),
            duplicates: 0,
        }
    }

    /// The last TSN up to which nothing is missing.
    pub fn cumulative(&self) -> u32 {
        self.first_tsn.wrapping_add(self.next).wrapping_sub(1)
    }

    /// Parts of messages, and messages that wait for one before them.
    pub fn unfinished(&self) -> usize {
        self.fragments.len() + self.waiting.len()
    }

    /// Takes a packet, and answers with an acknowledgement.
    pub fn take(&mut self, now: u64, packet: Packet) -> Packet {
        match packet {
            Packet::Data { chunk } => {
                let (tsn, fragment) = read(&chunk);
                let at = tsn.wrapping_sub(self.first_tsn);
                self.arrived.entry(at).or_insert(now);
                // A TSN before the first would be 2^31 or more away from it.
                if at < self.next || self.beyond.contains(&at) {
                    self.duplicates += 1;
                } else {
                    self.beyond.insert(at);
                    self.fragments.insert(at, fragment);
                    self.put_together(now, at);
                    self.advance();
                }
            }
            Packet::Forward { tsn, streams } => {
                let to = tsn.wrapping_sub(self.first_tsn).wrapping_add(1);
                if to > self.next {
                    self.next = to;
                    self.beyond = self.beyond.split_off(&to);
                    self.fragments = self.fragments.split_off(&to);
                    // All that the point passes is given up, so what still waits there is skipped too, though it is whole.
                    self.waiting.retain(|_, (last, ..)| *last >= to);
                    self.advance();
                    for (stream, ssn) in streams {
                        self.skip(now, stream, ssn);
                    }
                }
            }
            Packet::Sack { .. } => unreachable!("the host sends no acknowledgement"),
        }
        Packet::Sack { chunk: self.sack() }
    }

    /// Type 3, the cumulative TSN, a window that is always open, and a block for each run of what has come beyond it.
    fn sack(&self) -> Vec<u8> {
        let mut blocks: Vec<[u16; 2]> = Vec::new();
        for offset in self.beyond.iter().map(|at| (at + 1 - self.next) as u16) {
            match blocks.last_mut() {
                Some([_, end]) if *end + 1 == offset => *end = offset,
                _ => blocks.push([offset; 2]),
            }
        }
        let mut chunk = [[3, 0], (16 + 4 * blocks.len() as u16).to_be_bytes()].concat();
        chunk.extend(self.cumulative().to_be_bytes());
        chunk.extend(u32::MAX.to_be_bytes());
        chunk.extend([blocks.len() as u16, 0].map(u16::to_be_bytes).concat());
        chunk.extend(blocks.concat().into_iter().flat_map(u16::to_be_bytes));
        chunk
    }

    fn advance(&mut self) {
        while self.beyond.remove(&self.next) {
            self.next += 1;
        }
    }

    /// The message of a fragment that has just come, if now it is whole: a first fragment, a last one, and all between.
    fn put_together(&mut self, now: u64, at: u32) {
        let mut first = at;
        while !self.fragments[&first].beginning {
            let Some(before) = first.checked_sub(1).filter(|before| self.fragments.contains_key(before)) else { return };
            first = before;
        }
        let mut last = at;
        while !self.fragments[&last].ending {
            last += 1;
            if !self.fragments.contains_key(&last) {
                return;
            }
        }
        let parts: Vec<Fragment> = (first..=last).map(|at| self.fragments.remove(&at).expect("it is there")).collect();
        let (stream, ssn, unordered) = (parts[0].stream, parts[0].ssn, parts[0].unordered);
        assert!(parts.iter().all(|part| (part.stream, part.ssn, part.unordered) == (stream, ssn, unordered)), "fragments of two messages");
        assert!(parts.iter().all(|part| part.protocol == 53), "another payload type");
        let bytes = parts.into_iter().flat_map(|part| part.bytes).collect();
        if unordered {
            self.handed.push(Handed { stream, bytes, whole_at: now, at: now });
        } else {
            self.waiting.insert((stream, ssn), (last, now, bytes));
            self.hand_over(now, stream);
        }
    }

    fn hand_over(&mut self, now: u64, stream: u16) {
        let next = self.next_ssn.entry(stream).or_insert(0);
        while let Some((_, whole_at, bytes)) = self.waiting.remove(&(stream, *next)) {
            self.handed.push(Handed { stream, bytes, whole_at, at: now });
            *next = next.wrapping_add(1);
        }
    }

    /// Nothing up to this SSN will come that is not here: what is here is handed over. A session has far fewer than 2^16 messages.
    fn skip(&mut self, now: u64, stream: u16, ssn: u16) {
        while *self.next_ssn.entry(stream).or_insert(0) <= ssn {
            self.hand_over(now, stream);
            let next = self.next_ssn.entry(stream).or_insert(0);
            if *next <= ssn {
                *next += 1;
            }
        }
        self.hand_over(now, stream);
    }
}
