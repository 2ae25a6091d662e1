//! The DATA chunk of an entry, byte for byte: against a writer of the test's own, which is given what was asked for and not what the sender says.

use std::collections::BTreeMap;

use girdermoth::*;

/// What a chunk must say, by what was written and in which order.
#[derive(Clone)]
struct Asked {
    tsn: u32,
    stream: u16,
    ssn: u16,
    unordered: bool,
    beginning: bool,
    ending: bool,
    protocol: u32,
    payload: Vec<u8>,
}

impl Asked {
    /// RFC 9260, section 3.3.1: each field with its width in bytes, then the payload and its padding.
    fn laid(&self) -> Vec<u8> {
        let flags = [(self.ending, 1), (self.beginning, 2), (self.unordered, 4)].iter().filter(|(on, _)| *on).map(|(_, bit)| bit).sum();
        let length = self.payload.len() as u64;
        let fields =
            [(0, 1), (flags, 1), (16 + length, 2), (self.tsn.into(), 4), (self.stream.into(), 2), (self.ssn.into(), 2), (self.protocol.into(), 4)];
        let mut chunk: Vec<u8> = fields.iter().flat_map(|(value, width)| (0..*width).rev().map(move |at| (value >> (8 * at)) as u8)).collect();
        chunk.extend(&self.payload);
        while chunk.len() % 4 != 0 {
            chunk.push(0);
        }
        chunk
    }
}

/// A host that remembers what it has asked for: TSNs, SSNs and fragments are its own count.
struct Host {
    sender: Sender,
    store: Vec<u8>,
    next_tsn: u32,
    next_ssn: BTreeMap<u16, u16>,
    checked: usize,
}

impl Host {
    fn new(first_tsn: u32) -> Host {
        Host { sender: Sender::new(first_tsn, 0), store: vec![9; 5], next_tsn: first_tsn, next_ssn: BTreeMap::new(), checked: 0 }
    }

    /// A message of one stream, with all its fragments in flight.
    fn sent(&mut self, stream: u16, unordered: bool, protocol: u32, length: usize, maximum: usize) -> Vec<Asked> {
        self.sender.set_reliability_params(stream, unordered, ReliabilityType::Reliable, 0).unwrap();
        let offset = self.store.len();
        // of this place alone, and without a zero
        let bytes: Vec<u8> = (offset..offset + length).map(|at| 1 + (at * 31 % 251) as u8).collect();
        self.sender.write(stream, PayloadProtocolIdentifier(protocol), offset as u64, length as u64).unwrap();
        self.store.extend(&bytes);
        let unordered = unordered && protocol != 50;
        let next = self.next_ssn.entry(stream).or_insert(0);
        let ssn = *next;
        // an unordered chunk has the SSN that its stream has come to
        *next = next.wrapping_add(u16::from(!unordered));
        let pieces: Vec<&[u8]> = bytes.chunks(maximum).collect();
        let last = pieces.len() - 1;
        let mut asked = Vec::new();
        for (at, piece) in pieces.into_iter().enumerate() {
            self.sender.send_next(0).unwrap().unwrap();
            let (tsn, payload) = (self.next_tsn, piece.to_vec());
            asked.push(Asked { tsn, stream, ssn, unordered, beginning: at == 0, ending: at == last, protocol, payload });
            self.next_tsn = tsn.wrapping_add(1);
        }
        asked
    }

    /// The chunk in an output of just its size, in larger ones whose other bytes stay, and in one that is too short.
    fn check(&mut self, asked: &Asked) {
        let expected = asked.laid();
        let whole = expected.len();
        for behind in [0, 1, 3, 64] {
            let mut out: Box<[u8]> = vec![0xA5; whole + behind].into();
            assert_eq!(self.sender.data_chunk(asked.tsn, &self.store, &mut out).unwrap(), expected, "TSN {}", asked.tsn);
            assert_eq!((&out[..whole], &out[whole..]), (&expected[..], &[0xA5; 64][..behind]), "TSN {}", asked.tsn);
        }
        let mut out: Box<[u8]> = vec![0xA5; whole - 1].into();
        assert_eq!(self.sender.data_chunk(asked.tsn, &self.store, &mut out), Err(Refusal::OutputShort));
        assert!(out.iter().all(|byte| *byte == 0xA5), "a refused call writes nothing");
        self.checked += 1;
    }

    fn settle(&mut self, asked: &[Asked]) {
        for one in asked {
            self.sender.mark_as_acked(one.tsn);
            self.sender.pop(one.tsn).unwrap();
        }
        self.store.truncate(5);
    }
}

#[test]
fn every_length_from_1_to_64_with_all_flags() {
    let mut host = Host::new(u32::MAX - 99);
    let mut seen = [0; 8];
    for length in 1..=64 {
        let stream = u16::MAX - 64 + length as u16;
        host.sender.open_stream(stream, length as u32).unwrap();
        for (unordered, pieces) in [(false, 1), (false, 3), (true, 1), (true, 3)] {
            let asked = host.sent(stream, unordered, 51 + length as u32, pieces * length, length);
            for one in &asked {
                assert_eq!(one.payload.len(), length);
                seen[usize::from(one.laid()[1])] += 1;
                host.check(one);
            }
            host.settle(&asked);
        }
    }
    assert_eq!((seen, host.checked), ([64; 8], 512));
}

#[test]
fn the_longest_payload() {
    let mut host = Host::new(0);
    host.sender.open_stream(1, PAYLOAD_MAX).unwrap();
    for (unordered, length) in [(false, 65_515), (false, 65_536), (true, 65_515), (true, 65_536)] {
        let asked = host.sent(1, unordered, 53, length, 65_515);
        assert_eq!(asked[0].laid()[2..4], [255, 251], "the length field is 65,531");
        asked.iter().for_each(|one| host.check(one));
        host.settle(&asked);
    }
    assert_eq!(host.checked, 6);
}

#[test]
fn streams_types_and_tsns_at_their_ends() {
    let types = [0, 1, 49, 50, 51, 53, 56, 57, 58, 255, 256, 65_535, 65_536, 1 << 24, 1 << 31, u32::MAX];
    for first_tsn in [0, u32::MAX - 3, 0x7FFF_FFFE, 0x0102_0304, 0xFFFE, 0x00FF_FFFF] {
        let mut host = Host::new(first_tsn);
        for stream in [0, 1, 255, 256, 32_767, 32_768, 65_534, 65_535] {
            host.sender.open_stream(stream, 3).unwrap();
            for (at, protocol) in types.into_iter().enumerate() {
                let asked = host.sent(stream, at % 2 == 1, protocol, 1 + at % 7, 3);
                asked.iter().for_each(|one| host.check(one));
                host.settle(&asked);
            }
        }
        assert!(host.checked > 128);
    }
}

#[test]
fn ssns_at_their_ends() {
    let mut host = Host::new(u32::MAX - 65_535);
    host.sender.open_stream(9, 4).unwrap();
    for at in 0..=65_540u32 {
        let asked = host.sent(9, false, 53, 1, 4);
        if [0, 1, 255, 256, 32_767, 32_768, 65_279, 65_280, 65_535].contains(&(at % 65_536)) {
            assert_eq!(u32::from(asked[0].ssn), at % 65_536);
            host.check(&asked[0]);
        }
        host.settle(&asked);
        // an unordered message takes none
        if at % 1_000 == 535 {
            let asked = host.sent(9, true, 53, 6, 4);
            asked.iter().for_each(|one| host.check(one));
            host.settle(&asked);
        }
    }
    assert_eq!(host.checked, 11 + 2 * 66);
}

/// Any entry, in any order and again: what is marked, timed, or beside what was acknowledged and abandoned.
#[test]
fn any_entry_of_a_full_flight_as_often_as_one_likes() {
    let mut host = Host::new(u32::MAX - 100);
    host.sender.open_stream(1, 8).unwrap();
    host.sender.open_stream(2, 5).unwrap();
    let mut asked = Vec::new();
    while asked.len() < 255 {
        let at = asked.len();
        let (stream, maximum) = if at % 2 == 0 { (1, 8) } else { (2, 5) };
        let pieces = (1 + at % 4).min(255 - at);
        asked.extend(host.sent(stream, at % 3 == 0, 53, pieces * maximum, maximum));
    }
    assert_eq!(host.sender.inflight_len(), 255);
    host.sender.mark_all_to_retransmit();
    for at in 0..255 {
        host.check(&asked[at * 101 % 255]);
    }
    let mut gone = 0;
    for at in (0..255).step_by(7) {
        if at % 2 == 0 {
            host.sender.mark_as_acked(asked[at].tsn)
        } else {
            host.sender.abandon(asked[at].tsn).unwrap().bytes
        };
    }
    for one in &asked {
        let entry = host.sender.get(one.tsn).unwrap();
        if entry.acked || entry.abandoned {
            assert_eq!(host.sender.data_chunk(one.tsn, &host.store, &mut [0; 100]), Err(Refusal::NoEntry));
            gone += 1;
        } else {
            host.check(one);
        }
    }
    assert!(gone > 37 && gone < 200);
    assert_eq!(host.checked, 255 + 255 - gone);
}

#[test]
fn the_ssn_is_that_of_the_sending() {
    let mut s = Sender::new(0, 0);
    s.open_stream(1, 10).unwrap();
    s.set_reliability_params(1, false, ReliabilityType::Timed, 5).unwrap();
    s.write(1, PayloadProtocolIdentifier::BINARY, 0, 4).unwrap();
    s.start_timed_messages(0).unwrap();
    s.write(1, PayloadProtocolIdentifier::STRING, 4, 4).unwrap();
    assert!(s.expire_pending(5).unwrap().is_some());
    s.send_next(5).unwrap().unwrap();
    let mut out = [1; 20];
    assert_eq!(
        s.data_chunk(0, b"lateidea", &mut out).unwrap(),
        b"\0\x03\0\x14\0\0\0\0\0\x01\0\0\0\0\0\x33idea",
        "the first was dropped, and this one moved up"
    );
}

/// Each message in a block of its own, from offset 0 on; or all in one, of which a part is lent.
#[test]
fn offsets_count_from_the_first_lent_byte() {
    let (store, mut out) = (b"0123456789abcdef", [0; 24]);
    let mut s = Sender::new(0, 0);
    s.open_stream(1, 6).unwrap();
    s.write(1, PayloadProtocolIdentifier::BINARY, 0, 8).unwrap();
    while s.send_next(0).unwrap().is_some() {}
    for (first, pieces) in [(0, ["012345", "67"]), (8, ["89abcd", "ef"])] {
        for (tsn, piece) in (0..).zip(pieces) {
            assert_eq!(s.data_chunk(tsn, &store[first..first + 8], &mut out).unwrap()[16..16 + piece.len()], *piece.as_bytes());
        }
    }
}
