//! The walk, through the crate: the lines that the proved program writes.

use girdermoth::{Abandoned, Chunk, PayloadProtocolIdentifier, ReliabilityType, Sender};

fn line(chunk: Chunk) -> String {
    format!("{} {} {} {} {}\n", chunk.tsn, chunk.stream_identifier, chunk.stream_sequence_number, chunk.flags(), chunk.length)
}

#[test]
fn the_walk_writes_the_lines_of_the_proved_program() {
    let binary = PayloadProtocolIdentifier::BINARY;
    let mut written = String::from("tsn stream ssn flags length\n");
    let mut s = Sender::new(4_294_967_294, 0);
    s.open_stream(1, 1200).unwrap();
    s.open_stream(2, 1200).unwrap();
    s.set_reliability_params(2, true, ReliabilityType::Reliable, 0).unwrap();
    s.write(1, binary, 0, 2500).unwrap();
    written += &line(s.send_next(0).unwrap().unwrap());
    s.write(2, binary, 2500, 50).unwrap();
    written += &line(s.send_next(0).unwrap().unwrap());
    assert_eq!(s.abandon(4_294_967_294), Some(Abandoned { stream_identifier: 1, bytes: 2500 }));
    written += &line(s.get(s.next_tsn().wrapping_sub(1)).unwrap());
    written += &line(s.send_next(0).unwrap().unwrap());
    assert_eq!(s.send_next(0), Ok(None));
    assert_eq!(written, include_str!("../../crates/walk/stdout"));
}
