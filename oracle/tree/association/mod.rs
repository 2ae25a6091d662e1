//! STUB of association/mod.rs: an Association that is just large enough for stream.rs.
//! Of its own it does one thing: accepted chunks are pushed on the OutboundQueue.

use alloc::collections::VecDeque;
use alloc::vec::Vec;
use std::collections::HashMap;

use crate::chunk::chunk_payload_data::ChunkPayloadData;
use crate::error::Result;
use crate::queue::outbound_queue::OutboundQueue;

pub mod oracle;
pub(crate) mod state;
pub mod stats;

// The originals, unchanged, with probes of the oracle in the same module.
pub mod stream {
    include!("stream.rs");

    impl StreamState {
        pub(crate) fn probe_packetize(
            &mut self,
            raw: &Bytes,
            ppi: PayloadProtocolIdentifier,
        ) -> (bool, Vec<ChunkPayloadData>) {
            self.packetize(raw, ppi)
        }
    }
    impl DataChannelStats {
        pub(crate) fn probe_sent(&mut self, ppi: PayloadProtocolIdentifier, len: usize) {
            self.sent(ppi, len)
        }
    }
}

pub(crate) mod timer {
    include!("timer.rs");

    /// What is kept of one timer.
    pub(crate) struct Kept {
        pub(crate) deadline: Option<Instant>,
        pub(crate) count: usize,
        pub(crate) maximum: Option<usize>,
        pub(crate) suppressed: bool,
    }

    impl TimerTable {
        pub(crate) fn probe(&self, timer: Timer) -> Kept {
            let i = timer as usize;
            Kept {
                deadline: self.data[i],
                count: self.retrans[i],
                maximum: self.max_retrans[i],
                suppressed: self.no_error_count[i],
            }
        }
        pub(crate) fn probe_rto_max(&self) -> u64 {
            self.rto_max
        }
        pub(crate) fn probe_set_count(&mut self, timer: Timer, count: usize) {
            self.retrans[timer as usize] = count;
        }
    }
}

use self::state::AssociationState;
use self::stream::{DataChannelStats, StreamEvent, StreamId, StreamState};

#[derive(Debug, Clone, PartialEq, Eq)]
pub enum AssociationError {
    ReceiveBufferExhausted,
}

#[derive(Debug)]
pub enum Event {
    Stream(StreamEvent),
    DataChannelStatsFinal(DataChannelStats),
}

#[derive(Debug)]
pub struct Association {
    pub(crate) streams: HashMap<StreamId, StreamState>,
    pub(crate) events: VecDeque<Event>,
    pub(crate) retiring_streams: HashMap<StreamId, ()>,
    pub(crate) outbound: OutboundQueue,
    pub(crate) my_next_tsn: u32,
    pub(crate) max_message: u32,
}

impl Association {
    pub(crate) fn new(first_tsn: u32, first_message: u64, max_message: u32) -> Self {
        Association {
            streams: HashMap::new(),
            events: VecDeque::new(),
            retiring_streams: HashMap::new(),
            outbound: OutboundQueue::probe_new(first_message),
            my_next_tsn: first_tsn,
            max_message,
        }
    }
    pub(crate) fn state(&self) -> AssociationState {
        AssociationState::Established
    }
    pub(crate) fn max_send_message_size(&self) -> u32 {
        self.max_message
    }
    pub(crate) fn send_payload_data(&mut self, chunks: Vec<ChunkPayloadData>) -> Result<()> {
        self.outbound.push(chunks);
        Ok(())
    }
    pub(crate) fn stream_reset_blocked(&self, _: StreamId) -> bool {
        false
    }
    pub(crate) fn stream_reset_in_progress(&self, _: StreamId) -> bool {
        false
    }
    pub(crate) fn send_reset_request(&mut self, _: StreamId) -> Result<()> {
        Ok(())
    }
    pub(crate) fn finish_retiring_stream(&mut self, _: StreamId) -> Result<()> {
        Ok(())
    }
    pub(crate) fn discard_retiring_streams(&mut self, _: StreamId) {}
    pub(crate) fn receive_capacity_exhausted(&self) -> bool {
        false
    }
    pub(crate) fn abort_receive_capacity(&mut self) {}
}
