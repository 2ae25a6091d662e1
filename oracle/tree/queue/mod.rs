//! STUB of queue/mod.rs. The originals are included unchanged; the items after each
//! include! stand in the same module, so that the oracle may see private fields.
//! Only planted faults (association/oracle/faults.rs) use what changes something.

pub(crate) mod payload_queue {
    include!("payload_queue.rs");

    impl PayloadQueue {
        pub(crate) fn probe_bytes(&mut self) -> &mut usize {
            &mut self.n_bytes
        }
        pub(crate) fn probe_entries(&mut self) -> impl Iterator<Item = &mut ChunkPayloadData> {
            self.chunk_map.values_mut()
        }
        /// Takes an entry out, wherever it stands.
        pub(crate) fn probe_remove(&mut self, tsn: u32) -> Option<ChunkPayloadData> {
            self.sorted.retain(|t| *t != tsn);
            let entry = self.chunk_map.remove(&tsn)?;
            self.n_bytes -= entry.user_data.len();
            Some(entry)
        }
    }
}

pub(crate) mod pending_queue {
    include!("pending_queue.rs");

    impl PendingQueue {
        pub(crate) fn probe_unordered(&self) -> &PendingBaseQueue {
            &self.unordered_queue
        }
        pub(crate) fn probe_ordered(&self) -> &PendingBaseQueue {
            &self.ordered_queue
        }
        /// Whether a message is under way.
        pub(crate) fn probe_selected(&self) -> bool {
            self.selected
        }
        pub(crate) fn probe_select(&mut self) {
            self.selected = true;
        }
        pub(crate) fn probe_chunks(&mut self) -> impl Iterator<Item = &mut ChunkPayloadData> {
            self.unordered_queue.iter_mut().chain(&mut self.ordered_queue)
        }
    }
}

pub(crate) mod outbound_queue {
    include!("outbound_queue.rs");

    impl OutboundQueue {
        /// A fresh queue whose first message number is `first` (the crate: always 0).
        pub(crate) fn probe_new(first: u64) -> Self {
            OutboundQueue { next_message_id: first, next_unstarted_message_id: first, ..Default::default() }
        }
        pub(crate) fn probe_pending(&self) -> &PendingQueue {
            &self.pending
        }
        /// Flight entries, oldest first, as `sorted` has them.
        pub(crate) fn probe_flight(&self) -> Vec<&ChunkPayloadData> {
            self.inflight.sorted.iter().map(|t| self.inflight.get(*t).expect("sorted and map agree")).collect()
        }
        pub(crate) fn probe_oldest(&self) -> Option<u32> {
            self.inflight.sorted.front().copied()
        }
        pub(crate) fn probe_next_unstarted(&self) -> u64 {
            self.next_unstarted_message_id
        }
        pub(crate) fn probe_parts(&mut self) -> (&mut PendingQueue, &mut PayloadQueue) {
            (&mut self.pending, &mut self.inflight)
        }
    }
}

pub(crate) mod reassembly_queue;
