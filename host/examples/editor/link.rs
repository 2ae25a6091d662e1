//! A link that loses, delays and reorders, and that is down for a while.

use crate::rng::Rng;

/// What crosses the link: one chunk in a packet. Those of DATA and SACK are bytes, as RFC 9260 has them.
#[derive(Clone)]
pub enum Packet {
    Data {
        chunk: Vec<u8>,
    },
    /// All up to `tsn` is settled; of each ordered stream, nothing up to this SSN is to be waited for.
    Forward {
        tsn: u32,
        streams: Vec<(u16, u16)>,
    },
    Sack {
        chunk: Vec<u8>,
    },
}

/// Shortest and longest way, in milliseconds; and the usual one, which all packets take but so many in a hundred. These come before or after
/// others that set out with them.
pub const DELAY: (u64, u64) = (15, 25);
pub const USUAL_DELAY: u64 = 18;
pub const STRAY_PERCENT: u64 = 20;
/// Nothing that sets out in this time arrives.
pub const DOWN: (u64, u64) = (500, 560);

pub struct Link {
    rng: Rng,
    /// In a hundred.
    loss: u64,
    under_way: Vec<(u64, Packet)>,
    /// When what was lost set out.
    pub losses: Vec<u64>,
}

impl Link {
    pub fn new(seed: u64, loss: u64) -> Link {
        Link { rng: Rng::new(seed), loss, under_way: Vec::new(), losses: Vec::new() }
    }

    /// Answers whether the packet is lost. No end of the link may act on that: it is for the drawing.
    pub fn send(&mut self, now: u64, packet: Packet) -> bool {
        let strays = self.rng.percent(STRAY_PERCENT);
        let delay = if strays { self.rng.within(DELAY.0, DELAY.1) } else { USUAL_DELAY };
        let lost = self.rng.percent(self.loss) || (DOWN.0..DOWN.1).contains(&now);
        if lost {
            self.losses.push(now);
        } else {
            self.under_way.push((now + delay, packet));
        }
        lost
    }

    /// What arrives now, in the order of setting out.
    pub fn arrivals(&mut self, now: u64) -> Vec<Packet> {
        let (here, later) = std::mem::take(&mut self.under_way).into_iter().partition(|(at, _)| *at <= now);
        self.under_way = later;
        let here: Vec<(u64, Packet)> = here;
        here.into_iter().map(|(_, packet)| packet).collect()
    }
}
