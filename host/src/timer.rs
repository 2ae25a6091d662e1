use crate::Refusal;
use crate::sys;

/// The interval that the Ack timer is started with, in milliseconds.
pub const ACK_INTERVAL: u64 = 200;

/// The six timers of an association.
#[derive(Clone, Copy, Debug, PartialEq, Eq, PartialOrd, Ord, Hash)]
#[repr(usize)]
#[allow(missing_docs)]
pub enum Timer {
    T1Init = 0,
    T1Cookie = 1,
    T2Shutdown = 2,
    T3RTX = 3,
    Reconfig = 4,
    Ack = 5,
}

impl Timer {
    /// All six, in their order.
    pub const VALUES: [Timer; 6] = [Timer::T1Init, Timer::T1Cookie, Timer::T2Shutdown, Timer::T3RTX, Timer::Reconfig, Timer::Ack];
}

/// What [`TimerTable::is_expired`] tells.
#[derive(Clone, Copy, Debug, PartialEq, Eq)]
pub struct Expiry {
    /// The deadline is reached: it is now or before.
    pub expired: bool,
    /// The expiry was counted, and the count is now above the timer's maximum.
    pub failure: bool,
    /// The timer's count of expiries.
    pub count: u32,
}

/// Deadlines, counts and back-off of the six timers. Times are milliseconds.
#[derive(Clone, Copy, Debug)]
pub struct TimerTable(sys::Timers);

/// Two tables are equal that mean the same: the time in a timer that has no deadline is nothing.
impl PartialEq for TimerTable {
    fn eq(&self, other: &TimerTable) -> bool {
        let meaning = |timer: &sys::Timer| {
            let deadline = (timer.has_deadline != 0).then_some(timer.deadline);
            let maximum = (timer.has_maximum != 0).then_some(timer.maximum);
            (deadline, maximum, timer.retrans, timer.suppressed != 0)
        };
        self.0.rto_max == other.0.rto_max && self.0.entries.iter().map(meaning).eq(other.0.entries.iter().map(meaning))
    }
}

impl Default for TimerTable {
    /// No maxima, and waits of at most 60,000 ms.
    fn default() -> Self {
        TimerTable::new(None, None, 60_000).expect("the maximum is within its limit")
    }
}

impl TimerTable {
    /// A table in which no timer runs. T1Init, T1Cookie and Reconfig fail after `max_init_retransmits` expiries, T3RTX after
    /// `max_data_retransmits`, T2Shutdown and Ack never; `rto_max` bounds every wait but Ack's.
    ///
    /// Refused: [`BeyondLimit`](Refusal::BeyondLimit) (`rto_max` above 4,294,967,295).
    pub fn new(max_init_retransmits: Option<u64>, max_data_retransmits: Option<u64>, rto_max: u64) -> Result<TimerTable, Refusal> {
        let mut timers = sys::Timers::ZERO;
        Refusal::check(sys::girdermoth_timers_new(
            &mut timers,
            max_init_retransmits.is_some(),
            max_init_retransmits.unwrap_or(0),
            max_data_retransmits.is_some(),
            max_data_retransmits.unwrap_or(0),
            rto_max,
        ))?;
        Ok(TimerTable(timers))
    }

    /// Sets or clears a deadline, and nothing else.
    ///
    /// Refused: [`BeyondLimit`](Refusal::BeyondLimit).
    pub fn set(&mut self, timer: Timer, time: Option<u64>) -> Result<(), Refusal> {
        Refusal::check(sys::girdermoth_timer_set(&mut self.0, timer as usize, time.is_some(), time.unwrap_or(0)))
    }

    /// The deadline of a timer that runs.
    pub fn get(&self, timer: Timer) -> Option<u64> {
        let due = sys::girdermoth_timer_get(&self.0, timer as usize);
        (due.yes != 0).then_some(due.value)
    }

    /// The smallest deadline of all.
    pub fn next_timeout(&self) -> Option<u64> {
        let due = sys::girdermoth_timers_next_timeout(&self.0);
        (due.yes != 0).then_some(due.value)
    }

    /// Starts a timer: its deadline is `now` plus the interval, doubled for each counted expiry and at most `rto_max`. For Ack it is `now` plus
    /// the interval.
    ///
    /// Refused: [`BeyondLimit`](Refusal::BeyondLimit).
    pub fn start(&mut self, timer: Timer, now: u64, interval: u64) -> Result<(), Refusal> {
        Refusal::check(sys::girdermoth_timer_start(&mut self.0, timer as usize, now, interval))
    }

    /// Starts a timer, unless it has a deadline at or after `now`.
    ///
    /// Refused: [`BeyondLimit`](Refusal::BeyondLimit), also when nothing would be done.
    pub fn restart_if_stale(&mut self, timer: Timer, now: u64, interval: u64) -> Result<(), Refusal> {
        Refusal::check(sys::girdermoth_timer_restart_if_stale(&mut self.0, timer as usize, now, interval))
    }

    /// Clears deadline, count and suppression.
    pub fn stop(&mut self, timer: Timer) {
        sys::girdermoth_timer_stop(&mut self.0, timer as usize);
    }

    /// Clears the count alone.
    pub fn reset_retrans(&mut self, timer: Timer) {
        sys::girdermoth_timer_reset_retrans(&mut self.0, timer as usize);
    }

    /// The timer's next expiry is not counted.
    pub fn suppress_error_count(&mut self, timer: Timer) {
        sys::girdermoth_timer_suppress_error_count(&mut self.0, timer as usize);
    }

    /// Whether a timer has expired. Asking counts: every call at or after the deadline is an expiry of its own, and the deadline stays.
    ///
    /// Refused: [`BeyondLimit`](Refusal::BeyondLimit), [`CountFull`](Refusal::CountFull).
    pub fn is_expired(&mut self, timer: Timer, after: u64) -> Result<Expiry, Refusal> {
        let told = sys::girdermoth_timer_is_expired(&mut self.0, timer as usize, after);
        Refusal::check(told.refusal)?;
        Ok(Expiry { expired: told.expired != 0, failure: told.failure != 0, count: told.count })
    }
}

#[cfg(test)]
mod tests {
    use super::*;

    #[test]
    fn tables_are_equal_that_mean_the_same() {
        let fresh = TimerTable::new(Some(2), None, 60_000).unwrap();
        let mut t = fresh;
        t.start(Timer::Ack, 5, ACK_INTERVAL).unwrap();
        let started = t;
        assert_ne!(t, fresh);
        t.stop(Timer::Ack);
        assert_eq!(t, fresh, "a stopped timer is idle, whatever its deadline was");
        t.0.entries[Timer::Ack as usize].maximum = 7;
        assert_eq!(t, fresh, "nor is a maximum told where there is none");
        t.suppress_error_count(Timer::Ack);
        assert_ne!(t, fresh);
        let mut t = started;
        t.is_expired(Timer::Ack, 205).unwrap();
        assert_ne!(t, started);
        t.reset_retrans(Timer::Ack);
        assert_eq!(t, started);
        assert_ne!(fresh, TimerTable::new(Some(3), None, 60_000).unwrap());
        assert_ne!(fresh, TimerTable::new(Some(2), None, 60_001).unwrap());
        assert_ne!(TimerTable::new(None, Some(0), 1).unwrap(), TimerTable::new(None, None, 1).unwrap());
    }

    /// The count is at its limit: four billion calls would reach it, and here it is set.
    #[test]
    fn a_full_count_is_refused_and_a_suppressed_expiry_is_not() {
        let mut t = TimerTable::default();
        t.set(Timer::T3RTX, Some(10)).unwrap();
        t.0.entries[Timer::T3RTX as usize].retrans = u32::MAX - 1;
        assert_eq!(t.is_expired(Timer::T3RTX, 10), Ok(Expiry { expired: true, failure: false, count: u32::MAX }));
        let full = t;
        assert_eq!(t.is_expired(Timer::T3RTX, 10), Err(Refusal::CountFull));
        assert_eq!(t.0, full.0);
        assert_eq!(t.is_expired(Timer::T3RTX, 9), Ok(Expiry { expired: false, failure: false, count: u32::MAX }));
        t.suppress_error_count(Timer::T3RTX);
        assert_eq!(t.is_expired(Timer::T3RTX, 10), Ok(Expiry { expired: true, failure: false, count: u32::MAX }));
        assert_eq!(t.is_expired(Timer::T3RTX, 10), Err(Refusal::CountFull));
        t.reset_retrans(Timer::T3RTX);
        assert_eq!(t.is_expired(Timer::T3RTX, 10), Ok(Expiry { expired: true, failure: false, count: 1 }));
    }
}
