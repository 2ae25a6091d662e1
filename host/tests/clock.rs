//! The timers and the round-trip estimator: the worked examples, and each call with its answer.

use girdermoth::*;

const LATE: u64 = CLOCK_MAX + 1;
const LONG: u64 = 4_294_967_296;

fn told(expired: bool, failure: bool, count: u32) -> Result<Expiry, Refusal> {
    Ok(Expiry { expired, failure, count })
}

/// The deadline that a start at 0 gives after `count` expiries.
fn wait(interval: u64, count: u32) -> Option<u64> {
    let mut t = TimerTable::new(None, None, 60_000).unwrap();
    t.set(Timer::T3RTX, Some(0)).unwrap();
    for n in 1..=count {
        assert_eq!(t.is_expired(Timer::T3RTX, 0), told(true, false, n));
    }
    t.start(Timer::T3RTX, 0, interval).unwrap();
    t.get(Timer::T3RTX)
}

#[test]
fn waits_double_up_to_the_maximum() {
    assert_eq!((wait(1_000, 0), wait(1_000, 5), wait(1_000, 6)), (Some(1_000), Some(32_000), Some(60_000)));
    assert_eq!((wait(0, 30), wait(0, 31)), (Some(0), Some(60_000)));
    assert_eq!(wait(4_294_967_295, 0), Some(60_000));
}

#[test]
fn each_timer_is_its_own() {
    let mut t = TimerTable::default();
    assert_eq!(t.next_timeout(), None);
    for (at, timer) in Timer::VALUES.into_iter().enumerate() {
        t.set(timer, Some(100 - at as u64)).unwrap();
    }
    for (at, timer) in Timer::VALUES.into_iter().enumerate() {
        assert_eq!(t.get(timer), Some(100 - at as u64));
    }
    assert_eq!(t.next_timeout(), Some(95));
    t.stop(Timer::Ack);
    assert_eq!((t.get(Timer::Ack), t.next_timeout()), (None, Some(96)));
    t.set(Timer::Reconfig, None).unwrap();
    assert_eq!(t.next_timeout(), Some(97));
}

#[test]
fn failure_is_above_the_maximum_of_the_timer() {
    for (timer, maximum) in Timer::VALUES.into_iter().zip([Some(2), Some(2), None, Some(1), Some(2), None]) {
        let mut t = TimerTable::new(Some(2), Some(1), 60_000).unwrap();
        t.set(timer, Some(5)).unwrap();
        assert_eq!(t.is_expired(timer, 4), told(false, false, 0));
        for n in 1..=4 {
            assert_eq!(t.is_expired(timer, 5), told(true, maximum.is_some_and(|m| n > m), n), "{timer:?}");
        }
        t.reset_retrans(timer);
        assert_eq!((t.get(timer), t.is_expired(timer, 5)), (Some(5), told(true, maximum.is_some_and(|m| 1 > m), 1)));
    }
}

#[test]
fn a_suppressed_expiry_is_not_counted_once() {
    let mut t = TimerTable::new(None, Some(0), 60_000).unwrap();
    t.set(Timer::T3RTX, Some(5)).unwrap();
    t.suppress_error_count(Timer::T3RTX);
    assert_eq!(t.is_expired(Timer::T3RTX, 4), told(false, false, 0));
    assert_eq!(t.is_expired(Timer::T3RTX, 5), told(true, false, 0));
    assert_eq!(t.is_expired(Timer::T3RTX, 5), told(true, true, 1));
    t.suppress_error_count(Timer::T3RTX);
    t.stop(Timer::T3RTX);
    t.set(Timer::T3RTX, Some(5)).unwrap();
    assert_eq!(t.is_expired(Timer::T3RTX, 5), told(true, true, 1), "a stop clears count and suppression");
}

#[test]
fn restart_leaves_what_still_runs() {
    let mut t = TimerTable::default();
    t.restart_if_stale(Timer::Ack, 10, ACK_INTERVAL).unwrap();
    assert_eq!(t.get(Timer::Ack), Some(210));
    t.restart_if_stale(Timer::Ack, 210, ACK_INTERVAL).unwrap();
    assert_eq!(t.get(Timer::Ack), Some(210));
    t.restart_if_stale(Timer::Ack, 211, ACK_INTERVAL).unwrap();
    assert_eq!(t.get(Timer::Ack), Some(411));
    t.start(Timer::Ack, 0, 4_294_967_295).unwrap();
    assert_eq!(t.get(Timer::Ack), Some(4_294_967_295), "no maximum holds for Ack");
}

#[test]
fn timers_refuse_what_is_beyond_a_limit_and_stay() {
    assert_eq!(TimerTable::new(None, None, LONG), Err(Refusal::BeyondLimit));
    let mut t = TimerTable::new(Some(u64::MAX), Some(0), 4_294_967_295).unwrap();
    t.start(Timer::T1Init, CLOCK_MAX, 4_294_967_295).unwrap();
    let before = t;
    assert_eq!(t.set(Timer::T1Init, Some(LATE)), Err(Refusal::BeyondLimit));
    assert_eq!(t.start(Timer::T1Init, LATE, 0), Err(Refusal::BeyondLimit));
    assert_eq!(t.start(Timer::T1Init, 0, LONG), Err(Refusal::BeyondLimit));
    assert_eq!(t.restart_if_stale(Timer::T1Init, 0, LONG), Err(Refusal::BeyondLimit), "also when nothing would be done");
    assert_eq!(t.is_expired(Timer::T1Init, LATE), Err(Refusal::BeyondLimit));
    assert_eq!(t, before);
    assert_eq!(t.get(Timer::T1Init), Some(CLOCK_MAX + 4_294_967_295));
}

#[test]
fn the_estimator_follows_01() {
    let mut r = RtoManager::new(3_000, 1_000, 60_000).unwrap();
    assert_eq!((r.srtt(), r.rttvar(), r.get_rto(), r.no_update()), (0, 0.0, 3_000, false));
    for (rtt, srtt, rttvar, rto) in [(600, 600, 300.0, 1_800), (1_000, 650, 325.0, 1_950), (101, 581, 381.0, 2_105)] {
        assert_eq!(r.set_new_rtt(rtt), Ok(srtt));
        assert_eq!((r.srtt(), r.rttvar(), r.get_rto()), (srtt, rttvar, rto));
    }
    r.reset();
    assert_eq!((r.srtt(), r.rttvar(), r.get_rto()), (0, 0.0, 3_000));
    for (rtt, srtt, rto) in [(1, 1, 1_000), (0, 0, 1_000), (500, 500, 1_500)] {
        assert_eq!((r.set_new_rtt(rtt), r.get_rto()), (Ok(srtt), rto));
    }
}

/// The Rust's own lines, beside the archive: every bit of rttvar.
#[test]
fn the_estimator_is_the_rusts_bit_for_bit() {
    let (mut srtt, mut rttvar) = (0u64, 0f64);
    let mut r = RtoManager::default();
    let mut seed = 1u64;
    for _ in 0..100_000 {
        seed = seed.wrapping_mul(6_364_136_223_846_793_005).wrapping_add(1_442_695_040_888_963_407);
        let rtt = (seed >> 32) >> (seed >> 20 & 31);
        if srtt == 0 {
            srtt = rtt;
            rttvar = rtt as f64 / 2.0;
        } else {
            rttvar = (6.0 * rttvar + 2.0 * (srtt as i64 - rtt as i64).abs() as f64) / 8.0;
            srtt = (7 * srtt + rtt) / 8;
        }
        assert_eq!(r.set_new_rtt(rtt), Ok(srtt));
        assert_eq!(r.rttvar().to_bits(), rttvar.to_bits());
        assert_eq!(r.get_rto(), (srtt + (4.0 * rttvar) as u64).clamp(1_000, 60_000));
    }
}

#[test]
fn a_set_rto_is_kept_and_can_turn_updates_off() {
    let mut r = RtoManager::default();
    r.set_rto(7, true).unwrap();
    assert_eq!((r.get_rto(), r.no_update()), (7, true));
    assert_eq!((r.set_new_rtt(500), r.get_rto()), (Ok(0), 7));
    r.reset();
    assert_eq!(r.get_rto(), 7);
    r.set_rto(8, false).unwrap();
    assert_eq!((r.set_new_rtt(600), r.get_rto()), (Ok(600), 1_800));
}

#[test]
fn the_estimator_refuses_and_stays() {
    for (initial, low, high) in [(LONG, 2, 1), (0, LONG, 1), (0, 0, LONG)] {
        assert_eq!(RtoManager::new(initial, low, high), Err(Refusal::BeyondLimit), "before 2");
    }
    assert_eq!(RtoManager::new(0, 2, 1), Err(Refusal::BadBounds));
    assert_eq!(RtoManager::new(9, 1, 1).unwrap().get_rto(), 9, "the initial RTO is not clamped");
    let mut r = RtoManager::default();
    r.set_new_rtt(600).unwrap();
    let before = r;
    assert_eq!(r.set_new_rtt(LONG), Err(Refusal::BeyondLimit));
    assert_eq!(r.set_rto(LONG, true), Err(Refusal::BeyondLimit));
    assert_eq!(r, before);
}
