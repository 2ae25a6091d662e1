//! ns per operation of the original Rust. `bench [REPS]`; best of 5 rounds is printed.
use sctp_proto::Endpoint as Oracle;
use std::hint::black_box;
use std::time::Instant;

const M: u32 = 1200;

fn best(mut f: impl FnMut() -> f64) -> f64 {
    (0..5).map(|_| f()).fold(f64::MAX, f64::min)
}
fn ns(t: Instant, n: usize) -> f64 {
    t.elapsed().as_nanos() as f64 / n as f64
}
fn row(name: &str, v: f64) {
    println!("{name:<58} {v:>12.1}");
}

fn main() {
    let reps: usize = std::env::args().nth(1).map_or(20_000, |s| s.parse().expect("REPS"));
    for n in [1usize, 250, 4000] {
        println!("--- {n} in flight (ns/op)");
        for (name, len, shared) in [
            ("100 B, write copies", 100, false),
            ("1200 B, write copies", 1200, false),
            ("1200 B, shared buffer", 1200, true),
        ] {
            let buf = bytes::Bytes::from(vec![1u8; len]);
            let mut b = Oracle::bench_sender(M, 0);
            let t = b.now(1);
            for _ in 0..n {
                b.write(1, len);
                b.send(t);
            }
            let v = best(|| {
                let s = Instant::now();
                for _ in 0..reps {
                    if shared {
                        b.write_shared(1, &buf);
                    } else {
                        b.write(1, len);
                    }
                    black_box(b.send(t));
                    let o = b.oldest().unwrap();
                    black_box(b.ack(o));
                    black_box(b.pop(o));
                    black_box(b.released(1, len as i64));
                }
                ns(s, reps)
            });
            row(&format!("write+send+ack+pop+released, {name}"), v);
        }
        // each step by itself, in blocks of 16
        let mut b = Oracle::bench_sender(M, 0);
        let t = b.now(1);
        for _ in 0..n {
            b.write(1, 1200);
            b.send(t);
        }
        let mut best5 = [f64::MAX; 4];
        for _ in 0..5 {
            let mut acc = [0u128; 4];
            let rounds = reps / 16;
            for _ in 0..rounds {
                let s = Instant::now();
                for _ in 0..16 {
                    b.write(1, 1200);
                }
                acc[0] += s.elapsed().as_nanos();
                let s = Instant::now();
                for _ in 0..16 {
                    black_box(b.send(t));
                }
                acc[1] += s.elapsed().as_nanos();
                let o = b.oldest().unwrap();
                let s = Instant::now();
                for i in 0..16u32 {
                    black_box(b.ack(o.wrapping_add(i)));
                }
                acc[2] += s.elapsed().as_nanos();
                let s = Instant::now();
                for i in 0..16u32 {
                    black_box(b.pop(o.wrapping_add(i)));
                }
                acc[3] += s.elapsed().as_nanos();
            }
            for k in 0..4 {
                best5[k] = best5[k].min(acc[k] as f64 / (rounds * 16) as f64);
            }
        }
        for (k, w) in ["  write 1200 B", "  send", "  ack", "  pop"].iter().enumerate() {
            row(w, best5[k]);
        }

        // queries and scans over n entries
        let mut b = Oracle::bench_sender(M, 50);
        let t = b.now(1);
        for _ in 0..n {
            b.write(1, 1200);
            b.send(t);
        }
        let late = b.now(1000);
        let q = (reps / 20).max(100);
        row(
            "expired_inflight, none expired",
            best(|| {
                let s = Instant::now();
                for _ in 0..q {
                    black_box(b.expired(t));
                }
                ns(s, q)
            }),
        );
        row(
            "expired_inflight, all expired",
            best(|| {
                let s = Instant::now();
                for _ in 0..q {
                    black_box(b.expired(late));
                }
                ns(s, q)
            }),
        );
        row(
            "mark_all_to_retransmit",
            best(|| {
                let s = Instant::now();
                for _ in 0..q {
                    b.mark_all();
                }
                ns(s, q)
            }),
        );
        row(
            "contains_stream, absent stream",
            best(|| {
                let s = Instant::now();
                for _ in 0..q {
                    black_box(b.has(9));
                }
                ns(s, q)
            }),
        );
        row(
            "earliest_outstanding_tsn, first is it",
            best(|| {
                let s = Instant::now();
                for _ in 0..q {
                    black_box(b.earliest());
                }
                ns(s, q)
            }),
        );
        // acked but with an unsent tail pending is the dear case of expired_inflight
        let o = b.oldest().unwrap();
        for i in 0..n as u32 {
            b.ack(o.wrapping_add(i));
        }
        row(
            "earliest_outstanding_tsn, all acked",
            best(|| {
                let s = Instant::now();
                for _ in 0..q {
                    black_box(b.earliest());
                }
                ns(s, q)
            }),
        );
        for _ in 0..n {
            b.write(2, 1200);
        }
        let q2 = if n > 1000 { 5 } else { 200 };
        row(
            &format!("expired_inflight, all acked and expired, {n} pending"),
            best(|| {
                let s = Instant::now();
                for _ in 0..q2 {
                    black_box(b.expired(late));
                }
                ns(s, q2)
            }),
        );

        // abandon: single-chunk messages, no tail
        row(
            "abandon, one-chunk message, no tail",
            best(|| {
                let mut b = Oracle::bench_sender(M, 0);
                for _ in 0..n {
                    b.write(1, 1200);
                    b.send(t);
                }
                let o = b.oldest().unwrap();
                let k = n.min(500) as u32;
                let s = Instant::now();
                for i in 0..k {
                    black_box(b.abandon(o.wrapping_add(i)));
                }
                ns(s, k as usize)
            }),
        );
        row("abandon again (already abandoned)", {
            let mut b = Oracle::bench_sender(M, 0);
            for _ in 0..n {
                b.write(1, 1200);
                b.send(t);
            }
            let o = b.oldest().unwrap();
            b.abandon(o);
            best(|| {
                let s = Instant::now();
                for _ in 0..reps {
                    black_box(b.abandon(o));
                }
                ns(s, reps)
            })
        });
        // abandon with half of an n-chunk message sent, half pending
        let frags = n.min(4000);
        row(
            &format!("abandon, {} sent + {} pending of one message", frags / 2, frags - frags / 2),
            best(|| {
                let mut tot = 0u128;
                for _ in 0..20 {
                    let mut b = Oracle::bench_sender(64, 0);
                    b.write(1, 64 * frags);
                    for _ in 0..(frags / 2).max(1) {
                        b.send(t);
                    }
                    let o = b.oldest().unwrap();
                    let s = Instant::now();
                    black_box(b.abandon(o));
                    tot += s.elapsed().as_nanos();
                }
                tot as f64 / 20.0
            }),
        );
        // pending: n one-chunk messages, all expired; each expire_pending removes the head
        row(
            &format!("expire_pending, {n} ordered messages pending (mean to empty)"),
            best(|| {
                let mut b = Oracle::bench_sender(M, 50);
                for _ in 0..n {
                    b.write(1, 100);
                }
                b.lifetimes(t);
                let late = b.now(1000);
                let s = Instant::now();
                let mut k = 0;
                while b.expire_pending(late).is_some() {
                    k += 1;
                }
                ns(s, k.max(1))
            }),
        );
        row(
            &format!("expire_pending_tail, {n} chunks pending, none in flight"),
            best(|| {
                let mut tot = 0u128;
                for _ in 0..20 {
                    let mut b = Oracle::bench_sender(60, 50);
                    b.write(1, 60 * (n + 1));
                    let x = b.send(t).unwrap().tsn;
                    b.ack(x);
                    b.pop(x);
                    let late = b.now(1000);
                    let s = Instant::now();
                    black_box(b.expire_tail(late));
                    tot += s.elapsed().as_nanos();
                }
                tot as f64 / 20.0
            }),
        );
        row(
            &format!("start_timed_messages, {n} new chunks (per call)"),
            best(|| {
                let mut tot = 0u128;
                for _ in 0..20 {
                    let mut b = Oracle::bench_sender(M, 50);
                    for _ in 0..n {
                        b.write(1, 100);
                    }
                    let s = Instant::now();
                    b.lifetimes(t);
                    tot += s.elapsed().as_nanos();
                }
                tot as f64 / 20.0
            }),
        );
        row("start_timed_messages, nothing new", {
            let mut b = Oracle::bench_sender(M, 50);
            best(|| {
                let s = Instant::now();
                for _ in 0..reps {
                    b.lifetimes(t);
                }
                ns(s, reps)
            })
        });
    }
    println!("--- timers and RTO");
    row(
        "start + is_expired + next_timeout + measure",
        best(|| {
            let s = Instant::now();
            black_box(Oracle::bench_timer_rto(1_000_000));
            ns(s, 1_000_000)
        }),
    );
}
