// A host written from docs/HOST.md, and sessions of it over a link that loses, doubles and reorders packets, against a receiver with the rules of
// RFC 9260 and RFC 3758 (peer.c). In each session (trial.c): what was not given up has arrived once, whole, and in its order where it is ordered;
// what was cut or dropped has not; nothing was sent behind its deadline; no stream is stuck, nothing is in flight, and no byte is buffered.
#include "girdermoth.h"
#include "peer.h"
#include <stdlib.h>
#include <string.h>

// ---- the host. What it keeps: the last TSN that a FORWARD-TSN told, the window, and how often each chunk was sent and reported missing
enum { ROOM = GIRDERMOTH_FLIGHT_ROOM };
static girdermoth_sender s;
static girdermoth_timers timers;
static girdermoth_rto rto;
static uint32_t told;
static uint64_t window;
static struct { int sent, missing; bool again; } kept[ROOM];   // by TSN

static uint32_t oldest(void) { return (uint32_t)(girdermoth_oldest_tsn(&s).yes ? girdermoth_oldest_tsn(&s) : girdermoth_next_tsn(&s)).value; }   // the next where none is in flight

static void gone(uint64_t number, int how, uint16_t stream, uint64_t bytes) {
    ended(number, how);
    girdermoth_on_buffer_released(&s, stream, (int64_t)bytes);
}

static void give_up(uint32_t tsn) {
    girdermoth_fragment c = girdermoth_get(&s, tsn);
    if (c.abandoned) return;
    uint64_t next = girdermoth_next_tsn(&s).value;
    girdermoth_freed freed = girdermoth_abandon(&s, tsn);
    gone(c.message_id, girdermoth_next_tsn(&s).value == next ? GIVEN_UP : CUT, freed.stream, freed.bytes);   // a terminator was filed, or not
}

static void transmit(girdermoth_fragment c) {   // for the first time, or again
    static packet p = {.kind = DATA};
    girdermoth_reply written = girdermoth_data_chunk(&s, store, sizeof store, p.bytes, sizeof p.bytes, c.tsn);
    want(written.refusal == GIRDERMOTH_DONE, "a terminator, or what was acknowledged or given up, was to be sent");
    want(!c.has_deadline || now < c.deadline, "a chunk was sent behind its deadline");
    p.length = written.value; kept[c.tsn % ROOM].sent++;
    put(&p);
}

static void expire(void) {
    for (bool more = true; more;) {
        girdermoth_fragment head = girdermoth_peek_pending(&s);
        girdermoth_freed unsent = girdermoth_expire_pending(&s, now), tail = girdermoth_expire_pending_tail(&s, now);
        if (unsent.some) gone(head.message_id, DROPPED, unsent.stream, unsent.bytes);
        if (tail.some) gone(tail.message_id, CUT, tail.stream, tail.bytes);
        more = unsent.some || tail.some;
    }
}

static void forward(bool once_more) {
    packet p = {.kind = FORWARD, .cumulative = oldest() - 1};
    for (girdermoth_fragment c; c = girdermoth_get(&s, p.cumulative + 1), c.some && c.abandoned; p.cumulative++) {
        int at = 0;
        while (at < p.count && p.pairs[at][0] != c.stream) at++;
        if (!c.unordered) { p.pairs[at][0] = c.stream; p.pairs[at][1] = c.ssn; p.count += at == p.count; }
    }
    if (p.cumulative == oldest() - 1 || (p.cumulative == told && !once_more)) return;
    told = p.cumulative; counts[FORWARDS]++;
    put(&p);
}

static void loop(void) {
    static uint32_t list[ROOM];
    girdermoth_expiry t3 = girdermoth_timer_is_expired(&timers, GIRDERMOTH_T3_RTX, now);
    if (t3.expired) { counts[TIMEOUTS]++; girdermoth_mark_all_to_retransmit(&s); girdermoth_timer_start(&timers, GIRDERMOTH_T3_RTX, now, girdermoth_rto_get_rto(&rto)); }
    girdermoth_start_timed_messages(&s, now);
    girdermoth_reply expired = girdermoth_expired_inflight(&s, list, ROOM, now);
    for (uint64_t i = 0; i < expired.value; i++) give_up(list[i]);
    for (uint32_t t = oldest(); after((uint32_t)girdermoth_next_tsn(&s).value, t); t++) {
        girdermoth_fragment c = girdermoth_get(&s, t);
        bool due = kept[t % ROOM].again || (t3.expired && c.retransmit);
        kept[t % ROOM].again = false;
        if (!due || c.acked || c.abandoned) continue;
        if (c.kind == GIRDERMOTH_REXMIT && (uint32_t)kept[t % ROOM].sent > c.value) { give_up(t); continue; }
        counts[AGAIN]++; transmit(c);
    }
    for (expire(); girdermoth_inflight_bytes(&s).value < window; expire()) {
        girdermoth_fragment c = girdermoth_send_next(&s, now);
        counts[FULL_FLIGHTS] += c.refusal == GIRDERMOTH_FLIGHT_FULL;
        if (!c.some) break;
        memset(&kept[c.tsn % ROOM], 0, sizeof *kept);
        transmit(c);
    }
    forward(t3.expired);
    if (girdermoth_inflight_len(&s).value) girdermoth_timer_restart_if_stale(&timers, GIRDERMOTH_T3_RTX, now, girdermoth_rto_get_rto(&rto));
    else girdermoth_timer_stop(&timers, GIRDERMOTH_T3_RTX);
}

static void sack(const packet *p) {   // what it acknowledged is told by the flight before it and behind it
    static girdermoth_fragment was[ROOM];
    uint32_t first = oldest(), entries = (uint32_t)girdermoth_inflight_len(&s).value, newest = first;
    for (uint32_t i = 0; i < entries; i++) was[i] = girdermoth_get(&s, first + i);
    girdermoth_sacked answer = girdermoth_handle_sack(&s, p->bytes, p->length);
    for (uint32_t t = first; t != first + entries; t++) {
        girdermoth_fragment before = was[t - first], c = girdermoth_get(&s, t);
        if (before.acked || (c.some && !c.acked)) continue;
        newest = t; answer.bytes -= before.length;
        girdermoth_on_buffer_released(&s, before.stream, before.length);
        girdermoth_timer_stop(&timers, GIRDERMOTH_T3_RTX);
        if (before.has_since && kept[t % ROOM].sent == 1) girdermoth_rto_set_new_rtt(&rto, now - before.since);
    }
    want(answer.refusal == GIRDERMOTH_DONE && answer.bytes == 0, "a SACK was refused, or released other bytes than it acknowledged");
    for (uint32_t t = oldest(); after(newest, t); t++) kept[t % ROOM].again |= ++kept[t % ROOM].missing == 3;
}

static void write_one(const wish *w) {
    if (w->fresh) girdermoth_set_reliability_params(&s, w->stream, w->unordered, w->kind, w->value);
    wrote(w, girdermoth_write(&s, w->stream, w->protocol, w->offset, w->length).refusal);
}

// ---- a session: until all is written and the flight is empty; then one more message on each stream must arrive
static bool idle(void) { return girdermoth_pending_len(&s).value == 0 && girdermoth_inflight_len(&s).value == 0; }

static void wait_for_more(void) {
    girdermoth_reply timeout = girdermoth_timers_next_timeout(&timers), due = girdermoth_next_deadline(&s);
    uint64_t next = next_wish() < next_arrival() ? next_wish() : next_arrival();
    if (timeout.yes && timeout.value < next) next = timeout.value;
    if (due.yes && due.value > now && due.value < next) next = due.value;   // one that has passed is of an acknowledged entry
    now = next > now && next < UINT64_MAX ? next : now + 1;
    for (packet p; next_sack(&p);) sack(&p);
}

static void run(void) {
    begin_trial();
    window = rnd() % 2 ? 500 : 12000;
    window = 60 + rnd() % window;
    uint32_t first = begin_peer();
    told = first - 1;
    girdermoth_init(&s, first, first_number);
    girdermoth_timers_new(&timers, false, 0, false, 0, 2000);
    girdermoth_rto_new(&rto, 200, 50, 2000);
    for (uint16_t i = 0; i < STREAMS; i++) girdermoth_open_stream(&s, i, 10 + (uint32_t)rnd() % (PAYLOAD - 9));
    while (goes_on(idle())) {
        for (wish w; wished(&w, idle());) write_one(&w);
        loop();
        wait_for_more();
    }
    want(girdermoth_inflight_bytes(&s).value == 0 && girdermoth_pending_bytes(&s).value == 0, "bytes are left");
    want(cumulative_tsn() == (uint32_t)girdermoth_next_tsn(&s).value - 1, "a TSN is left");
    for (uint16_t i = 0; i < STREAMS; i++) want(girdermoth_buffered_amount(&s, i).value == 0 && !girdermoth_contains_stream(&s, i).yes, "bytes of a stream are left");
    end_trial();
}

int main(int argc, char **argv) {
    long sessions = argc > 1 ? atol(argv[1]) : 1000;
    for (session = 0; session < sessions && bad < 20; session++) run();
    return report(sessions);
}
