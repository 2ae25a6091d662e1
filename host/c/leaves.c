// The worked examples of timers and RTO, from C; and garbage bytes in both: each call returns, the same twice, and a refused one changes no byte.
#include "girdermoth.h"
#include <stdio.h>
#include <stdlib.h>
#include <string.h>
#include "leaf_calls.inc"

static int bad = 0;
static long refused = 0, rto_refused = 0;
static void want(int ok, const char *what) { if (!ok) { bad++; printf("WRONG: %s\n", what); } }
static void want_of(int ok, const char *what, const char *call) { if (!ok) { bad++; printf("WRONG: %s in %s\n", what, call); } }
static uint64_t seed = 88172645463325252u;
static uint64_t rnd(void) { seed ^= seed << 13; seed ^= seed >> 7; seed ^= seed << 17; return seed; }
static void garbage(void *p, size_t n) { for (size_t i = 0; i < n; i++) ((uint8_t *)p)[i] = rnd() >> 32; }

static void estimates(void) {
    static const uint64_t rows[][3] = {{600, 600, 1800}, {1000, 650, 1950}, {101, 581, 2105}}, falls[][3] = {{1, 1, 1000}, {0, 0, 1000}, {500, 500, 1500}};
    girdermoth_rto r, q;
    garbage(&r, sizeof r);
    want(girdermoth_rto_new(&r, 3000, 1000, 60000) == 0 && girdermoth_rto_get_rto(&r) == 3000, "new");
    q = r;
    for (int i = 0; i < 3; i++) want(girdermoth_rto_set_new_rtt(&r, rows[i][0]).value == rows[i][1] && girdermoth_rto_get_rto(&r) == rows[i][2], "measure");
    want(r.rttvar == 381.0, "rttvar");
    for (int i = 0; i < 3; i++) want(girdermoth_rto_set_new_rtt(&q, falls[i][0]).value == falls[i][1] && q.rto == falls[i][2], "measure from 0");
    memcpy(&q, &r, sizeof r);
    want(girdermoth_rto_new(&q, 1, 2, 1) == GIRDERMOTH_BAD_BOUNDS && girdermoth_rto_new(&q, 1, 2, UINT64_C(1) << 32) == GIRDERMOTH_BEYOND_LIMIT, "bounds");
    want(girdermoth_rto_set_new_rtt(&q, UINT64_C(1) << 32).refusal == GIRDERMOTH_BEYOND_LIMIT && girdermoth_rto_set_rto(&q, UINT64_C(1) << 32, true) == GIRDERMOTH_BEYOND_LIMIT, "times beyond their limit");
    want(memcmp(&q, &r, sizeof r) == 0, "refused calls");
    want(girdermoth_rto_set_rto(&q, 7, true) == 0 && q.rto == 7 && q.no_update == 1 && girdermoth_rto_set_new_rtt(&q, 9).value == r.srtt && girdermoth_rto_reset(&q) == 0 && q.rto == 7, "updates off");
    want(girdermoth_rto_set_rto(&q, 8, false) == 0 && q.no_update == 0 && girdermoth_rto_reset(&q) == 0 && q.rto == 3000 && q.srtt == 0, "reset");
}

static void timers(void) {
    girdermoth_timers t, u;
    garbage(&t, sizeof t);
    want(girdermoth_timers_new(&t, true, 8, false, 0, 60000) == 0 && !girdermoth_timers_next_timeout(&t).yes, "no deadline");
    for (unsigned n = 0; n < 8; n++) {
        want(girdermoth_timer_start(&t, GIRDERMOTH_T1_INIT, 100, 1000) == 0, "start");
        uint64_t due = 100 + (n < 6 ? UINT64_C(1000) << n : 60000);
        want(girdermoth_timer_get(&t, GIRDERMOTH_T1_INIT).value == due && girdermoth_timers_next_timeout(&t).value == due, "back-off");
        want(!girdermoth_timer_is_expired(&t, GIRDERMOTH_T1_INIT, due - 1).expired, "alive before its deadline");
        girdermoth_expiry e = girdermoth_timer_is_expired(&t, GIRDERMOTH_T1_INIT, due);
        want(e.expired && !e.failure && e.count == n + 1, "expired at its deadline");
    }
    u = t; want(girdermoth_timer_is_expired(&u, GIRDERMOTH_T1_INIT, 100000).failure, "the ninth is a failure");
    u = t; girdermoth_timer_suppress_error_count(&u, 0);
    girdermoth_expiry e = girdermoth_timer_is_expired(&u, 0, 100000);
    want(e.expired && !e.failure && e.count == 8, "suppressed");
    u = t; want(girdermoth_timer_reset_retrans(&u, 0) == 0 && u.entries[0].retrans == 0 && girdermoth_timer_get(&u, 0).yes, "reset");
    u = t; want(girdermoth_timer_stop(&u, 0) == 0 && u.entries[0].retrans == 0 && !girdermoth_timer_get(&u, 0).yes, "stop");
    u = t; want(girdermoth_timer_set(&u, GIRDERMOTH_ACK, true, 5) == 0 && girdermoth_timer_get(&u, GIRDERMOTH_ACK).value == 5, "set");
    u = t; want(girdermoth_timer_restart_if_stale(&u, 0, 9, 9) == 0 && girdermoth_timer_get(&u, 0).value == 60100, "not stale");
    t.entries[0].retrans = UINT32_MAX; memcpy(&u, &t, sizeof t);
    want(girdermoth_timer_is_expired(&u, 0, 100000).refusal == GIRDERMOTH_COUNT_FULL, "count full");
    want(girdermoth_timer_start(&u, 6, 0, 0) == GIRDERMOTH_BEYOND_LIMIT && girdermoth_timer_get(&u, SIZE_MAX).refusal == GIRDERMOTH_BEYOND_LIMIT, "a seventh timer");
    want(girdermoth_timer_start(&u, 0, GIRDERMOTH_CLOCK_MAX + 1, 0) == GIRDERMOTH_BEYOND_LIMIT, "a clock beyond its limit");
    want(girdermoth_timers_new(&u, false, 0, false, 0, UINT64_C(1) << 32) == GIRDERMOTH_BEYOND_LIMIT, "a wait beyond its limit");
    want(memcmp(&u, &t, sizeof t) == 0, "refused calls");
}

// Timers of random bytes, on a heap block of the exact size (for ASan and valgrind) and between canaries. Every byte counts, the padding too.
static void any_timers(long turn) {
    struct { uint64_t front[8]; girdermoth_timers t; uint64_t back[8]; } g;
    girdermoth_timers *t = malloc(sizeof *t), was;
    garbage(t, sizeof *t); memset(&g, 0xA5, sizeof g); memcpy(&was, t, sizeof was); memcpy(&g.t, t, sizeof *t);
    int call = turn % TIMER_CALLS; const char *name = timer_call_names[call]; size_t which = rnd() % 7;
    uint64_t x[4] = {rnd() >> (rnd() % 64), rnd() >> (rnd() % 64), rnd() >> (rnd() % 64), rnd()};
    if (turn / TIMER_CALLS % 2) { x[0] %= GIRDERMOTH_CLOCK_MAX; x[1] %= 70000; x[2] %= 70000; }
    any r = run_timers(t, call, which, x), q = run_timers(&g.t, call, which, x);
    want_of(memcmp(&r, &q, sizeof r) == 0 && memcmp(t, &g.t, sizeof *t) == 0, "not the same twice", name);
    if (r.part[0] || timer_asks(call)) want_of(memcmp(t, &was, sizeof was) == 0, "a refusal or a question wrote", name);
    if (r.part[0]) { refused++; want_of(r.part[0] <= 12 && !r.part[1] && !r.part[2] && !r.part[3], "a refusal told more", name); }
    if (call != TIMER_CALL_timers_new) {
        if (which < 6) memcpy(&was.entries[which], &t->entries[which], sizeof *was.entries);
        want_of(memcmp(t, &was, sizeof was) == 0, "more than the named timer changed", name);
    }
    for (int i = 0; i < 8; i++) want_of(g.front[i] == 0xA5A5A5A5A5A5A5A5u && g.back[i] == 0xA5A5A5A5A5A5A5A5u, "a canary", name);
    free(t);
}

// An estimator of random bytes, likewise. The settings are written by creation alone, and the flag by creation and set_rto.
static void any_estimator(long turn) {
    struct { uint64_t front[8]; girdermoth_rto r; uint64_t back[8]; } g;
    girdermoth_rto *r = malloc(sizeof *r), was;
    garbage(r, sizeof *r);
    if (turn / RTO_CALLS % 3 == 1) { r->no_update = 0; r->srtt %= 70000; r->rttvar = rnd() % 9000; r->rto_min %= 2000; r->rto_max %= 70000; }
    memset(&g, 0xA5, sizeof g); memcpy(&was, r, sizeof was); memcpy(&g.r, r, sizeof *r);
    int call = turn % RTO_CALLS; const char *name = rto_call_names[call];
    uint64_t x[4] = {rnd() >> (rnd() % 64), rnd() >> (rnd() % 64), rnd() >> (rnd() % 64), rnd()};
    if (turn / RTO_CALLS % 2) { x[0] %= 70000; x[1] %= 70000; x[2] %= 70000; }
    any a = run_rto(r, call, x), b = run_rto(&g.r, call, x);
    want_of(memcmp(&a, &b, sizeof a) == 0 && memcmp(r, &g.r, sizeof *r) == 0, "not the same twice", name);
    if (a.part[0] || rto_asks(call)) want_of(memcmp(r, &was, sizeof was) == 0, "a refusal or a question wrote", name);
    if (a.part[0]) { rto_refused++; want_of(a.part[0] <= 2 && !a.part[1] && !a.part[2] && !a.part[3], "a refusal told more", name); }
    if (call != RTO_CALL_rto_new) {
        want_of(memcmp(r, &was, offsetof(girdermoth_rto, no_update)) == 0, "a setting changed", name);
        want_of(call == RTO_CALL_rto_set_rto || r->no_update == was.no_update, "the flag changed", name);
    }
    for (int i = 0; i < 8; i++) want_of(g.front[i] == 0xA5A5A5A5A5A5A5A5u && g.back[i] == 0xA5A5A5A5A5A5A5A5u, "a canary", name);
    free(r);
}

int main(int argc, char **argv) {
    long turns = argc > 1 ? atol(argv[1]) : 10000;
    estimates(); timers();
    for (long turn = 0; turn < turns; turn++) {
        any_estimator(turn);
        any_timers(turn);
    }
    want(refused > turns / 10 && refused < turns / 2, "few calls on timers are refused, or most");
    want(rto_refused > turns / 10 && rto_refused < turns / 2, "few calls on estimators are refused, or most");
    printf("leaves: %ld turns, %ld refused by timers, %ld by estimators, %d wrong\n", turns, refused, rto_refused, bad);
    return bad != 0;
}
