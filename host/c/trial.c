// What is written in the sessions, when, and what comes of it (trial.h).
#include "trial.h"
#include "girdermoth.h"
#include <stdio.h>
#include <string.h>

enum { ROUNDS = 20000 };
typedef struct { uint32_t length, protocol; uint16_t stream; bool ordered; int end, arrived; } message;

uint64_t now, first_number;
long session, bad, counts[COUNTS];
uint8_t store[(MESSAGES + STREAMS) * LONGEST];
static const char *const names[COUNTS] = {"written", "arrived", "dropped unsent", "cut", "given up in flight", "sent again", "FORWARD-TSN", "timeouts",
                                          "ring full", "flight full"};
static const long least[COUNTS] = {60000, 30000, 5000, 1000, 5000, 20000, 5000, 2000, 100, 1000};   // of 1,000 sessions; fewer may miss some
static uint64_t seed, next_write, longest_pause;
static message messages[MESSAGES + STREAMS];
static uint32_t written;
static uint16_t last_wishes, rounds;
static bool is_unordered[STREAMS];
static int64_t last[STREAMS];

uint64_t rnd(void) { seed ^= seed << 13; seed ^= seed >> 7; seed ^= seed << 17; return seed >> 9; }
void want(bool ok, const char *what) { if (!ok && bad++ < 20) printf("WRONG in session %ld: %s\n", session, what); }

void begin_trial(void) {
    seed = 0x9E3779B97F4A7C15u * (uint64_t)(session + 1);
    longest_pause = 1 + rnd() % 40;
    now = next_write = rnd() % 1000000;
    first_number = rnd() % 1000;
    written = last_wishes = rounds = 0;
    for (int i = 0; i < STREAMS; i++) { is_unordered[i] = false; last[i] = -1; }
}

// ---- what is written

bool wished(wish *w, bool idle) {
    if (written < MESSAGES) {
        if (next_write > now) return false;
        w->stream = (uint16_t)(rnd() % STREAMS);
        w->fresh = written < 8 || rnd() % 4 == 0;
        w->unordered = rnd() % 2;
        w->kind = rnd() % 4 ? GIRDERMOTH_TIMED : rnd() % 2;
        w->value = (uint32_t)(rnd() % (w->kind == GIRDERMOTH_REXMIT ? 3 : written % 2 ? 60 : 1000));
    } else {
        if (last_wishes == STREAMS || (last_wishes == 0 && !idle)) return false;
        *w = (wish){.stream = last_wishes++, .fresh = true, .kind = GIRDERMOTH_RELIABLE};
    }
    if (w->fresh) is_unordered[w->stream] = w->unordered;
    uint32_t most = rnd() % 3 ? 60 : LONGEST - 3;
    w->length = 4 + (uint32_t)(rnd() % most);
    w->protocol = rnd() % 10 ? 53 : 50;
    w->ordered = !is_unordered[w->stream] || w->protocol == 50;
    w->offset = written * LONGEST;
    return true;
}

void wrote(const wish *w, uint8_t refusal) {
    want(refusal == GIRDERMOTH_DONE || refusal == GIRDERMOTH_RING_FULL, "a write was refused");
    counts[refusal == GIRDERMOTH_DONE ? WRITTEN : FULL_RINGS]++;
    if (refusal == GIRDERMOTH_DONE) {
        for (uint32_t i = 0; i < w->length; i++) store[w->offset + i] = (uint8_t)rnd();
        memcpy(store + w->offset, &written, 4);
        messages[written++] = (message){.length = w->length, .protocol = w->protocol, .stream = w->stream, .ordered = w->ordered};
    }
    if (last_wishes == 0 && rnd() % 4) next_write = now + 1 + rnd() % longest_pause;
}

uint64_t next_wish(void) { return written < MESSAGES ? next_write : UINT64_MAX; }

bool goes_on(bool idle) {
    if (idle && last_wishes == STREAMS) return false;
    want(rounds < ROUNDS, "the session does not end: a stream is stuck, or the flight is not empty");
    return rounds++ < ROUNDS;
}

// ---- what comes of it

void ended(uint64_t number, int how) {
    message *m = &messages[number - first_number];
    want(m->end == OPEN, "a message ended twice");
    m->end = how;
    counts[how == DROPPED ? UNSENT : how == CUT ? CUTS : LATE]++;
}

void delivered(uint16_t stream, uint32_t protocol, const uint8_t *bytes, size_t length) {
    uint32_t at = UINT32_MAX;
    if (length >= 4) memcpy(&at, bytes, 4);
    if (at >= written) { want(false, "a message that nobody wrote was delivered"); return; }
    message *m = &messages[at];
    bool same = length == m->length && memcmp(bytes, store + at * LONGEST, length) == 0;
    want(same && stream == m->stream && protocol == m->protocol, "a message was not delivered whole, on its stream and under its type");
    want(m->arrived++ == 0, "a message was delivered twice");
    if (m->ordered) { want(at > last[stream], "an ordered message was delivered behind a later one"); last[stream] = at; }
    counts[ARRIVED]++;
}

void end_trial(void) {
    for (uint32_t i = 0; i < written; i++) {
        int end = messages[i].end, arrived = messages[i].arrived;
        want(end != OPEN || arrived == 1, "a message that was not given up has not arrived");
        want((end != CUT && end != DROPPED) || arrived == 0, "a message that was cut, or dropped unsent, has arrived");
    }
}

int report(long sessions) {
    printf("session: %ld sessions,", session);
    for (int i = 0; i < COUNTS; i++) { want(sessions < 1000 || counts[i] * 1000 >= least[i] * sessions, names[i]); printf(" %s %ld,", names[i], counts[i]); }
    printf(" %ld wrong\n", bad);
    return bad != 0;
}
