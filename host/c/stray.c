// Nothing strays. Each call on senders of random bytes, on a heap block of the exact size (for ASan and valgrind) and between canaries, with an output
// that is lent alike: it returns, both give the same reply and the same bytes, and a question or a refusal writes nothing there. Then runs of random
// calls from a fresh sender, on two whose cells held different bytes: all replies are equal, and a refused call changes no byte.
#include "girdermoth.h"
#include <stdio.h>
#include <stdlib.h>
#include <string.h>

static uint64_t seed = 88172645463325252u;
static uint64_t rnd(void) { seed ^= seed << 13; seed ^= seed >> 7; seed ^= seed << 17; return seed; }

// What the calls are given: an identifier, a number below 2^32, a TSN, two of any size, one that may be negative, the room of list and output, and bytes.
typedef struct { uint16_t id; uint32_t small, tsn; uint64_t a, b; int64_t back; size_t room; uint8_t *bytes; size_t length; } args;
#include "calls.inc"

static long bad = 0, calls = 0, written = 0, refusals[18];
static void want(int ok, const char *what, int call) { if (!ok && bad++ < 10) printf("WRONG: %s in %s\n", what, call < 0 ? "a run" : call_names[call]); }

static void garbage(void *p, size_t n) { for (size_t i = 0; i < n; i++) ((uint8_t *)p)[i] = rnd() >> 32; }
static uint32_t *lent(size_t room) { uint32_t *l = malloc(room * 4 + (room == 0)); for (size_t i = 0; i < room; i++) l[i] = 7; return l; }
static uint8_t *output(size_t size) { uint8_t *o = malloc(size + (size == 0)); memset(o, 0xA5, size); return o; }

// Of two outputs, the one of just its size, the other between eight canaries on each side.
static void want_output(const uint8_t *o, const uint8_t *fenced, size_t room, int call, const any *r) {
    size_t length = call == CALL_data_chunk && !r->part[0] ? r->part[1] : 0;
    written += length > 0;
    want(length <= room && memcmp(o, fenced + 8, room) == 0, "two outputs", call);
    for (size_t i = length; i < room; i++) want(o[i] == 0xA5, "a byte behind the chunk, or of a refused output", call);
    for (size_t i = 0; i < 8; i++) want(fenced[i] == 0xA5 && fenced[8 + room + i] == 0xA5, "a canary of the output", call);
}

// A SACK near the flight, of up to three blocks, on a heap block of its size; sometimes one of its bytes is another, or it has more or fewer.
static uint8_t *sack(size_t *length, uint32_t oldest, uint64_t flying) {
    uint8_t b[32] = {3, 0, 0, 0, 0, 0, 0, 0, 0, 1}, *lent;
    uint32_t blocks = rnd() % 4, cumulative = oldest - 1 + (uint32_t)(rnd() % 2 ? rnd() % 2 : rnd() % (flying + 2));
    for (int i = 0; i < 4; i++) b[4 + i] = cumulative >> (24 - 8 * i);
    for (uint32_t i = 0; i < blocks; i++) { b[17 + 4 * i] = 1 + rnd() % (flying / 2 + 1) % 100; b[19 + 4 * i] = b[17 + 4 * i] + rnd() % 4; }
    *length = 16 + 4 * blocks; b[3] = *length; b[13] = blocks;
    if (rnd() % 8 == 0) b[rnd() % *length] = rnd();
    if (rnd() % 8 == 0) *length = rnd() % 33;
    lent = malloc(*length + (*length == 0));
    memcpy(lent, b, *length);
    return lent;
}

// The bytes that a call reads, on a heap block of their size: a SACK, or payloads, of which an entry's may end beyond them.
static void give(args *x, int call, uint32_t oldest, uint64_t flying, size_t most, size_t room) {
    if (call != CALL_data_chunk) { x->bytes = sack(&x->length, oldest, flying); return; }
    x->length = rnd() % 2 ? most : rnd() % most; x->room = rnd() % 2 ? room : rnd() % room;
    x->bytes = malloc(x->length + (x->length == 0)); garbage(x->bytes, x->length);
}

// Writes and sends without a release until the buffered amount is at its limit, 65,535 times 65,536 bytes and 65,535 more.
static void fill(girdermoth_sender *s) {
    girdermoth_init(s, 5, 0); girdermoth_open_stream(s, 9, 65515);
    for (int i = 0; i < 65535; i++) {
        want(girdermoth_write(s, 9, 53, 0, 65536).refusal == GIRDERMOTH_DONE, "a write below the limit", CALL_write);
        for (int k = 0; k < 2; k++) { girdermoth_fragment c = girdermoth_send_next(s, i); girdermoth_mark_as_acked(s, c.tsn); want(girdermoth_pop(s, c.tsn).acked, "sent, acknowledged and popped", CALL_pop); calls += 3; }
    }
    want(girdermoth_write(s, 9, 53, 0, 65536).refusal == GIRDERMOTH_BUFFER_FULL, "one byte beyond the limit", CALL_write); refusals[GIRDERMOTH_BUFFER_FULL]++;
    want(girdermoth_write(s, 9, 53, 0, 65535).refusal == GIRDERMOTH_DONE && girdermoth_buffered_amount(s, 9).value == GIRDERMOTH_BUFFERED_MAX, "at the limit", CALL_write);
    girdermoth_counts n = girdermoth_stats(s, 9);
    want(n.messages == 65536 && n.bytes == UINT32_MAX, "statistics", CALL_stats);
}

int main(int argc, char **argv) {
    long turns = argc > 1 ? atol(argv[1]) : 2000;
    struct { uint64_t front[8]; girdermoth_sender s; uint64_t back[8]; } *g = malloc(sizeof *g);
    girdermoth_sender *s = malloc(sizeof *s), *was = malloc(sizeof *s);

    for (long turn = 0; turn < turns; turn++) {
        int call = turn % CALLS;
        args x = {rnd(), rnd(), rnd(), rnd(), rnd(), rnd(), rnd() % 300, NULL, 0};
        if (turn / CALLS % 2) { x.a %= GIRDERMOTH_CLOCK_MAX; x.b %= 70000; x.small = rnd() % 65600; }
        garbage(s, sizeof *s);
        if (turn / CALLS % 3 == 1) {   // a head whose numbers are small, so that rings are partly full
            uint64_t *n[] = HEAD_LONGS_OF(&s->head);
            for (int i = 0; i < HEAD_LONGS; i++) *n[i] = rnd() % 300;
            x.tsn = s->head.oldest + rnd() % 300; x.id = (uint16_t)(s->cells[rnd() % 64 * 8] >> (rnd() % 4 * 16));
            if (call == CALL_data_chunk) for (int i = 0; i < 6656; i += 8) { s->cells[i + 3] = rnd() % 200; s->cells[i + 5] = rnd() % 200; }   // offsets and lengths
        }
        give(&x, call, s->head.oldest, s->head.flight_len % 300, 400, 216);
        memset(g, 0xA5, sizeof *g); *was = *s; g->s = *s;
        uint32_t *l = lent(x.room), *m = lent(x.room);
        uint8_t *o = output(x.room), *p = output(x.room + 16);
        any r = run(s, call, &x, l, o), q = run(&g->s, call, &x, m, p + 8);
        calls += 2; refusals[r.part[0] % 18]++;
        want_output(o, p, x.room, call, &r);
        want(memcmp(&r, &q, sizeof r) == 0, "two replies", call);
        want(same_head(&s->head, &g->s.head) && memcmp(s->cells, g->s.cells, sizeof s->cells) == 0, "two senders", call);
        want(memcmp(l, m, x.room * 4) == 0, "two lists", call);
        if (asks(call)) want(memcmp(s, was, sizeof *s) == 0, "a question wrote", call);
        if (call == CALL_expired_inflight && !r.part[0]) {
            was->head.due = s->head.due;   // it may store another bound of the deadlines
            want(same_head(&s->head, &was->head) && memcmp(s->cells, was->cells, sizeof s->cells) == 0, "the list wrote more than its bound", call);
        }
        if (r.part[0]) { for (size_t i = 0; i < x.room; i++) want(l[i] == 7, "a refusal wrote to the list", call); want(same_head(&s->head, &was->head) && memcmp(s->cells, was->cells, sizeof s->cells) == 0, "a refusal wrote", call); }
        for (int i = 0; i < 8; i++) want(g->front[i] == 0xA5A5A5A5A5A5A5A5u && g->back[i] == 0xA5A5A5A5A5A5A5A5u, "a canary", call);
        free(l); free(m); free(o); free(p); free(x.bytes);
    }

    for (long go = 0; go < turns / 200 + 1; go++) {   // from a fresh sender
        garbage(s, sizeof *s); memset(g, 0xA5, sizeof *g); garbage(&g->s, sizeof g->s);
        uint32_t oldest = rnd() % 3 ? (uint32_t)rnd() : 4294967290u; uint64_t clock = 1000;
        girdermoth_init(s, oldest, go % 4 ? rnd() % 1000 : UINT64_MAX - 3); girdermoth_init(&g->s, oldest, girdermoth_next_message_id(s).value);
        for (int step = 0; step < 1500; step++) {
            int pick = rnd() % 100, call = pick < 30 ? CALL_write : pick < 60 ? CALL_send_next : pick < 62 ? CALL_data_chunk : pick < 66 ? CALL_mark_as_acked : pick < 72 ? CALL_pop : (int)(1 + rnd() % (CALLS - 1));
            uint64_t flying = girdermoth_inflight_len(s).value; uint32_t next = girdermoth_next_tsn(s).value;
            clock += rnd() % 3;
            args x = {rnd() % 6 + 1, rnd() % 50 ? 1 + rnd() % 3000 : rnd() % 70000, next - (uint32_t)(call == CALL_pop ? flying : rnd() % (flying + 2)), clock, rnd() % 9000, (int64_t)(rnd() % 20000) - 500, rnd() % 300, NULL, 0};
            if (call == CALL_set_reliability_params || call == CALL_set_buffered_amount_low_threshold || call == CALL_set_buffered_amount_high_threshold) x.a = rnd() % 30000;
            if (call == CALL_set_reliability_params) x.small = rnd() % 9;
            if (rnd() % 200 == 0) { x.a = rnd(); x.b = rnd() % 80000; x.id = rnd(); }
            give(&x, call, next - (uint32_t)flying, flying, 14000, 3020);
            uint32_t *l = lent(x.room), *m = lent(x.room);
            uint8_t *o = output(x.room), *p = output(x.room + 16);
            *was = *s;
            any r = run(s, call, &x, l, o), q = run(&g->s, call, &x, m, p + 8);
            calls += 2; refusals[r.part[0] % 18]++;
            want_output(o, p, x.room, call, &r);
            want(memcmp(&r, &q, sizeof r) == 0 && memcmp(l, m, x.room * 4) == 0, "other bytes in the cells changed a reply", call);
            if (call == CALL_expired_inflight && !r.part[0]) was->head.due = s->head.due;
            if (r.part[0] || asks(call) || call == CALL_expired_inflight) want(same_head(&s->head, &was->head) && memcmp(s->cells, was->cells, sizeof s->cells) == 0, "a refusal or a question wrote", call);
            free(l); free(m); free(o); free(p); free(x.bytes);
        }
        for (int i = 0; i < 8; i++) want(g->front[i] == 0xA5A5A5A5A5A5A5A5u && g->back[i] == 0xA5A5A5A5A5A5A5A5u, "a canary", -1);
    }
    if (turns >= 4000) fill(s);
    printf("%ld calls: %ld wrong; %ld chunks written; refusals", calls, bad, written);
    for (int i = 1; i < 18; i++) printf(" %d:%ld", i, refusals[i]);
    puts("");
    free(g); free(s); free(was);
    return bad != 0;
}
