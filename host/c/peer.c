// The link and the receiver (peer.h).
#include "peer.h"
#include <string.h>

// ---- the link, which loses and doubles so many in a hundred

enum { PACKETS = 2048 };
static packet under_way[PACKETS];
static int packets;
static uint64_t losses, doubles, delay;

void put(packet *p) {
    for (int copies = 1 + (rnd() % 100 < doubles); copies > 0; copies--)
        if (rnd() % 100 >= losses && packets < PACKETS) { p->due = now + 5 + rnd() % delay; under_way[packets++] = *p; }
}

uint64_t next_arrival(void) {
    uint64_t next = UINT64_MAX;
    for (int i = 0; i < packets; i++) if (under_way[i].due < next) next = under_way[i].due;
    return next;
}

// ---- the receiver: chunks by their TSNs, as far as they are behind the cumulative one (`seen`) or not yet delivered (`held`)

enum { PLACES = 1024 };
typedef struct { uint32_t tsn, protocol; uint16_t stream, ssn, length; bool unordered, beginning, ending; uint8_t bytes[PAYLOAD]; } chunk;
typedef struct { chunk data; bool seen, held; } place;
static place got[PLACES];
static uint32_t cumulative, highest;
static uint16_t next_ssn[STREAMS];

static bool seen(uint32_t tsn) { place *at = &got[tsn % PLACES]; return at->seen && at->data.tsn == tsn; }
static chunk *held(uint32_t tsn) { place *at = &got[tsn % PLACES]; return at->held && at->data.tsn == tsn ? &at->data : NULL; }

// The message that begins with this TSN, if all of it is there and it is its turn.
static bool deliver(uint32_t tsn) {
    uint8_t bytes[LONGEST];
    size_t length = 0;
    uint32_t end = tsn;
    chunk *first = held(tsn);
    if (!first || !first->beginning || (!first->unordered && first->ssn != next_ssn[first->stream])) return false;
    for (chunk *c = first;; c = held(++end)) {
        if (!c || length + c->length > LONGEST) return false;
        memcpy(bytes + length, c->bytes, c->length);
        length += c->length;
        if (c->ending) break;
    }
    delivered(first->stream, first->protocol, bytes, length);
    next_ssn[first->stream] += !first->unordered;
    for (uint32_t t = tsn; t != end + 1; t++) got[t % PLACES].held = false;
    return true;
}

// All that can be, from a TSN on; of a stream, later SSNs have later TSNs.
static bool deliver_from(uint32_t tsn) {
    bool any = false;
    for (; !after(tsn, highest); tsn++) any |= deliver(tsn);
    return any;
}

static uint32_t number(const uint8_t *at, int width) { uint32_t value = 0; while (width--) value = value << 8 | *at++; return value; }

// RFC 9260, 3.3.1: type, flags, length, TSN, stream, SSN, payload type and payload, and zeros up to the next chunk, which begins at a multiple of four.
static bool read_data(const packet *p, chunk *c) {
    const uint8_t *b = p->bytes;
    uint32_t length = p->length < 16 ? 0 : number(b + 2, 2), end = length;
    if (length <= 16 || length > p->length || length > 16 + PAYLOAD || b[0] != DATA || b[1] > 7 || number(b + 8, 2) >= STREAMS) return false;
    while (end % 4) if (b[end++]) return false;
    *c = (chunk){.tsn = number(b + 4, 4), .stream = (uint16_t)number(b + 8, 2), .ssn = (uint16_t)number(b + 10, 2), .protocol = number(b + 12, 4),
                 .length = (uint16_t)(length - 16), .unordered = b[1] & 4, .beginning = b[1] & 2, .ending = b[1] & 1};
    memcpy(c->bytes, b + 16, c->length);
    return end == p->length;
}

static void take_data(const packet *p) {
    chunk c;
    if (!read_data(p, &c)) { want(false, "what came is no DATA chunk"); return; }
    uint32_t tsn = c.tsn;
    if (!after(tsn, cumulative) || seen(tsn)) return;
    got[tsn % PLACES] = (place){.data = c, .seen = true, .held = true};
    if (after(tsn, highest)) highest = tsn;
    while (!held(tsn)->beginning && held(tsn - 1)) tsn--;
    if (deliver(tsn)) deliver_from(tsn);
}

// RFC 3758, 3.6: what is complete up to each pair's SSN is delivered, the rest up to the new cumulative TSN is thrown away.
static void take_forward(const packet *p) {
    if (!after(p->cumulative, cumulative)) return;
    if (after(p->cumulative, highest)) highest = p->cumulative;
    for (int i = 0; i < p->count; i++) {
        uint16_t *next = &next_ssn[p->pairs[i][0]];
        while ((int16_t)(p->pairs[i][1] - *next) >= 0) if (!deliver_from(cumulative - PLACES / 2)) ++*next;
    }
    deliver_from(cumulative - PLACES / 2);
    for (uint32_t t = p->cumulative - PLACES / 2; !after(t, p->cumulative); t++) if (held(t)) got[t % PLACES].held = false;
    cumulative = p->cumulative;
}

static void lay(uint8_t *at, uint32_t value, int width) { while (width--) { at[width] = (uint8_t)value; value >>= 8; } }

// RFC 9260, 3.3.4: the blocks of what has been seen behind the cumulative TSN.
static void acknowledge(void) {
    packet p = {.kind = SACK, .length = 16};
    for (uint32_t t = cumulative + 1; !after(t, highest); t++) {
        if (!seen(t)) continue;
        if (!seen(t - 1)) {
            if (p.length == sizeof p.bytes) break;
            lay(p.bytes + p.length, t - cumulative, 2);
            p.length += 4;
        }
        lay(p.bytes + p.length - 2, t - cumulative, 2);
    }
    p.bytes[0] = SACK;
    lay(p.bytes + 2, (uint32_t)p.length, 2);
    lay(p.bytes + 4, cumulative, 4);
    lay(p.bytes + 8, 1 << 17, 4);
    lay(p.bytes + 12, (uint32_t)(p.length - 16) / 4, 2);
    put(&p);
}

static void receive(const packet *p) {
    if (p->kind == DATA) take_data(p); else take_forward(p);
    while (seen(cumulative + 1)) cumulative++;
    acknowledge();
}

// ---- a session

uint32_t begin_peer(void) {
    losses = rnd() % 35;
    doubles = rnd() % 15;
    delay = 1 + rnd() % 60;
    packets = 0;
    uint32_t first = rnd() % 3 ? (uint32_t)rnd() : -(uint32_t)(rnd() % 300);
    cumulative = highest = first - 1;
    memset(got, 0, sizeof got);
    memset(next_ssn, 0, sizeof next_ssn);
    return first;
}

bool next_sack(packet *p) {
    for (int i = 0; i < packets;) {
        if (under_way[i].due > now) { i++; continue; }
        *p = under_way[i];
        under_way[i] = under_way[--packets];
        if (p->kind == SACK) return true;
        receive(p);
    }
    return false;
}

uint32_t cumulative_tsn(void) { return cumulative; }
