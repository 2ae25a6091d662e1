// The anchor of the race: the calls that it makes, by hand in C, over the struct of include/girdermoth.h and its slots, with the header's replies and
// refusals. It says what a call can cost at best where the state lies as it does, so it is tuned: it trusts the state that it made (nothing here is
// proved, and a sender of other bytes is not safe with it), takes a slot's small fields as one word, reads back no slot that it has just stored, and
// divides only for a message of several fragments. bench/build.rs compiles it as tools/archives does the archives.
#include "../include/girdermoth.h"
#include <string.h>

typedef uint64_t word;
typedef girdermoth_sender sender;
typedef girdermoth_head head;
typedef girdermoth_reply reply;
typedef girdermoth_fragment fragment;
typedef girdermoth_freed freed;
typedef girdermoth_sacked sacked;

enum { SLOT = 8, ROOM = 256, STREAMS = 64, DCEP = 50 };
// Where the rings begin in the cells, behind the table of streams.
enum { UNORDERED_RING = STREAMS * SLOT, ORDERED_RING = UNORDERED_RING + ROOM * SLOT, FLIGHT_RING = ORDERED_RING + ROOM * SLOT };
_Static_assert(sizeof(sender) == sizeof(head) + (FLIGHT_RING + ROOM * SLOT) * sizeof(word), "cells");

// The words of a chunk's slot. TYPES has the value of the reliability above the protocol, SIZES how often it was sent above the length. DEADLINE and
// SINCE are 0 where there is none.
enum { NUMBER, DEADLINE, SINCE, OFFSET, TYPES, SIZES, MARKS };
// MARKS: the stream, the SSN and the kind, and the flags.
enum { SSN_AT = 16, KIND_AT = 32 };
#define SSN (UINT64_C(0xffff) << SSN_AT)
#define UNORDERED (UINT64_C(1) << 40)
#define BEGINNING (UINT64_C(1) << 41)
#define ENDING (UINT64_C(1) << 42)
#define ACKED (UINT64_C(1) << 43)
#define ABANDONED (UINT64_C(1) << 44)
#define RETRANSMIT (UINT64_C(1) << 45)
#define TIMED (UINT64_C(1) << 46)
#define SENT (UINT64_C(1) << 47)

// The words of a stream's slot. AMOUNTS has the buffered amount above the value of the reliability; SETTINGS the identifier, the payload maximum, the
// SSN, the kind, and whether it is unordered.
enum { LOW, HIGH, MESSAGES, BYTES, AMOUNTS, SETTINGS };
enum { MAXIMUM_AT = 16, STREAM_SSN_AT = 32, STREAM_KIND_AT = 48, STREAM_UNORDERED_AT = 56 };
#define STREAM_SSN (UINT64_C(0xffff) << STREAM_SSN_AT)
// SETTINGS without the identifier, once shifted over the maximum, are MARKS without theirs.
#define SHARED_MARKS UINT64_C(0x1ffffff0000)

static inline reply refused(uint8_t refusal) { return (reply){.refusal = refusal}; }
static inline reply told(bool yes) { return (reply){.yes = yes}; }
static inline reply number(word value) { return (reply){.value = value, .yes = true}; }

// ---- streams

reply anchor_init(sender *s, uint32_t tsn, uint64_t first) {
    s->head = (head){.oldest = tsn, .next_message = first, .next_unstarted = first};
    return told(false);
}

static inline word *find(sender *s, uint16_t identifier) {
    word *slot = s->cells;
    for (word n = s->head.streams; n; n--, slot += SLOT)
        if ((uint16_t)slot[SETTINGS] == identifier) return slot;
    return 0;
}

reply anchor_open_stream(sender *s, uint16_t identifier, uint32_t maximum) {
    if (maximum < 1 || maximum > 65515) return refused(GIRDERMOTH_BAD_BOUNDS);
    if (find(s, identifier)) return refused(GIRDERMOTH_ALREADY_OPEN);
    if (s->head.streams == STREAMS) return refused(GIRDERMOTH_STREAMS_FULL);
    word *slot = s->cells + s->head.streams++ * SLOT;
    slot[LOW] = slot[MESSAGES] = slot[BYTES] = slot[AMOUNTS] = 0;
    slot[HIGH] = UINT64_MAX;
    slot[SETTINGS] = identifier | (word)maximum << MAXIMUM_AT;
    return told(false);
}

reply anchor_set_reliability_params(sender *s, uint16_t identifier, bool unordered, uint8_t kind, uint32_t value) {
    word *slot = find(s, identifier);
    if (!slot) return refused(GIRDERMOTH_NOT_OPEN);
    word kept = slot[SETTINGS] & ((UINT64_C(1) << STREAM_KIND_AT) - 1);
    slot[SETTINGS] = kept | (word)kind << STREAM_KIND_AT | (word)unordered << STREAM_UNORDERED_AT;
    slot[AMOUNTS] = slot[AMOUNTS] >> 32 << 32 | value;
    return told(false);
}

reply anchor_on_buffer_released(sender *s, uint16_t identifier, int64_t released) {
    word *slot = find(s, identifier);
    if (!slot) return refused(GIRDERMOTH_NOT_OPEN);
    if (released <= 0) return told(false);
    word amounts = slot[AMOUNTS], low = slot[LOW];
    word before = amounts >> 32, after = before <= (word)released ? 0 : before - (word)released;
    slot[AMOUNTS] = (uint32_t)amounts | after << 32;
    return told(before > low && after <= low);
}

// ---- rings

// A ring's slots, and the two numbers of the head that say which of them are taken.
typedef struct {
    word *slots, *start, *len;
} ring;

static inline ring unordered_ring(sender *s) { return (ring){s->cells + UNORDERED_RING, &s->head.unordered_start, &s->head.unordered_len}; }
static inline ring ordered_ring(sender *s) { return (ring){s->cells + ORDERED_RING, &s->head.ordered_start, &s->head.ordered_len}; }
static inline word *slot_at(word *slots, word place) { return slots + place % ROOM * SLOT; }
static inline word *flying(sender *s, word i) { return slot_at(s->cells + FLIGHT_RING, s->head.flight_start + i); }

// How many of a ring's chunks lie in front of the last slot; the others go on from the first.
static inline word in_front(word start, word len) { return len < ROOM - start ? len : ROOM - start; }

// The ring that is sent from next.
static inline bool unordered_is_ahead(const head *h) { return h->selected ? h->unordered_is_selected : h->unordered_len != 0; }
static inline ring ahead(sender *s) { return unordered_is_ahead(&s->head) ? unordered_ring(s) : ordered_ring(s); }

// The eight flags, from `has_deadline` on in the order of a fragment's bytes, are those of MARKS turned by two. All are stored at once: each goes to
// its own bit of its own byte, and the sum has the top bit of the byte where that was set.
_Static_assert(offsetof(fragment, retransmit) == offsetof(fragment, has_deadline) + 7, "flags");
static inline void set_flags(fragment *f, word marks) {
    const word ones = UINT64_C(0x0101010101010101), own_bits = UINT64_C(0x8040201008040201), up_to_top = UINT64_C(0x00406070787c7e7f);
    word turned = (marks >> 38 & 0xfc) | marks >> 46;
    word flags = ((turned * ones & own_bits) + up_to_top) >> 7 & ones;
    memcpy((char *)f + offsetof(fragment, has_deadline), &flags, sizeof flags);
}

static inline fragment fragment_of(uint32_t tsn, const word *slot) {
    word types = slot[TYPES], sizes = slot[SIZES], marks = slot[MARKS];
    fragment f = {
        .message_id = slot[NUMBER], .offset = slot[OFFSET], .deadline = slot[DEADLINE], .since = slot[SINCE],
        .tsn = tsn, .length = (uint32_t)sizes, .protocol = (uint32_t)types, .value = types >> 32, .nsent = sizes >> 32,
        .stream = (uint16_t)marks, .ssn = (uint16_t)(marks >> SSN_AT), .kind = (uint8_t)(marks >> KIND_AT), .some = true,
    };
    set_flags(&f, marks);
    return f;
}

// ---- messages

static inline word saturating(word counter, word more) { return counter + more < more ? UINT64_MAX : counter + more; }

static inline void count(word *stream, uint32_t protocol, word length) {
    bool bytes = protocol == 51 || protocol == 53;
    if (!length || !(bytes || protocol == 56 || protocol == 57)) return;
    stream[MESSAGES] = saturating(stream[MESSAGES], 1);
    if (bytes) stream[BYTES] = saturating(stream[BYTES], length);
}

reply anchor_write(sender *s, uint16_t identifier, uint32_t protocol, uint64_t offset, uint64_t length) {
    word *stream = find(s, identifier);
    if (!stream) return refused(GIRDERMOTH_NOT_OPEN);
    if (length > 65536) return refused(GIRDERMOTH_MESSAGE_LONG);
    if (offset > UINT32_MAX) return refused(GIRDERMOTH_BEYOND_LIMIT);
    word settings = stream[SETTINGS], amounts = stream[AMOUNTS], high = stream[HIGH];
    word before = amounts >> 32, after = before + length;
    if (after > UINT32_MAX) return refused(GIRDERMOTH_BUFFER_FULL);
    word maximum = (uint16_t)(settings >> MAXIMUM_AT);
    word fragments = length <= maximum ? length > 0 : ((uint32_t)length + (uint32_t)maximum - 1) / (uint32_t)maximum;
    word marks = (uint16_t)settings | (settings >> MAXIMUM_AT & SHARED_MARKS);
    if (protocol == DCEP) marks &= ~UNORDERED;
    ring to = marks & UNORDERED ? unordered_ring(s) : ordered_ring(s);
    word len = *to.len, message = s->head.next_message;
    if (len + fragments > ROOM) return refused(GIRDERMOTH_RING_FULL);
    if (fragments && message == UINT64_MAX) return refused(GIRDERMOTH_NUMBERS_SPENT);

    word place = *to.start + len, left = length, types = protocol | amounts << 32, begins = BEGINNING;
    for (word k = fragments; k; k--) {
        word *slot = slot_at(to.slots, place++);
        slot[NUMBER] = message;
        slot[DEADLINE] = slot[SINCE] = 0;
        slot[OFFSET] = offset;
        slot[TYPES] = types;
        slot[SIZES] = k == 1 ? left : maximum;
        slot[MARKS] = marks | begins | (k == 1 ? ENDING : 0);
        begins = 0;
        offset += maximum;
        left -= maximum;
    }
    *to.len = len + fragments;
    s->head.next_message = message + (fragments != 0);
    s->head.pending_bytes += length;
    stream[AMOUNTS] = (uint32_t)amounts | after << 32;
    if (!(marks & UNORDERED)) stream[SETTINGS] = (settings & ~STREAM_SSN) | ((settings + (UINT64_C(1) << STREAM_SSN_AT)) & STREAM_SSN);
    count(stream, protocol, length);
    return told(before < high && after >= high);
}

// From the back to the first that was seen before: a ring is in the order of the numbers.
static inline void start_ring(ring r, word clock, word first) {
    for (word len = *r.len, place = *r.start + len; len; len--) {
        word *slot = slot_at(r.slots, --place), marks = slot[MARKS], types = slot[TYPES];
        if (slot[NUMBER] < first) return;
        if ((uint8_t)(marks >> KIND_AT) != GIRDERMOTH_TIMED || (uint32_t)types == DCEP) continue;
        slot[DEADLINE] = clock + (types >> 32);
        slot[MARKS] = marks | TIMED;
    }
}

static inline void start_all(sender *s, word clock) {
    word first = s->head.next_unstarted;
    if (first == s->head.next_message) return;
    start_ring(unordered_ring(s), clock, first);
    start_ring(ordered_ring(s), clock, first);
    s->head.next_unstarted = s->head.next_message;
}

reply anchor_start_timed_messages(sender *s, uint64_t clock) {
    if (clock > GIRDERMOTH_CLOCK_MAX) return refused(GIRDERMOTH_BEYOND_LIMIT);
    start_all(s, clock);
    return told(false);
}

fragment anchor_send_next(sender *s, uint64_t clock) {
    if (clock > GIRDERMOTH_CLOCK_MAX) return (fragment){.refusal = GIRDERMOTH_BEYOND_LIMIT};
    head *h = &s->head;
    bool unordered = unordered_is_ahead(h);
    ring from = unordered ? unordered_ring(s) : ordered_ring(s);
    word len = *from.len, start = *from.start, flight = h->flight_len;
    if (len && flight >= ROOM - 1) return (fragment){.refusal = GIRDERMOTH_FLIGHT_FULL};
    start_all(s, clock);
    if (!len) return (fragment){0};

    const word *waiting = slot_at(from.slots, start);
    word sizes = waiting[SIZES], marks = waiting[MARKS];
    word sent[] = {waiting[NUMBER], waiting[DEADLINE], clock, waiting[OFFSET], waiting[TYPES], sizes | UINT64_C(1) << 32, marks | SENT};
    word *slot = flying(s, flight);
    for (int i = NUMBER; i <= MARKS; i++) slot[i] = sent[i];
    *from.start = (start + 1) % ROOM;
    *from.len = len - 1;
    h->flight_len = flight + 1;
    h->pending_bytes -= sizes;
    h->flight_bytes += sizes;
    h->selected = !(marks & ENDING);
    h->unordered_is_selected = unordered;
    return fragment_of(h->oldest + (uint32_t)flight, sent);
}

static inline bool is_overdue(const word *slot, word clock) { return (slot[MARKS] & TIMED) && slot[DEADLINE] <= clock && (uint32_t)slot[TYPES] != DCEP; }

// A message's leading run goes from the ring that it leads; `last` becomes the slot of the last of it. Nothing is under way then.
static inline word remove_run(sender *s, ring r, word message, word **last) {
    word bytes = 0, start = *r.start, len = *r.len;
    for (; len; len--, start++) {
        word *slot = slot_at(r.slots, start);
        if (slot[NUMBER] != message) break;
        bytes += (uint32_t)slot[SIZES];
        *last = slot;
    }
    *r.start = start % ROOM;
    *r.len = len;
    s->head.pending_bytes -= bytes;
    s->head.selected = 0;
    return bytes;
}

// The SSNs of a stream's chunks are lowered by one.
static inline void lower(word *slot, word n, uint16_t stream) {
    for (; n; n--, slot += SLOT) {
        word marks = slot[MARKS];
        if ((uint16_t)marks == stream) slot[MARKS] = (marks & ~SSN) | ((marks - (UINT64_C(1) << SSN_AT)) & SSN);
    }
}

freed anchor_expire_pending(sender *s, uint64_t clock) {
    if (clock > GIRDERMOTH_CLOCK_MAX) return (freed){.refusal = GIRDERMOTH_BEYOND_LIMIT};
    ring r = ahead(s);
    word *slot = slot_at(r.slots, *r.start), *last, marks = slot[MARKS];
    if (!*r.len || !(marks & BEGINNING) || !(uint32_t)slot[SIZES] || !is_overdue(slot, clock)) return (freed){0};
    word bytes = remove_run(s, r, slot[NUMBER], &last);
    if (!(marks & UNORDERED)) {
        word front = in_front(*r.start, *r.len);
        lower(slot_at(r.slots, *r.start), front, (uint16_t)marks);
        lower(r.slots, *r.len - front, (uint16_t)marks);
        word *stream = find(s, (uint16_t)marks), settings = stream[SETTINGS];
        stream[SETTINGS] = (settings & ~STREAM_SSN) | ((settings - (UINT64_C(1) << STREAM_SSN_AT)) & STREAM_SSN);
    }
    return (freed){.bytes = bytes, .stream = (uint16_t)marks, .some = true, .unordered = marks & UNORDERED};
}

// A message's entries are neighbours in flight; `i` is the place of one of them, where there is any.
static inline word give_up_entries(sender *s, word i, word message) {
    word bytes = 0, len = s->head.flight_len;
    while (i && flying(s, i - 1)[NUMBER] == message) i--;
    for (; i < len; i++) {
        word *slot = flying(s, i), sizes = slot[SIZES];
        if (slot[NUMBER] != message) break;
        bytes += (uint32_t)sizes;
        slot[SIZES] = sizes >> 32 << 32;
        slot[MARKS] = (slot[MARKS] | ABANDONED) & ~RETRANSMIT;
    }
    s->head.flight_bytes -= bytes;
    return bytes;
}

// The rest of the message under way goes, and a terminator takes its place in flight, which is kept for it.
static inline word give_up_rest(sender *s, ring r, word message) {
    word *last = 0, bytes = remove_run(s, r, message, &last), *slot = flying(s, s->head.flight_len++);
    slot[NUMBER] = message;
    slot[DEADLINE] = last[DEADLINE];
    slot[OFFSET] = last[OFFSET];
    slot[TYPES] = last[TYPES];
    slot[SINCE] = slot[SIZES] = 0;
    slot[MARKS] = (last[MARKS] & ~(BEGINNING | RETRANSMIT | SENT)) | ENDING | ABANDONED;
    return bytes;
}

freed anchor_expire_pending_tail(sender *s, uint64_t clock) {
    if (clock > GIRDERMOTH_CLOCK_MAX) return (freed){.refusal = GIRDERMOTH_BEYOND_LIMIT};
    ring r = ahead(s);
    word *slot = slot_at(r.slots, *r.start), marks = slot[MARKS], message = slot[NUMBER];
    if (!*r.len || marks & BEGINNING || !is_overdue(slot, clock)) return (freed){0};
    // what is left of it in flight is at the end
    word bytes = give_up_entries(s, s->head.flight_len, message);
    return (freed){.message_id = message, .bytes = bytes + give_up_rest(s, r, message), .stream = (uint16_t)marks, .some = true};
}

freed anchor_abandon(sender *s, uint32_t tsn) {
    uint32_t i = tsn - s->head.oldest;
    if (i >= s->head.flight_len) return (freed){0};
    const word *slot = flying(s, i);
    word message = slot[NUMBER], marks = slot[MARKS], bytes = 0;
    if (!(marks & ABANDONED)) {
        bytes = give_up_entries(s, i, message);
        ring r = ahead(s);
        if (s->head.selected && slot_at(r.slots, *r.start)[NUMBER] == message) bytes += give_up_rest(s, r, message);
    }
    return (freed){.bytes = bytes, .stream = (uint16_t)marks, .some = true};
}

// ---- the flight

reply anchor_mark_as_acked(sender *s, uint32_t tsn) {
    uint32_t i = tsn - s->head.oldest;
    if (i >= s->head.flight_len) return number(0);
    word *slot = flying(s, i), sizes = slot[SIZES];
    slot[SIZES] = sizes >> 32 << 32;
    slot[MARKS] = (slot[MARKS] | ACKED) & ~RETRANSMIT;
    s->head.flight_bytes -= (uint32_t)sizes;
    return number((uint32_t)sizes);
}

fragment anchor_pop(sender *s, uint32_t tsn) {
    head *h = &s->head;
    if (tsn != h->oldest || !h->flight_len) return (fragment){0};
    const word *slot = flying(s, 0);
    h->flight_start = (h->flight_start + 1) % ROOM;
    h->flight_len--;
    h->oldest++;
    h->flight_bytes -= (uint32_t)slot[SIZES];
    return fragment_of(tsn, slot);
}

static inline word two_bytes(const uint8_t *at) { return (word)at[0] << 8 | at[1]; }

// The blocks are noted in a bit for each entry while they are tested, so that none is walked twice; then the covered entries go, of which nothing is
// written, and those whose bits are set are acknowledged.
sacked anchor_handle_sack(sender *s, const uint8_t *chunk, size_t length) {
    head *h = &s->head;
    if (length < 16 || chunk[0] != 3 || two_bytes(chunk + 2) != length) return (sacked){.refusal = GIRDERMOTH_BAD_SACK};
    word blocks = two_bytes(chunk + 12);
    if (16 + 4 * (blocks + two_bytes(chunk + 14)) != length) return (sacked){.refusal = GIRDERMOTH_BAD_SACK};
    uint32_t covered = (uint32_t)(two_bytes(chunk + 4) << 16 | two_bytes(chunk + 6)) + 1 - h->oldest;
    if (!h->flight_len || covered > h->flight_len) return (sacked){.stale = true};
    word left = h->flight_len - covered, inside[ROOM / 64] = {0}, bytes = 0;
    for (const uint8_t *at = chunk + 16, *end = at + 4 * blocks; at != end; at += 4) {
        word from = two_bytes(at), to = two_bytes(at + 2);
        if (!from || from > to || to > left) return (sacked){.refusal = GIRDERMOTH_BAD_BLOCK};
        word first = (from - 1) / 64, last = (to - 1) / 64, low = UINT64_MAX << (from - 1) % 64, high = UINT64_MAX >> (63 - (to - 1) % 64);
        for (word i = first; i <= last; i++) inside[i] |= (i == first ? low : UINT64_MAX) & (i == last ? high : UINT64_MAX);
    }
    word front = in_front(h->flight_start, covered);
    for (word *slot = flying(s, 0), n = front; n; n--, slot += SLOT) bytes += (uint32_t)slot[SIZES];
    for (word *slot = s->cells + FLIGHT_RING, n = covered - front; n; n--, slot += SLOT) bytes += (uint32_t)slot[SIZES];
    h->flight_start = (h->flight_start + covered) % ROOM;
    h->flight_len = left;
    h->oldest += covered;
    if (blocks)
        for (word i = 0; i < ROOM / 64; i++)
            for (word bits = inside[i]; bits; bits &= bits - 1) {
                word *slot = flying(s, i * 64 + (word)__builtin_ctzll(bits)), sizes = slot[SIZES];
                slot[SIZES] = sizes >> 32 << 32;
                slot[MARKS] = (slot[MARKS] | ACKED) & ~RETRANSMIT;
                bytes += (uint32_t)sizes;
            }
    h->flight_bytes -= bytes;
    return (sacked){.bytes = bytes};
}

static inline void mark(word *slot, word n) {
    for (; n; n--, slot += SLOT) slot[MARKS] |= slot[MARKS] & (ACKED | ABANDONED) ? 0 : RETRANSMIT;
}

reply anchor_mark_all_to_retransmit(sender *s) {
    word front = in_front(s->head.flight_start, s->head.flight_len);
    mark(flying(s, 0), front);
    mark(s->cells + FLIGHT_RING, s->head.flight_len - front);
    return told(false);
}

// Lists the overdue of `n` entries from a TSN on, and tells where the list ends; with no list to write to, it only counts them. An acknowledged one is
// overdue where it is of the message under way, if there is one.
static inline word list_overdue(const word *slot, word n, word clock, bool under_way, word message, uint32_t tsn, uint32_t *list, word k) {
    for (; n; n--, slot += SLOT, tsn++) {
        word marks = slot[MARKS];
        if ((marks & (TIMED | ABANDONED)) != TIMED || slot[DEADLINE] > clock) continue;
        if (marks & ACKED && !(under_way && slot[NUMBER] == message)) continue;
        if (list) list[k] = tsn;
        k++;
    }
    return k;
}

static inline word list_all(sender *s, word clock, uint32_t *list) {
    const head *h = &s->head;
    ring r = ahead(s);
    word front = in_front(h->flight_start, h->flight_len), message = slot_at(r.slots, *r.start)[NUMBER];
    word k = list_overdue(flying(s, 0), front, clock, h->selected, message, h->oldest, list, 0);
    return list_overdue(s->cells + FLIGHT_RING, h->flight_len - front, clock, h->selected, message, h->oldest + (uint32_t)front, list, k);
}

reply anchor_expired_inflight(sender *s, uint32_t *list, size_t room, uint64_t clock) {
    if (clock > GIRDERMOTH_CLOCK_MAX) return refused(GIRDERMOTH_BEYOND_LIMIT);
    if (room < s->head.flight_len && room < list_all(s, clock, 0)) return refused(GIRDERMOTH_LIST_SHORT);
    return number(list_all(s, clock, list));
}

// ---- questions

fragment anchor_get(const sender *s, uint32_t tsn) {
    uint32_t i = tsn - s->head.oldest;
    if (i >= s->head.flight_len) return (fragment){0};
    return fragment_of(tsn, flying((sender *)s, i));
}

static inline uint8_t *put_two(uint8_t *at, word value) {
    *at++ = (uint8_t)(value >> 8);
    *at++ = (uint8_t)value;
    return at;
}

static inline uint8_t *put_four(uint8_t *at, word value) { return put_two(put_two(at, value >> 16 & 0xffff), value & 0xffff); }

reply anchor_data_chunk(const sender *s, const uint8_t *bytes, size_t length, uint8_t *out, size_t room, uint32_t tsn) {
    uint32_t i = tsn - s->head.oldest;
    if (i >= s->head.flight_len) return refused(GIRDERMOTH_NO_ENTRY);
    const word *slot = flying((sender *)s, i);
    word marks = slot[MARKS], payload = (uint32_t)slot[SIZES], padded = (payload + 3) / 4 * 4;
    if (marks & (ACKED | ABANDONED)) return refused(GIRDERMOTH_NO_ENTRY);
    if (slot[OFFSET] + payload > length) return refused(GIRDERMOTH_PAYLOAD_OUTSIDE);
    if (room < 16 + padded) return refused(GIRDERMOTH_OUTPUT_SHORT);
    uint8_t *at = out;
    *at++ = 0;
    *at++ = (marks & ENDING ? 1 : 0) | (marks & BEGINNING ? 2 : 0) | (marks & UNORDERED ? 4 : 0);
    at = put_two(at, 16 + payload);
    at = put_four(at, tsn);
    at = put_two(at, marks & 0xffff);
    at = put_two(at, (marks & SSN) >> SSN_AT);
    at = put_four(at, (uint32_t)slot[TYPES]);
    memcpy(at, bytes + slot[OFFSET], payload);
    memset(at + payload, 0, padded - payload);
    return number(16 + padded);
}

reply anchor_pending_len(const sender *s) { return number(s->head.unordered_len + s->head.ordered_len); }
reply anchor_inflight_len(const sender *s) { return number(s->head.flight_len); }

static inline bool any_of(const word *slot, word n, uint16_t stream) {
    for (; n; n--, slot += SLOT)
        if ((uint16_t)slot[MARKS] == stream) return true;
    return false;
}

static inline bool has_stream(const word *slots, word start, word len, uint16_t stream) {
    word front = in_front(start, len);
    return any_of(slots + start * SLOT, front, stream) || any_of(slots, len - front, stream);
}

static inline bool pending_has_stream(const sender *s, uint16_t stream) {
    const head *h = &s->head;
    return has_stream(s->cells + UNORDERED_RING, h->unordered_start, h->unordered_len, stream) ||
           has_stream(s->cells + ORDERED_RING, h->ordered_start, h->ordered_len, stream);
}

reply anchor_pending_contains_stream(const sender *s, uint16_t identifier) { return told(pending_has_stream(s, identifier)); }

reply anchor_contains_stream(const sender *s, uint16_t identifier) {
    return told(pending_has_stream(s, identifier) || has_stream(s->cells + FLIGHT_RING, s->head.flight_start, s->head.flight_len, identifier));
}

reply anchor_earliest_outstanding_tsn(const sender *s) {
    for (word i = 0; i < s->head.flight_len; i++)
        if (!(flying((sender *)s, i)[MARKS] & (ACKED | ABANDONED))) return number(s->head.oldest + (uint32_t)i);
    return told(false);
}

// ---- the six timers

enum { TIMERS = 6 };

uint8_t anchor_timers_new(girdermoth_timers *s, bool has_init, uint64_t init, bool has_data, uint64_t data, uint64_t rto_max) {
    if (rto_max > UINT32_MAX) return GIRDERMOTH_BEYOND_LIMIT;
    girdermoth_timer idle = {0}, of_init = {.maximum = init, .has_maximum = has_init}, of_data = {.maximum = data, .has_maximum = has_data};
    *s = (girdermoth_timers){{of_init, of_init, idle, of_data, of_init, idle}, (uint32_t)rto_max};
    return GIRDERMOTH_DONE;
}

// No deadline is as late as the number that stands for none.
reply anchor_timers_next_timeout(const girdermoth_timers *s) {
    word next = UINT64_MAX;
    for (int i = 0; i < TIMERS; i++) {
        word due = s->entries[i].has_deadline ? s->entries[i].deadline : UINT64_MAX;
        next = due < next ? due : next;
    }
    return next == UINT64_MAX ? told(false) : number(next);
}

uint8_t anchor_timer_start(girdermoth_timers *s, size_t timer, uint64_t clock, uint64_t interval) {
    if (timer >= TIMERS || clock > GIRDERMOTH_CLOCK_MAX || interval > UINT32_MAX) return GIRDERMOTH_BEYOND_LIMIT;
    girdermoth_timer *t = &s->entries[timer];
    word wait = interval;
    if (timer != GIRDERMOTH_ACK) {
        word doubled = interval << (t->retrans & 31);
        wait = t->retrans < 31 && doubled < s->rto_max ? doubled : s->rto_max;
    }
    t->deadline = clock + wait;
    t->has_deadline = true;
    return GIRDERMOTH_DONE;
}

uint8_t anchor_timer_stop(girdermoth_timers *s, size_t timer) {
    if (timer >= TIMERS) return GIRDERMOTH_BEYOND_LIMIT;
    girdermoth_timer *t = &s->entries[timer];
    t->retrans = 0;
    t->has_deadline = t->suppressed = false;
    return GIRDERMOTH_DONE;
}

girdermoth_expiry anchor_timer_is_expired(girdermoth_timers *s, size_t timer, uint64_t clock) {
    if (timer >= TIMERS || clock > GIRDERMOTH_CLOCK_MAX) return (girdermoth_expiry){.refusal = GIRDERMOTH_BEYOND_LIMIT};
    girdermoth_timer *t = &s->entries[timer];
    uint32_t retrans = t->retrans;
    if (!t->has_deadline || clock < t->deadline) return (girdermoth_expiry){.count = retrans};
    if (t->suppressed) {
        t->suppressed = false;
        return (girdermoth_expiry){.count = retrans, .expired = true};
    }
    if (retrans == UINT32_MAX) return (girdermoth_expiry){.refusal = GIRDERMOTH_COUNT_FULL};
    t->retrans = ++retrans;
    return (girdermoth_expiry){.count = retrans, .expired = true, .failure = t->has_maximum && retrans > t->maximum};
}

// ---- the round-trip estimator

uint8_t anchor_rto_new(girdermoth_rto *s, uint64_t initial, uint64_t low, uint64_t high) {
    if (initial > UINT32_MAX || low > UINT32_MAX || high > UINT32_MAX) return GIRDERMOTH_BEYOND_LIMIT;
    if (low > high) return GIRDERMOTH_BAD_BOUNDS;
    *s = (girdermoth_rto){.rto = initial, .rto_initial = initial, .rto_min = low, .rto_max = high};
    return GIRDERMOTH_DONE;
}

// Every operation on `rttvar` rounds, so none may be fused with another (bench/build.rs says so to the compiler).
girdermoth_reply anchor_rto_set_new_rtt(girdermoth_rto *s, uint64_t rtt) {
    if (rtt > UINT32_MAX) return (girdermoth_reply){.refusal = GIRDERMOTH_BEYOND_LIMIT};
    word srtt = s->srtt;
    if (s->no_update) return (girdermoth_reply){.value = srtt, .yes = true};
    double rttvar;
    if (srtt) {
        word gap = srtt <= rtt ? rtt - srtt : srtt - rtt;
        rttvar = (6.0 * s->rttvar + 2.0 * (double)gap) / 8.0;
        srtt = (7 * srtt + rtt) / 8;
    } else {
        rttvar = (double)rtt / 2.0;
        srtt = rtt;
    }
    word sum = srtt + (word)(4.0 * rttvar), capped = sum < s->rto_max ? sum : s->rto_max;
    s->srtt = srtt;
    s->rttvar = rttvar;
    s->rto = capped < s->rto_min ? s->rto_min : capped;
    return (girdermoth_reply){.value = srtt, .yes = true};
}
