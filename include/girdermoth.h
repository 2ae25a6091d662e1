// Girdermoth: the send side of SCTP for WebRTC data channels. Link libgirdermoth.a, which host/c/run builds.
//
// A sender is one struct that the caller owns: any memory of its size and alignment. No call allocates, blocks, keeps a pointer or touches
// anything but what is lent to it. Every call is proved to return and to do what docs/CALLS.md says, whatever the sender's bytes are: but
// only girdermoth_init makes a sender that means something. A `const girdermoth_sender *` is only read. Calls on one sender must not
// overlap in time. Nor must what is lent to one call: no list, chunk or output lies within the sender, and no output within the bytes that are read.
//
// A reply has a refusal: 0 is done, any other is one of the numbers below. A refused call changes nothing, and all else in its reply is 0.
//
// What a host does, each time that a packet has come, a timer has fired or a message was written (docs/HOST.md has the reasons, host/c/session.c is
// such a host):
//   1. girdermoth_start_timed_messages;
//   2. girdermoth_expired_inflight, and girdermoth_abandon for each TSN of its list that is not abandoned;
//   3. what is to be sent again, by girdermoth_get, as girdermoth_data_chunk writes it;
//   4. before EACH new chunk girdermoth_expire_pending and girdermoth_expire_pending_tail until neither frees anything; then girdermoth_send_next, and
//      girdermoth_data_chunk for what it gave out;
//   5. FORWARD-TSN for what is abandoned at the front of the flight;
//   6. the timer T3-RTX runs while anything is in flight;
//   7. wait until the earlier of girdermoth_next_deadline and girdermoth_timers_next_timeout, a packet or a write.
// When a SACK comes: girdermoth_handle_sack with its bytes. What that released, or what an expiry or an abandonment freed, goes to
// girdermoth_on_buffer_released, stream by stream.
//
// A TERMINATOR is an entry of the flight that stands for the unsent rest of a message that was given up: it has the message's last TSN, no bytes,
// `beginning` unset, `ending` and `abandoned` set, and `nsent` 0. It is never sent as a DATA chunk. The peer hears of it, and of all else that is
// abandoned, by FORWARD-TSN (RFC 3758, chunk type 192), which the host writes: from the oldest TSN on while the entry is abandoned; the last of
// these is the new cumulative TSN, and each stream with an ordered one among them is told with its last SSN. It goes again whenever T3-RTX fires,
// until a SACK has passed it. Without it the peer waits for ever.
#ifndef GIRDERMOTH_H
#define GIRDERMOTH_H

#include <stdbool.h>
#include <stddef.h>
#include <stdint.h>

#ifdef __cplusplus
#define GIRDERMOTH_ASSERT static_assert
extern "C" {
#else
#define GIRDERMOTH_ASSERT _Static_assert
#endif

enum {
    GIRDERMOTH_DONE = 0,
    GIRDERMOTH_BEYOND_LIMIT = 1,      // a number is beyond its limit, and no other line names it
    GIRDERMOTH_BAD_BOUNDS = 2,        // the payload maximum is outside 1 to 65,515, or the RTO minimum is above the maximum
    GIRDERMOTH_NOT_OPEN = 3,          // the stream is not open
    GIRDERMOTH_ALREADY_OPEN = 4,      // the stream is already open
    GIRDERMOTH_STREAMS_FULL = 5,      // 64 streams are open
    GIRDERMOTH_MESSAGE_LONG = 6,      // the message is over 65,536 bytes
    GIRDERMOTH_BUFFER_FULL = 7,       // the buffered amount would pass 4,294,967,295
    GIRDERMOTH_RING_FULL = 8,         // the message's ring lacks room for all its fragments
    GIRDERMOTH_NUMBERS_SPENT = 9,     // the message has a fragment, and the next number is 2^64 - 1
    GIRDERMOTH_FLIGHT_FULL = 10,      // the flight holds 255 or more entries, and a chunk is pending
    GIRDERMOTH_LIST_SHORT = 11,       // the lent list is shorter than the list of expired TSNs
    GIRDERMOTH_COUNT_FULL = 12,       // an expiry that would be counted finds the timer's count at 4,294,967,295
    GIRDERMOTH_BAD_SACK = 13,         // the lent bytes are no SACK: under 16, of another type, or not as long as their length field and counts say
    GIRDERMOTH_BAD_BLOCK = 14,        // a gap block starts at 0, starts behind its end, or ends beyond the newest entry in flight
    GIRDERMOTH_NO_ENTRY = 15,         // no entry in flight has the TSN, or the one that has it is acknowledged or abandoned, as a terminator is
    GIRDERMOTH_PAYLOAD_OUTSIDE = 16,  // the entry's payload ends beyond the lent bytes
    GIRDERMOTH_OUTPUT_SHORT = 17      // the lent output is shorter than the chunk with its padding
};

// Kinds of reliability; any other is as GIRDERMOTH_RELIABLE. The limit of REXMIT is the host's to keep: the sender does not know what is sent again.
enum { GIRDERMOTH_RELIABLE = 0, GIRDERMOTH_REXMIT = 1, GIRDERMOTH_TIMED = 2 };

// The release, as in host/Cargo.toml.
#define GIRDERMOTH_VERSION "0.1.0"

// The latest clock; the longest message and the largest offset of one, in bytes; the largest payload of a chunk; the most that a stream buffers.
#define GIRDERMOTH_CLOCK_MAX UINT64_C(1099511627776)
#define GIRDERMOTH_MESSAGE_MAX 65536
#define GIRDERMOTH_OFFSET_MAX UINT64_C(4294967295)
#define GIRDERMOTH_PAYLOAD_MAX 65515
#define GIRDERMOTH_BUFFERED_MAX UINT64_C(4294967295)
// The largest interval, RTO setting and measured round-trip time, in milliseconds; the most that a timer counts.
#define GIRDERMOTH_SETTING_MAX UINT64_C(4294967295)
#define GIRDERMOTH_COUNT_MAX UINT64_C(4294967295)
// The rooms: streams; fragments in each of the two rings, one of ordered messages and one of unordered, both shared by all streams; entries of the
// flight, whose last is kept for a terminator. A list of GIRDERMOTH_FLIGHT_ROOM numbers is never too short for girdermoth_expired_inflight.
#define GIRDERMOTH_STREAMS 64
#define GIRDERMOTH_RING_ROOM 256
#define GIRDERMOTH_FLIGHT_ROOM 256

// The sender's numbers and slots. Nothing in them is for the caller.
typedef struct {
    uint64_t unordered_start, unordered_len, ordered_start, ordered_len, pending_bytes;
    uint8_t selected, unordered_is_selected;
    uint64_t flight_start, flight_len;
    uint32_t oldest;
    uint64_t flight_bytes, due, next_message, next_unstarted, streams;
} girdermoth_head;

typedef struct {
    girdermoth_head head;
    uint64_t cells[6656];
} girdermoth_sender;

// A number, where `yes` tells that there is one; or a yes or no.
typedef struct {
    uint64_t value;
    uint8_t refusal;
    bool yes;
} girdermoth_reply;

// What an expiry or an abandonment freed, where `some` is set; `bytes` is for girdermoth_on_buffer_released. `message_id` is the message's number
// after girdermoth_expire_pending_tail, and else 0; `unordered` is told by girdermoth_expire_pending alone.
typedef struct {
    uint64_t message_id, bytes;
    uint16_t stream;
    uint8_t refusal;
    bool some, unordered;
} girdermoth_freed;

// A chunk, where `some` is set. Its bytes are the host's, from `offset` on; `length` counts those that it still holds, and is 0 once it is acknowledged
// or abandoned. `protocol` is the payload type, `kind` and `value` the reliability that the stream had at the write. `deadline` is when the message's
// lifetime ends, `since` when girdermoth_send_next gave the chunk out; both are 0 where they are absent. `nsent` is 1 in flight, 0 before and for a
// terminator: what the host sends again is not counted. `retransmit` stays set until the entry is acknowledged or abandoned.
typedef struct {
    uint64_t message_id, offset, deadline, since;
    uint32_t tsn, length, protocol, value, nsent;
    uint16_t stream, ssn;
    uint8_t kind, refusal;
    bool some, has_deadline, has_since, unordered, beginning, ending, acked, abandoned, retransmit;
} girdermoth_fragment;

// A stream's statistics.
typedef struct {
    uint64_t messages, bytes;
    uint8_t refusal;
} girdermoth_counts;

// What a SACK released, unless it is stale. `low` is reserved, and 0.
typedef struct {
    uint64_t bytes, low;
    uint8_t refusal;
    bool stale;
} girdermoth_sacked;

GIRDERMOTH_ASSERT(sizeof(girdermoth_head) == 112 && offsetof(girdermoth_head, selected) == 40 && offsetof(girdermoth_head, flight_start) == 48 && offsetof(girdermoth_head, oldest) == 64 && offsetof(girdermoth_head, streams) == 104, "head");
GIRDERMOTH_ASSERT(sizeof(girdermoth_sender) == 53360 && offsetof(girdermoth_sender, cells) == 112, "sender");
GIRDERMOTH_ASSERT(sizeof(girdermoth_reply) == 16 && offsetof(girdermoth_reply, yes) == 9, "reply");
GIRDERMOTH_ASSERT(sizeof(girdermoth_freed) == 24 && offsetof(girdermoth_freed, unordered) == 20, "freed");
GIRDERMOTH_ASSERT(sizeof(girdermoth_fragment) == 72 && offsetof(girdermoth_fragment, retransmit) == 66, "fragment");
GIRDERMOTH_ASSERT(sizeof(girdermoth_counts) == 24 && offsetof(girdermoth_counts, refusal) == 16, "counts");
GIRDERMOTH_ASSERT(sizeof(girdermoth_sacked) == 24 && offsetof(girdermoth_sacked, stale) == 17, "sacked");
GIRDERMOTH_ASSERT(sizeof(bool) == 1, "bool");
#ifdef __cplusplus
GIRDERMOTH_ASSERT(alignof(girdermoth_sender) == 8 && alignof(girdermoth_fragment) == 8, "alignment");
#else
GIRDERMOTH_ASSERT(_Alignof(girdermoth_sender) == 8 && _Alignof(girdermoth_fragment) == 8, "alignment");
#endif

// ---- a fresh sender, and its streams

// Whatever the bytes were: the first chunk takes the TSN `tsn`, the first message the number `number`. Never refused.
girdermoth_reply girdermoth_init(girdermoth_sender *s, uint32_t tsn, uint64_t number);
// A new stream: ordered, reliable, with the low threshold 0 and the high one 2^64 - 1; `maximum` bounds a chunk's payload. A stream is never closed.
// Refused, in this order: BAD_BOUNDS, ALREADY_OPEN, STREAMS_FULL.
girdermoth_reply girdermoth_open_stream(girdermoth_sender *s, uint16_t identifier, uint32_t maximum);
// How messages that are written from now on are delivered: `value` is a count for REXMIT, a lifetime in milliseconds for TIMED. Messages of payload
// type 50 (DCEP) are ordered and live for ever all the same. Refused: NOT_OPEN.
girdermoth_reply girdermoth_set_reliability_params(girdermoth_sender *s, uint16_t identifier, bool unordered, uint8_t kind, uint32_t value);
// The amount whose reaching from above girdermoth_on_buffer_released tells. Refused: NOT_OPEN.
girdermoth_reply girdermoth_set_buffered_amount_low_threshold(girdermoth_sender *s, uint16_t identifier, uint64_t low);
// The amount whose reaching from below girdermoth_write tells. Refused: NOT_OPEN.
girdermoth_reply girdermoth_set_buffered_amount_high_threshold(girdermoth_sender *s, uint16_t identifier, uint64_t high);
// Bytes of a stream have left, acknowledged, expired or abandoned: the host hands over what those calls told. `yes` where the buffered amount fell from
// above the low threshold to it or below. Zero or less changes nothing; more than is buffered leaves 0. Refused: NOT_OPEN.
girdermoth_reply girdermoth_on_buffer_released(girdermoth_sender *s, uint16_t identifier, int64_t released);

// ---- messages. The clock is in milliseconds, at most GIRDERMOTH_CLOCK_MAX, and may go back

// The caller keeps the bytes until all of the message is acknowledged or given up: a message is where they begin and how many they are; `protocol` is
// the payload type. It is cut into fragments, which wait in the ring of ordered or that of unordered messages; each ring is shared by all streams.
// `yes` where the buffered amount rose from below the high threshold to it or above. DO NOT WRITE an ordered message of length 0: it takes an SSN
// that no chunk carries, so that its stream is stopped for good (send one byte of payload type 56 or 57 instead). Refused, in this order: NOT_OPEN,
// MESSAGE_LONG, BEYOND_LIMIT (offset), BUFFER_FULL, RING_FULL, NUMBERS_SPENT.
girdermoth_reply girdermoth_write(girdermoth_sender *s, uint16_t identifier, uint32_t protocol, uint64_t offset, uint64_t length);
// Starts the lifetimes of the TIMED messages not yet seen: `clock` and the stream's value make the deadline. Until then they do not age. The first
// call of each round: girdermoth_send_next does it too, but not where it is refused. Refused: BEYOND_LIMIT.
girdermoth_reply girdermoth_start_timed_messages(girdermoth_sender *s, uint64_t clock);
// The next chunk goes to the flight, under its TSN, and the host sends it; `some` is unset where nothing is pending. It never looks at deadlines:
// make both expiries before EACH call of it. Refused: BEYOND_LIMIT, FLIGHT_FULL.
girdermoth_fragment girdermoth_send_next(girdermoth_sender *s, uint64_t clock);
// The message at the head goes if it is due and wholly unsent: it takes no TSN, and the SSNs behind it close the gap. Which message it was,
// girdermoth_peek_pending tells before. It looks at the head alone: call it, with the next, until neither frees anything. Refused: BEYOND_LIMIT.
girdermoth_freed girdermoth_expire_pending(girdermoth_sender *s, uint64_t clock);
// Abandons the message at the head if it is due and partly sent: its rest goes, and one terminator takes its place in flight. Refused: BEYOND_LIMIT.
girdermoth_freed girdermoth_expire_pending_tail(girdermoth_sender *s, uint64_t clock);
// Gives up the whole message of a TSN in flight, whatever its reliability: all its entries are abandoned and hold no bytes, and where a rest of it was
// unsent, that goes and one terminator takes its place. `bytes` is 0 where it was abandoned before; `some` is unset for a TSN that is not in flight.
// Tell the peer by FORWARD-TSN. Never refused.
girdermoth_freed girdermoth_abandon(girdermoth_sender *s, uint32_t tsn);

// ---- the flight

// The peer's SACK (RFC 9260, section 3.3.4). The host cuts the packet: the `length` bytes at `chunk` are exactly the chunk, from its type on to its last
// block or duplicate TSN. Where its cumulative TSN lies from one before the oldest in flight to the newest, modulo 2^32, the entries up to it are
// acknowledged and popped, then those of its gap blocks are acknowledged; `bytes` is what all of them held, each once, however blocks overlap. Otherwise,
// or with nothing in flight, the SACK is `stale`, and changes nothing; its blocks are not looked at. Flags, window and the duplicates' TSNs are not read.
// Every block is tested before anything changes. `bytes` is of all streams together, and not yet off their buffered amounts: with one stream, it goes to
// girdermoth_on_buffer_released as it is; with several, add up by stream the `length` of girdermoth_get over the flight before the call, take off the
// same behind it, and release what is left. Refused, in this order: BAD_SACK; where it is not stale, BAD_BLOCK.
girdermoth_sacked girdermoth_handle_sack(girdermoth_sender *s, const uint8_t *chunk, size_t length);
// The entry of a TSN is acknowledged; `value` is the bytes that it held, for girdermoth_on_buffer_released (girdermoth_get tells the stream, before or
// behind); 0 for an unknown TSN and for a second time. Never refused.
girdermoth_reply girdermoth_mark_as_acked(girdermoth_sender *s, uint32_t tsn);
// Takes the oldest entry out of the flight, if it has this TSN: for each TSN up to a SACK's cumulative one, behind girdermoth_mark_as_acked, where the
// host reads the SACK itself. No place of the flight becomes free but by this and by girdermoth_handle_sack. Never refused.
girdermoth_fragment girdermoth_pop(girdermoth_sender *s, uint32_t tsn);
// Marks every entry that is neither acknowledged nor abandoned for retransmission: when T3-RTX has fired. Never refused.
girdermoth_reply girdermoth_mark_all_to_retransmit(girdermoth_sender *s);
// The TSNs in flight that are not abandoned, are due, and are not acknowledged or have a rest of their message unsent; oldest first, in front of the
// lent list of `room` numbers; `value` is how many. Call girdermoth_abandon for each: one gives up the whole message, so that later ones of the list
// may be abandoned already. What is pending and in flight and the rest of the list stay. Refused: BEYOND_LIMIT, LIST_SHORT.
girdermoth_reply girdermoth_expired_inflight(girdermoth_sender *s, uint32_t *list, size_t room, uint64_t clock);

// ---- chunks for the wire. Packets, with their common header and their checksum, are the host's

// Writes the DATA chunk of a TSN in flight (RFC 9260, section 3.3.1) to the front of the `room` bytes at `out`, the first time and whenever it is sent
// again: header, payload, and zeros up to a multiple of four. `value` is how many bytes that is, with `yes` set; those behind them stay. The payload is
// copied from the caller's `length` bytes, which the entry's `offset` counts from. The chunk's length field is without the zeros; its flags are E 1, B 2
// and U 4; its SSN is the entry's, also where U is on. Refused, in this order: NO_ENTRY, PAYLOAD_OUTSIDE, OUTPUT_SHORT; a refusal leaves the output.
girdermoth_reply girdermoth_data_chunk(const girdermoth_sender *s, const uint8_t *bytes, size_t length, uint8_t *out, size_t room, uint32_t tsn);

// ---- questions. None is refused but where it says so

// The entry of a TSN in flight. The host sees by it what is to be sent again, and finds by it, from the oldest TSN on, what FORWARD-TSN is to tell.
girdermoth_fragment girdermoth_get(const girdermoth_sender *s, uint32_t tsn);
// `yes` for a TSN in flight that is abandoned.
girdermoth_reply girdermoth_is_abandoned(const girdermoth_sender *s, uint32_t tsn);
// The chunk that is sent next; its `tsn` is 0.
girdermoth_fragment girdermoth_peek_pending(const girdermoth_sender *s);
// `value` is the number that the next message with a fragment gets.
girdermoth_reply girdermoth_next_message_id(const girdermoth_sender *s);
// `value` is the TSN of the next chunk that is sent, or of the next terminator.
girdermoth_reply girdermoth_next_tsn(const girdermoth_sender *s);
// `value` is how many chunks, or how many bytes, are pending or in flight; what is acknowledged or abandoned has an entry and no bytes.
girdermoth_reply girdermoth_pending_len(const girdermoth_sender *s);
girdermoth_reply girdermoth_pending_bytes(const girdermoth_sender *s);
girdermoth_reply girdermoth_inflight_len(const girdermoth_sender *s);
girdermoth_reply girdermoth_inflight_bytes(const girdermoth_sender *s);
// `value` is the oldest TSN in flight that is neither acknowledged nor abandoned, where `yes` is set.
girdermoth_reply girdermoth_earliest_outstanding_tsn(const girdermoth_sender *s);
// `yes` where the stream has chunks pending, or pending or in flight; no for a stream that is not open.
girdermoth_reply girdermoth_pending_contains_stream(const girdermoth_sender *s, uint16_t identifier);
girdermoth_reply girdermoth_contains_stream(const girdermoth_sender *s, uint16_t identifier);
// `value` is the stream's buffered amount or threshold. Refused: NOT_OPEN.
girdermoth_reply girdermoth_buffered_amount(const girdermoth_sender *s, uint16_t identifier);
girdermoth_reply girdermoth_buffered_amount_low_threshold(const girdermoth_sender *s, uint16_t identifier);
girdermoth_reply girdermoth_buffered_amount_high_threshold(const girdermoth_sender *s, uint16_t identifier);
// What was written on the stream: messages of the payload types 51, 53, 56 and 57, and the bytes of those of 51 and 53. Refused: NOT_OPEN.
girdermoth_counts girdermoth_stats(const girdermoth_sender *s, uint16_t identifier);
// `value` is the oldest TSN in flight, acknowledged or abandoned as it may be, where `yes` is set: girdermoth_pop takes that one, and the walk for
// FORWARD-TSN begins there.
girdermoth_reply girdermoth_oldest_tsn(const girdermoth_sender *s);
// `value` is how many more fragments the ring of unordered messages takes, or that of ordered ones: a message of more is refused with RING_FULL.
girdermoth_reply girdermoth_ring_room(const girdermoth_sender *s, bool unordered);
// `value` is the earliest deadline of the chunk at the head and of those in flight that are not abandoned, where `yes` is set: a host that has expired
// all that was due may wait until then. What is acknowledged counts until it is popped: where such a deadline has passed, wait for the next
// acknowledgement and do not ask again. A message whose lifetime has not started has no deadline yet.
girdermoth_reply girdermoth_next_deadline(const girdermoth_sender *s);

// ---- the round-trip estimator: one struct that the caller owns, and lends to each call as it does a sender

// Any bytes are an estimator: but only girdermoth_rto_new makes one that means something. Updates are off where `no_update` is not 0.
typedef struct {
    uint64_t rto_initial, rto_min, rto_max, no_update, srtt;
    double rttvar;
    uint64_t rto;
} girdermoth_rto;

GIRDERMOTH_ASSERT(sizeof(girdermoth_rto) == 56 && offsetof(girdermoth_rto, srtt) == 32 && offsetof(girdermoth_rto, rto) == 48, "rto");

// A refused call changes no byte. Settings and measured times are milliseconds. A reply that is a uint8_t alone is 0, or the refusal.
// Without a measurement, whatever the bytes were; the RTO is `initial`, unclamped. Refused: BEYOND_LIMIT, BAD_BOUNDS.
uint8_t girdermoth_rto_new(girdermoth_rto *s, uint64_t initial, uint64_t low, uint64_t high);
// A measured round-trip time: of a chunk that the host has sent once, from its `since` on. `value` is the smoothed one. Changes nothing while updates
// are off. Refused: BEYOND_LIMIT.
girdermoth_reply girdermoth_rto_set_new_rtt(girdermoth_rto *s, uint64_t rtt);
// The RTO: the interval of T3-RTX.
uint64_t girdermoth_rto_get_rto(const girdermoth_rto *s);
// Back to no measurement and the initial RTO. Changes nothing while updates are off. Never refused.
uint8_t girdermoth_rto_reset(girdermoth_rto *s);
// Sets the RTO, unclamped, and whether measurements and resets change nothing from now on. Refused: BEYOND_LIMIT.
uint8_t girdermoth_rto_set_rto(girdermoth_rto *s, uint64_t rto, bool no_update);

// ---- the six timers: one struct that the caller owns, and lends to each call as it does a sender

// A flag is any byte but 0. `deadline` and `maximum` are told by their flags; `unused` says nothing, and is there so that every byte has a name.
// The calls read a timer as three words, so this is how it lies on a little-endian machine, as the kit's targets are.
typedef struct {
    uint64_t deadline, maximum;
    uint32_t retrans;
    uint8_t has_deadline, has_maximum, suppressed, unused;
} girdermoth_timer;

// The places of the six timers.
enum { GIRDERMOTH_T1_INIT, GIRDERMOTH_T1_COOKIE, GIRDERMOTH_T2_SHUTDOWN, GIRDERMOTH_T3_RTX, GIRDERMOTH_RECONFIG, GIRDERMOTH_ACK };

// Any bytes are timers: but only girdermoth_timers_new makes timers that mean something.
typedef struct {
    girdermoth_timer entries[6];
    uint32_t rto_max;
} girdermoth_timers;

// What an expiry tells.
typedef struct {
    uint32_t count;
    uint8_t refusal;
    bool expired, failure;
} girdermoth_expiry;

GIRDERMOTH_ASSERT(sizeof(girdermoth_timer) == 24 && offsetof(girdermoth_timer, retrans) == 16 && offsetof(girdermoth_timer, suppressed) == 22, "timer");
GIRDERMOTH_ASSERT(sizeof(girdermoth_timers) == 152 && offsetof(girdermoth_timers, rto_max) == 144, "timers");
GIRDERMOTH_ASSERT(sizeof(girdermoth_expiry) == 8 && offsetof(girdermoth_expiry, failure) == 6, "expiry");
#if defined(__BYTE_ORDER__) && __BYTE_ORDER__ != __ORDER_LITTLE_ENDIAN__
#error "girdermoth_timer is for little-endian machines"
#endif

// A call touches the timer that it names and no other; a refused call changes no byte. A `timer` beyond the six is refused with BEYOND_LIMIT by each
// of them. A reply that is a uint8_t alone is 0, or the refusal.
// Six idle timers, whatever the bytes were. The maxima are those of the init and the data retransmissions, where they exist. Refused: BEYOND_LIMIT.
uint8_t girdermoth_timers_new(girdermoth_timers *s, bool has_init, uint64_t init, bool has_data, uint64_t data, uint64_t rto_max);
// The smallest deadline of the six, where `yes` is set. Never refused.
girdermoth_reply girdermoth_timers_next_timeout(const girdermoth_timers *s);
// The deadline of a timer, where `yes` is set.
girdermoth_reply girdermoth_timer_get(const girdermoth_timers *s, size_t timer);
// Sets the deadline, or clears it where `is` is unset. Refused: BEYOND_LIMIT.
uint8_t girdermoth_timer_set(girdermoth_timers *s, size_t timer, bool is, uint64_t time);
// The deadline is `clock` plus the interval, doubled for each counted expiry, and at most `rto_max` from `clock`; for ACK, plus the interval. Refused:
// BEYOND_LIMIT.
uint8_t girdermoth_timer_start(girdermoth_timers *s, size_t timer, uint64_t clock, uint64_t interval);
// A start, where there is no deadline at or after `clock`. Refused: BEYOND_LIMIT.
uint8_t girdermoth_timer_restart_if_stale(girdermoth_timers *s, size_t timer, uint64_t clock, uint64_t interval);
// Clears deadline, count and suppression; the count alone; or exempts the next expiry from the count.
uint8_t girdermoth_timer_stop(girdermoth_timers *s, size_t timer);
uint8_t girdermoth_timer_reset_retrans(girdermoth_timers *s, size_t timer);
uint8_t girdermoth_timer_suppress_error_count(girdermoth_timers *s, size_t timer);
// `expired` where there is a deadline at or before `clock`. Asking counts: every call at or after the deadline is an expiry of its own, and the deadline
// stays: start the timer again, or stop it. `failure` where the count is now above the timer's maximum. Refused: BEYOND_LIMIT, COUNT_FULL.
girdermoth_expiry girdermoth_timer_is_expired(girdermoth_timers *s, size_t timer, uint64_t clock);

#ifdef __cplusplus
}
#endif
#endif
