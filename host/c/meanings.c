// What each name of the header means, by calls: every refusal is reached under its name, the kinds of reliability and the payload types do what is
// said of them, each timer is the one of its place, and every field and parameter is told apart from its neighbours.
#include "girdermoth.h"
#include <stdio.h>
#include <string.h>

static int bad = 0;
#define WANT(ok) do { if (!(ok)) { bad++; printf("WRONG, line %d: %s\n", __LINE__, #ok); } } while (0)

static girdermoth_sender s;

// A fresh sender with one stream that has payloads of up to 100 bytes.
static void fresh(bool unordered, uint8_t kind, uint32_t value) {
    girdermoth_init(&s, 7000, 8000);
    WANT(girdermoth_open_stream(&s, 21, 100).refusal == GIRDERMOTH_DONE);
    WANT(girdermoth_set_reliability_params(&s, 21, unordered, kind, value).refusal == GIRDERMOTH_DONE);
}

// Only TIMED gives a lifetime: a message wholly unsent, one half sent, and one in flight.
static void kinds(void) {
    const uint8_t kind[] = {GIRDERMOTH_RELIABLE, GIRDERMOTH_REXMIT, GIRDERMOTH_TIMED, 3, 255};
    for (int i = 0; i < 5; i++) {
        bool timed = kind[i] == GIRDERMOTH_TIMED;
        uint32_t list[4];
        fresh(false, kind[i], 50);
        girdermoth_write(&s, 21, 53, 0, 10);
        girdermoth_start_timed_messages(&s, 1000);
        WANT(girdermoth_peek_pending(&s).has_deadline == timed && girdermoth_peek_pending(&s).kind == kind[i]);
        WANT(!girdermoth_expire_pending(&s, 1049).some);
        WANT(girdermoth_expire_pending(&s, 1050).some == timed);
        girdermoth_write(&s, 21, 53, 0, 250);
        for (int k = timed ? 1 : 0; k < 2; k++) girdermoth_send_next(&s, 2000);
        WANT(girdermoth_expired_inflight(&s, list, 4, 2049).value == 0);
        WANT(girdermoth_expired_inflight(&s, list, 4, 2050).value == (timed ? 1u : 0u));
        WANT(girdermoth_expire_pending_tail(&s, 2050).some == timed);
    }
    WANT(GIRDERMOTH_TIMED != GIRDERMOTH_REXMIT && GIRDERMOTH_REXMIT != GIRDERMOTH_RELIABLE && GIRDERMOTH_RELIABLE != GIRDERMOTH_TIMED);
    girdermoth_init(&s, 0, 0);
    girdermoth_open_stream(&s, 21, 100);
    girdermoth_write(&s, 21, 53, 0, 1);
    WANT(girdermoth_peek_pending(&s).kind == GIRDERMOTH_RELIABLE);
}

// 50 is ordered, lives for ever and is not counted; 51 and 53 count bytes; 56 and 57 count a message of 0 bytes; no other counts.
static void payload_types(void) {
    for (uint32_t protocol = 0; protocol < 70; protocol++) {
        fresh(true, GIRDERMOTH_TIMED, 1);
        girdermoth_write(&s, 21, protocol, 0, 10);
        girdermoth_counts n = girdermoth_stats(&s, 21);
        bool bytes = protocol == 51 || protocol == 53, empty = protocol == 56 || protocol == 57;
        WANT(n.messages == (bytes || empty) && n.bytes == (bytes ? 10u : 0u));
        girdermoth_fragment sent = girdermoth_send_next(&s, 0);
        WANT(sent.protocol == protocol && sent.unordered == (protocol != 50) && sent.has_deadline == (protocol != 50));
    }
}

// Every field of a fragment, each another number.
static void fragments(void) {
    fresh(true, GIRDERMOTH_TIMED, 300);
    girdermoth_set_reliability_params(&s, 21, false, GIRDERMOTH_TIMED, 300);
    girdermoth_write(&s, 21, 51, 0, 0);
    girdermoth_write(&s, 21, 51, 0, 0);
    WANT(girdermoth_write(&s, 21, 51, 5000, 130).refusal == GIRDERMOTH_DONE);
    girdermoth_fragment c = girdermoth_peek_pending(&s);
    WANT(c.some && c.tsn == 0 && c.message_id == 8000 && c.offset == 5000 && c.length == 100 && c.nsent == 0 && !c.has_since && c.since == 0);
    WANT(!c.has_deadline && c.deadline == 0);
    c = girdermoth_send_next(&s, 40);
    WANT(c.some && c.refusal == 0 && c.tsn == 7000 && c.message_id == 8000 && c.offset == 5000 && c.length == 100 && c.protocol == 51 && c.value == 300);
    WANT(c.nsent == 1 && c.stream == 21 && c.ssn == 2 && c.kind == GIRDERMOTH_TIMED && c.has_deadline && c.deadline == 340 && c.has_since && c.since == 40);
    WANT(!c.unordered && c.beginning && !c.ending && !c.acked && !c.abandoned && !c.retransmit);
    c = girdermoth_send_next(&s, 41);
    WANT(c.tsn == 7001 && c.offset == 5100 && c.length == 30 && !c.beginning && c.ending);
    girdermoth_mark_all_to_retransmit(&s);
    c = girdermoth_get(&s, 7001);
    WANT(c.some && c.retransmit && !c.acked && !c.abandoned);
    WANT(girdermoth_mark_as_acked(&s, 7001).value == 30);
    c = girdermoth_get(&s, 7001);
    WANT(c.acked && !c.abandoned && !c.retransmit && c.length == 0 && c.offset == 5100);
    girdermoth_freed freed = girdermoth_abandon(&s, 7000);
    WANT(freed.some && freed.bytes == 100 && freed.stream == 21 && freed.message_id == 0 && freed.refusal == 0 && !freed.unordered);
    c = girdermoth_get(&s, 7000);
    WANT(!c.acked && c.abandoned && !c.retransmit);
    WANT(girdermoth_is_abandoned(&s, 7000).yes && !girdermoth_is_abandoned(&s, 7002).yes);
    c = girdermoth_pop(&s, 7000);
    WANT(c.some && c.tsn == 7000 && c.abandoned);
    WANT(!girdermoth_pop(&s, 7000).some);
    // what expires: number and unordered are told by one call each
    fresh(true, GIRDERMOTH_TIMED, 5);
    girdermoth_write(&s, 21, 53, 0, 10);
    girdermoth_start_timed_messages(&s, 0);
    WANT(girdermoth_next_deadline(&s).yes && girdermoth_next_deadline(&s).value == 5 && !girdermoth_oldest_tsn(&s).yes);
    freed = girdermoth_expire_pending(&s, 5);
    WANT(freed.some && freed.unordered && freed.bytes == 10 && freed.stream == 21 && freed.message_id == 0);
    girdermoth_write(&s, 21, 53, 0, 150);
    girdermoth_send_next(&s, 10);
    freed = girdermoth_expire_pending_tail(&s, 15);
    WANT(freed.some && !freed.unordered && freed.bytes == 150 && freed.stream == 21 && freed.message_id == 8001);
}

// Numbers that questions answer, each another; thresholds and amounts.
static void questions(void) {
    fresh(false, GIRDERMOTH_RELIABLE, 0);
    girdermoth_write(&s, 21, 53, 0, 250);
    girdermoth_write(&s, 21, 57, 0, 1);
    girdermoth_send_next(&s, 0);
    WANT(girdermoth_next_message_id(&s).value == 8002 && girdermoth_next_tsn(&s).value == 7001);
    WANT(girdermoth_pending_len(&s).value == 3 && girdermoth_pending_bytes(&s).value == 151);
    WANT(girdermoth_inflight_len(&s).value == 1 && girdermoth_inflight_bytes(&s).value == 100);
    WANT(girdermoth_earliest_outstanding_tsn(&s).yes && girdermoth_earliest_outstanding_tsn(&s).value == 7000);
    WANT(girdermoth_oldest_tsn(&s).yes && girdermoth_oldest_tsn(&s).value == 7000 && !girdermoth_next_deadline(&s).yes);
    WANT(girdermoth_ring_room(&s, false).value == GIRDERMOTH_RING_ROOM - 3 && girdermoth_ring_room(&s, true).value == GIRDERMOTH_RING_ROOM);
    WANT(girdermoth_stats(&s, 21).messages == 2 && girdermoth_stats(&s, 21).bytes == 250);
    girdermoth_set_buffered_amount_low_threshold(&s, 21, 200);
    girdermoth_set_buffered_amount_high_threshold(&s, 21, 260);
    WANT(girdermoth_buffered_amount_low_threshold(&s, 21).value == 200 && girdermoth_buffered_amount_high_threshold(&s, 21).value == 260 && girdermoth_buffered_amount(&s, 21).value == 251);
    WANT(girdermoth_write(&s, 21, 53, 0, 9).yes && girdermoth_on_buffer_released(&s, 21, 60).yes && !girdermoth_on_buffer_released(&s, 21, 1).yes);
    girdermoth_open_stream(&s, 22, 1);
    WANT(girdermoth_pending_contains_stream(&s, 21).yes && girdermoth_contains_stream(&s, 21).yes && !girdermoth_contains_stream(&s, 22).yes);
    while (girdermoth_send_next(&s, 0).some) {}
    WANT(!girdermoth_pending_contains_stream(&s, 21).yes && girdermoth_contains_stream(&s, 21).yes);
}

// Each refusal under its name, but BUFFER_FULL, which stray.c reaches with 65,536 writes.
static void refusals(void) {
    uint32_t list[1];
    fresh(false, GIRDERMOTH_TIMED, 0);
    WANT(girdermoth_write(&s, 21, 53, GIRDERMOTH_OFFSET_MAX + 1, 1).refusal == GIRDERMOTH_BEYOND_LIMIT);
    WANT(girdermoth_write(&s, 21, 53, GIRDERMOTH_OFFSET_MAX, 1).refusal == GIRDERMOTH_DONE);
    WANT(girdermoth_send_next(&s, GIRDERMOTH_CLOCK_MAX + 1).refusal == GIRDERMOTH_BEYOND_LIMIT && girdermoth_send_next(&s, GIRDERMOTH_CLOCK_MAX).some);
    WANT(girdermoth_open_stream(&s, 22, 0).refusal == GIRDERMOTH_BAD_BOUNDS && girdermoth_open_stream(&s, 22, GIRDERMOTH_PAYLOAD_MAX + 1).refusal == GIRDERMOTH_BAD_BOUNDS);
    WANT(girdermoth_open_stream(&s, 21, 1).refusal == GIRDERMOTH_ALREADY_OPEN && girdermoth_buffered_amount(&s, 22).refusal == GIRDERMOTH_NOT_OPEN);
    for (uint16_t id = 101; id < 100 + GIRDERMOTH_STREAMS; id++) WANT(girdermoth_open_stream(&s, id, GIRDERMOTH_PAYLOAD_MAX).refusal == GIRDERMOTH_DONE);
    WANT(girdermoth_open_stream(&s, 99, 1).refusal == GIRDERMOTH_STREAMS_FULL);
    WANT(girdermoth_write(&s, 21, 53, 0, GIRDERMOTH_MESSAGE_MAX + 1).refusal == GIRDERMOTH_MESSAGE_LONG && girdermoth_write(&s, 21, 53, 0, GIRDERMOTH_MESSAGE_MAX).refusal == GIRDERMOTH_RING_FULL);
    WANT(girdermoth_write(&s, 21, 53, 0, 100 * GIRDERMOTH_RING_ROOM + 1).refusal == GIRDERMOTH_RING_FULL);
    WANT(girdermoth_expired_inflight(&s, list, 0, GIRDERMOTH_CLOCK_MAX).refusal == GIRDERMOTH_LIST_SHORT);
    WANT(girdermoth_expired_inflight(&s, list, 1, GIRDERMOTH_CLOCK_MAX).value == 1 && list[0] == 7000);
    WANT(girdermoth_write(&s, 21, 53, 0, 100 * GIRDERMOTH_RING_ROOM).refusal == GIRDERMOTH_DONE);
    for (int i = 0; i < GIRDERMOTH_FLIGHT_ROOM - 2; i++) WANT(girdermoth_send_next(&s, 0).some);
    WANT(girdermoth_send_next(&s, 0).refusal == GIRDERMOTH_FLIGHT_FULL);
    girdermoth_init(&s, 0, UINT64_MAX);
    girdermoth_open_stream(&s, 21, 1);
    WANT(girdermoth_write(&s, 21, 53, 0, 1).refusal == GIRDERMOTH_NUMBERS_SPENT && girdermoth_write(&s, 21, 53, 0, 0).refusal == GIRDERMOTH_DONE);
}

// The DATA chunk of an entry, each of its fields another number; what stands behind it stays. Then the three refusals, which leave the output.
static void chunks(void) {
    const uint8_t bytes[] = "....abcdefg", last[] = {0, 5, 0, 19, 0, 0, 0x1b, 0x59, 0, 22, 0, 2, 1, 2, 3, 4, 'e', 'f', 'g', 0, 9, 9};
    uint8_t out[22], same[22];
    memset(out, 9, sizeof out);
    fresh(false, GIRDERMOTH_RELIABLE, 0);
    girdermoth_open_stream(&s, 22, 4);
    for (int i = 0; i < 2; i++) girdermoth_write(&s, 22, 53, 0, 1);
    girdermoth_set_reliability_params(&s, 22, true, GIRDERMOTH_RELIABLE, 0);
    girdermoth_write(&s, 22, 0x01020304, 4, 7);
    while (girdermoth_send_next(&s, 0).some) {}
    girdermoth_reply r = girdermoth_data_chunk(&s, bytes, 11, out, sizeof out, 7001);
    WANT(r.refusal == GIRDERMOTH_DONE && r.yes && r.value == 20 && memcmp(out, last, sizeof out) == 0);
    WANT(girdermoth_data_chunk(&s, bytes, 8, out, 20, 7000).value == 20 && out[1] == 6 && out[3] == 20 && out[7] == 0x58 && out[19] == 'd');
    WANT(girdermoth_data_chunk(&s, bytes, 1, out, 20, 7002).value == 20 && out[1] == 3 && out[3] == 17 && out[11] == 0 && out[15] == 53);
    memcpy(same, out, sizeof out);
    WANT(girdermoth_data_chunk(&s, bytes, 0, out, 0, 7004).refusal == GIRDERMOTH_NO_ENTRY);
    r = girdermoth_data_chunk(&s, bytes, 10, out, 0, 7001);
    WANT(r.refusal == GIRDERMOTH_PAYLOAD_OUTSIDE && !r.yes && r.value == 0);
    WANT(girdermoth_data_chunk(&s, bytes, 11, out, 19, 7001).refusal == GIRDERMOTH_OUTPUT_SHORT);
    girdermoth_mark_as_acked(&s, 7001);
    girdermoth_abandon(&s, 7002);
    for (uint32_t tsn = 7001; tsn < 7003; tsn++) WANT(girdermoth_data_chunk(&s, bytes, 11, out, sizeof out, tsn).refusal == GIRDERMOTH_NO_ENTRY);
    WANT(memcmp(out, same, sizeof out) == 0);
}

// A SACK with one block: what it releases, or that it is stale; the two refusals; what else its bytes say is not read.
static void sacks(void) {
    uint8_t b[20] = {3, 0, 0, 20, 0, 0, 0x1b, 0x59, 0, 1, 0, 0, 0, 1, 0, 0, 0, 2, 0, 3};   // 7001, 2 to 3
    fresh(false, GIRDERMOTH_RELIABLE, 0);
    girdermoth_write(&s, 21, 53, 0, 550);
    while (girdermoth_send_next(&s, 0).some) {}
    WANT(girdermoth_handle_sack(&s, b, 19).refusal == GIRDERMOTH_BAD_SACK && girdermoth_handle_sack(&s, b, 0).refusal == GIRDERMOTH_BAD_SACK);
    b[19] = 5;
    girdermoth_sacked r = girdermoth_handle_sack(&s, b, sizeof b);
    WANT(r.refusal == GIRDERMOTH_BAD_BLOCK && r.bytes == 0 && r.low == 0 && !r.stale && girdermoth_inflight_len(&s).value == 6);
    b[19] = 3; b[7] = 0x5e;
    r = girdermoth_handle_sack(&s, b, sizeof b);
    WANT(r.refusal == GIRDERMOTH_DONE && r.stale && r.bytes == 0 && r.low == 0 && girdermoth_inflight_bytes(&s).value == 550);
    b[7] = 0x59; b[1] = 255; b[8] = 7;
    r = girdermoth_handle_sack(&s, b, sizeof b);
    WANT(r.refusal == GIRDERMOTH_DONE && !r.stale && r.bytes == 400 && r.low == 0);
    WANT(girdermoth_oldest_tsn(&s).value == 7002 && girdermoth_inflight_len(&s).value == 4 && girdermoth_inflight_bytes(&s).value == 150);
    WANT(!girdermoth_get(&s, 7002).acked && girdermoth_get(&s, 7003).acked && girdermoth_get(&s, 7004).acked && !girdermoth_get(&s, 7005).acked);
    WANT(girdermoth_buffered_amount(&s, 21).value == 550);
}

// The timers of init fail above 2, that of data above 1, the two others never; all but ACK wait at most rto_max; each has its own entry.
static void timers(void) {
    const size_t place[] = {GIRDERMOTH_T1_INIT, GIRDERMOTH_T1_COOKIE, GIRDERMOTH_T2_SHUTDOWN, GIRDERMOTH_T3_RTX, GIRDERMOTH_RECONFIG, GIRDERMOTH_ACK};
    const unsigned most[] = {2, 2, 0, 1, 2, 0};
    girdermoth_timers made, t;
    WANT(girdermoth_timers_new(&made, true, 2, true, 1, 700) == GIRDERMOTH_DONE && made.rto_max == 700);
    for (int i = 0; i < 6; i++) {
        t = made;
        uint64_t due = place[i] == GIRDERMOTH_ACK ? 1900 : 1700;
        girdermoth_timer *entry = &t.entries[place[i]];
        WANT(girdermoth_timer_start(&t, place[i], 1000, 900) == GIRDERMOTH_DONE);
        WANT(girdermoth_timer_get(&t, place[i]).value == due && girdermoth_timers_next_timeout(&t).value == due);
        WANT(entry->has_deadline && entry->deadline == due && entry->has_maximum == (most[i] > 0) && entry->maximum == most[i] && !entry->suppressed);
        girdermoth_expiry told = girdermoth_timer_is_expired(&t, place[i], due - 1);
        WANT(!told.expired && !told.failure && told.count == 0 && told.refusal == GIRDERMOTH_DONE);
        for (unsigned n = 1; n < 5; n++) {
            told = girdermoth_timer_is_expired(&t, place[i], due);
            WANT(told.expired && told.count == n && told.failure == (most[i] > 0 && n > most[i]) && told.refusal == GIRDERMOTH_DONE && entry->retrans == n);
        }
        WANT(girdermoth_timer_suppress_error_count(&t, place[i]) == GIRDERMOTH_DONE && entry->suppressed);
        for (int other = 0; other < 6; other++) WANT(other == i || !girdermoth_timer_get(&t, place[other]).yes);
        told = girdermoth_timer_is_expired(&t, place[i], due);
        WANT(told.expired && told.count == 4 && !told.failure && !entry->suppressed);
        // the fields that no call has set mean what they say, too
        entry->retrans = GIRDERMOTH_COUNT_MAX;
        told = girdermoth_timer_is_expired(&t, place[i], due);
        WANT(told.refusal == GIRDERMOTH_COUNT_FULL && told.count == 0 && !told.expired && !told.failure);
        *entry = (girdermoth_timer){.deadline = 1000, .maximum = 40, .retrans = 40, .has_deadline = 2, .has_maximum = 4, .suppressed = 8};
        WANT(girdermoth_timer_get(&t, place[i]).yes && girdermoth_timer_get(&t, place[i]).value == 1000);
        told = girdermoth_timer_is_expired(&t, place[i], 1000);
        WANT(told.expired && !told.failure && told.count == 40 && !entry->suppressed);
        told = girdermoth_timer_is_expired(&t, place[i], 1000);
        WANT(told.expired && told.failure && told.count == 41);
        WANT(girdermoth_timer_reset_retrans(&t, place[i]) == GIRDERMOTH_DONE && entry->retrans == 0 && entry->has_deadline && entry->has_maximum);
        WANT(girdermoth_timer_stop(&t, place[i]) == GIRDERMOTH_DONE && !entry->has_deadline && entry->has_maximum && entry->maximum == 40);
        WANT(!girdermoth_timers_next_timeout(&t).yes);
    }
    t = made;
    WANT(girdermoth_timers_new(&t, false, 0, false, 0, GIRDERMOTH_SETTING_MAX + 1) == GIRDERMOTH_BEYOND_LIMIT && t.rto_max == 700);
    WANT(girdermoth_timer_get(&t, 6).refusal == GIRDERMOTH_BEYOND_LIMIT);
    WANT(girdermoth_timer_set(&t, GIRDERMOTH_ACK, true, GIRDERMOTH_CLOCK_MAX + 1) == GIRDERMOTH_BEYOND_LIMIT && !girdermoth_timer_get(&t, GIRDERMOTH_ACK).yes);
    WANT(girdermoth_timer_set(&t, GIRDERMOTH_ACK, true, GIRDERMOTH_CLOCK_MAX) == GIRDERMOTH_DONE);
    WANT(girdermoth_timer_get(&t, GIRDERMOTH_ACK).value == GIRDERMOTH_CLOCK_MAX && girdermoth_timers_next_timeout(&t).value == GIRDERMOTH_CLOCK_MAX);
    WANT(girdermoth_timer_set(&t, GIRDERMOTH_ACK, false, 0) == GIRDERMOTH_DONE && !girdermoth_timer_get(&t, GIRDERMOTH_ACK).yes);
}

// Every field of an estimator, each another number.
static void estimator(void) {
    girdermoth_rto r;
    WANT(girdermoth_rto_new(&r, 3000, 1000, 60000) == GIRDERMOTH_DONE);
    WANT(r.rto == 3000 && r.rto_initial == 3000 && r.rto_min == 1000 && r.rto_max == 60000 && r.srtt == 0 && r.rttvar == 0 && r.no_update == 0);
    girdermoth_reply m = girdermoth_rto_set_new_rtt(&r, 600);
    WANT(m.yes && m.value == 600 && r.srtt == 600 && r.rttvar == 300 && r.rto == 1800 && girdermoth_rto_get_rto(&r) == 1800);
    WANT(girdermoth_rto_set_rto(&r, 70000, true) == GIRDERMOTH_DONE && r.no_update == 1 && r.rto == 70000 && r.srtt == 600);
    WANT(girdermoth_rto_new(&r, 0, 2, 1) == GIRDERMOTH_BAD_BOUNDS && girdermoth_rto_new(&r, 0, 2, UINT64_C(4294967296)) == GIRDERMOTH_BEYOND_LIMIT);
}

int main(void) {
    kinds(); payload_types(); fragments(); questions(); refusals(); chunks(); sacks(); timers(); estimator();
    printf("meanings: %d wrong\n", bad);
    return bad != 0;
}
