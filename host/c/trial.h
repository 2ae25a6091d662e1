// The sessions of session.c from outside: random numbers, the clock, what is written and when, what must come of it, and what is counted.
#ifndef TRIAL_H
#define TRIAL_H
#include <stdbool.h>
#include <stddef.h>
#include <stdint.h>

enum { STREAMS = 4, MESSAGES = 64, LONGEST = 700, PAYLOAD = 80 };
enum { OPEN, DROPPED, CUT, GIVEN_UP };   // how the host ended a message: not at all, before any of it was sent, halfway, in flight
enum { WRITTEN, ARRIVED, UNSENT, CUTS, LATE, AGAIN, FORWARDS, TIMEOUTS, FULL_RINGS, FULL_FLIGHTS, COUNTS };

// A message that is to be written, from the bytes of the store; where `fresh`, its stream gets another reliability first.
typedef struct {
    uint16_t stream;
    bool fresh, unordered;
    uint8_t kind;
    uint32_t value, protocol, offset, length;
    bool ordered;   // as is a message of payload type 50 on any stream
} wish;

extern uint64_t now, first_number;
extern long session, bad, counts[COUNTS];
extern uint8_t store[(MESSAGES + STREAMS) * LONGEST];

uint64_t rnd(void);
void want(bool ok, const char *what);

void begin_trial(void);   // of the session `session`
bool wished(wish *w, bool idle);   // what is to be written now. When all is, and the host is idle, one more message for each stream
void wrote(const wish *w, uint8_t refusal);
uint64_t next_wish(void);   // when; UINT64_MAX where none has a time
void ended(uint64_t number, int how);
void delivered(uint16_t stream, uint32_t protocol, const uint8_t *bytes, size_t length);
bool goes_on(bool idle);   // to be asked in each round: there is more to write, or to send
void end_trial(void);   // what was not given up has arrived, and what was cut or dropped has not
int report(long sessions);
#endif
