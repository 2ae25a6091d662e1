// The other end of a session: a link that loses, doubles and reorders packets, and a small receiver with the rules of RFC 9260 and RFC 3758.
#ifndef PEER_H
#define PEER_H
#include "trial.h"

enum { DATA = 0, SACK = 3, FORWARD = 192 };

// DATA and SACK are the bytes of the chunk. The pairs of a FORWARD-TSN are streams with their last SSNs. The link sets when it arrives.
typedef struct {
    uint64_t due;
    int kind;
    uint8_t bytes[16 + (PAYLOAD + 3) / 4 * 4];
    size_t length;
    uint32_t cumulative;
    int count;
    uint16_t pairs[STREAMS][2];
} packet;

static inline bool after(uint32_t a, uint32_t b) { return (int32_t)(a - b) > 0; }

uint32_t begin_peer(void);   // the first TSN of the session; the link gets other losses, doubles and delays
void put(packet *p);
uint64_t next_arrival(void);   // UINT64_MAX where nothing is under way
bool next_sack(packet *p);   // one that has arrived at the host; the receiver takes in what has arrived there
uint32_t cumulative_tsn(void);
#endif
