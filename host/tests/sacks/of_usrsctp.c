// SACK chunks as usrsctp writes them, which is given DATA chunks with gaps and doubles: `of_usrsctp FIRST PLACE ..` gives it the TSNs FIRST + PLACE in
// this order, and writes the SACK that comes of each. The fields are told by what it was given, and not read from its bytes.
#include <stdio.h>
#include <stdlib.h>
#include <string.h>
#include <unistd.h>
#include <usrsctp.h>

enum { HERE = 5001, THERE = 5000, HEADER = 12, INIT = 1, INIT_ACK = 2, SACK = 3, COOKIE_ECHO = 10, COOKIE = 7, OURS = 0x11111111 };
static uint8_t cookie[4096], given[512], sack[4096];
static uint32_t first, theirs;
static size_t cookie_length, sack_length;
static int peer;

static unsigned shorter(const uint8_t *at) { return (unsigned)at[0] << 8 | at[1]; }
static uint32_t longer(const uint8_t *at) { return (uint32_t)shorter(at) << 16 | shorter(at + 2); }
static uint8_t *put(uint8_t *at, uint32_t value, int width) {
    for (int i = width; i--;) *at++ = (uint8_t)(value >> 8 * i);
    return at;
}

// What usrsctp sends: the chunks of a packet that are of use here are kept.
static int output(void *address, void *packet, size_t length, uint8_t tos, uint8_t df) {
    (void)address; (void)tos; (void)df;
    const uint8_t *chunk = (uint8_t *)packet + HEADER, *end = (uint8_t *)packet + length;
    for (; end - chunk >= 4; chunk += (shorter(chunk + 2) + 3) & ~3u) {
        size_t size = shorter(chunk + 2);
        if (size < 4 || size > (size_t)(end - chunk)) break;
        if (chunk[0] == SACK) memcpy(sack, chunk, sack_length = size);
        if (chunk[0] != INIT_ACK) continue;
        theirs = longer(chunk + 4);
        for (const uint8_t *part = chunk + 20; part + 4 <= chunk + size; part += (shorter(part + 2) + 3) & ~3u)
            if (shorter(part) == COOKIE) memcpy(cookie, part + 4, cookie_length = shorter(part + 2) - 4);
    }
    return 0;
}

static void send_packet(uint32_t tag, const uint8_t *chunk, size_t length) {
    uint8_t packet[5000], *at = packet;
    at = put(at, HERE, 2); at = put(at, THERE, 2); at = put(at, tag, 4); at = put(at, 0, 4);
    memcpy(at, chunk, length);
    usrsctp_conninput(&peer, packet, HEADER + length, 0);
    usleep(20000);
}

static void handshake(void) {
    uint8_t chunk[4200], *at = chunk;
    at = put(at, INIT << 24 | 20, 4); at = put(at, OURS, 4); at = put(at, 1 << 20, 4); at = put(at, 16 << 16 | 16, 4); at = put(at, first, 4);
    send_packet(0, chunk, 20);
    at = put(chunk, (uint32_t)(COOKIE_ECHO << 24 | (4 + cookie_length)), 4);
    memcpy(at, cookie, cookie_length);
    send_packet(theirs, chunk, (4 + cookie_length + 3) & ~3u);
}

// A message of one chunk, unordered; then the SACK that comes of it.
static void give(unsigned place) {
    uint8_t chunk[20], *at = chunk;
    at = put(at, 7 << 16 | 17, 4); at = put(at, first + place, 4); at = put(at, 0, 4); at = put(at, 53, 4); at = put(at, 0x78000000, 4);
    sack_length = 0;
    send_packet(theirs, chunk, 20);
    unsigned covered = 0;
    int doubled = given[place]++;
    while (given[covered]) covered++;
    if (!sack_length) return;
    printf("%u |", first + covered - 1);
    for (unsigned i = covered; i < sizeof given; i++) if (given[i]) printf(" %u", i - covered + 1);
    printf(" |");
    if (doubled) printf(" %u", first + place);
    printf(" | ");
    for (size_t i = 0; i < sack_length; i++) printf("%02x", sack[i]);
    puts("");
}

int main(int count, char **words) {
    if (count < 3) return 2;
    first = (uint32_t)strtoul(words[1], NULL, 10);
    usrsctp_init(0, output, NULL);
    usrsctp_enable_crc32c_offload();
    usrsctp_sysctl_set_sctp_sack_freq_default(1);
    usrsctp_register_address(&peer);
    struct socket *listening = usrsctp_socket(AF_CONN, SOCK_STREAM, IPPROTO_SCTP, NULL, NULL, 0, NULL);
    struct sockaddr_conn here = {.sconn_family = AF_CONN, .sconn_port = htons(THERE), .sconn_addr = &peer};
    if (!listening || usrsctp_bind(listening, (struct sockaddr *)&here, sizeof here) || usrsctp_listen(listening, 1)) { perror("usrsctp"); return 1; }
    handshake();
    for (int i = 2; i < count; i++) give((unsigned)atoi(words[i]));
    fflush(stdout);
    _exit(0);
}
