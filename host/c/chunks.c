// Writes the DATA chunks that host/decoded asks for. The file that it is given has the bytes of all messages. Its input has lines: `sender TSN`,
// `open STREAM MAXIMUM`, `unordered STREAM 0|1`, `write STREAM TYPE OFFSET LENGTH`, `pass STREAM COUNT`. A message that is written is sent, each of its
// chunks is a line of hexadecimal digits, and all are acknowledged; `pass` does so with messages of one byte, of which nothing is shown.
#include "girdermoth.h"
#include <stdio.h>
#include <stdlib.h>
#include <string.h>

static girdermoth_sender s;
static uint8_t store[1 << 20], out[16 + GIRDERMOTH_PAYLOAD_MAX + 1];
static size_t stored;

static void done(uint8_t refusal, const char *what) { if (refusal) { fprintf(stderr, "chunks: %s is refused with %u\n", what, refusal); exit(1); } }

static void show(uint32_t tsn) {
    girdermoth_reply written = girdermoth_data_chunk(&s, store, stored, out, sizeof out, tsn);
    done(written.refusal, "a chunk");
    for (size_t i = 0; i < written.value; i++) printf("%02x", out[i]);
    puts("");
}

static void message(uint16_t stream, uint32_t protocol, uint64_t offset, uint64_t length, bool shown) {
    uint32_t first = (uint32_t)girdermoth_next_tsn(&s).value;
    done(girdermoth_write(&s, stream, protocol, offset, length).refusal, "a write");
    while (girdermoth_send_next(&s, 0).some) {}
    for (uint32_t tsn = first; tsn != (uint32_t)girdermoth_next_tsn(&s).value; tsn++) {
        if (shown) show(tsn);
        girdermoth_mark_as_acked(&s, tsn);
        girdermoth_pop(&s, tsn);
    }
    girdermoth_on_buffer_released(&s, stream, (int64_t)length);
}

int main(int argc, char **argv) {
    FILE *file = argc > 1 ? fopen(argv[1], "rb") : NULL;
    if (!file) { fprintf(stderr, "usage: chunks FILE\n"); return 2; }
    stored = fread(store, 1, sizeof store, file);
    fclose(file);
    char line[100], word[12];
    for (unsigned long n[4]; fgets(line, sizeof line, stdin);) {
        int numbers = sscanf(line, "%11s %lu %lu %lu %lu", word, n, n + 1, n + 2, n + 3) - 1;
        if (numbers == 1 && !strcmp(word, "sender")) girdermoth_init(&s, (uint32_t)n[0], 0);
        else if (numbers == 2 && !strcmp(word, "open")) done(girdermoth_open_stream(&s, (uint16_t)n[0], (uint32_t)n[1]).refusal, "an opening");
        else if (numbers == 2 && !strcmp(word, "unordered")) done(girdermoth_set_reliability_params(&s, (uint16_t)n[0], n[1], 0, 0).refusal, "a setting");
        else if (numbers == 4 && !strcmp(word, "write")) message((uint16_t)n[0], (uint32_t)n[1], n[2], n[3], true);
        else if (numbers == 2 && !strcmp(word, "pass")) while (n[1]--) message((uint16_t)n[0], 53, 0, 1, false);
        else { fprintf(stderr, "chunks: what is %s", line); return 2; }
    }
    return 0;
}
