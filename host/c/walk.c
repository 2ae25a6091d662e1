// The worked walk, from C: two streams, a message cut off halfway by an abandonment, and a line for each TSN as it is assigned.
#include "girdermoth.h"
#include <stdio.h>

static girdermoth_sender s;

static void line(girdermoth_fragment c) {
    if (!c.some) return;
    printf("%u %u %u %d %u\n", c.tsn, c.stream, c.ssn, c.ending + 2 * c.beginning + 4 * c.unordered, c.length);
}

int main(void) {
    girdermoth_init(&s, 4294967294u, 0);
    girdermoth_open_stream(&s, 1, 1200);
    girdermoth_open_stream(&s, 2, 1200);
    girdermoth_set_reliability_params(&s, 2, true, GIRDERMOTH_RELIABLE, 0);
    puts("tsn stream ssn flags length");
    girdermoth_write(&s, 1, 53, 0, 2500);
    line(girdermoth_send_next(&s, 0));
    girdermoth_write(&s, 2, 53, 2500, 50);
    line(girdermoth_send_next(&s, 0));
    girdermoth_freed freed = girdermoth_abandon(&s, 4294967294u);
    line(girdermoth_get(&s, (uint32_t)girdermoth_next_tsn(&s).value - 1));
    line(girdermoth_send_next(&s, 0));
    line(girdermoth_send_next(&s, 0));
    return freed.bytes == 2500 ? 0 : 1;
}
