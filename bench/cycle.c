// The cycle of the race, freestanding, for bench/instructions: what stands between the two calls of `measured` is counted.
#include "girdermoth.h"

enum { IN_FLIGHT = 250, CYCLES = 64, LENGTH = 1200 };

static girdermoth_sender s;

// What a compiler may call for a copy; there is no C library here.
void *memcpy(void *to, const void *from, size_t n) {
    for (size_t i = 0; i < n; i++) ((char *)to)[i] = ((const char *)from)[i];
    return to;
}

void *memset(void *to, int byte, size_t n) {
    for (size_t i = 0; i < n; i++) ((char *)to)[i] = (char)byte;
    return to;
}

__attribute__((noinline)) void measured(void) { __asm__ volatile(""); }

void run(void) {
    girdermoth_init(&s, 1, 1);
    girdermoth_open_stream(&s, 1, LENGTH);
    for (int i = 0; i < IN_FLIGHT; i++) {
        girdermoth_write(&s, 1, 53, 0, LENGTH);
        girdermoth_send_next(&s, 5);
    }
    measured();
    for (uint32_t tsn = 1; tsn <= CYCLES; tsn++) {
        girdermoth_write(&s, 1, 53, 0, LENGTH);
        girdermoth_send_next(&s, 6);
        girdermoth_reply freed = girdermoth_mark_as_acked(&s, tsn);
        girdermoth_pop(&s, tsn);
        girdermoth_on_buffer_released(&s, 1, (int64_t)freed.value);
    }
    measured();
    __asm__ volatile("syscall" : : "a"(60), "D"(0));
}

__attribute__((naked)) void _start(void) { __asm__("and $-16, %rsp\n call run"); }
