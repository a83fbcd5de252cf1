/* The nine slots of the README's table, a call of the library for each. */
#include <stdio.h>

#include "gelwynnar.h"

int main(void) {
    static gel_buffer buffer;
    static uint8_t store[2 * 4 * 2]; /* Q x K x b */
    const uint64_t calls[] = {gel_arrive(0, 'a'), gel_arrive(0, 'b'), gel_both(1, 'x', 0),
                              gel_both(1, 'y', 1), gel_ask(0), gel_ask(1),
                              gel_nothing(), gel_nothing(), gel_nothing()};
    if (gel_buffer_open(&buffer, 2, 2, 4) != 0) {
        return 1;
    }
    for (size_t t = 0; t < sizeof calls / sizeof calls[0]; t++) {
        gel_answer a = gel_buffer_slot(&buffer, calls[t], store, sizeof store);
        if (a.number != 0) printf("slot %zu is refused with %d\n", t, a.number);
        if (a.dropped & 1) printf("slot %zu drops its arrival, with 5\n", t);
        if (a.dropped & 2) printf("slot %zu drops its request, with 7\n", t);
        if (a.delivers) printf("slot %zu delivers byte %d of queue %d\n", t, a.value, a.queue);
        if (a.writes) printf("slot %zu writes a block of queue %d\n", t, a.written);
        if (a.reads) printf("slot %zu reads a block of queue %d\n", t, a.read);
    }
    return 0;
}
