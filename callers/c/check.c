/* Checks the traces in files: check FILE.. prints a line for each. */
#include "hrt_trace.h"

#include <inttypes.h>
#include <stdio.h>
#include <stdlib.h>

/* The bytes of a file, or null. */
static unsigned char *bytes_of(const char *name, size_t *length) {
    FILE *file = fopen(name, "rb");
    if (!file) return NULL;
    unsigned char *bytes = malloc(1);
    size_t count, room = 1;
    *length = 0;
    while (bytes && (count = fread(bytes + *length, 1, room - *length, file)) > 0) {
        *length += count;
        if (*length < room) continue;
        room *= 2;
        unsigned char *more = realloc(bytes, room);
        if (!more) free(bytes);
        bytes = more;
    }
    fclose(file);
    return bytes;
}

static void print(int32_t code, const hrt_verdict *v) {
    switch (code) {
    case HRT_FITS:
        printf("fits: %" PRIu64 " events, %" PRIu64 " timers, %" PRIu64 " processors\n", v->events, v->timers, v->processors);
        break;
    case HRT_MISFIT:
        printf("line %" PRIu64 ": cause %" PRIu32, v->line, v->cause);
        printf(", soft %" PRIu64 ", now %" PRIu64 ", timer %" PRIx64 "\n", v->soft, v->now, v->timer);
        break;
    case HRT_UNREADABLE:
        printf("line %" PRIu64 " can't be read: %" PRIu32 "\n", v->line, v->cause);
        break;
    case HRT_NO_EVENTS:
        printf("no timer events: %" PRIu32 "\n", v->cause);
        break;
    default:
        printf("no memory\n");
    }
}

int main(int count, char **names) {
    for (int i = 1; i < count; i++) {
        size_t length;
        unsigned char *bytes = bytes_of(names[i], &length);
        if (!bytes) return 1;
        hrt_verdict verdict = {0};
        int32_t code = hrt_check(bytes, length, &verdict);
        print(code, &verdict);
        free(bytes);
    }
    return 0;
}
