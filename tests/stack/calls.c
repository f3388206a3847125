// Each call in a thread whose stack has so many bytes in all, compared with the same calls on the main thread. Called
// as `calls PROGRAMME EVENTS STACK REFUSAL ROOM` with two files, the first a table without a free place, the bytes of
// the stack, the refusal that the run answers, also under a scale, 0 for none, and the bytes of the buffer lent to it.
// A call that needs more stack ends the process by a signal.
#define _POSIX_C_SOURCE 200809L
#include "cession.h"

#include <pthread.h>
#include <stdio.h>
#include <stdlib.h>
#include <string.h>

#define MOST 70000
// Below the stack stand so many bytes that may not be touched: no frame is so large that it steps over them.
#define GUARD (1 << 20)

typedef struct {
    uint8_t bytes[MOST];
    size_t length;
} text;

// What a run answers and leaves.
typedef struct {
    cession_answer answer;
    cession_standing standing;
    uint8_t statement[MOST];
} ran;

typedef struct {
    cession_reading reading;
    cession_opening opening;
    cession_answer writing;
    uint8_t written[CESSION_TABLE_BYTES];
    cession_scale_reading scale;
    ran running;
    ran scaled;
} outcome;

static text table, scale, events;
static outcome on_main, in_thread;
static size_t room;

static void fail(const char *what) {
    fprintf(stderr, "calls.c: %s\n", what);
    exit(1);
}

static void load(const char *path, text *into) {
    FILE *file = fopen(path, "rb");
    if (file == NULL) {
        fail(path);
    }
    into->length = fread(into->bytes, 1, MOST, file);
    fclose(file);
}

// A scale that charges by the days left, in tenths of the year.
static void make_scale(void) {
    for (int day = 1; day <= CESSION_DAYS; day++) {
        char *end = (char *)scale.bytes + scale.length;
        scale.length += (size_t)sprintf(end, "(day %d %d)\n", day, 1000 * ((375 - day) / 37));
    }
}

static void *call(void *into) {
    outcome *left = into;
    const cession_programme *programme = &left->reading.programme;
    left->reading = cession_read(table.bytes, table.length);
    left->opening = cession_open(*programme);
    left->writing = cession_write(*programme, left->written, sizeof left->written);
    left->scale = cession_read_scale(scale.bytes, scale.length);
    left->running.answer = cession_run(*programme, &left->running.standing, events.bytes, events.length,
                                       left->running.statement, room);
    left->scaled.answer =
        cession_run_scaled(*programme, &left->scaled.standing, left->scale.scale.shares, CESSION_DAYS, events.bytes,
                           events.length, left->scaled.statement, room);
    return NULL;
}

static void call_in_thread(size_t stack) {
    pthread_t thread;
    pthread_attr_t attributes;
    if (pthread_attr_init(&attributes) != 0 || pthread_attr_setstacksize(&attributes, stack) != 0 ||
        pthread_attr_setguardsize(&attributes, GUARD) != 0 ||
        pthread_create(&thread, &attributes, call, &in_thread) != 0 || pthread_join(thread, NULL) != 0) {
        fail("no thread with such a stack");
    }
}

// The table is read, has no free place and is written back.
static void check_table(void) {
    const cession_programme *programme = &on_main.reading.programme;
    if (programme->treaties.count != CESSION_PLACES || programme->risk.count != CESSION_PLACES ||
        programme->cat.count != CESSION_PLACES) {
        fail("the table is refused or has a free place");
    }
    if (on_main.writing.number != table.length || memcmp(on_main.written, table.bytes, table.length) != 0) {
        fail("the table is written in another way");
    }
}

int main(int count, char **arguments) {
    if (count != 6) {
        fail("call as calls PROGRAMME EVENTS STACK REFUSAL ROOM");
    }
    load(arguments[1], &table);
    load(arguments[2], &events);
    make_scale();
    room = strtoull(arguments[5], NULL, 10);
    if (room > MOST) {
        fail("so large a buffer is not here");
    }
    call(&on_main);
    check_table();
    if (on_main.scale.refusal != CESSION_ACCEPTED) {
        fail("the scale is refused");
    }
    uint64_t refusal = strtoull(arguments[4], NULL, 10);
    if (on_main.running.answer.refusal != refusal || on_main.scaled.answer.refusal != refusal) {
        fail("a run on the main thread is answered in another way");
    }
    call_in_thread(strtoull(arguments[3], NULL, 10));
    if (memcmp(&on_main, &in_thread, sizeof on_main) != 0) {
        fail("the calls in the thread leave other things than those on the main thread");
    }
    return 0;
}
