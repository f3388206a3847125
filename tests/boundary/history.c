// A history through the header, in C that is also C++. Called as `history FOLDER ROOM`: reads FOLDER/programme.txt,
// opens a year, runs FOLDER/1.txt, 2.txt and so on with a buffer of ROOM bytes, and writes the table back. Prints the
// table from the programme's fields; for each run its statement or refusal and the standing after it; the table as
// written.
#include "cession.h"

#include <inttypes.h>
#include <stdio.h>
#include <stdlib.h>
#include <string.h>

#define NUMBER "%" PRIu64
#define MOST 2000000

static uint8_t text[MOST];
static uint8_t buffer[MOST];

static void fail(const char *what) {
    fprintf(stderr, "history.c: %s\n", what);
    exit(1);
}

// Reads a file of the folder into text; whether there is one.
static int load(const char *folder, const char *name, size_t *length) {
    char path[1000];
    snprintf(path, sizeof path, "%s/%s", folder, name);
    FILE *file = fopen(path, "rb");
    if (file == NULL) {
        return 0;
    }
    *length = fread(text, 1, MOST, file);
    fclose(file);
    return 1;
}

static void print_treaty(cession_treaty t) {
    if (t.kind == CESSION_QUOTA_SHARE) {
        const char *form = "(quota " NUMBER " (cede " NUMBER ") (capacity " NUMBER ") (event " NUMBER "))\n";
        printf(form, t.number, t.cede, t.capacity, t.limit);
    } else {
        const char *form = "(surplus " NUMBER " (retain " NUMBER ") (lines " NUMBER ") (event " NUMBER "))\n";
        printf(form, t.number, t.retention, t.lines, t.limit);
    }
}

static void print_tier(const char *name, cession_layers tier) {
    for (size_t i = 0; i < tier.count; i++) {
        cession_terms l = tier.places[i];
        printf("(%s (band " NUMBER " " NUMBER ") (deduct " NUMBER ")", name, l.attachment, l.limit, l.deductible);
        printf(" (back " NUMBER " " NUMBER, l.reinstatements, l.premium);
        for (uint64_t rate = 0; rate < l.reinstatements; rate++) {
            printf(" " NUMBER, l.rates[rate]);
        }
        printf(") (placed " NUMBER ")", l.placed);
        if (l.time != 0) {
            printf(" (time)");
        }
        printf(")\n");
    }
}

static void print_fields(cession_programme programme) {
    for (size_t i = 0; i < programme.treaties.count; i++) {
        print_treaty(programme.treaties.places[i]);
    }
    print_tier("risk", programme.risk);
    print_tier("cat", programme.cat);
}

static void print_places(const char *name, const uint64_t *places) {
    printf(" (%s", name);
    for (size_t i = 0; i < CESSION_PLACES; i++) {
        printf(" " NUMBER, places[i]);
    }
    printf(")");
}

static void print_standing(const cession_standing *standing) {
    printf("(standing");
    print_places("risk", standing->risk);
    print_places("cat", standing->cat);
    printf(" (day " NUMBER ")", standing->day);
    print_places("risk-timed", standing->risk_timed);
    print_places("cat-timed", standing->cat_timed);
    printf(")\n");
}

static void print_refusal(uint64_t refusal, uint64_t second) {
    printf("(refused " NUMBER " " NUMBER ")\n", refusal, second);
}

// Prints the text that a call wrote, or its refusal.
static void print_answer(cession_answer answer) {
    if (answer.refusal != CESSION_ACCEPTED) {
        print_refusal(answer.refusal, answer.number);
    } else if (fwrite(buffer, 1, answer.number, stdout) != answer.number) {
        fail("the output cannot be written");
    }
}

// Runs the folder's texts in turn, each lent the standing that the one before left.
static void run_all(cession_programme programme, const char *folder, size_t room) {
    cession_opening opening = cession_open(programme);
    cession_standing fresh;
    memset(&fresh, 0, sizeof fresh);
    if (opening.refusal != CESSION_ACCEPTED || opening.number != 0 ||
        memcmp(&opening.standing, &fresh, sizeof fresh) != 0) {
        fail("the year opened is not a fresh one");
    }
    size_t length;
    char name[40];
    for (int i = 1; snprintf(name, sizeof name, "%d.txt", i) > 0 && load(folder, name, &length); i++) {
        print_answer(cession_run(programme, &opening.standing, text, length, buffer, room));
        print_standing(&opening.standing);
    }
}

int main(int count, char **arguments) {
    size_t length;
    size_t room = count == 3 ? strtoul(arguments[2], NULL, 10) : MOST + 1;
    if (room > MOST || !load(arguments[1], "programme.txt", &length)) {
        fail("call as history FOLDER ROOM");
    }
    cession_reading reading = cession_read(text, length);
    if (reading.refusal != CESSION_ACCEPTED) {
        cession_programme none;
        memset(&none, 0, sizeof none);
        if (memcmp(&reading.programme, &none, sizeof none) != 0) {
            fail("a refused table gives a programme with contracts");
        }
        print_refusal(reading.refusal, reading.line);
        return 0;
    }
    if (reading.line != 0) {
        fail("an accepted table has a line at fault");
    }
    print_fields(reading.programme);
    run_all(reading.programme, arguments[1], room);
    print_answer(cession_write(reading.programme, buffer, CESSION_TABLE_BYTES));
    return 0;
}
