// What calls leave of what they are lent, through the header. Called as `lent FOLDER` with a folder whose
// statement.txt is that of programme.txt and events.txt: the main account's, three treaties and five cat layers.
// Prints for each case refusal, second number and what became of buffer and standing, looked at byte by byte with
// bytes around them that were not lent.
#include "cession.h"

#include <inttypes.h>
#include <stdio.h>
#include <stdlib.h>
#include <string.h>

#define MOST 70000
#define AROUND 64

typedef struct {
    uint8_t bytes[MOST];
    size_t length;
} text;

static text table, events, statement;
static uint8_t memory[AROUND + MOST + AROUND], memory_before[sizeof memory];
static cession_standing standings[3], standings_before[3];

static void load(const char *folder, const char *name, text *into) {
    char path[1000];
    snprintf(path, sizeof path, "%s/%s", folder, name);
    FILE *file = fopen(path, "rb");
    if (file == NULL) {
        fprintf(stderr, "lent.c: there is no %s\n", path);
        exit(1);
    }
    into->length = fread(into->bytes, 1, MOST, file);
    fclose(file);
}

// Fills the memory, and lends the middle one of three standings.
static void set_out(cession_standing standing) {
    for (size_t i = 0; i < sizeof memory; i++) {
        memory[i] = (uint8_t)(i * 7 + 3);
    }
    memset(standings, 0x5a, sizeof standings);
    standings[1] = standing;
    memcpy(memory_before, memory, sizeof memory);
    memcpy(standings_before, standings, sizeof standings);
}

static uint8_t *lent(size_t length) {
    return length == 0 ? NULL : memory + AROUND;
}

// Prints what a call answered and left. An accepted one has written the text at the beginning of what it was lent and
// changed nothing else there.
static void print_left(const char *call, const char *name, cession_answer answer, const text *expected) {
    int accepted = answer.refusal == CESSION_ACCEPTED;
    if (accepted) {
        memcpy(memory_before + AROUND, expected->bytes, expected->length);
        standings_before[1] = standings[1];
    }
    int same = memcmp(memory, memory_before, sizeof memory) == 0 &&
               memcmp(standings, standings_before, sizeof standings) == 0;
    const char *left = !same ? "changed" : accepted ? "written" : "as lent";
    printf("%s, %s: %" PRIu64 " %" PRIu64 ", %s\n", call, name, answer.refusal, answer.number, left);
}

static void try_write(const char *name, cession_programme programme, size_t length) {
    cession_standing standing = {{0}, {0}, 0, {0}, {0}};
    set_out(standing);
    print_left("write", name, cession_write(programme, lent(length), length), &table);
}

static void try_open(const char *name, cession_programme programme) {
    cession_opening opening = cession_open(programme);
    cession_standing fresh;
    memset(&fresh, 0, sizeof fresh);
    const char *left = memcmp(&opening.standing, &fresh, sizeof fresh) == 0 ? "all 0" : "not all 0";
    printf("open, %s: %" PRIu64 " %" PRIu64 ", %s\n", name, opening.refusal, opening.number, left);
}

static void try_run(const char *name, cession_programme programme, cession_standing standing, const text *lines,
                    size_t length) {
    set_out(standing);
    const uint8_t *bytes = lines->length == 0 ? NULL : lines->bytes;
    cession_answer answer = cession_run(programme, &standings[1], bytes, lines->length, lent(length), length);
    print_left("run", name, answer, &statement);
}

static void try_programme(const char *name, cession_programme programme, cession_standing begun) {
    try_write(name, programme, MOST);
    try_open(name, programme);
    try_run(name, programme, begun, &events, MOST);
}

// Each programme has one number that no table text reads to.
static void try_programmes(cession_programme sound, cession_standing begun) {
    cession_programme broken = sound;
    broken.treaties.places[3].limit = 1;
    try_programme("treaty in an unused place", broken, begun);
    broken = sound;
    broken.risk.places[0].placed = 1;
    try_programme("risk layer in an unused place", broken, begun);
    broken = sound;
    broken.cat.places[7].attachment = 1;
    try_programme("cat layer in an unused place", broken, begun);
    broken = sound;
    broken.cat.places[7].rates[19] = 1;
    try_programme("rate in an unused place", broken, begun);
    broken = sound;
    broken.cat.places[0].rates[2] = 1;
    try_programme("rate past the last reinstatement", broken, begun);
    broken = sound;
    broken.cat.places[0].rates[1] = 20001;
    try_programme("rate over 20,000", broken, begun);
    broken = sound;
    broken.cat.places[0].time = 2;
    try_programme("time 2", broken, begun);
    broken = sound;
    broken.risk.places[0].time = 1;
    try_programme("time in an unused place", broken, begun);
    broken = sound;
    broken.treaties.count = 9;
    try_programme("count of treaties 9", broken, begun);
    broken = sound;
    broken.risk.count = 9;
    try_programme("count of risk layers 9", broken, begun);
    broken = sound;
    broken.cat.count = 9;
    try_programme("count of cat layers 9", broken, begun);
    broken = sound;
    broken.treaties.places[1].kind = 3;
    try_programme("treaty of kind 3", broken, begun);
    broken = sound;
    broken.treaties.places[0].cede = 1;
    try_programme("surplus with a share ceded", broken, begun);
}

// The cap of cat layer 1 is 100000000 + 50000000 * 3. Of the 13 that cat layer 3 has spent 12 are recovered, at
// 22500000 / 150000000 each: with (time) its timed premium is at most 1.8, which is 2.
static void try_standings(cession_programme programme, cession_standing begun) {
    cession_standing broken = begun;
    broken.cat[0] = 250000001;
    try_run("cat layer 1 spent above its cap", programme, broken, &events, MOST);
    broken = begun;
    broken.risk[0] = 1;
    try_run("missing risk layer spent", programme, broken, &events, MOST);
    broken = begun;
    broken.cat[5] = 1;
    try_run("missing cat layer spent", programme, broken, &events, MOST);
    broken = begun;
    broken.day = 367;
    try_run("day 367 in the standing", programme, broken, &events, MOST);
    broken = begun;
    broken.risk_timed[0] = 1;
    try_run("missing risk layer with a timed premium", programme, broken, &events, MOST);
    broken = begun;
    broken.cat_timed[7] = 1;
    try_run("missing cat layer with a timed premium", programme, broken, &events, MOST);
    broken = begun;
    broken.cat_timed[2] = 2;
    try_run("layer without (time) with a timed premium", programme, broken, &events, MOST);
    cession_programme timed = programme;
    timed.cat.places[2].time = 1;
    try_run("the same with (time) and no buffer", timed, broken, &events, 0);
    broken.cat_timed[2] = 3;
    try_run("timed premium above the amount premium", timed, broken, &events, 0);
}

// A line that is accepted under the standing, then the line given.
static void try_line(const char *name, cession_programme programme, cession_standing begun, const char *line) {
    static text lines;
    lines.length = (size_t)snprintf((char *)lines.bytes, MOST, "(event 91 (loss 0 9 8))\n%s\n", line);
    try_run(name, programme, begun, &lines, MOST);
}

static void try_events(cession_programme programme, cession_standing begun) {
    static text lines;
    lines.length = CESSION_EVENTS_BYTES + 1;
    try_run("events over 65,536 bytes", programme, begun, &lines, MOST);
    try_line("not an event form", programme, begun, "(event 92");
    try_line("day 367", programme, begun, "(event 367)");
    char many[2000] = "(event 92";
    for (int i = 0; i < 65; i++) {
        strcat(many, " (loss 0 7 6)");
    }
    try_line("65 losses", programme, begun, strcat(many, ")"));
    cession_standing later = begun;
    later.day = 92;
    try_line("day below the standing's", programme, later, "(event 92)");
    try_line("treaty that the table lacks", programme, begun, "(event 92 (loss 4 7 6))");
}

// A scale by steps: the whole premium up to day 183, 66.67% of it on day 184, a third from day 185 on.
static uint64_t share_of(size_t day) {
    return day < 184 ? 10000 : day == 184 ? 6667 : 3333;
}

static cession_scale steps(void) {
    cession_scale scale;
    for (size_t day = 1; day <= CESSION_DAYS; day++) {
        scale.shares[day - 1] = share_of(day);
    }
    return scale;
}

// Reads the first so many lines of the scale, with other words in place of one of them; 0 for none.
static void try_scale(const char *name, size_t count, size_t line, const char *words) {
    static text lines;
    lines.length = 0;
    for (size_t day = 1; day <= count; day++) {
        char *end = (char *)lines.bytes + lines.length;
        const char *form = "(day %" PRIu64 " %" PRIu64 ")\n";
        int written = day == line ? snprintf(end, 100, "%s", words)
                                  : snprintf(end, 100, form, (uint64_t)day, share_of(day));
        lines.length += (size_t)written;
    }
    cession_scale_reading reading = cession_read_scale(lines.length == 0 ? NULL : lines.bytes, lines.length);
    cession_scale none, scale = steps();
    memset(&none, 0, sizeof none);
    const char *left = memcmp(&reading.scale, &none, sizeof none) == 0     ? "all 0"
                       : memcmp(&reading.scale, &scale, sizeof scale) == 0 ? "the shares"
                                                                           : "other shares";
    printf("read scale, %s: %" PRIu64 " %" PRIu64 ", %s\n", name, reading.refusal, reading.line, left);
}

static void try_scales(void) {
    try_scale("by steps", 366, 0, "");
    try_scale("no lines", 0, 0, "");
    try_scale("365 lines", 365, 0, "");
    try_scale("367 lines", 367, 0, "");
    try_scale("no last line feed", 366, 366, "(day 366 3333)");
    try_scale("not the form", 366, 7, "(day 7 10000 )\n");
    try_scale("another day", 366, 185, "(day 184 3333)\n");
    try_scale("share over 10,000", 366, 184, "(day 184 10001)\n");
    try_scale("share over 10,000 in 10 lines", 10, 3, "(day 3 10001)\n");
    try_scale("share above the day before", 366, 185, "(day 185 6668)\n");
}

// A layer that charges 182,500 for half of its limit, by time; a loss of 500,000 on day 184.
static text timed_table, timed_events;

static void fill(text *into, const char *words) {
    into->length = strlen(words);
    memcpy(into->bytes, words, into->length);
}

// The statement of that loss, for which so much is charged.
static const text *timed_statement(int premium) {
    static text lines;
    const char *form = "(event 184 (gross 500000) (ceded 0) (risk 0) (cat 500000) (net 0) (premium %d))\n"
                       "(layer cat 1 (deductible 0) (cover 1500000) (recovered 500000) (premium %d))\n"
                       "(total (gross 500000) (ceded 0) (risk 0) (cat 500000) (net 0) (premium %d))\n";
    lines.length = (size_t)snprintf((char *)lines.bytes, MOST, form, premium, premium, premium);
    return &lines;
}

// A run that is lent so many shares. An accepted one charges so much.
typedef struct {
    cession_programme programme;
    cession_standing standing;
    uint64_t shares[CESSION_DAYS + 1];
    size_t count;
    const text *lines;
    size_t length;
    int premium;
} scaled;

static void try_scaled(const char *name, const scaled *run) {
    set_out(run->standing);
    cession_answer answer =
        cession_run_scaled(run->programme, &standings[1], run->count == 0 ? NULL : run->shares, run->count,
                           run->lines->bytes, run->lines->length, lent(run->length), run->length);
    print_left("run scaled", name, answer, timed_statement(run->premium));
    if (answer.refusal == CESSION_ACCEPTED) {
        cession_standing left = standings[1];
        const char *form = "run scaled, %s, standing: %" PRIu64 " %" PRIu64 " %" PRIu64 "\n";
        printf(form, name, left.cat[0], left.day, left.cat_timed[0]);
    }
}

static scaled by_steps(void) {
    scaled run;
    memset(&run, 0, sizeof run);
    cession_scale scale = steps();
    memcpy(run.shares, scale.shares, sizeof scale.shares);
    run.programme = cession_read(timed_table.bytes, timed_table.length).programme;
    run.count = CESSION_DAYS;
    run.lines = &timed_events;
    run.length = MOST;
    run.premium = 121673;
    return run;
}

// 182,500 x 6,667 / 10,000 is 121,672.75; the built-in share of day 184 is 4,986, and 182,500 x 4,986 / 10,000 is
// 90,994.5.
static void try_accepted(void) {
    scaled run = by_steps();
    try_scaled("by steps", &run);
    run.length = 245;
    try_scaled("buffer just long enough", &run);
    run.length = 244;
    try_scaled("buffer one byte short", &run);
    run = by_steps();
    for (size_t day = 1; day <= CESSION_DAYS; day++) {
        run.shares[day - 1] = 10000 * (366 - day) / 365;
    }
    run.premium = 90995;
    try_scaled("the built-in shares", &run);
    run = by_steps();
    run.programme.cat.places[0].time = 0;
    run.premium = 182500;
    try_scaled("without (time)", &run);
}

// Each scale is one that no text reads to.
static void try_no_scales(void) {
    scaled run = by_steps();
    run.count = 0;
    try_scaled("no shares", &run);
    run.count = 365;
    try_scaled("365 shares", &run);
    run.count = 367;
    try_scaled("367 shares", &run);
    run.count = 366;
    run.shares[0] = 10001;
    try_scaled("first share over 10,000", &run);
    run.shares[0] = 9999;
    try_scaled("share of day 2 above the one before", &run);
    run = by_steps();
    run.shares[365] = 3334;
    try_scaled("share of day 366 above the one before", &run);
    run.programme.cat.places[0].time = 0;
    try_scaled("the same without (time)", &run);
}

// 365 shares with another fault beside them: 6 and 8 come before 28, 9 and the faults of lines after it.
static void try_order(void) {
    static text long_text, broken;
    long_text.length = CESSION_EVENTS_BYTES + 1;
    fill(&broken, "(event 367)\n");
    scaled run = by_steps();
    run.lines = &long_text;
    try_scaled("events over 65,536 bytes", &run);
    run.count = 365;
    try_scaled("365 shares, events over 65,536 bytes", &run);
    run.standing.day = 367;
    try_scaled("365 shares, day 367 in the standing", &run);
    run.programme.cat.places[0].time = 2;
    try_scaled("365 shares, time 2", &run);
    run = by_steps();
    run.count = 365;
    run.lines = &broken;
    try_scaled("365 shares, day 367", &run);
}

int main(int count, char **arguments) {
    const char *folder = count == 2 ? arguments[1] : ".";
    load(folder, "programme.txt", &table);
    load(folder, "events.txt", &events);
    load(folder, "statement.txt", &statement);
    cession_programme programme = cession_read(table.bytes, table.length).programme;
    cession_standing fresh = {{0}, {0}, 0, {0}, {0}};
    cession_standing begun = {{0}, {11, 12, 13, 14, 15}, 90, {0}, {0}};
    static text none;
    try_write("buffer of length 0", programme, 0);
    try_write("buffer one byte short", programme, table.length - 1);
    try_write("buffer just long enough", programme, table.length);
    try_write("buffer longer", programme, MOST);
    try_programmes(programme, begun);
    try_standings(programme, begun);
    try_events(programme, begun);
    try_run("no events and no buffer", programme, fresh, &none, 0);
    try_run("buffer of length 0", programme, fresh, &events, 0);
    try_run("buffer one byte short", programme, fresh, &events, statement.length - 1);
    try_run("buffer just long enough", programme, fresh, &events, statement.length);
    try_run("buffer longer", programme, fresh, &events, MOST);
    fill(&timed_table, "(cat (band 0 1000000) (deduct 0) (back 1 365000 10000) (placed 10000) (time))\n");
    fill(&timed_events, "(event 184 (loss 0 500000 500000))\n");
    try_scales();
    try_accepted();
    try_no_scales();
    try_order();
    return 0;
}
