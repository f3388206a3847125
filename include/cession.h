// The public calls of the cession engine: reading and writing a treaty table, reading a time scale, opening a year,
// running events.
//
// The forms of a table, of a scale, of an events text and of a statement, and every formula, are those of documents 01
// and 02; docs/GUIDE.md has an example of each. Amounts are whole cents. A share or a rate is in basis points (bp),
// 10,000 to the whole. Every division is settled to the nearest cent, halves up, after the whole product has been
// formed; a built-in time share alone is rounded down.
//
// What may be lent. No call asks anything of the values: every programme, standing, scale, text and buffer is answered,
// with a success or with a refusal. What a caller owes are the pointers:
//   - a text, a scale or a buffer is valid for the length given with it, a scale's counted in shares; with length 0 the
//     pointer may be anything, also NULL;
//   - the standing is not NULL and is valid for reading and writing; standing and scale are aligned as their types;
//   - buffer and standing overlap neither each other nor the events or the scale.
//
// Who owns what. The caller owns all of it. Programmes go in and come back by value. Nothing is kept after a call
// returns, nothing is allocated, and there is nothing to free.
//
// What a refusal leaves. A refused call leaves standing and buffer as they were lent, to the last byte. A success
// leaves the bytes of the buffer past the text as they were.
//
// Threads. A call is a pure function of what is lent to it; the library keeps no state and shares none. Calls may run
// at the same time as long as no thread writes to what another call has been lent.
//
// Stack. A run of up to 1,024 bytes of events takes about 23 kB of stack, one of up to 8,192 bytes about 36 kB and a
// longer one about 142 kB; the other calls take less than 20 kB. These are measured figures: no theorem bounds the
// stack. A thread with 256 kB has enough for each call, one with 64 kB for runs of up to 1,024 bytes of events. A
// stack needs a guard page below it, as the system gives its threads: without one an overrun goes unnoticed.
//
// What is proved. The library's calls give, for every input, the result, the standing and the buffer that documents 01
// and 02 define. The declarations in this file are not part of that proof: a test (tests/boundary) compares their sizes
// and offsets with those of the bindings, and every number of a full table and of a full standing with what the library
// reads into its place. They are for x86-64 with the System V calling convention, where size_t has 64 bits.
#ifndef CESSION_H
#define CESSION_H

#include <stddef.h>
#include <stdint.h>

// The places for treaties, and for the layers of each tier.
#define CESSION_PLACES 8

// The places for the rates of a layer: it has at most as many reinstatements.
#define CESSION_RATES 20

// The days of a time scale.
#define CESSION_DAYS 366

// The longest table text that is read, and the longest events text, in bytes.
#define CESSION_TABLE_BYTES 8192
#define CESSION_EVENTS_BYTES 65536

// The kinds of treaty. An unused place has kind 0.
#define CESSION_QUOTA_SHARE 1
#define CESSION_SURPLUS 2

// No refusal: the call was accepted.
#define CESSION_ACCEPTED 0

// Refusals. Reading a table gives 1 to 5, writing one 6 and 7, opening a year 6, a run 6 to 14, reading a scale 28 to
// 30. A run that is lent a scale gives 28 as well, after 6 and 8 and before 9. With each stands its second number. The
// first line at fault from the top decides, and on one line the lowest number. Lines count from 1.

// The table text is over 8,192 bytes. Second number: 0.
#define CESSION_TABLE_TOO_LONG 1
// A line is none of the four forms of a table, or has no line feed; a layer's form has as many rates as
// reinstatements, and (time) may be its last item. Second number: the line.
#define CESSION_NOT_A_TABLE_FORM 2
// A number of the table is outside its range. Second number: the line.
#define CESSION_TABLE_NUMBER_OUT_OF_RANGE 3
// A kind is out of order, a tier has a ninth layer, or a treaty's number is not above the one before. Second number:
// the line.
#define CESSION_TABLE_OUT_OF_ORDER 4
// An attachment is below the end of the band before. Second number: the line.
#define CESSION_BANDS_OVERLAP 5
// No table text reads to the programme; anything but 0 in an unused place or in a rate past the last reinstatement is
// enough, and so is a time other than 0 or 1. Second number: 0.
#define CESSION_NOT_A_PROGRAMME 6
// The buffer is shorter than the text. Second number: the length needed, in bytes.
#define CESSION_BUFFER_TOO_SHORT 7
// The standing is not one of the programme: a spent amount is above its cap or not 0 for a missing layer; a timed
// premium is above its layer's amount premium at the spent amount, or not 0 for a layer that is missing or has time 0;
// or the last day is over 366. Second number: 0.
#define CESSION_NOT_A_STANDING 8
// The events text is over 65,536 bytes. Second number: 0.
#define CESSION_EVENTS_TOO_LONG 9
// A line is not an event form, or has no line feed. Second number: the line.
#define CESSION_NOT_AN_EVENT_FORM 10
// A number of the events is outside its range. Second number: the line.
#define CESSION_EVENT_NUMBER_OUT_OF_RANGE 11
// An event has over 64 losses. Second number: the line.
#define CESSION_TOO_MANY_LOSSES 12
// A day is below that of the line before, in the first line below the standing's. Second number: the line.
#define CESSION_DAY_GOES_BACK 13
// A loss names a treaty that the programme lacks. Second number: the line.
#define CESSION_NO_SUCH_TREATY 14
// A line of a scale is not the form (day D S), has no line feed, or has another day than its place; or there are fewer
// lines than 366 or more. Second number: the line, 367 for what follows the last day, 0 for too few lines. Of a run: no
// text reads to the scale that was lent, for it has fewer or more than 366 shares, one above 10,000, or one above that
// of the day before. Second number: 0.
#define CESSION_NOT_A_SCALE 28
// A share of a scale is outside its range. Second number: the line.
#define CESSION_SHARE_OUT_OF_RANGE 29
// A share of a scale is above that of the day before. Second number: the line.
#define CESSION_SHARE_RISES 30

#ifdef __cplusplus
extern "C" {
#endif

// A proportional treaty. The terms of the other kind are 0.
typedef struct cession_treaty {
    uint64_t kind;      // CESSION_QUOTA_SHARE or CESSION_SURPLUS
    uint64_t number;    // 1 to 8, rising from place to place over both kinds
    uint64_t cede;      // quota share: the share ceded, bp, 0 to 10,000
    uint64_t capacity;  // quota share: the capacity, cents, 0 to 10^13; 0 means none
    uint64_t retention; // surplus: the retention, cents, 0 to 10^13
    uint64_t lines;     // surplus: the number of lines, 0 to 100
    uint64_t limit;     // the event limit: the most ceded to it of one event, cents, 0 to 10^13; 0 means none
} cession_treaty;

// The terms of an excess layer.
typedef struct cession_terms {
    uint64_t attachment;     // cents, 0 to 10^13, at or above the end (attachment and limit) of the layer before
    uint64_t limit;          // cents, 1 to 10^13
    uint64_t deductible;     // the yearly deductible, cents, 0 to 10^15
    uint64_t reinstatements; // how many, 0 to 20
    uint64_t premium;        // for 100% of the layer, cents, 0 to 10^12
    uint64_t placed;         // the placed share, bp, 0 to 10,000
    uint64_t rates[CESSION_RATES]; // each reinstatement's rate, bp, 0 to 20,000, in the order of their use; 0 past the
                                   // last reinstatement
    uint64_t time; // 0 where premium is by amount alone, 1 where it is by amount and time, (time) in the table: each
                   // loss's amount premium times its day's time share over 10,000, to the nearest cent. The share is
                   // that of the scale lent to the run, or without one 10,000 * (366 - day) / 365 rounded down
} cession_terms;

// Treaties in the first places; every number of the places from count on is 0.
typedef struct cession_treaties {
    cession_treaty places[CESSION_PLACES];
    size_t count; // the places in use, 0 to 8
} cession_treaties;

// The layers of one tier, in places likewise, attachments rising.
typedef struct cession_layers {
    cession_terms places[CESSION_PLACES];
    size_t count; // the places in use, 0 to 8
} cession_layers;

// The contracts of a table.
typedef struct cession_programme {
    cession_treaties treaties; // in the table's order
    cession_layers risk;       // the layers that each loss meets, after its treaty
    cession_layers cat;        // the layers that meet what the risk layers leave of an event
} cession_programme;

// The year so far. A fresh year has 0 in every number. The standing of a programme without (time) is told by the first
// 17 of these numbers; the other 16 are 0.
typedef struct cession_standing {
    uint64_t risk[CESSION_PLACES]; // the spent amount of each risk layer, cents, 0 to its cap; 0 for a missing layer.
                                   // The cap is deductible + limit * (reinstatements + 1)
    uint64_t cat[CESSION_PLACES];  // the spent amount of each cat layer, likewise
    uint64_t day;                  // the last day run, 0 to 366; 0 before the first event
    uint64_t risk_timed[CESSION_PLACES]; // the premium charged this year for each risk layer with time 1, cents, 0 to
                                         // its amount premium at the spent amount; 0 for the other layers
    uint64_t cat_timed[CESSION_PLACES];  // the premium charged this year for each cat layer with time 1, likewise
} cession_standing;

// A client's own time scale: what of its amount premium a loss is charged, by its day.
typedef struct cession_scale {
    uint64_t shares[CESSION_DAYS]; // of the days 1 to 366, bp, 0 to 10,000, none above the one before
} cession_scale;

// What writing and running answer.
typedef struct cession_answer {
    uint64_t refusal; // CESSION_ACCEPTED, or the refusal
    uint64_t number;  // accepted: the length of the text written, in bytes; refused: the refusal's second number
} cession_answer;

// What reading a table answers.
typedef struct cession_reading {
    uint64_t refusal;            // CESSION_ACCEPTED, or the refusal
    uint64_t line;               // accepted: 0; refused: the line at fault, 0 with CESSION_TABLE_TOO_LONG
    cession_programme programme; // refused: the programme without contracts, every number 0
} cession_reading;

// What reading a scale answers.
typedef struct cession_scale_reading {
    uint64_t refusal;    // CESSION_ACCEPTED, or the refusal
    uint64_t line;       // accepted: 0; refused: the line at fault, 0 for too few lines
    cession_scale scale; // refused: every share 0
} cession_scale_reading;

// What opening a year answers.
typedef struct cession_opening {
    uint64_t refusal;          // CESSION_ACCEPTED, or CESSION_NOT_A_PROGRAMME
    uint64_t number;           // 0
    cession_standing standing; // every number 0, refused or not
} cession_opening;

// Reads a table text. An empty text is a programme without contracts. A table that was read is written as the same
// text.
cession_reading cession_read(const uint8_t *text, size_t length);

// Writes a programme's table text into the buffer. CESSION_TABLE_BYTES are enough for every programme.
cession_answer cession_write(cession_programme programme, uint8_t *buffer, size_t length);

// Reads a scale text: 366 lines (day D S), D from 1 to 366 in order, S the day's share. The text may have any length;
// what follows its 366th line is not looked at.
cession_scale_reading cession_read_scale(const uint8_t *text, size_t length);

// Opens a year under a programme.
cession_opening cession_open(cession_programme programme);

// Runs an events text under a programme and writes the run's statement into the buffer. The standing lent is the year
// before the run; an accepted run leaves the year after it there. A run refused with CESSION_BUFFER_TOO_SHORT can be
// made again with a buffer of the length told. Premium by time is charged at the built-in shares.
cession_answer cession_run(cession_programme programme, cession_standing *standing, const uint8_t *events,
                           size_t events_length, uint8_t *buffer, size_t length);

// The same with premium by time charged at the shares of a scale. It is lent as so many shares, CESSION_DAYS of them in
// a cession_scale. All runs of a year are lent one scale: the standing does not say which.
cession_answer cession_run_scaled(cession_programme programme, cession_standing *standing, const uint64_t *scale,
                                  size_t scale_length, const uint8_t *events, size_t events_length, uint8_t *buffer,
                                  size_t length);

#ifdef __cplusplus
}
#endif

#endif
