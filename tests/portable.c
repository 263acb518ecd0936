/* Calls every export on many inputs, valid and damaged, to be run on any machine and compared with the native run (tests/portable.sh).
 *
 *     portable cases      prints what the library says of the cases of the papers, which tests/portable.txt has
 *     portable ROUNDS     prints for each export the number of its calls and a hash of all that they returned and wrote
 *
 * The hash is over numbers and octets, so that the machine's order of octets does not show. Every answer is lent as garbage between
 * guards: each of its figures is set by every call, is 0 with a refusal, and nothing beside it is written. Lists and texts are lent with
 * room to spare, and what is past the filled part is untouched; with a refusal all of it is. Answers of single records are held to a second
 * reading of the definitions, and calls that tell the same figure to each other. Status 1 if any of it fails. */

#include <stdio.h>
#include <stdlib.h>
#include <string.h>
#include "krakobran.h"

enum {
    MOST = KRAKOBRAN_ARRIVALS_MOST,
    SPARE = 3,
    PLACES = MOST + 2 * SPARE,
    TEXT = KRAKOBRAN_REPORT_OCTETS,
    EXPORTS = 64,
    FIGURES = 2 + KRAKOBRAN_STEP_PLACES
};
#define GARBAGE 0xA5A5A5A5A5A5A5A5u

static uint64_t faults;

/* Says that a number is not what it must be. */
static void hold(const char *what, uint64_t found, uint64_t due) {
    if (found != due && faults++ < 20)
        printf("%s: %llu and not %llu\n", what, (unsigned long long)found, (unsigned long long)due);
}

/* ---- the hash of each export */

static struct {
    const char *name;
    uint64_t calls, hash;
} exports[EXPORTS], *current;

static void hash(uint64_t value) {
    current->hash = (current->hash ^ value) * 1099511628211u;
    current->hash ^= current->hash >> 29;
}

static void begin(const char *name) {
    for (current = exports; current->name && strcmp(current->name, name) != 0; current++)
        if (current == exports + EXPORTS - 1)
            abort();
    current->name = name;
    current->calls++;
}

static uint64_t end(uint64_t refusal) {
    hash(refusal);
    return refusal;
}

/* Calls an export; its refusal. */
#define CALL(name, ...) (begin("krakobran_" #name), end(krakobran_##name(__VA_ARGS__)))
/* One that returns nothing. */
#define CALL_VOID(name, ...) (begin("krakobran_" #name), krakobran_##name(__VA_ARGS__))

/* ---- what is lent */

static uint64_t figures[1 + FIGURES + 1];

/* An answer of garbage, between guards. */
static void *answer(void) {
    for (size_t i = 0; i < FIGURES + 2; i++)
        figures[i] = GARBAGE + i;
    return figures + 1;
}

/* After a call with an answer of `many` figures: they are hashed, or 0 with a refusal, and nothing beside them was written. */
static void answered(size_t many, uint64_t refusal) {
    for (size_t i = 0; i < FIGURES + 2; i++)
        if (i < 1 || i > many)
            hold("beside an answer", figures[i], GARBAGE + i);
        else if (refusal)
            hold("beside a refusal", figures[i], 0);
        else
            hash(figures[i]);
}

/* Lists, lent with `room` places, fewer than SPARE too many, and SPARE places after them. What was filled is hashed, and the rest
 * must be as it was. */
#define LIST(type, mark)                                                                                              \
    static void lay_##type(type *list, uint64_t room) {                                                               \
        for (uint64_t i = 0; i < room + SPARE; i++)                                                                   \
            list[i] = (type)(mark);                                                                                   \
    }                                                                                                                 \
    static void filled_##type(const type *list, uint64_t many, uint64_t room) {                                       \
        for (uint64_t i = 0; i < many; i++)                                                                           \
            hash(list[i]);                                                                                            \
        for (uint64_t i = many; i < room + SPARE; i++)                                                                \
            hold("past a list", list[i], (type)(mark));                                                               \
    }
LIST(uint8_t, 0xA5)
LIST(uint16_t, 0xA5A5)
LIST(uint32_t, 0xA5A5A5A5)
LIST(uint64_t, GARBAGE)

/* ---- random input */

static uint64_t seed = 88172645463325252u;

static uint64_t draw(void) {
    seed ^= seed << 13;
    seed ^= seed >> 7;
    seed ^= seed << 17;
    return seed;
}

static uint32_t below(uint32_t n) {
    return (uint32_t)((draw() >> 11) % n);
}

/* Changes one bit of an octet. Here as elsewhere a statement draws once, or in an order that C fixes. */
static void flip(uint8_t *octet) {
    *octet ^= (uint8_t)(1u << below(8));
}

/* The room that a list of `many` places is lent with: mostly enough, now and then too little. */
static uint64_t room_for(uint64_t many) {
    return below(8) || many == 0 ? many + below(SPARE) : below((uint32_t)many);
}

typedef struct {
    uint64_t label_octets, sent, arrivals, octets;
    uint8_t label[KRAKOBRAN_LABEL_MOST], file[KRAKOBRAN_FILE_OCTETS];
    uint16_t sizes[MOST];
    uint32_t numbers[MOST];
    uint64_t times[MOST];
} sample;

static void put(sample *s, uint64_t value, int octets) {
    for (int i = octets - 1; i >= 0; i--)
        s->file[s->octets++] = (uint8_t)(value >> 8 * i);
}

/* The file, octet by octet as the header has it; not by the library. */
static void lay_out(sample *s) {
    s->octets = 0;
    put(s, s->label_octets, 2);
    for (uint64_t i = 0; i < s->label_octets; i++)
        put(s, s->label[i], 1);
    put(s, s->sent, 2);
    for (uint64_t i = 0; i < s->sent; i++)
        put(s, s->sizes[i], 2);
    put(s, s->arrivals, 2);
    for (uint64_t i = 0; i < s->arrivals; i++) {
        put(s, s->numbers[i], 4);
        put(s, s->times[i], 8);
    }
}

/* A number for arrival i of K sent: in order, any, falling, or moved by less than 8 places. */
static uint32_t number_of(uint32_t way, uint32_t i, uint32_t k) {
    switch (way) {
    case 0:
        return i % k + 1;
    case 1:
        return below(k) + 1;
    case 2:
        return k - i % k;
    default:
        return (i ^ below(8)) % k + 1;
    }
}

static void make(sample *s, uint32_t sent, uint32_t arrivals) {
    s->label_octets = below(KRAKOBRAN_LABEL_MOST + 1), s->sent = sent, s->arrivals = arrivals;
    for (uint64_t i = 0; i < s->label_octets; i++)
        s->label[i] = (uint8_t)(0x20 + below(0x5F));
    for (uint32_t i = 0; i < sent; i++)
        s->sizes[i] = (uint16_t)draw();
    uint32_t way = below(4), shift = 24 + below(40);
    uint64_t time = draw() >> shift;
    for (uint32_t i = 0; i < arrivals; i++) {
        s->numbers[i] = number_of(way, i, sent);
        uint64_t back = below(KRAKOBRAN_TIME_BACK_MOST + 1), on = below(3) ? below(2000) : 0;
        time += on;
        s->times[i] = below(3) || back > time ? time : time - back;
    }
    lay_out(s);
}

/* ---- a second reading of the definitions: each record in turn, by searches */

typedef struct {
    uint64_t arrived, reordered, duplicates;
    krakobran_row rows[MOST];
} reading;

static void read_again(const sample *s, reading *r) {
    static uint32_t firsts[MOST]; /* the records of first arrivals */
    uint64_t next = 1;
    memset(r, 0, sizeof *r);
    for (uint32_t i = 0; i < s->arrivals; i++) {
        krakobran_row *row = r->rows + i;
        uint32_t first = 0;
        while (s->numbers[first] != s->numbers[i])
            first++;
        if (first < i) {
            row->kind = KRAKOBRAN_DUPLICATE, row->first = first + 1;
            r->duplicates++;
            continue;
        }
        firsts[r->arrived] = i;
        uint64_t position = row->position = ++r->arrived;
        if (s->numbers[i] >= next) {
            row->jump = s->numbers[i] - next;
            next = s->numbers[i] + 1u;
            continue;
        }
        r->reordered++;
        uint32_t e = 0;
        while (s->numbers[firsts[e]] < s->numbers[i])
            e++;
        uint64_t own = s->times[i], past = s->times[firsts[e]];
        row->kind = own >= past ? KRAKOBRAN_REORDERED_AFTER : KRAKOBRAN_REORDERED_BEFORE;
        row->late = own >= past ? own - past : past - own;
        row->extent = position - 1 - e;
        for (; e < position - 1; e++)
            row->offset += s->numbers[firsts[e]] > s->numbers[i] ? s->sizes[s->numbers[firsts[e]] - 1] : 0;
        while (row->largest < position - 1 && s->numbers[firsts[position - 2 - row->largest]] > s->numbers[i])
            row->largest++;
    }
}

static void same_row(const krakobran_row *found, const krakobran_row *due) {
    hold("case", found->kind, due->kind), hold("position", found->position, due->position);
    hold("jump size", found->jump, due->jump), hold("extent", found->extent, due->extent);
    hold("late time", found->late, due->late), hold("byte offset", found->offset, due->offset);
    hold("largest n", found->largest, due->largest), hold("first copy", found->first, due->first);
}

/* ---- the calls over a sample file; `s` has its lists if it is sound, else NULL */

static uint8_t out[TEXT + 2 * SPARE], text[TEXT + 2 * SPARE], flags[PLACES], usable[PLACES];
static uint16_t sizes[PLACES], table[KRAKOBRAN_SWEEP_TABLE_PLACES + 2 * SPARE];
static uint32_t numbers[PLACES], positions[PLACES], extents[PLACES], tally[KRAKOBRAN_TALLY_PLACES + SPARE];
static uint64_t times[PLACES], lates[PLACES], rows[KRAKOBRAN_ROW_NUMBERS * PLACES];

/* After a call that writes to out, lent with `room` places: the length of the text. */
static uint64_t written(uint64_t refusal, uint64_t room) {
    answered(1, refusal);
    filled_uint8_t(out, refusal ? 0 : figures[1], room);
    return refusal ? 0 : figures[1];
}

/* Sample file, its lists and its label. */
static void file_calls(const uint8_t *file, uint64_t octets, const sample *s) {
    krakobran_layout *layout = answer();
    uint64_t refusal = CALL(sample_check, file, octets, layout);
    answered(3, refusal);
    uint64_t sent = layout->sent, arrivals = layout->arrivals;
    if (s)
        hold("check", refusal, 0), hold("K", sent, s->sent), hold("A", arrivals, s->arrivals);
    uint64_t a = room_for(sent), b = room_for(arrivals), c = room_for(arrivals);
    lay_uint16_t(sizes, a), lay_uint32_t(numbers, b), lay_uint64_t(times, c);
    layout = answer();
    refusal = CALL(sample_read, file, octets, sizes, a, numbers, b, times, c, layout);
    answered(3, refusal);
    int whole = refusal == 0;
    filled_uint16_t(sizes, whole ? sent : 0, a);
    filled_uint32_t(numbers, whole ? arrivals : 0, b), filled_uint64_t(times, whole ? arrivals : 0, c);
    krakobran_part *part = answer();
    refusal = CALL(sample_label, file, octets, part);
    answered(2, refusal);
    if (s)
        hold("label", part->length, s->label_octets);
}

/* Single records, rows and the sweep, which tell the same. */
static void record_calls(const uint8_t *file, uint64_t octets, const sample *s) {
    static reading due;
    if (s)
        read_again(s, &due);
    uint32_t many = s ? (uint32_t)s->arrivals : 20;
    for (uint32_t i = below(2); i <= many + 1; i += many > 400 ? 1 + below(400) : 1 + below(4)) {
        krakobran_row *row = answer();
        uint64_t refusal = CALL(answer, file, octets, i, row);
        answered(8, refusal);
        if (s)
            hold("record", refusal, i < 1 || i > many ? KRAKOBRAN_ASKED_OUTSIDE : KRAKOBRAN_NONE);
        if (s && refusal == 0)
            same_row(row, due.rows + i - 1);
        krakobran_gap_figures *gap = answer();
        refusal = CALL(gap, file, octets, i, gap);
        answered(2, refusal);
    }
    uint64_t room = room_for(KRAKOBRAN_ROW_NUMBERS * many);
    lay_uint64_t(rows, room);
    uint64_t refusal = CALL(rows, file, octets, (krakobran_row *)(void *)rows, room);
    if (s)
        filled_uint64_t(rows, refusal ? 0 : KRAKOBRAN_ROW_NUMBERS * many, room);
    if (s && refusal == 0)
        for (uint32_t i = 0; i < many; i++)
            same_row((const krakobran_row *)(const void *)rows + i, due.rows + i);
    uint32_t from = many / 3, some = from + 5 < many ? 5 : many - from;
    room = KRAKOBRAN_ROW_NUMBERS * 5 + 3;
    lay_uint64_t(rows, room);
    refusal = CALL(rows_from, file, octets, from, (krakobran_row *)(void *)rows, room);
    if (s)
        filled_uint64_t(rows, refusal ? 0 : KRAKOBRAN_ROW_NUMBERS * some, room);
    if (s && refusal == 0)
        for (uint32_t i = 0; i < some; i++)
            same_row((const krakobran_row *)(const void *)rows + i, due.rows + from + i);
    room = room_for(many);
    lay_uint32_t(positions, room);
    refusal = CALL(gaps, file, octets, positions, room);
    if (s)
        filled_uint32_t(positions, refusal ? 0 : many, room);
    uint64_t t = room_for(KRAKOBRAN_SWEEP_TABLE_PLACES), a = room_for(many), b = room_for(many), c = room_for(many), d = room_for(many);
    lay_uint16_t(table, t), lay_uint8_t(flags, a), lay_uint32_t(positions, b), lay_uint32_t(extents, c), lay_uint64_t(lates, d);
    refusal = CALL(sweep, file, octets, table, t, flags, a, positions, b, extents, c, lates, d);
    if (!s)
        return;
    int whole = refusal == 0;
    filled_uint16_t(table, whole ? KRAKOBRAN_SWEEP_TABLE_PLACES : 0, t);
    filled_uint8_t(flags, whole ? many : 0, a), filled_uint32_t(positions, whole ? many : 0, b);
    filled_uint32_t(extents, whole ? many : 0, c), filled_uint64_t(lates, whole ? many : 0, d);
    for (uint32_t i = 0; whole && i < many; i++) {
        hold("swept case", flags[i], due.rows[i].kind), hold("swept position", positions[i], due.rows[i].position);
        hold("swept extent", extents[i], due.rows[i].extent), hold("swept late time", lates[i], due.rows[i].late);
    }
    krakobran_counts_figures *counts = answer();
    refusal = CALL(counts, file, octets, counts);
    answered(7, refusal);
    hold("L", counts->arrived, due.arrived), hold("reordered", counts->reordered, due.reordered);
    hold("duplicates", counts->duplicates, due.duplicates), hold("in order", counts->inorder, due.arrived - due.reordered);
}

/* Several sizes at once, and some of them one by one. */
static void step_calls(const uint8_t *file, uint64_t octets, uint32_t measure, uint64_t low) {
    static krakobran_steps found;
    uint32_t shift = below(6) ? below(20) : 57 + below(9);
    krakobran_steps *steps = answer();
    uint64_t refusal = CALL(accommodated_steps, file, octets, measure, low, shift, steps);
    answered(2 + KRAKOBRAN_STEP_PLACES, refusal);
    found = *steps;
    for (uint64_t j = 0; j < KRAKOBRAN_STEP_PLACES; j += 1 + below(60)) {
        uint64_t size = j == 0 ? low : shift > 63 || j > (UINT64_MAX - low) >> shift ? UINT64_MAX : low + (j << shift);
        krakobran_accommodated_counts *held = answer();
        hold("the refusal of one size", CALL(accommodated, file, octets, measure, size, held), refusal);
        answered(2, refusal);
        hold("one of several sizes", found.counts[j], held->accommodated), hold("L of them", found.arrived, held->arrived);
    }
}

/* Figures of the whole sample. */
static void figure_calls(const uint8_t *file, uint64_t octets) {
    krakobran_counts_figures *counts = answer();
    uint64_t refusal = CALL(counts, file, octets, counts);
    answered(7, refusal);
    lay_uint32_t(tally, KRAKOBRAN_TALLY_PLACES);
    refusal = CALL(tally, file, octets, tally);
    filled_uint32_t(tally, KRAKOBRAN_TALLY_PLACES, KRAKOBRAN_TALLY_PLACES);
    for (int i = 0; refusal && i < KRAKOBRAN_TALLY_PLACES; i++)
        hold("tally beside a refusal", tally[i], 0);
    for (uint32_t n = below(3); n < 103; n += 1 + below(60)) {
        krakobran_degree_counts *counted = answer();
        refusal = CALL(n_reordered, file, octets, n, counted);
        answered(2, refusal);
        uint64_t reordered = counted->reordered, arrived = counted->arrived;
        krakobran_degree_figures *degree = answer();
        refusal = CALL(degree, file, octets, n, degree);
        answered(2, refusal);
        hold("degree is known", degree->known, arrived != 0);
        if (degree->known)
            hold("degree", krakobran_double(degree->bits) == (double)reordered / (double)arrived, 1);
    }
    krakobran_ratios_figures *ratios = answer();
    refusal = CALL(ratios, file, octets, ratios);
    answered(4, refusal);
    uint64_t *total = answer();
    refusal = CALL(disorder, file, octets, total);
    answered(1, refusal);
    krakobran_needs *needs = answer();
    refusal = CALL(greatest_needs, file, octets, needs);
    answered(3, refusal);
    uint64_t greatest[4] = {needs->packets, needs->octets, needs->time, 5};
    for (uint32_t measure = 0; measure < 4; measure++) {
        uint64_t *size = answer();
        uint32_t whole = below(100) + 1, part = below(whole + 2);
        refusal = CALL(least_size, file, octets, measure, part, whole, size);
        answered(1, refusal);
        uint64_t sizes_asked[3] = {*size, greatest[measure], greatest[measure] / 2};
        for (int i = 0; i < 3; i++) {
            krakobran_accommodated_counts *held = answer();
            refusal = CALL(accommodated, file, octets, measure, sizes_asked[i], held);
            answered(2, refusal);
            if (i == 1 && measure < 3)
                hold("the greatest need suffices for all", held->accommodated, held->arrived);
        }
        step_calls(file, octets, measure, below(2) ? 0 : greatest[measure] / 2);
    }
}

/* Reports, summaries and OWAMP records. */
static void text_calls(const uint8_t *file, uint64_t octets, const sample *s) {
    uint64_t needed = s ? 64 + 64 * s->arrivals : 64, room = needed > TEXT ? TEXT : needed;
    for (int i = 0; i < 2; i++, room = room_for(room)) {
        lay_uint8_t(out, room);
        uint64_t refusal = CALL(report_write, file, octets, out, room, answer());
        uint64_t length = written(refusal, room);
        if (s && i == 0)
            hold("report", refusal, 0);
        memcpy(text, out, length);
        for (int j = 0; j < 3; j++) {
            uint64_t shown = j < 2 || length == 0 ? length : below((uint32_t)length);
            if (j == 1 && length)
                flip(text + below((uint32_t)length));
            krakobran_verdict *verdict = answer();
            refusal = CALL(report_check, file, octets, text, shown, verdict);
            answered(2, refusal);
            if (s && i == 0)
                hold("its own report agrees", verdict->agrees, j == 0);
        }
        room = length ? length + 1 : room;
    }
    room = room_for(KRAKOBRAN_SUMMARY_OCTETS);
    lay_uint8_t(out, room);
    uint64_t refusal = CALL(summary_write, file, octets, out, room, answer());
    written(refusal, room);
    room = room_for(KRAKOBRAN_SUMMARY_OCTETS);
    lay_uint8_t(out, room);
    refusal = CALL(summary_json, file, octets, out, room, answer());
    written(refusal, room);
    room = room_for(s ? KRAKOBRAN_SUMMARY_ALL_OCTETS : KRAKOBRAN_SUMMARY_OCTETS);
    lay_uint8_t(out, room);
    refusal = CALL(summary_all, file, octets, out, room, answer());
    written(refusal, room);
    for (uint32_t part = below(2); part < KRAKOBRAN_TABLE_PARTS + 2; part += s ? 1 : 1 + below(9))
        for (int json = 0; json < 2; json++) {
            room = room_for(s && part && part < 17 ? 256 * s->arrivals : 512);
            room = room > KRAKOBRAN_TABLE_PART_OCTETS ? KRAKOBRAN_TABLE_PART_OCTETS : room;
            lay_uint8_t(out, room);
            refusal = json ? CALL(table_json, file, octets, part, out, room, answer())
                           : CALL(table_csv, file, octets, part, out, room, answer());
            written(refusal, room);
        }
    room = room_for(s ? KRAKOBRAN_OWAMP_RECORD_OCTETS * s->arrivals : 64);
    lay_uint8_t(out, room);
    refusal = CALL(owamp_write, file, octets, out, room, answer());
    uint64_t length = written(refusal, room);
    memcpy(text, out, length);
    for (int j = 0; s && j < 3; j++) {
        uint64_t a = room_for(s->arrivals), b = room_for(s->arrivals);
        uint32_t sent = below(20) ? (uint32_t)s->sent : below(2) * 5000;
        lay_uint32_t(numbers, a), lay_uint64_t(times, b);
        refusal = CALL(owamp_import, text, length, sent, numbers, a, times, b, answer());
        answered(1, refusal);
        filled_uint32_t(numbers, refusal ? 0 : figures[1], a), filled_uint64_t(times, refusal ? 0 : figures[1], b);
        /* then a time or a number changed, or cut */
        for (int i = 0; length && i < 8; i++) {
            uint32_t record = below((uint32_t)(length / KRAKOBRAN_OWAMP_RECORD_OCTETS + 1)), at = below(4) ? 19 + below(5) : below(24);
            flip(text + KRAKOBRAN_OWAMP_RECORD_OCTETS * record + at);
        }
        length -= length && below(8) == 0 ? 1 : 0;
    }
}

/* Some lines of the text, one of them mostly none: where they stand, and what is wrong with them. */
static void line_calls(uint64_t length) {
    for (uint32_t n = below(3), lines = 1 + below(40); n <= lines; n += 1 + below(20)) {
        krakobran_part *part = answer();
        CALL_VOID(text_line, text, length, n < lines ? n : UINT64_MAX, part);
        answered(2, 0);
        uint64_t start = part->start, octets = part->length;
        hold("a line is within the text", start <= length && octets <= length - start, 1);
        hold("no line stands at the end", octets == 0, start == length);
        krakobran_arrival *arrival = answer();
        uint64_t refusal = CALL(log_read_line, text + start, octets, arrival);
        answered(2, refusal);
        uint64_t fault = CALL(log_line_fault, text + start, octets);
        hold("a line that is read has no fault", refusal == 0 && fault, 0);
        octets -= octets && below(2), refusal = CALL(log_line_fault, text + start, octets);
    }
}

/* The writers of lists: sample file and text log, and what reads them. */
static void list_calls(const sample *s) {
    uint64_t room = room_for(s->octets), times_given = s->arrivals - (s->arrivals && below(20) == 0);
    lay_uint8_t(out, room);
    uint64_t refusal = CALL(sample_write, s->label, s->label_octets, s->sizes, s->sent, s->numbers, s->arrivals, s->times,
                            times_given, out, room, answer());
    if (written(refusal, room))
        hold("written file", memcmp(out, s->file, s->octets) == 0, 1);
    room = room_for(KRAKOBRAN_LABEL_JSON_OCTETS);
    lay_uint8_t(out, room);
    written(CALL(label_json, s->file + 2, below(8) ? s->label_octets : below(80), out, room, answer()), room);
    CALL(lists_check, s->sent, s->numbers, s->arrivals, s->times, times_given);
    CALL(lists_check, below(2) ? s->sent / 2 : s->sent << 32, s->numbers, s->arrivals, s->times, s->arrivals);
    room = room_for(30 * s->arrivals + 1);
    lay_uint8_t(out, room);
    refusal = CALL(log_write, (uint32_t)s->sent, s->numbers, s->arrivals, s->times, s->arrivals, out, room, answer());
    uint64_t length = written(refusal, room);
    memcpy(text, out, length);
    for (int j = 0; j < 4; j++) {
        uint64_t a = room_for(s->arrivals), b = room_for(s->arrivals);
        uint32_t sent = below(20) ? (uint32_t)s->sent : below(2) * 5000;
        lay_uint32_t(numbers, a), lay_uint64_t(times, b);
        refusal = CALL(log_import, text, length, sent, numbers, a, times, b, answer());
        answered(1, refusal);
        filled_uint32_t(numbers, refusal ? 0 : figures[1], a), filled_uint64_t(times, refusal ? 0 : figures[1], b);
        CALL_VOID(log_refused_line, text, length, sent, answer());
        answered(1, 0);
        if (j == 0 && refusal == 0 && length)
            hold("imported arrivals", memcmp(numbers, s->numbers, 4 * s->arrivals), 0);
        lay_uint32_t(numbers, a), lay_uint64_t(times, b);
        uint64_t shorts = j % 2 ? CALL(log_import_8, text, length, sent, numbers, a, times, b, answer())
                                : CALL(log_import_10, text, length, sent, numbers, a, times, b, answer());
        answered(1, shorts);
        filled_uint32_t(numbers, shorts ? 0 : figures[1], a), filled_uint64_t(times, shorts ? 0 : figures[1], b);
        if (j % 2)
            CALL_VOID(log_refused_line_8, text, length, sent, answer());
        else
            CALL_VOID(log_refused_line_10, text, length, sent, answer());
        answered(1, 0);
        uint64_t line = 0;
        while (line < length && text[line++] != '\n')
            ;
        shorts = CALL(log_read_line, text, line, (krakobran_arrival *)answer());
        answered(2, shorts);
        line_calls(length);
        uint8_t *at = text + (length ? below((uint32_t)length) : 0);
        *at = (uint8_t) "0123456789;,.\n x"[below(16)];
    }
}

/* Fragments made of the numbers of a sample, and short numbers of them. */
static void arrival_calls(const sample *s) {
    static uint16_t lengths[MOST], offsets[MOST], shorts[MOST];
    static uint8_t mores[MOST];
    uint32_t many = (uint32_t)s->arrivals;
    for (uint32_t i = 0; i < many; i++) {
        uint32_t last = below(3) == 0;
        mores[i] = (uint8_t)(last ? 0 : 1 + below(255));
        lengths[i] = (uint16_t)(last ? 1 + below(24) : 8 + 8 * below(2)), offsets[i] = (uint16_t)below(4);
        if (below(800) == 0)
            lengths[i] = (uint16_t)below(3), offsets[i] = (uint16_t)draw();
    }
    uint64_t a = room_for(many), b = room_for(many), fewer = many - (many && below(20) == 0);
    lay_uint8_t(flags, a), lay_uint8_t(usable, b);
    uint64_t refusal = CALL(fragment_order, (uint32_t)s->sent, s->numbers, many, s->times, many, lengths, many, mores, fewer,
                            offsets, many, flags, a, usable, b);
    filled_uint8_t(flags, refusal ? 0 : many, a), filled_uint8_t(usable, refusal ? 0 : many, b);
    for (int width = 8; width <= 10; width += 2) {
        for (uint32_t i = 0; i < many; i++)
            shorts[i] = (uint16_t)(s->numbers[i] % (1u << width));
        if (many && below(6) == 0)
            shorts[below(many)] = (uint16_t)draw();
        a = room_for(many);
        lay_uint32_t(numbers, a);
        refusal = width == 8 ? CALL(full_numbers_8, (uint32_t)s->sent, shorts, many, s->times, fewer, numbers, a)
                             : CALL(full_numbers_10, (uint32_t)s->sent, shorts, many, s->times, fewer, numbers, a);
        filled_uint32_t(numbers, refusal ? 0 : many, a);
    }
}

/* ---- receivers and meters */

static void hash_stream(const krakobran_stream *s) {
    const uint64_t all[] = {s->sent,     s->arrived,     s->duplicates,   s->inorder,      s->next,   s->kept,
                            s->greatest, s->runs.closed, s->runs.squares, s->runs.current, s->dropped};
    for (size_t i = 0; i < sizeof all / sizeof *all; i++)
        hash(all[i]);
}

static void hash_marks(const uint64_t *marks) {
    for (int i = 0; i < KRAKOBRAN_SENT_MOST / 64; i++)
        hash(marks[i]);
}

static void hash_places(const krakobran_places *p) {
    for (int i = 0; i < KRAKOBRAN_WINDOW_PLACES; i++)
        hash(p->positions[i]), hash(p->numbers[i]), hash(p->times[i]);
}

/* Changes one number of a stream, which mostly makes it unfit. */
static void spoil(krakobran_stream *s) {
    uint32_t value = below(2) ? below(5000) : (uint32_t)draw();
    uint32_t *const all[] = {&s->sent, &s->arrived, &s->duplicates, &s->inorder, &s->next, &s->kept, &s->runs.closed, &s->dropped};
    *all[below(8)] = value;
}

/* One step of a receiver, by the width of its number; refused it leaves the receiver as it was. */
static uint64_t stepped(krakobran_receiver *r, uint32_t number, uint64_t time, int width) {
    static krakobran_receiver before;
    before = *r;
    krakobran_noted *noted = answer();
    uint64_t refusal = width == 8    ? CALL(receiver_step_8, r, (uint16_t)number, time, noted)
                       : width == 10 ? CALL(receiver_step_10, r, (uint16_t)number, time, noted)
                                     : CALL(receiver_step, r, number, time, noted);
    answered(4, refusal);
    if (refusal)
        hold("a refused step changes nothing", memcmp(&before, r, sizeof before), 0);
    return refusal;
}

static void receiver_calls(const sample *s) {
    static krakobran_receiver r, other;
    static const int widths[] = {32, 8, 10};
    static reading due;
    read_again(s, &due);
    for (int w = 0; w < 3; w++) {
        memset(&r, 0x5A, sizeof r);
        hold("fresh, refused", CALL(receiver_fresh, &r, below(2) ? 0 : 4097 + below(9)), KRAKOBRAN_SENT_OUTSIDE);
        hold("fresh, refused, is as before", r.places.times[KRAKOBRAN_WINDOW_PLACES - 1], 0x5A5A5A5A5A5A5A5Au);
        hold("fresh", CALL(receiver_fresh, &r, (uint32_t)s->sent), 0);
        hash_stream(&r.stream), hash_marks(r.marks), hash_places(&r.places);
        for (uint32_t i = 0; i < s->arrivals; i++) {
            uint32_t mask = widths[w] == 32 ? UINT32_MAX : (1u << widths[w]) - 1;
            uint64_t refusal = stepped(&r, s->numbers[i] & mask, s->times[i], widths[w]);
            const krakobran_noted *noted = (const void *)(figures + 1);
            if (w)
                continue;
            hold("step", refusal, 0), hold("noted jump size", noted->jump, due.rows[i].jump);
            if (noted->kind < KRAKOBRAN_BEYOND_AFTER) {
                hold("noted case", noted->kind, due.rows[i].kind), hold("noted extent", noted->extent, due.rows[i].extent);
                hold("noted late time", noted->late, due.rows[i].late);
            }
        }
        hash_stream(&r.stream), hash_marks(r.marks), hash_places(&r.places);
        for (int i = 0; i < 6; i++) {
            other = r;
            if (i > 1)
                spoil(&other.stream);
            uint32_t number = below(3) ? below((uint32_t)s->sent + 2) : (uint32_t)draw();
            uint64_t time = below(3) ? other.stream.greatest : draw();
            stepped(&other, number, time, widths[w]);
            hash_stream(&other.stream), hash_marks(other.marks), hash_places(&other.places);
        }
    }
}

/* What is said of lines: those of a sample's arrivals, some of them cut, with what a step noted or with other figures; and its counts. */
static void follow_calls(const sample *s) {
    static krakobran_receiver r;
    krakobran_receiver_fresh(&r, (uint32_t)s->sent);
    for (uint32_t i = 0; i < s->arrivals; i++) {
        char line[64];
        unsigned long long time = s->times[i];
        int octets = snprintf(line, sizeof line, "%u;%llu,%03u\n", (unsigned)s->numbers[i], time / 1000, (unsigned)(time % 1000));
        krakobran_noted noted;
        uint64_t refusal = krakobran_receiver_step(&r, s->numbers[i], s->times[i], &noted), room = room_for(KRAKOBRAN_FOLLOW_OCTETS);
        uint64_t *const all[] = {&refusal, &noted.kind, &noted.jump, &noted.extent, &noted.late};
        for (int j = 0; j < 5; j++) {
            uint32_t how = below(16);
            if (how < 2)
                *all[j] = how ? below(7) : draw();
        }
        uint64_t length = (uint64_t)octets - (below(9) == 0);
        lay_uint8_t(out, room);
        written(CALL(follow_line, (const uint8_t *)line, length, refusal, &noted, out, room, answer()), room);
    }
    uint64_t room = room_for(KRAKOBRAN_FOLLOW_OCTETS);
    const krakobran_stream *n = &r.stream;
    lay_uint8_t(out, room);
    written(CALL(follow_counts, n->arrived, n->inorder, n->duplicates, n->runs.closed, n->runs.current, out, room, answer()), room);
}

static void hash_meter(const krakobran_meter *m) {
    hash_stream(&m->first.stream), hash_marks(m->first.marks), hash_stream(&m->second.stream), hash_marks(m->second.marks);
    hash_places(&m->places);
}

static void meter_calls(const sample *s) {
    static krakobran_meter m, before;
    memset(&m, 0x5A, sizeof m);
    CALL_VOID(meter_new, &m);
    hash_meter(&m);
    for (uint32_t stream = 0; stream < 4; stream++) {
        before = m;
        uint32_t sent = below(20) ? (uint32_t)s->sent : below(2) * 5000;
        if (CALL(meter_start, &m, stream, sent))
            hold("a refused start changes nothing", memcmp(&before, &m, sizeof m), 0);
        hash_meter(&m);
    }
    for (uint32_t i = 0; i < s->arrivals; i++) {
        uint32_t stream = below(40) ? 1 + below(2) : below(5);
        before = m;
        krakobran_noted *noted = answer();
        uint64_t refusal = CALL(meter_step, &m, stream, s->numbers[i], s->times[i], noted);
        answered(4, refusal);
        if (refusal)
            hold("a refused step changes nothing", memcmp(&before, &m, sizeof m), 0);
    }
    hash_meter(&m);
    for (int i = 0; i < 4; i++) {
        before = m;
        spoil(below(2) ? &before.first.stream : &before.second.stream);
        uint32_t stream = 1 + below(2), number = 1 + below((uint32_t)s->sent);
        uint64_t refusal = CALL(meter_step, &before, stream, number, m.first.stream.greatest, answer());
        answered(4, refusal);
        hash_meter(&before);
    }
}

/* ---- words */

/* The words of refusals, of numbers that are none, and the version, which has no refusal. */
static void word_calls(void) {
    enum { WORDS = 128 };
    for (uint64_t refusal = 0; refusal < 21; refusal++) {
        uint64_t room = room_for(WORDS), given = refusal < 20 ? refusal : UINT64_MAX;
        lay_uint8_t(out, room);
        written(CALL(refusal_words, given, out, room, answer()), room);
    }
    begin("krakobran_version");
    hash(krakobran_version());
}

/* ---- all of it */

static void compare_two(const uint8_t *a, uint64_t a_octets, const uint8_t *b, uint64_t b_octets) {
    krakobran_worse_link *worse = answer();
    uint64_t refusal = CALL(worse, a, a_octets, b, b_octets, worse);
    answered(3, refusal);
}

static void over_file(const uint8_t *file, uint64_t octets, const sample *s) {
    file_calls(file, octets, s);
    record_calls(file, octets, s);
    figure_calls(file, octets);
    text_calls(file, octets, s);
}

static void over_sample(const sample *s) {
    over_file(s->file, s->octets, s);
    list_calls(s);
    arrival_calls(s);
    receiver_calls(s);
    follow_calls(s);
    meter_calls(s);
}

/* A file that is cut, or has one bit changed. */
static void over_damaged(const sample *s, const sample *other) {
    static uint8_t file[KRAKOBRAN_FILE_OCTETS];
    uint32_t octets = (uint32_t)s->octets, at = below(octets + 1), most = below(3) ? 80 + (uint32_t)s->label_octets : octets;
    memcpy(file, s->file, octets);
    if (below(2) || at == octets)
        octets = at;
    else
        flip(file + below(most < octets ? most : octets));
    over_file(octets ? file : NULL, octets, NULL);
    compare_two(other->file, other->octets, file, octets);
}

static void rounds_of(int rounds) {
    static sample s, other;
    for (int i = 0; i < rounds; i++) {
        word_calls();
        uint32_t sent = below(3) ? 40 : 400, arrivals = below(4) ? 60 : 450;
        sent = 1 + below(sent), arrivals = below(arrivals);
        if (i % 100 == 99)
            sent = KRAKOBRAN_SENT_MOST, arrivals = MOST;
        make(&s, sent, arrivals);
        over_sample(&s);
        sent = 1 + below(50), arrivals = below(60);
        make(&other, sent, arrivals);
        compare_two(s.file, s.octets, other.file, other.octets);
        for (int j = 0; j < 10; j++)
            over_damaged(j % 2 ? &s : &other, &other);
    }
}

/* ---- the cases of the papers */

static const struct {
    const char *name;
    uint32_t many, numbers[16], times[16]; /* record r is at 10 r where no times stand */
} cases[] = {
    {"P1", 5, {1, 2, 4, 5, 3}, {10, 20, 40, 50, 70}},
    {"P2", 11, {1, 2, 3, 7, 8, 9, 10, 4, 5, 6, 11}, {68, 88, 108, 188, 208, 228, 248, 250, 252, 256, 268}},
    {"P3", 16, {1, 2, 3, 6, 7, 4, 5, 8, 9, 10, 12, 13, 11, 14, 15, 16}, {0}},
    {"P4", 9, {1, 2, 3, 7, 8, 9, 4, 5, 6}, {0}},
    {"P5", 3, {1, 10, 5}, {0}},
    {"P6", 4, {1, 2, 2, 3}, {0}},
    {"P7", 5, {1, 3, 6, 5, 2}, {0}},
    {"P8", 0, {0}, {0}},
    {"P9", 1, {3}, {0}},
    {"P10", 6, {2, 1, 4, 6, 5, 3}, {0}},
    {"P11", 6, {2, 1, 4, 3, 6, 5}, {2000, 1000, 2000, 2000, 2000, 1999}},
    {"RFC 4737, 7.1", 10, {1, 2, 3, 5, 6, 7, 8, 4, 9, 10}, {0}},
    {"RFC 4737, 7.2", 10, {1, 2, 3, 4, 7, 5, 6, 8, 9, 10}, {0}},
};

/* The summary with all figures and the table of a sample, in both forms. */
static void print_texts(const sample *s) {
    uint64_t length, refusal = krakobran_summary_all(s->file, s->octets, out, TEXT, &length);
    printf("%.*s", refusal ? 0 : (int)length, (const char *)out);
    for (int json = 0; json < 2; json++)
        for (uint32_t part = 0; part < KRAKOBRAN_TABLE_PARTS; part++) {
            refusal |= json ? krakobran_table_json(s->file, s->octets, part, out, TEXT, &length)
                            : krakobran_table_csv(s->file, s->octets, part, out, TEXT, &length);
            printf("%.*s", refusal ? 0 : (int)length, (const char *)out);
        }
    printf("refusal %d\n\n", (int)refusal);
}

/* Lines of a log, each with its fault; and a label as JSON. */
static void print_lines(void) {
    static const char log[] = "\xEF\xBB\xBF"
                              "1;5\n\nnumber;time\n1;5\r\n\r\n4294967296;5\n1;5,0000\n1;5,000\n1;\n1 5\n1;5";
    krakobran_part part;
    for (uint64_t n = 0; n == 0 || part.length > 0; n++) {
        krakobran_text_line((const uint8_t *)log, sizeof log - 1, n, &part);
        uint64_t fault = krakobran_log_line_fault((const uint8_t *)log + part.start, part.length);
        printf("line %d: %d octets from %d on, fault %d\n", (int)n, (int)part.length, (int)part.start, (int)fault);
    }
    static const char label[] = "the \"cellar\" \\ 2";
    uint64_t length, refusal = krakobran_label_json((const uint8_t *)label, sizeof label - 1, out, TEXT, &length);
    printf("%.*s, refusal %d\n", (int)length, (const char *)out, (int)refusal);
}

/* Report, counts, gaps, extents, ratios, disorder and needs of a case. K is its greatest number, and payload sizes are 100. The first case
 * has its other texts too. */
static void print_case(size_t which) {
    static sample s;
    memset(&s, 0, sizeof s);
    s.sent = 1, s.arrivals = cases[which].many;
    for (uint32_t i = 0; i < s.arrivals; i++) {
        s.numbers[i] = cases[which].numbers[i];
        s.times[i] = cases[which].times[0] ? cases[which].times[i] : 10 * (i + 1);
        s.sent = s.sent > s.numbers[i] ? s.sent : s.numbers[i];
    }
    for (uint64_t i = 0; i < s.sent; i++)
        s.sizes[i] = 100;
    lay_out(&s);
    printf("%s\n", cases[which].name);
    uint64_t length, total, refusal = krakobran_report_write(s.file, s.octets, out, TEXT, &length);
    printf("%.*s", refusal ? 0 : (int)length, (const char *)out);
    for (uint32_t i = 1; i <= s.arrivals; i++) {
        krakobran_gap_figures gap;
        refusal |= krakobran_gap(s.file, s.octets, i, &gap);
        if (gap.known)
            printf("gap of record %d: %d\n", (int)i, (int)gap.positions);
    }
    refusal |= krakobran_tally(s.file, s.octets, tally);
    for (int i = 1; i < KRAKOBRAN_TALLY_PLACES; i++)
        if (tally[i])
            printf("extent %d: %d\n", i, (int)tally[i]);
    krakobran_ratios_figures ratios;
    refusal |= krakobran_ratios(s.file, s.octets, &ratios);
    if (ratios.known)
        printf("ratios %.17g %.17g %.17g\n", krakobran_double(ratios.reordered), krakobran_double(ratios.degree1),
               krakobran_double(ratios.degree3));
    krakobran_needs needs;
    refusal |= krakobran_greatest_needs(s.file, s.octets, &needs);
    refusal |= krakobran_disorder(s.file, s.octets, &total);
    krakobran_steps steps;
    refusal |= krakobran_accommodated_steps(s.file, s.octets, KRAKOBRAN_MEASURE_PACKETS, 0, 0, &steps);
    printf("held by buffers for 0 to %d packets:", (int)steps.greatest);
    for (uint64_t i = 0; i <= steps.greatest; i++)
        printf(" %d", (int)steps.counts[i]);
    printf("\nneeds %d %d %d, disorder %d, refusal %d\n\n", (int)needs.packets, (int)needs.octets, (int)needs.time, (int)total,
           (int)refusal);
    if (which == 0)
        print_texts(&s);
}

int main(int argc, char **argv) {
    if (argc == 2 && strcmp(argv[1], "cases") == 0) {
        for (size_t i = 0; i < sizeof cases / sizeof *cases; i++)
            print_case(i);
        print_lines();
        return 0;
    }
    rounds_of(argc > 1 ? atoi(argv[1]) : 100);
    for (size_t i = 0; i < EXPORTS && exports[i].name; i++)
        printf("%s %llu %016llx\n", exports[i].name, (unsigned long long)exports[i].calls, (unsigned long long)exports[i].hash);
    printf("faults %llu\n", (unsigned long long)faults);
    return faults != 0;
}
