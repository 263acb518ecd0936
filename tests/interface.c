/* Tries every call of krakobran.h: the figures of a small sample that are known, damaged input and its refusals, NULL where
 * there are no places, a receiver that is saved and loaded, and how much stack a call needs. What is lent to a call stands
 * between other octets and holds garbage. After the call nothing has changed but the answer; with a refusal the figures are 0,
 * and nothing else has changed. A line for each case; status 1 if one fails. */

#define _XOPEN_SOURCE 700
#include <stdio.h>
#include <string.h>
#include <ucontext.h>
#include "krakobran.h"

static int run, failed;

/* Says how a case went. */
static void passed(const char *name, int holds) {
    run++;
    failed += !holds;
    printf("%s %s\n", holds ? "passed" : "FAILED", name);
}

/* ---- lent memory: parts of one arena, with a guard before and after each */

enum { ARENA = 1 << 20, GUARD = 64, PARTS = 16 };

typedef struct {
    size_t start;
    size_t octets;
} part;

static union {
    uint64_t aligned;
    uint8_t octets[ARENA];
} arena, before;
static part figure_parts[PARTS], answer_parts[PARTS];
static size_t lent, figure_count, answer_count;

/* Fills the arena with garbage that differs from place to place, and takes back what was lent. */
static void take_back(void) {
    uint32_t garbage = 1;
    for (size_t i = 0; i < lent + 2 * GUARD; i++) {
        garbage = garbage * 1664525 + 1013904223;
        before.octets[i] = arena.octets[i] = (uint8_t)(garbage >> 24 | 1);
    }
    lent = figure_count = answer_count = 0;
}

/* Lends octets, aligned to 8. */
static void *lend(size_t octets) {
    void *place = arena.octets + lent + GUARD;
    lent += GUARD + (octets + 7) / 8 * 8;
    return place;
}

/* Lends figures: a call sets them, to 0 with a refusal. */
static void *lend_figures(size_t octets) {
    part figures = {lent + GUARD, octets};
    figure_parts[figure_count++] = figures;
    return lend(octets);
}

#define FIGURES(type) ((type *)lend_figures(sizeof(type)))
#define LIST(type, places) ((type *)lend((size_t)(places) * sizeof(type))), (places)

/* Takes what the arena holds now as what it held before the call. */
static void settle(void) { before = arena; }

/* Says that the call is to write these octets. */
static void expect(const void *place, size_t octets) {
    part answer = {(size_t)((const uint8_t *)place - arena.octets), octets};
    answer_parts[answer_count++] = answer;
}

/* Whether the arena holds what it held before but for some parts. */
static int same_but(const part *parts, size_t count) {
    for (size_t i = 0; i < count; i++)
        memcpy(before.octets + parts[i].start, arena.octets + parts[i].start, parts[i].octets);
    return memcmp(before.octets, arena.octets, lent + 2 * GUARD) == 0;
}

/* Whether a call returned this refusal, set its figures to 0, and changed nothing else. */
static int refused(uint64_t refusal, uint64_t expected) {
    int zeros = 1;
    for (size_t i = 0; i < figure_count; i++)
        for (size_t j = 0; j < figure_parts[i].octets; j++)
            zeros = zeros && arena.octets[figure_parts[i].start + j] == 0;
    return refusal == expected && zeros && same_but(figure_parts, figure_count);
}

/* Whether a call returned no refusal, and changed nothing but its figures and what is expected. */
static int accepted(uint64_t refusal) {
    for (size_t i = 0; i < figure_count; i++)
        answer_parts[answer_count++] = figure_parts[i];
    return refusal == KRAKOBRAN_NONE && same_but(answer_parts, answer_count);
}

/* ---- the small sample */

enum {
    SENT = 6,
    ARRIVALS = 7,
    LABEL = 6,
    SIZES_AT = 4 + LABEL,
    ARRIVALS_AT = SIZES_AT + 2 * SENT + 2,
    SMALL = ARRIVALS_AT + 12 * ARRIVALS
};
static const char small_label[] = "cellar";
static const uint16_t small_sizes[SENT] = {10, 20, 30, 40, 50, 60};
static const uint32_t small_numbers[ARRIVALS] = {1, 2, 4, 6, 3, 3, 5};
static const uint64_t small_times[ARRIVALS] = {10, 20, 40, 50, 70, 80, 45};
static const krakobran_row small_rows[ARRIVALS] = {
    {KRAKOBRAN_IN_ORDER, 1, 0, 0, 0, 0, 0, 0},           {KRAKOBRAN_IN_ORDER, 2, 0, 0, 0, 0, 0, 0},
    {KRAKOBRAN_IN_ORDER, 3, 1, 0, 0, 0, 0, 0},           {KRAKOBRAN_IN_ORDER, 4, 1, 0, 0, 0, 0, 0},
    {KRAKOBRAN_REORDERED_AFTER, 5, 0, 2, 30, 100, 2, 0}, {KRAKOBRAN_DUPLICATE, 0, 0, 0, 0, 0, 0, 5},
    {KRAKOBRAN_REORDERED_BEFORE, 6, 0, 2, 5, 60, 0, 0}};
static const char small_report[] = "sent 6 arrivals 7\n1 1 in 1 0\n2 2 in 2 0\n3 4 in 3 1\n4 6 in 4 1\n5 3 late 5 2 30 100 2\n"
                                   "6 3 copy 5\n7 5 late 6 2 -5 60 0\nend 6 2 1 2 16 0\n";
static const char small_log[] = "1;0,010\n2;0,020\n4;0,040\n6;0,050\n3;0,070\n3;0,080\n5;0,045\n";
/* What a summary with all figures has after the summary, and the table of records. */
static const char small_more[] =
    "\nExtents, and how many packets have each:\n    2: 2\n    over 100: 0\n\n"
    "n, and how many packets are n-reordered:\n    1: 1\n    2: 1\n    3: 0\n    4: 0\n    5: 0\n    6: 0\n"
    "    7: 0\n    8: 0\n    9: 0\n    10: 0\n\nRecords that have a gap, and the gap in positions:\n"
    "    4: 1\n\nRuns in order: 2 ended, the sum of their squares 16, packets in the open one 0\n";
static const char small_csv[] =
    "record,number,time_us,kind,position,jump_size,extent,late_us,byte_offset,largest_n,first_copy,sent,"
    "arrivals,arrived,reordered,copies,closed_runs,sum_of_squares,open_run\n"
    "1,1,10,in_order,1,0,,,,,,,,,,,,,\n"
    "2,2,20,in_order,2,0,,,,,,,,,,,,,\n"
    "3,4,40,in_order,3,1,,,,,,,,,,,,,\n"
    "4,6,50,in_order,4,1,,,,,,,,,,,,,\n"
    "5,3,70,reordered,5,,2,30,100,2,,,,,,,,,\n"
    "6,3,80,copy,,,,,,,5,,,,,,,,\n"
    "7,5,45,reordered,6,,2,-5,60,0,,,,,,,,,\n"
    ",,,counts,,,,,,,,6,7,6,2,1,2,16,0\n";
static const char small_json[] =
    "{\"label\":\"cellar\",\"records\":[\n"
    "{\"record\":1,\"number\":1,\"time_us\":10,\"kind\":\"in_order\",\"position\":1,\"jump_size\":0},\n"
    "{\"record\":2,\"number\":2,\"time_us\":20,\"kind\":\"in_order\",\"position\":2,\"jump_size\":0},\n"
    "{\"record\":3,\"number\":4,\"time_us\":40,\"kind\":\"in_order\",\"position\":3,\"jump_size\":1},\n"
    "{\"record\":4,\"number\":6,\"time_us\":50,\"kind\":\"in_order\",\"position\":4,\"jump_size\":1},\n"
    "{\"record\":5,\"number\":3,\"time_us\":70,\"kind\":\"reordered\",\"position\":5,\"extent\":2,"
    "\"late_us\":30,\"byte_offset\":100,\"largest_n\":2},\n"
    "{\"record\":6,\"number\":3,\"time_us\":80,\"kind\":\"copy\",\"first_copy\":5},\n"
    "{\"record\":7,\"number\":5,\"time_us\":45,\"kind\":\"reordered\",\"position\":6,\"extent\":2,"
    "\"late_us\":-5,\"byte_offset\":60,\"largest_n\":0}\n"
    "],\"counts\":{\"sent\":6,\"arrivals\":7,\"arrived\":6,\"reordered\":2,\"copies\":1,"
    "\"closed_runs\":2,\"sum_of_squares\":16,\"open_run\":0}}\n";
enum { REPORT = sizeof small_report - 1, LOG = sizeof small_log - 1, MORE = sizeof small_more - 1 };
static uint8_t small[SMALL + 1];

/* Writes a number at a place, the most significant octet first. */
static void put(uint8_t *at, size_t width, uint64_t number) {
    for (size_t i = 0; i < width; i++)
        at[i] = (uint8_t)(number >> 8 * (width - 1 - i));
}

static void make_small(void) {
    put(small, 2, LABEL);
    memcpy(small + 2, small_label, LABEL);
    put(small + 2 + LABEL, 2, SENT);
    for (size_t i = 0; i < SENT; i++)
        put(small + SIZES_AT + 2 * i, 2, small_sizes[i]);
    put(small + ARRIVALS_AT - 2, 2, ARRIVALS);
    for (size_t i = 0; i < ARRIVALS; i++) {
        put(small + ARRIVALS_AT + 12 * i, 4, small_numbers[i]);
        put(small + ARRIVALS_AT + 12 * i + 4, 8, small_times[i]);
    }
}

/* Whether two rows are the same. */
static int same_row(const krakobran_row *a, const krakobran_row *b) {
    return a->kind == b->kind && a->position == b->position && a->jump == b->jump && a->extent == b->extent &&
           a->late == b->late && a->offset == b->offset && a->largest == b->largest && a->first == b->first;
}

/* ---- the sample file and its lists */

static void sample_file(void) {
    take_back();
    krakobran_layout *layout = FIGURES(krakobran_layout);
    int holds = accepted(krakobran_sample_check(small, SMALL, layout));
    passed("sample_check", holds && layout->label == LABEL && layout->sent == SENT && layout->arrivals == ARRIVALS);

    take_back();
    layout = FIGURES(krakobran_layout);
    uint16_t *sizes = lend((SENT + 1) * sizeof *sizes);
    uint32_t *numbers = lend((ARRIVALS + 1) * sizeof *numbers);
    uint64_t *times = lend((ARRIVALS + 1) * sizeof *times);
    expect(sizes, sizeof small_sizes);
    expect(numbers, sizeof small_numbers);
    expect(times, sizeof small_times);
    holds = accepted(krakobran_sample_read(small, SMALL, sizes, SENT + 1, numbers, ARRIVALS + 1, times, ARRIVALS + 1, layout));
    passed("sample_read", holds && layout->label == LABEL && layout->sent == SENT && layout->arrivals == ARRIVALS &&
                              memcmp(sizes, small_sizes, sizeof small_sizes) == 0 &&
                              memcmp(numbers, small_numbers, sizeof small_numbers) == 0 &&
                              memcmp(times, small_times, sizeof small_times) == 0);

    take_back();
    krakobran_part *label = FIGURES(krakobran_part);
    holds = accepted(krakobran_sample_label(small, SMALL, label));
    passed("sample_label", holds && label->start == 2 && label->length == LABEL);

    take_back();
    uint64_t *length = FIGURES(uint64_t);
    uint8_t *out = lend(SMALL + 9);
    expect(out, SMALL);
    holds = accepted(krakobran_sample_write((const uint8_t *)small_label, LABEL, small_sizes, SENT, small_numbers, ARRIVALS,
                                            small_times, ARRIVALS, out, SMALL + 9, length));
    passed("sample_write", holds && *length == SMALL && memcmp(out, small, SMALL) == 0);
}

/* Lists for which a writer has a refusal: beside the small sample's, what is wrong with them. */
static uint16_t wrong_sizes[KRAKOBRAN_SENT_MOST + 1];
static uint32_t wrong_numbers[KRAKOBRAN_ARRIVALS_MOST + 1];
static uint64_t wrong_times[KRAKOBRAN_ARRIVALS_MOST + 1];
static uint8_t wrong_label[KRAKOBRAN_LABEL_MOST + 1];

typedef struct {
    const char *name;
    uint64_t refusal, label, sent, numbers, times, room; /* lengths, and the room for output */
    uint32_t number;                                     /* the third number */
    uint64_t time;                                       /* the third time */
    uint8_t octet;                                       /* the first octet of the label */
} wrong_input;

static const wrong_input wrong_inputs[] = {{"label of 65 octets", 3, 65, 0, 9, 8, 0, 0, 0, 31},
                                           {"label octet 1F", 13, 1, 0, 9, 8, 0, 0, 0, 0x1F},
                                           {"label octet 7F", 13, 64, 0, 9, 8, 0, 0, 0, 0x7F},
                                           {"K of 0", 4, 64, 0, 4097, 8, 0, 0, 0, 0x20},
                                           {"K of 4,097", 4, 64, 4097, 4097, 8, 0, 0, 0, 0x7E},
                                           {"4,097 arrivals", 5, 64, 4096, 4097, 8, 0, 0, 0, 0x20},
                                           {"a time too few", 12, 0, 6, 7, 6, 0, 0, 0, 0},
                                           {"a time too many", 12, 0, 6, 7, 8, 0, 0, 0, 0},
                                           {"number 0, and a time too early", 6, 0, 6, 7, 7, 0, 0, 0, 0},
                                           {"number K + 1", 6, 0, 6, 7, 7, 0, 7, 3000, 0},
                                           {"a time back by 1,001", 7, 0, 6, 7, 7, 0, 2, 1999, 0},
                                           {"no room", 8, 0, 6, 7, 7, 0, 2, 2000, 0}};

/* Refills the lists with the wrong input's. */
static void make_wrong(const wrong_input *wrong) {
    memset(wrong_label, 'x', sizeof wrong_label);
    wrong_label[0] = wrong->octet;
    for (size_t i = 0; i <= KRAKOBRAN_ARRIVALS_MOST; i++) {
        wrong_sizes[i] = 100;
        wrong_numbers[i] = 1;
        wrong_times[i] = 3000;
    }
    wrong_numbers[2] = wrong->number;
    wrong_times[2] = wrong->time;
}

static void wrong_lists(void) {
    int writes = 1, checks = 1, logs = 1;
    for (size_t i = 0; i < sizeof wrong_inputs / sizeof wrong_inputs[0]; i++) {
        const wrong_input *wrong = &wrong_inputs[i];
        make_wrong(wrong);
        take_back();
        writes = writes && refused(krakobran_sample_write(wrong_label, wrong->label, wrong_sizes, wrong->sent, wrong_numbers,
                                                          wrong->numbers, wrong_times, wrong->times, LIST(uint8_t, wrong->room),
                                                          FIGURES(uint64_t)),
                                   wrong->refusal);
        if (wrong->refusal == 3 || wrong->refusal == 13)
            continue;
        uint64_t expected = wrong->refusal == 8 ? KRAKOBRAN_NONE : wrong->refusal;
        checks =
            checks && krakobran_lists_check(wrong->sent, wrong_numbers, wrong->numbers, wrong_times, wrong->times) == expected;
        take_back();
        logs = logs && refused(krakobran_log_write((uint32_t)wrong->sent, wrong_numbers, wrong->numbers, wrong_times,
                                                   wrong->times, LIST(uint8_t, wrong->room), FIGURES(uint64_t)),
                               wrong->refusal);
    }
    passed("sample_write, refused: label, K, lists, arrivals, room", writes);
    passed("lists_check, refused: K, lists, arrivals", checks);
    passed("lists_check: K of 2 to the 32 and 1",
           krakobran_lists_check(4294967297u, NULL, 0, NULL, 0) == KRAKOBRAN_SENT_OUTSIDE);
    passed("lists_check", krakobran_lists_check(SENT, small_numbers, ARRIVALS, small_times, ARRIVALS) == KRAKOBRAN_NONE);
    passed("log_write, refused: K, lists, arrivals, room", logs);

    take_back();
    passed("sample_write, one octet short",
           refused(krakobran_sample_write((const uint8_t *)small_label, LABEL, small_sizes, SENT, small_numbers, ARRIVALS,
                                          small_times, ARRIVALS, LIST(uint8_t, SMALL - 1), FIGURES(uint64_t)),
                   KRAKOBRAN_OUTPUT_SHORT));
}

/* ---- text logs and OWAMP records */

static void text_logs(void) {
    take_back();
    uint64_t *arrivals = FIGURES(uint64_t);
    uint32_t *numbers = lend((ARRIVALS + 1) * sizeof *numbers);
    uint64_t *times = lend((ARRIVALS + 1) * sizeof *times);
    expect(numbers, sizeof small_numbers);
    expect(times, sizeof small_times);
    int holds = accepted(
        krakobran_log_import((const uint8_t *)small_log, LOG, SENT, numbers, ARRIVALS + 1, times, ARRIVALS + 1, arrivals));
    passed("log_import", holds && *arrivals == ARRIVALS && memcmp(numbers, small_numbers, sizeof small_numbers) == 0 &&
                             memcmp(times, small_times, sizeof small_times) == 0);

    take_back();
    uint64_t *length = FIGURES(uint64_t);
    uint8_t *out = lend(LOG + 9);
    expect(out, LOG);
    holds = accepted(krakobran_log_write(SENT, small_numbers, ARRIVALS, small_times, ARRIVALS, out, LOG + 9, length));
    passed("log_write", holds && *length == LOG && memcmp(out, small_log, LOG) == 0);
    take_back();
    passed("log_write, one octet short", refused(krakobran_log_write(SENT, small_numbers, ARRIVALS, small_times, ARRIVALS,
                                                                     LIST(uint8_t, LOG - 1), FIGURES(uint64_t)),
                                                 KRAKOBRAN_OUTPUT_SHORT));

    static const struct {
        const char *log;
        uint32_t sent;
        uint64_t refusal, line, number_places, time_places;
    } logs[] = {{"1;1\n", 0, 4, 0, 9, 9},
                {"x\n", 4097, 4, 0, 9, 9},
                {"1;1\n2;2\n3;3", 3, 14, 3, 9, 9},
                {"1;1\n1;0,0001\n", 3, 14, 2, 9, 9},
                {"1;1\n4;4\n", 3, 6, 2, 9, 9},
                {"1;2\n0;2\n", 3, 6, 2, 9, 9},
                {"1;2,000\n2;0,999\n", 3, 7, 2, 9, 9},
                {"1;2,000\n2;1.0\n", 2, 8, 0, 1, 2},
                {"1;2,000\n2;1\n", 2, 8, 0, 2, 1}};
    int imports = 1, lines = 1;
    for (size_t i = 0; i < sizeof logs / sizeof logs[0]; i++) {
        const uint8_t *log = (const uint8_t *)logs[i].log;
        take_back();
        imports = imports &&
                  refused(krakobran_log_import(log, strlen(logs[i].log), logs[i].sent, LIST(uint32_t, logs[i].number_places),
                                               LIST(uint64_t, logs[i].time_places), FIGURES(uint64_t)),
                          logs[i].refusal);
        take_back();
        uint64_t *line = FIGURES(uint64_t);
        krakobran_log_refused_line(log, strlen(logs[i].log), logs[i].sent, line);
        lines = lines && accepted(KRAKOBRAN_NONE) && *line == logs[i].line;
    }
    passed("log_import, refused: K, lines, room", imports);
    passed("log_refused_line", lines);

    static const struct {
        const char *line;
        uint64_t refusal, number, time;
    } single[] = {{"7;4,05\n", 0, 7, 4050},         {"0;0\n", 0, 0, 0},    {"4294967295;1.5\n", 0, 4294967295, 1500},
                  {"4294967296;1\n", 14, 0, 0},      {"1;1", 14, 0, 0},     {"1;1\n2;2\n", 14, 0, 0},
                  {"", 14, 0, 0},                    {"\n", 14, 0, 0},      {"1;1\r\n", 14, 0, 0}};
    holds = 1;
    for (size_t i = 0; i < sizeof single / sizeof single[0]; i++) {
        take_back();
        krakobran_arrival *arrival = FIGURES(krakobran_arrival);
        uint64_t read = krakobran_log_read_line((const uint8_t *)single[i].line, strlen(single[i].line), arrival);
        holds = holds && (single[i].refusal ? refused(read, single[i].refusal) : accepted(read)) &&
                arrival->number == single[i].number && arrival->time == single[i].time;
    }
    passed("log_read_line", holds);

    static const struct {
        const char *line;
        uint64_t fault;
    } faults[] = {{"1;5,000\n", KRAKOBRAN_FAULT_NONE},
                  {"1;18446744073709551,616\n", KRAKOBRAN_FAULT_NONE},
                  {"\xEF\xBB\xBF"
                   "1;5\n",
                   KRAKOBRAN_FAULT_BYTE_ORDER_MARK},
                  {"\n", KRAKOBRAN_FAULT_EMPTY_LINE},
                  {"", KRAKOBRAN_FAULT_NO_DIGIT},
                  {"number;time\n", KRAKOBRAN_FAULT_NO_DIGIT},
                  {"\r\n", KRAKOBRAN_FAULT_CARRIAGE_RETURN},
                  {"1;5\r\n", KRAKOBRAN_FAULT_CARRIAGE_RETURN},
                  {"1;5", KRAKOBRAN_FAULT_NO_LINE_FEED},
                  {"4294967295;5\n", KRAKOBRAN_FAULT_NONE},
                  {"4294967296;5\n", KRAKOBRAN_FAULT_NUMBER_OVER},
                  {"1;5.0000\n", KRAKOBRAN_FAULT_MANY_DECIMALS},
                  {"1;5,\n", KRAKOBRAN_FAULT_OTHER},
                  {"1 5\n", KRAKOBRAN_FAULT_OTHER}};
    holds = 1;
    for (size_t i = 0; i < sizeof faults / sizeof faults[0]; i++)
        holds = holds && krakobran_log_line_fault((const uint8_t *)faults[i].line, strlen(faults[i].line)) == faults[i].fault;
    passed("log_line_fault", holds);

    static const char text[] = "1;5\n\n2;6";
    static const struct {
        uint64_t n, start, length;
    } text_lines[] = {{0, 0, 4}, {1, 4, 1}, {2, 5, 3}, {3, 8, 0}, {UINT64_MAX, 8, 0}};
    holds = 1;
    for (size_t i = 0; i < sizeof text_lines / sizeof text_lines[0]; i++) {
        take_back();
        krakobran_part *part = FIGURES(krakobran_part);
        krakobran_text_line((const uint8_t *)text, strlen(text), text_lines[i].n, part);
        holds = holds && accepted(KRAKOBRAN_NONE) && part->start == text_lines[i].start && part->length == text_lines[i].length;
    }
    passed("text_line", holds);
}

/* Logs whose numbers are the lowest 8 or 10 bits. */
static void short_logs(void) {
    static const char log_8[] = "100;1\n200;2\n255;3\n0;4\n3;5\n254;6\n", log_10[] = "500;1\n1000;2\n1023;3\n0;4\n5;5\n1020;6\n";
    static const uint32_t full_8[6] = {100, 200, 255, 256, 259, 254}, full_10[6] = {500, 1000, 1023, 1024, 1029, 1020};
    static const uint64_t at[6] = {1000, 2000, 3000, 4000, 5000, 6000};
    const struct {
        const char *log;
        const uint32_t *full;
        uint32_t sent;
        uint64_t (*import)(const uint8_t *, uint64_t, uint32_t, uint32_t *, uint64_t, uint64_t *, uint64_t, uint64_t *);
        void (*refused_line)(const uint8_t *, uint64_t, uint32_t, uint64_t *);
    } widths[2] = {{log_8, full_8, 259, krakobran_log_import_8, krakobran_log_refused_line_8},
                   {log_10, full_10, 1029, krakobran_log_import_10, krakobran_log_refused_line_10}};
    int imports = 1, lines = 1, refusals = 1;
    for (size_t i = 0; i < 2; i++) {
        const uint8_t *log = (const uint8_t *)widths[i].log;
        size_t octets = strlen(widths[i].log);
        take_back();
        uint64_t *arrivals = FIGURES(uint64_t);
        uint32_t *numbers = lend(7 * sizeof *numbers);
        uint64_t *times = lend(7 * sizeof *times);
        expect(numbers, sizeof full_8);
        expect(times, sizeof at);
        imports = imports && accepted(widths[i].import(log, octets, widths[i].sent, numbers, 7, times, 7, arrivals)) &&
                  *arrivals == 6 && memcmp(numbers, widths[i].full, sizeof full_8) == 0 && memcmp(times, at, sizeof at) == 0;
        for (uint32_t less = 0; less < 2; less++) {
            take_back();
            uint64_t *line = FIGURES(uint64_t);
            widths[i].refused_line(log, octets, widths[i].sent - less, line);
            lines = lines && accepted(KRAKOBRAN_NONE) && *line == (less ? 5 : 0);
        }
        const struct {
            const char *log;
            uint32_t sent;
            uint64_t refusal, places;
        } wrong[] = {{"x\n", 0, 4, 9},        {"1;1\nx\n", 9, 14, 9}, {"0;1\n", 400, 6, 9}, {"1;1\n1024;1\n", 4096, 6, 9},
                     {"1;2\n2;0,999\n", 9, 7, 9}, {"1;1\n2;2\n", 9, 8, 1}};
        for (size_t j = 0; j < sizeof wrong / sizeof wrong[0]; j++) {
            take_back();
            refusals = refusals && refused(widths[i].import((const uint8_t *)wrong[j].log, strlen(wrong[j].log), wrong[j].sent,
                                                            LIST(uint32_t, wrong[j].places), LIST(uint64_t, wrong[j].places),
                                                            FIGURES(uint64_t)),
                                           wrong[j].refusal);
        }
    }
    passed("log_import_8 and _10", imports);
    passed("log_refused_line_8 and _10", lines);
    passed("log_import_8 and _10, refused: K, lines, numbers, times, room", refusals);
}

static void owamp_records(void) {
    enum { RECORDS = 2 * KRAKOBRAN_OWAMP_RECORD_OCTETS };
    static const uint8_t record[KRAKOBRAN_OWAMP_RECORD_OCTETS] = {0, 0, 0, 2, 0, 1, 0, 1,   0, 0, 0, 0,  0,
                                                                  0, 0, 0, 0, 0, 0, 2, 128, 0, 0, 0, 255};
    static const uint16_t sizes[3] = {1, 2, 3};
    static const uint32_t two[2] = {3, 1};
    static const uint64_t at[2] = {1500000, 1500000};
    static const uint64_t far_at[2] = {1500000, 4294967295000000};
    uint8_t file[64];
    uint64_t octets;
    krakobran_sample_write(NULL, 0, sizes, 3, two, 2, at, 2, file, sizeof file, &octets);

    take_back();
    uint64_t *length = FIGURES(uint64_t);
    uint8_t *out = lend(RECORDS + 9);
    expect(out, RECORDS);
    int holds = accepted(krakobran_owamp_write(file, octets, out, RECORDS + 9, length));
    passed("owamp_write", holds && *length == RECORDS && memcmp(out, record, sizeof record) == 0);
    take_back();
    passed("owamp_write, one octet short",
           refused(krakobran_owamp_write(file, octets, LIST(uint8_t, RECORDS - 1), FIGURES(uint64_t)), KRAKOBRAN_OUTPUT_SHORT));

    /* One and a half seconds, a lost packet, and a quarter of a second: the times of the import. */
    uint8_t records[3 * KRAKOBRAN_OWAMP_RECORD_OCTETS];
    memset(records, 9, sizeof records);
    put(records, 4, 1), put(records + 16, 8, 6442450944);
    put(records + 25, 4, 7), put(records + 41, 8, 0);
    put(records + 50, 4, 0), put(records + 66, 8, 1073741824);
    take_back();
    uint64_t *arrivals = FIGURES(uint64_t);
    uint32_t *numbers = lend(3 * sizeof *numbers);
    uint64_t *times = lend(3 * sizeof *times);
    expect(numbers, 2 * sizeof *numbers);
    expect(times, 2 * sizeof *times);
    holds = accepted(krakobran_owamp_import(records, sizeof records, 2, numbers, 3, times, 3, arrivals));
    passed("owamp_import",
           holds && *arrivals == 2 && numbers[0] == 1 && numbers[1] == 2 && times[0] == 0 && times[1] == 1250000);

    static const struct {
        uint64_t refusal, octets, number_places, time_places;
        uint32_t sent;
    } wrong[] = {{15, 74, 3, 3, 0}, {4, 75, 3, 3, 0}, {4, 75, 3, 3, 4097},
                 {6, 75, 3, 3, 1},  {8, 75, 1, 3, 2}, {8, 75, 3, 1, 2}};
    holds = 1;
    for (size_t i = 0; i < sizeof wrong / sizeof wrong[0]; i++) {
        take_back();
        holds = holds &&
                refused(krakobran_owamp_import(records, wrong[i].octets, wrong[i].sent, LIST(uint32_t, wrong[i].number_places),
                                               LIST(uint64_t, wrong[i].time_places), FIGURES(uint64_t)),
                        wrong[i].refusal);
    }
    passed("owamp_import, refused: octets, K, numbers, room", holds);

    krakobran_sample_write(NULL, 0, sizes, 3, two, 2, far_at, 2, file, sizeof file, &octets);
    take_back();
    passed("owamp_write, refused: seconds over 32 bits",
           refused(krakobran_owamp_write(file, octets, LIST(uint8_t, RECORDS), FIGURES(uint64_t)), KRAKOBRAN_SECONDS_OVER));
}

/* ---- figures of the small sample */

static void records_of_it(void) {
    int answers = 1;
    for (uint32_t i = 0; i < ARRIVALS; i++) {
        take_back();
        krakobran_row *row = FIGURES(krakobran_row);
        answers = answers && accepted(krakobran_answer(small, SMALL, i + 1, row)) && same_row(row, &small_rows[i]);
    }
    passed("answer", answers);

    take_back();
    krakobran_row *rows = lend((ARRIVALS + 1) * sizeof *rows);
    expect(rows, sizeof small_rows);
    int holds = accepted(krakobran_rows(small, SMALL, rows, (ARRIVALS + 1) * KRAKOBRAN_ROW_NUMBERS));
    for (size_t i = 0; i < ARRIVALS; i++)
        holds = holds && same_row(&rows[i], &small_rows[i]);
    passed("rows", holds);

    int blocks = 1;
    for (uint32_t from = 0; from <= ARRIVALS + 1; from++) {
        size_t many = from < ARRIVALS ? ARRIVALS - from : 0;
        many = many < 2 ? many : 2;
        take_back();
        rows = lend(3 * sizeof *rows);
        expect(rows, many * sizeof *rows);
        blocks = blocks && accepted(krakobran_rows_from(small, SMALL, from, rows, 3 * KRAKOBRAN_ROW_NUMBERS - 1));
        for (size_t i = 0; i < many; i++)
            blocks = blocks && same_row(&rows[i], &small_rows[from + i]);
    }
    passed("rows from a record on, two at most", blocks);

    take_back();
    uint32_t *list = lend((ARRIVALS + 1) * sizeof *list);
    expect(list, ARRIVALS * sizeof *list);
    holds = accepted(krakobran_gaps(small, SMALL, list, ARRIVALS + 1));
    for (uint32_t i = 0; i < ARRIVALS; i++) {
        krakobran_gap_figures gap;
        holds = holds && krakobran_gap(small, SMALL, i + 1, &gap) == KRAKOBRAN_NONE && list[i] == gap.positions;
    }
    passed("gaps", holds);
    take_back();
    passed("gaps, refused: a place too few",
           refused(krakobran_gaps(small, SMALL, LIST(uint32_t, ARRIVALS - 1)), KRAKOBRAN_OUTPUT_SHORT));

    take_back();
    uint16_t *table = lend((KRAKOBRAN_SWEEP_TABLE_PLACES + 1) * sizeof *table);
    uint8_t *kinds = lend(ARRIVALS + 1);
    uint32_t *positions = lend((ARRIVALS + 1) * sizeof *positions), *extents = lend((ARRIVALS + 1) * sizeof *extents);
    uint64_t *lates = lend((ARRIVALS + 1) * sizeof *lates);
    expect(table, KRAKOBRAN_SWEEP_TABLE_PLACES * sizeof *table);
    expect(kinds, ARRIVALS);
    expect(positions, ARRIVALS * sizeof *positions);
    expect(extents, ARRIVALS * sizeof *extents);
    expect(lates, ARRIVALS * sizeof *lates);
    holds = accepted(krakobran_sweep(small, SMALL, table, KRAKOBRAN_SWEEP_TABLE_PLACES + 1, kinds, ARRIVALS + 1, positions,
                                     ARRIVALS + 1, extents, ARRIVALS + 1, lates, ARRIVALS + 1));
    for (size_t i = 0; i < ARRIVALS; i++)
        holds = holds && kinds[i] == small_rows[i].kind && positions[i] == small_rows[i].position &&
                extents[i] == small_rows[i].extent && lates[i] == small_rows[i].late;
    for (size_t i = 0; i < KRAKOBRAN_SWEEP_TABLE_PLACES; i++)
        holds = holds && table[i] == 0;
    passed("sweep", holds);

    int gaps = 1;
    for (uint32_t i = 0; i < ARRIVALS; i++) {
        take_back();
        krakobran_gap_figures *gap = FIGURES(krakobran_gap_figures);
        gaps =
            gaps && accepted(krakobran_gap(small, SMALL, i + 1, gap)) && gap->known == (i == 3) && gap->positions == (i == 3);
    }
    passed("gap", gaps);
}

static void figures_of_it(void) {
    take_back();
    krakobran_counts_figures *counts = FIGURES(krakobran_counts_figures);
    int holds = accepted(krakobran_counts(small, SMALL, counts));
    passed("counts", holds && counts->arrived == 6 && counts->reordered == 2 && counts->duplicates == 1 &&
                         counts->inorder == 4 && counts->closed == 2 && counts->squares == 16 && counts->current == 0);

    take_back();
    uint32_t *tally = lend_figures(KRAKOBRAN_TALLY_PLACES * sizeof *tally);
    holds = accepted(krakobran_tally(small, SMALL, tally));
    for (uint32_t i = 0; i < KRAKOBRAN_TALLY_PLACES; i++)
        holds = holds && tally[i] == (i == 2 ? 2u : 0u);
    passed("tally", holds);

    int n_reordered = 1, degrees = 1;
    for (uint32_t n = 1; n <= KRAKOBRAN_DEGREE_MOST; n++) {
        take_back();
        krakobran_degree_counts *pair = FIGURES(krakobran_degree_counts);
        n_reordered = n_reordered && accepted(krakobran_n_reordered(small, SMALL, n, pair)) && pair->reordered == (n <= 2) &&
                      pair->arrived == 6;
        take_back();
        krakobran_degree_figures *degree = FIGURES(krakobran_degree_figures);
        degrees = degrees && accepted(krakobran_degree(small, SMALL, n, degree)) && degree->known == 1 &&
                  krakobran_double(degree->bits) == (n <= 2 ? 1.0 / 6 : 0.0);
    }
    passed("n_reordered", n_reordered);
    passed("degree", degrees);

    take_back();
    krakobran_ratios_figures *ratios = FIGURES(krakobran_ratios_figures);
    holds = accepted(krakobran_ratios(small, SMALL, ratios));
    passed("ratios", holds && ratios->known == 1 && krakobran_double(ratios->reordered) == 2.0 / 6 &&
                         krakobran_double(ratios->degree1) == 1.0 / 6 && ratios->degree3 == 0);
    passed("double", krakobran_double(0x3FF8000000000000) == 1.5);

    take_back();
    uint64_t *total = FIGURES(uint64_t);
    holds = accepted(krakobran_disorder(small, SMALL, total));
    passed("disorder", holds && *total == 3);
}

static void needs_of_it(void) {
    take_back();
    krakobran_needs *needs = FIGURES(krakobran_needs);
    int holds = accepted(krakobran_greatest_needs(small, SMALL, needs));
    passed("greatest_needs", holds && needs->packets == 2 && needs->octets == 100 && needs->time == 30);

    /* By measure and size, how many of the six need no more. */
    static const struct {
        uint32_t measure;
        uint64_t size, accommodated;
    } sizes[] = {{0, 0, 4},   {0, 1, 4}, {0, 2, 6},  {1, 59, 4}, {1, 60, 5},        {1, 99, 5},
                 {1, 100, 6}, {2, 0, 5}, {2, 29, 5}, {2, 30, 6}, {2, UINT64_MAX, 6}};
    holds = 1;
    for (size_t i = 0; i < sizeof sizes / sizeof sizes[0]; i++) {
        take_back();
        krakobran_accommodated_counts *pair = FIGURES(krakobran_accommodated_counts);
        holds = holds && accepted(krakobran_accommodated(small, SMALL, sizes[i].measure, sizes[i].size, pair)) &&
                pair->accommodated == sizes[i].accommodated && pair->arrived == 6;
    }
    passed("accommodated", holds);

    /* By measure, least size and distance, the same at every place. */
    static const struct {
        uint32_t measure, shift;
        uint64_t low;
    } steps_asked[] = {{0, 0, 0}, {0, 63, 0},  {0, UINT32_MAX, 0}, {1, 0, 0},          {1, 2, 3},
                       {1, 0, 60}, {2, 0, 0}, {2, 5, 1},           {2, 64, UINT64_MAX}};
    holds = 1;
    for (size_t i = 0; i < sizeof steps_asked / sizeof steps_asked[0]; i++) {
        uint32_t measure = steps_asked[i].measure, shift = steps_asked[i].shift;
        uint64_t low = steps_asked[i].low;
        take_back();
        krakobran_steps *steps = FIGURES(krakobran_steps);
        holds = holds && accepted(krakobran_accommodated_steps(small, SMALL, measure, low, shift, steps)) && steps->arrived == 6 &&
                steps->greatest == (measure == 0 ? 2u : measure == 1 ? 100u : 30u);
        for (uint64_t j = 0; j < KRAKOBRAN_STEP_PLACES; j++) {
            /* a size over 64 bits accommodates all, as the greatest does */
            int over = j > 0 && (shift > 63 || j > (UINT64_MAX - low) >> shift);
            krakobran_accommodated_counts pair;
            krakobran_accommodated(small, SMALL, measure, over ? UINT64_MAX : low + (j ? j << shift : 0), &pair);
            holds = holds && steps->counts[j] == pair.accommodated;
        }
    }
    passed("accommodated_steps", holds);

    /* By measure and share, the least size. */
    static const struct {
        uint32_t measure, part, whole;
        uint64_t size;
    } shares[] = {{0, 4, 6, 0},  {0, 5, 6, 2},     {1, 4, 6, 0},
                  {1, 5, 6, 60}, {1, 6, 6, 100},   {2, 5, 6, 0},
                  {2, 1, 1, 30}, {2, 99, 100, 30}, {2, UINT32_MAX, UINT32_MAX, 30}};
    holds = 1;
    for (size_t i = 0; i < sizeof shares / sizeof shares[0]; i++) {
        take_back();
        uint64_t *size = FIGURES(uint64_t);
        holds = holds &&
                accepted(krakobran_least_size(small, SMALL, shares[i].measure, shares[i].part, shares[i].whole, size)) &&
                *size == shares[i].size;
    }
    passed("least_size", holds);
}

/* ---- its report and its summary; another sample */

static void texts_of_it(void) {
    take_back();
    uint64_t *length = FIGURES(uint64_t);
    uint8_t *out = lend(REPORT + 9);
    expect(out, REPORT);
    int holds = accepted(krakobran_report_write(small, SMALL, out, REPORT + 9, length));
    passed("report_write", holds && *length == REPORT && memcmp(out, small_report, REPORT) == 0);
    take_back();
    passed("report_write, one octet short",
           refused(krakobran_report_write(small, SMALL, LIST(uint8_t, REPORT - 1), FIGURES(uint64_t)), KRAKOBRAN_OUTPUT_SHORT));

    static const struct {
        size_t octets;
        uint64_t agrees, line;
    } reports[] = {{REPORT, 1, 0}, {REPORT - 1, 0, 9}, {REPORT + 1, 0, 10}, {18, 0, 2}, {0, 0, 1}};
    holds = 1;
    for (size_t i = 0; i < sizeof reports / sizeof reports[0]; i++) {
        take_back();
        krakobran_verdict *verdict = FIGURES(krakobran_verdict);
        holds = holds &&
                accepted(krakobran_report_check(small, SMALL, (const uint8_t *)small_report, reports[i].octets, verdict)) &&
                verdict->agrees == reports[i].agrees && verdict->line == reports[i].line;
    }
    passed("report_check", holds);

    static char summary[KRAKOBRAN_SUMMARY_OCTETS + 1];
    uint64_t octets = 0;
    holds = krakobran_summary_write(small, SMALL, (uint8_t *)summary, KRAKOBRAN_SUMMARY_OCTETS, &octets) == KRAKOBRAN_NONE;
    passed("summary_write, how it begins and a waiting time", holds && octets == strlen(summary) &&
                                                                  strncmp(summary, "6 packets sent", 14) == 0 &&
                                                                  strstr(summary, " 0.030 ms ") != NULL);
    take_back();
    length = FIGURES(uint64_t);
    out = lend(octets + 9);
    expect(out, octets);
    holds = accepted(krakobran_summary_write(small, SMALL, out, octets + 9, length));
    passed("summary_write", holds && *length == octets && memcmp(out, summary, octets) == 0);
    take_back();
    passed(
        "summary_write, one octet short",
        refused(krakobran_summary_write(small, SMALL, LIST(uint8_t, octets - 1), FIGURES(uint64_t)), KRAKOBRAN_OUTPUT_SHORT));

    static char json[KRAKOBRAN_SUMMARY_OCTETS + 1];
    holds = krakobran_summary_json(small, SMALL, (uint8_t *)json, KRAKOBRAN_SUMMARY_OCTETS, &octets) == KRAKOBRAN_NONE;
    passed("summary_json, how it begins, a waiting time and its end",
           holds && octets == strlen(json) && strncmp(json, "{\"label\":\"", 10) == 0 &&
               strstr(json, "\"waiting_time_us\":30,") != NULL && strcmp(json + octets - 2, "}\n") == 0);
    take_back();
    length = FIGURES(uint64_t);
    out = lend(octets + 9);
    expect(out, octets);
    holds = accepted(krakobran_summary_json(small, SMALL, out, octets + 9, length));
    passed("summary_json", holds && *length == octets && memcmp(out, json, octets) == 0);
    take_back();
    passed("summary_json, one octet short",
           refused(krakobran_summary_json(small, SMALL, LIST(uint8_t, octets - 1), FIGURES(uint64_t)), KRAKOBRAN_OUTPUT_SHORT));

    size_t summed = strlen(summary);
    take_back();
    length = FIGURES(uint64_t);
    out = lend(summed + MORE + 9);
    expect(out, summed + MORE);
    holds = accepted(krakobran_summary_all(small, SMALL, out, summed + MORE + 9, length));
    passed("summary_all", holds && *length == summed + MORE && memcmp(out, summary, summed) == 0 &&
                              memcmp(out + summed, small_more, MORE) == 0);
    take_back();
    passed("summary_all, one octet short",
           refused(krakobran_summary_all(small, SMALL, LIST(uint8_t, summed + MORE - 1), FIGURES(uint64_t)),
                   KRAKOBRAN_OUTPUT_SHORT));
}

/* The table of a sample's records, part by part. */
static uint64_t table_part(int json, uint32_t part, uint8_t *out, uint64_t room, uint64_t *length) {
    return json ? krakobran_table_json(small, SMALL, part, out, room, length)
                : krakobran_table_csv(small, SMALL, part, out, room, length);
}

static void table_of_it(void) {
    static const char *const names[] = {"table_csv", "table_json"}, *const wholes[] = {small_csv, small_json};
    for (int json = 0; json < 2; json++) {
        const char *rest = wholes[json];
        int parts = 1, shorts = 1;
        char text[100];
        for (uint32_t part = 0; part < KRAKOBRAN_TABLE_PARTS; part++) {
            uint64_t octets = 0;
            take_back();
            parts = parts && table_part(json, part, lend(KRAKOBRAN_TABLE_PART_OCTETS), KRAKOBRAN_TABLE_PART_OCTETS, &octets) == 0;
            take_back();
            uint64_t *length = FIGURES(uint64_t);
            uint8_t *out = lend(octets + 9);
            expect(out, octets);
            parts = parts && accepted(table_part(json, part, out, octets + 9, length)) && *length == octets &&
                    octets <= strlen(rest) && memcmp(out, rest, octets) == 0;
            rest += parts ? octets : 0;
            take_back();
            shorts = shorts && (octets == 0 || refused(table_part(json, part, LIST(uint8_t, octets - 1), FIGURES(uint64_t)),
                                                       KRAKOBRAN_OUTPUT_SHORT));
        }
        passed(names[json], parts && *rest == 0);
        snprintf(text, sizeof text, "%s, one octet short", names[json]);
        passed(text, shorts);
        take_back();
        uint64_t *length = FIGURES(uint64_t);
        uint8_t *out = lend(9);
        snprintf(text, sizeof text, "%s, a part that there is not", names[json]);
        passed(text, accepted(table_part(json, KRAKOBRAN_TABLE_PARTS, out, 9, length)) && *length == 0 &&
                         table_part(json, UINT32_MAX, out, 9, length) == KRAKOBRAN_NONE && *length == 0);
    }
}

static void labels(void) {
    static const char label[] = "a\"b\\", member[] = "{\"label\":\"a\\\"b\\\\\"";
    enum { MEMBER = sizeof member - 1 };
    static uint8_t quotes[KRAKOBRAN_LABEL_MOST + 1];
    memset(quotes, '"', sizeof quotes);
    take_back();
    uint64_t *length = FIGURES(uint64_t);
    uint8_t *out = lend(MEMBER + 9);
    expect(out, MEMBER);
    int holds = accepted(krakobran_label_json((const uint8_t *)label, sizeof label - 1, out, MEMBER + 9, length));
    passed("label_json", holds && *length == MEMBER && memcmp(out, member, MEMBER) == 0);
    take_back();
    passed("label_json, one octet short",
           refused(krakobran_label_json((const uint8_t *)label, sizeof label - 1, LIST(uint8_t, MEMBER - 1), FIGURES(uint64_t)),
                   KRAKOBRAN_OUTPUT_SHORT));
    take_back();
    length = FIGURES(uint64_t);
    out = lend(KRAKOBRAN_LABEL_JSON_OCTETS);
    expect(out, KRAKOBRAN_LABEL_JSON_OCTETS);
    holds = accepted(krakobran_label_json(quotes, KRAKOBRAN_LABEL_MOST, out, KRAKOBRAN_LABEL_JSON_OCTETS, length));
    passed("label_json of the longest label", holds && *length == KRAKOBRAN_LABEL_JSON_OCTETS);
    take_back();
    passed("label_json, refused: label of 65 octets, and no room",
           refused(krakobran_label_json(quotes, KRAKOBRAN_LABEL_MOST + 1, LIST(uint8_t, 0), FIGURES(uint64_t)),
                   KRAKOBRAN_LONG_LABEL));
}

static void two_samples(void) {
    static const uint16_t sizes[2] = {100, 100};
    static const uint32_t numbers[2] = {2, 1};
    static const uint64_t times[2] = {0, 0};
    uint8_t half[64];
    uint64_t octets;
    krakobran_sample_write((const uint8_t *)"roof", 4, sizes, 2, numbers, 2, times, 2, half, sizeof half, &octets);
    for (uint64_t link = 1; link <= 2; link++) {
        take_back();
        krakobran_worse_link *worse = FIGURES(krakobran_worse_link);
        int holds = accepted(link == 1 ? krakobran_worse(half, octets, small, SMALL, worse)
                                       : krakobran_worse(small, SMALL, half, octets, worse));
        passed("worse", holds && worse->link == link && worse->start == 2 && worse->length == 4);
    }
}

/* ---- refusals of every call over a file */

static uint32_t asked, whole;

#define OVER_FILE(name, call) \
    static uint64_t file_##name(const uint8_t *file, uint64_t octets) { return call; }
OVER_FILE(sample_check, krakobran_sample_check(file, octets, FIGURES(krakobran_layout)))
OVER_FILE(sample_read, krakobran_sample_read(file, octets, LIST(uint16_t, 6), LIST(uint32_t, 7), LIST(uint64_t, 7),
                                             FIGURES(krakobran_layout)))
OVER_FILE(sample_label, krakobran_sample_label(file, octets, FIGURES(krakobran_part)))
OVER_FILE(owamp_write, krakobran_owamp_write(file, octets, LIST(uint8_t, 175), FIGURES(uint64_t)))
OVER_FILE(answer, krakobran_answer(file, octets, asked, FIGURES(krakobran_row)))
OVER_FILE(rows, krakobran_rows(file, octets, lend(7 * sizeof(krakobran_row)), 56))
OVER_FILE(rows_from, krakobran_rows_from(file, octets, 1, lend(7 * sizeof(krakobran_row)), 56))
OVER_FILE(gaps, krakobran_gaps(file, octets, LIST(uint32_t, 7)))
OVER_FILE(counts, krakobran_counts(file, octets, FIGURES(krakobran_counts_figures)))
OVER_FILE(tally, krakobran_tally(file, octets, (uint32_t *)lend_figures(404)))
OVER_FILE(gap, krakobran_gap(file, octets, asked, FIGURES(krakobran_gap_figures)))
OVER_FILE(n_reordered, krakobran_n_reordered(file, octets, asked, FIGURES(krakobran_degree_counts)))
OVER_FILE(degree, krakobran_degree(file, octets, asked, FIGURES(krakobran_degree_figures)))
OVER_FILE(ratios, krakobran_ratios(file, octets, FIGURES(krakobran_ratios_figures)))
OVER_FILE(disorder, krakobran_disorder(file, octets, FIGURES(uint64_t)))
OVER_FILE(sweep, krakobran_sweep(file, octets, LIST(uint16_t, 4096), LIST(uint8_t, 7), LIST(uint32_t, 7), LIST(uint32_t, 7),
                                 LIST(uint64_t, 7)))
OVER_FILE(worse_first, krakobran_worse(file, octets, small, SMALL - 1, FIGURES(krakobran_worse_link)))
OVER_FILE(worse_second, krakobran_worse(small, SMALL, file, octets, FIGURES(krakobran_worse_link)))
OVER_FILE(greatest_needs, krakobran_greatest_needs(file, octets, FIGURES(krakobran_needs)))
OVER_FILE(accommodated, krakobran_accommodated(file, octets, asked, 0, FIGURES(krakobran_accommodated_counts)))
OVER_FILE(accommodated_steps, krakobran_accommodated_steps(file, octets, asked, 0, 0, FIGURES(krakobran_steps)))
OVER_FILE(least_size, krakobran_least_size(file, octets, asked, 1, 1, FIGURES(uint64_t)))
OVER_FILE(least_share, krakobran_least_size(file, octets, KRAKOBRAN_MEASURE_TIME, asked, whole, FIGURES(uint64_t)))
OVER_FILE(report_write, krakobran_report_write(file, octets, LIST(uint8_t, 200), FIGURES(uint64_t)))
OVER_FILE(report_check, krakobran_report_check(file, octets, (const uint8_t *)small_report, REPORT, FIGURES(krakobran_verdict)))
OVER_FILE(summary_write, krakobran_summary_write(file, octets, LIST(uint8_t, 2048), FIGURES(uint64_t)))
OVER_FILE(summary_json, krakobran_summary_json(file, octets, LIST(uint8_t, 2048), FIGURES(uint64_t)))
OVER_FILE(summary_all, krakobran_summary_all(file, octets, LIST(uint8_t, 4096), FIGURES(uint64_t)))
OVER_FILE(table_csv, krakobran_table_csv(file, octets, asked, LIST(uint8_t, 4096), FIGURES(uint64_t)))
OVER_FILE(table_json, krakobran_table_json(file, octets, asked, LIST(uint8_t, 4096), FIGURES(uint64_t)))

#define FILE_CALL(name) \
    { #name, file_##name }
static const struct {
    const char *name;
    uint64_t (*call)(const uint8_t *file, uint64_t octets);
} file_calls[] = {
    FILE_CALL(sample_check), FILE_CALL(sample_read),    FILE_CALL(sample_label), FILE_CALL(owamp_write), FILE_CALL(answer),
    FILE_CALL(rows),         FILE_CALL(counts),         FILE_CALL(tally),        FILE_CALL(gap),         FILE_CALL(n_reordered),
    FILE_CALL(degree),       FILE_CALL(ratios),         FILE_CALL(disorder),     FILE_CALL(sweep),       FILE_CALL(worse_first),
    FILE_CALL(worse_second), FILE_CALL(greatest_needs), FILE_CALL(accommodated), FILE_CALL(least_size),  FILE_CALL(least_share),
    FILE_CALL(report_write), FILE_CALL(report_check),   FILE_CALL(summary_write), FILE_CALL(summary_json), FILE_CALL(gaps),
    FILE_CALL(accommodated_steps), FILE_CALL(summary_all), FILE_CALL(table_csv), FILE_CALL(table_json),
    FILE_CALL(rows_from)};

/* The small sample with one number changed, of this width, and the refusal of that. */
static const struct {
    size_t at, width;
    uint64_t number, refusal;
} damages[] = {{0, 2, 65, 3},
               {0, 2, 5, 4}, /* the label's last octet becomes the first of K, 29,184 */
               {0, 2, 7, 13},
               {2, 1, 0x1F, 13},
               {2, 1, 0x7F, 13},
               {2 + LABEL, 2, 0, 4},
               {2 + LABEL, 2, 4097, 4},
               {2 + LABEL, 2, 4096, 1},
               {ARRIVALS_AT - 2, 2, 6, 2},
               {ARRIVALS_AT - 2, 2, 4097, 5},
               {ARRIVALS_AT - 2, 2, 4096, 1},
               {ARRIVALS_AT, 4, 0, 6},
               {ARRIVALS_AT, 4, 7, 6},
               {ARRIVALS_AT + 12, 4, 65537, 6},
               {ARRIVALS_AT + 4, 8, 1021, 7},
               {ARRIVALS_AT + 4, 8, UINT64_MAX, 7}};

static void damaged_files(void) {
    uint8_t damaged[SMALL + 1];
    for (size_t i = 0; i < sizeof file_calls / sizeof file_calls[0]; i++) {
        int holds = 1;
        /* What is asked for is outside too: the file's refusal comes first. */
        asked = UINT32_MAX;
        whole = 0;
        for (size_t j = 0; j < sizeof damages / sizeof damages[0]; j++) {
            memcpy(damaged, small, sizeof damaged);
            put(damaged + damages[j].at, damages[j].width, damages[j].number);
            take_back();
            holds = holds && refused(file_calls[i].call(damaged, SMALL), damages[j].refusal);
        }
        for (size_t octets = 0; octets <= SMALL + 1; octets++) {
            take_back();
            if (octets != SMALL)
                holds = holds && refused(file_calls[i].call(small, octets), octets < SMALL ? 1 : 2);
        }
        char text[100];
        snprintf(text, sizeof text, "%s, refused: a damaged file, or not all of it", file_calls[i].name);
        passed(text, holds);
    }
}

/* Calls over the small sample with what is asked for outside its range. */
static void asked_outside(void) {
    static const struct {
        const char *name;
        uint64_t (*call)(const uint8_t *file, uint64_t octets);
        uint32_t asked, whole;
    } outside[] = {{"answer, refused: record 0", file_answer, 0, 0},
                   {"answer, refused: record A + 1", file_answer, 8, 0},
                   {"gap, refused: record 0", file_gap, 0, 0},
                   {"gap, refused: record A + 1", file_gap, 8, 0},
                   {"n_reordered, refused: n of 0", file_n_reordered, 0, 0},
                   {"n_reordered, refused: n of 101", file_n_reordered, 101, 0},
                   {"degree, refused: n of 0", file_degree, 0, 0},
                   {"degree, refused: n of 101", file_degree, 101, 0},
                   {"accommodated, refused: measure 3", file_accommodated, 3, 0},
                   {"accommodated, refused: the greatest measure", file_accommodated, UINT32_MAX, 0},
                   {"accommodated_steps, refused: measure 3", file_accommodated_steps, 3, 0},
                   {"accommodated_steps, refused: the greatest measure", file_accommodated_steps, UINT32_MAX, 0},
                   {"least_size, refused: measure 3", file_least_size, 3, 0},
                   {"least_size, refused: part 0", file_least_share, 0, 1},
                   {"least_size, refused: part 2 of 1", file_least_share, 2, 1},
                   {"least_size, refused: part 0 of 0", file_least_share, 0, 0}};
    for (size_t i = 0; i < sizeof outside / sizeof outside[0]; i++) {
        asked = outside[i].asked;
        whole = outside[i].whole;
        take_back();
        passed(outside[i].name, refused(outside[i].call(small, SMALL), KRAKOBRAN_ASKED_OUTSIDE));
    }
}

/* Lists of the small sample, each in turn one place too short. */
static void lists_short(void) {
    int reads = 1, sweeps = 1;
    for (int i = 0; i < 3; i++) {
        take_back();
        reads = reads && refused(krakobran_sample_read(small, SMALL, LIST(uint16_t, SENT - (i == 0)),
                                                       LIST(uint32_t, ARRIVALS - (i == 1)), LIST(uint64_t, ARRIVALS - (i == 2)),
                                                       FIGURES(krakobran_layout)),
                                 KRAKOBRAN_OUTPUT_SHORT);
    }
    passed("sample_read, refused: a list too short", reads);
    for (int i = 0; i < 5; i++) {
        take_back();
        sweeps = sweeps && refused(krakobran_sweep(small, SMALL, LIST(uint16_t, KRAKOBRAN_SWEEP_TABLE_PLACES - (i == 0)),
                                                   LIST(uint8_t, ARRIVALS - (i == 1)), LIST(uint32_t, ARRIVALS - (i == 2)),
                                                   LIST(uint32_t, ARRIVALS - (i == 3)), LIST(uint64_t, ARRIVALS - (i == 4))),
                                   KRAKOBRAN_OUTPUT_SHORT);
    }
    passed("sweep, refused: the table or a list too short", sweeps);
    take_back();
    passed("rows, refused: a number too few",
           refused(krakobran_rows(small, SMALL, lend(sizeof small_rows), ARRIVALS * KRAKOBRAN_ROW_NUMBERS - 1),
                   KRAKOBRAN_OUTPUT_SHORT));
}

/* ---- fragments and short numbers */

static void fragments(void) {
    /* Packet 1 in three fragments, the second late; then a whole packet 2, and a copy of it. */
    static const uint32_t numbers[7] = {1, 1, 1, 1, 2, 2, 2};
    static const uint64_t times[7] = {0, 0, 0, 0, 0, 0, 0};
    static const uint16_t lengths[7] = {8, 8, 8, 5, 9, 9, 9}, offsets[7] = {0, 2, 1, 3, 0, 0, 0};
    static const uint8_t mores[7] = {1, 255, 1, 0, 0, 0, 0};
    static const uint8_t known_flags[6] = {0, 0, 1, 0, 0, 3}, known_usable[6] = {1, 1, 1, 1, 1, 0};
    take_back();
    uint8_t *flags = lend(7), *usable = lend(7);
    expect(flags, 6);
    expect(usable, 6);
    int holds =
        accepted(krakobran_fragment_order(2, numbers, 6, times, 6, lengths, 6, mores, 6, offsets, 6, flags, 7, usable, 7));
    passed("fragment_order", holds && memcmp(flags, known_flags, 6) == 0 && memcmp(usable, known_usable, 6) == 0);

    static const uint16_t zero_lengths[1] = {0};
    static const struct {
        uint64_t refusal, flags, usable;
        uint32_t sent;
        int other; /* the list that has another length, from 1; 0 for none */
    } wrong[] = {{4, 6, 6, 0, 0},  {4, 6, 6, 4097, 0}, {12, 6, 6, 2, 1}, {12, 6, 6, 2, 2}, {12, 6, 6, 2, 3},
                 {12, 6, 6, 2, 4}, {6, 6, 6, 1, 0},    {8, 5, 6, 2, 0},  {8, 6, 5, 2, 0}};
    holds = 1;
    for (size_t i = 0; i < sizeof wrong / sizeof wrong[0]; i++) {
        int other = wrong[i].other;
        take_back();
        holds = holds && refused(krakobran_fragment_order(wrong[i].sent, numbers, 6, times, 6 + (other == 1), lengths,
                                                          6 + (other == 2), mores, 6 + (other == 3), offsets, 6 + (other == 4),
                                                          LIST(uint8_t, wrong[i].flags), LIST(uint8_t, wrong[i].usable)),
                                 wrong[i].refusal);
    }
    take_back();
    holds = holds && refused(krakobran_fragment_order(1, numbers, 1, times, 1, zero_lengths, 1, mores, 1, offsets, 1,
                                                      LIST(uint8_t, 1), LIST(uint8_t, 1)),
                             KRAKOBRAN_FRAGMENT_UNFIT);
    passed("fragment_order, refused: K, lists, numbers, lengths, room", holds);
}

static void short_numbers(void) {
    static const uint16_t shorts_8[7] = {100, 200, 255, 0, 3, 254, 90}, shorts_10[4] = {500, 1000, 5, 1020};
    static const uint32_t full_8[7] = {100, 200, 255, 256, 259, 254, 346}, full_10[4] = {500, 1000, 1029, 1020};
    static const uint64_t times[8] = {0};
    take_back();
    uint32_t *numbers = lend(8 * sizeof *numbers);
    expect(numbers, sizeof full_8);
    int holds = accepted(krakobran_full_numbers_8(346, shorts_8, 7, times, 7, numbers, 8));
    passed("full_numbers_8", holds && memcmp(numbers, full_8, sizeof full_8) == 0);
    take_back();
    numbers = lend(8 * sizeof *numbers);
    expect(numbers, sizeof full_10);
    holds = accepted(krakobran_full_numbers_10(1029, shorts_10, 4, times, 4, numbers, 8));
    passed("full_numbers_10", holds && memcmp(numbers, full_10, sizeof full_10) == 0);

    static const uint16_t wide_8[1] = {256}, wide_10[1] = {1024};
    static const struct {
        uint64_t refusal, times, places;
        uint32_t sent_8, sent_10;
    } wrong[] = {{4, 4, 4, 0, 4097}, {12, 5, 4, 346, 1029}, {6, 4, 4, 255, 1028}, {8, 4, 3, 346, 1029}};
    holds = 1;
    for (size_t i = 0; i < sizeof wrong / sizeof wrong[0]; i++) {
        take_back();
        holds = holds && refused(krakobran_full_numbers_8(wrong[i].sent_8, shorts_8, 4, times, wrong[i].times,
                                                          LIST(uint32_t, wrong[i].places)),
                                 wrong[i].refusal);
        take_back();
        holds = holds && refused(krakobran_full_numbers_10(wrong[i].sent_10, shorts_10, 4, times, wrong[i].times,
                                                           LIST(uint32_t, wrong[i].places)),
                                 wrong[i].refusal);
    }
    take_back();
    holds = holds && refused(krakobran_full_numbers_8(4096, wide_8, 1, times, 1, LIST(uint32_t, 1)), KRAKOBRAN_NUMBER_OUTSIDE);
    holds =
        holds && refused(krakobran_full_numbers_10(4096, wide_10, 1, times, 1, LIST(uint32_t, 1)), KRAKOBRAN_NUMBER_OUTSIDE);
    passed("full_numbers_8 and _10, refused: K, lists, numbers, room", holds);
}

/* One arrival more than there may be, in lists, in a log and in records. */
static void many_arrivals(void) {
    enum { MANY = KRAKOBRAN_ARRIVALS_MOST + 1 };
    static uint32_t numbers[MANY];
    static uint16_t shorts[MANY];
    static uint8_t log[4 * MANY], records[KRAKOBRAN_OWAMP_RECORD_OCTETS * MANY];
    for (size_t i = 0; i < MANY; i++) {
        numbers[i] = shorts[i] = 1;
        memcpy(log + 4 * i, "1;0\n", 4);
        put(records + KRAKOBRAN_OWAMP_RECORD_OCTETS * i + 16, 8, 1);
    }
    take_back();
    int holds = refused(krakobran_log_import(log, sizeof log, 1, LIST(uint32_t, MANY), LIST(uint64_t, MANY), FIGURES(uint64_t)),
                        KRAKOBRAN_MANY_ARRIVALS);
    take_back();
    uint64_t *line = FIGURES(uint64_t);
    krakobran_log_refused_line(log, sizeof log, 1, line);
    passed("log_import, refused: 4,097 lines", holds && accepted(KRAKOBRAN_NONE) && *line == MANY);
    take_back();
    passed("owamp_import, refused: 4,097 records",
           refused(krakobran_owamp_import(records, sizeof records, 1, LIST(uint32_t, MANY), LIST(uint64_t, MANY),
                                          FIGURES(uint64_t)),
                   KRAKOBRAN_MANY_ARRIVALS));
    take_back();
    passed("fragment_order, refused: 4,097 arrivals",
           refused(krakobran_fragment_order(1, numbers, MANY, NULL, 0, NULL, 0, NULL, 0, NULL, 0, LIST(uint8_t, MANY),
                                            LIST(uint8_t, MANY)),
                   KRAKOBRAN_MANY_ARRIVALS));
    take_back();
    holds = refused(krakobran_full_numbers_8(1, shorts, MANY, NULL, 0, LIST(uint32_t, MANY)), KRAKOBRAN_MANY_ARRIVALS);
    take_back();
    holds =
        holds && refused(krakobran_full_numbers_10(1, shorts, MANY, NULL, 0, LIST(uint32_t, MANY)), KRAKOBRAN_MANY_ARRIVALS);
    passed("full_numbers_8 and _10, refused: 4,097 arrivals", holds);
}

/* Two arrivals, the second stamped 1,001 before the first. */
static void early_arrivals(void) {
    static const uint32_t numbers[2] = {1, 1};
    static const uint16_t shorts[2] = {1, 1}, lengths[2] = {1, 1}, offsets[2] = {0, 0};
    static const uint64_t times[2] = {1001, 0};
    static const uint8_t mores[2] = {0, 0};
    take_back();
    passed("fragment_order, refused: a time back",
           refused(krakobran_fragment_order(1, numbers, 2, times, 2, lengths, 2, mores, 2, offsets, 2, LIST(uint8_t, 2),
                                            LIST(uint8_t, 2)),
                   KRAKOBRAN_TIME_BACK));
    take_back();
    int holds = refused(krakobran_full_numbers_8(1, shorts, 2, times, 2, LIST(uint32_t, 2)), KRAKOBRAN_TIME_BACK);
    take_back();
    holds = holds && refused(krakobran_full_numbers_10(1, shorts, 2, times, 2, LIST(uint32_t, 2)), KRAKOBRAN_TIME_BACK);
    passed("full_numbers_8 and _10, refused: a time back", holds);
}

/* ---- receivers and meters */

/* What is noted of the small sample's arrivals. */
static const krakobran_noted small_noted[ARRIVALS] = {{KRAKOBRAN_IN_ORDER, 0, 0, 0},         {KRAKOBRAN_IN_ORDER, 0, 0, 0},
                                                      {KRAKOBRAN_IN_ORDER, 1, 0, 0},         {KRAKOBRAN_IN_ORDER, 1, 0, 0},
                                                      {KRAKOBRAN_REORDERED_AFTER, 0, 2, 30}, {KRAKOBRAN_DUPLICATE, 0, 0, 0},
                                                      {KRAKOBRAN_REORDERED_BEFORE, 0, 2, 5}};

/* Whether the same is noted. */
static int same_noted(const krakobran_noted *a, const krakobran_noted *b) {
    return a->kind == b->kind && a->jump == b->jump && a->extent == b->extent && a->late == b->late;
}

/* What a stream has for itself after each of them. */
static const krakobran_stream small_streams[ARRIVALS] = {
    {SENT, 1, 0, 1, 2, 0, 10, {0, 0, 1}, 0}, {SENT, 2, 0, 2, 3, 0, 20, {0, 0, 2}, 0},  {SENT, 3, 0, 3, 5, 1, 40, {0, 0, 3}, 0},
    {SENT, 4, 0, 4, 7, 2, 50, {0, 0, 4}, 0}, {SENT, 5, 0, 4, 7, 2, 70, {1, 16, 0}, 0}, {SENT, 5, 1, 4, 7, 2, 80, {1, 16, 0}, 0},
    {SENT, 6, 1, 4, 7, 2, 80, {2, 16, 0}, 0}};
static const uint64_t small_marks[ARRIVALS] = {1, 3, 11, 43, 47, 47, 63};

/* Whether a stream is as after so many of the small sample's arrivals, of which the last is an index. */
static int small_stream(const krakobran_stream *stream, const uint64_t *marks, size_t last) {
    int zeros = 1;
    for (size_t i = 1; i < KRAKOBRAN_SENT_MOST / 64; i++)
        zeros = zeros && marks[i] == 0;
    return zeros && marks[0] == small_marks[last] && memcmp(stream, &small_streams[last], sizeof *stream) == 0;
}

/* A stream that is fresh for so many packets. */
static krakobran_stream fresh_stream(uint32_t sent) {
    krakobran_stream stream = {sent, 0, 0, 0, 1, 0, 0, {0, 0, 0}, 0};
    return stream;
}

/* Makes a stream one that expects the same number next, but has no arrival and no kept jump: fit, and reached by no step. */
static void forget(krakobran_stream *stream, uint64_t *marks) {
    stream->arrived = stream->duplicates = stream->inorder = stream->kept = 0;
    memset(&stream->runs, 0, sizeof stream->runs);
    marks[0] = 0;
}

/* Steps by a whole number, or by its lowest 8 or 10 bits. */
static uint64_t step(int width, krakobran_receiver *receiver, uint32_t number, uint64_t time, krakobran_noted *noted) {
    return width == 8    ? krakobran_receiver_step_8(receiver, (uint16_t)number, time, noted)
           : width == 10 ? krakobran_receiver_step_10(receiver, (uint16_t)number, time, noted)
                         : krakobran_receiver_step(receiver, number, time, noted);
}

static const int widths[] = {32, 8, 10};
static const char *const step_names[] = {"receiver_step", "receiver_step_8", "receiver_step_10"};

static void receivers(void) {
    for (int i = 0; i < 3; i++) {
        char text[100];
        take_back();
        krakobran_receiver *receiver = lend(sizeof *receiver);
        krakobran_noted *noted = FIGURES(krakobran_noted);
        expect(receiver, sizeof *receiver);
        int holds = krakobran_receiver_fresh(receiver, SENT) == KRAKOBRAN_NONE;
        for (size_t j = 0; j < ARRIVALS; j++)
            holds = holds && step(widths[i], receiver, small_numbers[j], small_times[j], noted) == KRAKOBRAN_NONE &&
                    same_noted(noted, &small_noted[j]) && small_stream(&receiver->stream, receiver->marks, j);
        passed(step_names[i], accepted(KRAKOBRAN_NONE) && holds && receiver->places.positions[0] == 3 &&
                                  receiver->places.numbers[0] == 4 && receiver->places.times[0] == 40 &&
                                  receiver->places.positions[1] == 4 && receiver->places.numbers[1] == 6 &&
                                  receiver->places.times[1] == 50);
        settle();
        answer_count = 0;
        holds = refused(step(widths[i], receiver, 0, 80, noted), KRAKOBRAN_NUMBER_OUTSIDE);
        holds = holds && refused(step(widths[i], receiver, 7, 80, noted), KRAKOBRAN_NUMBER_OUTSIDE);
        holds = holds && (widths[i] == 32 || refused(step(widths[i], receiver, 1025, 80, noted), KRAKOBRAN_NUMBER_OUTSIDE));
        receiver->stream.greatest = 1100;
        settle();
        holds = holds && refused(step(widths[i], receiver, 1, 99, noted), KRAKOBRAN_TIME_BACK);
        forget(&receiver->stream, receiver->marks);
        settle();
        holds = holds && refused(step(widths[i], receiver, 1, 100, noted), KRAKOBRAN_STATE_UNFIT);
        memset(receiver, 0xC3, sizeof *receiver);
        settle();
        holds = holds && refused(step(widths[i], receiver, 1, 100, noted), KRAKOBRAN_STATE_UNFIT);
        krakobran_receiver_fresh(receiver, SENT);
        for (uint32_t j = 0; j < KRAKOBRAN_ARRIVALS_MOST; j++)
            holds = holds && step(widths[i], receiver, 1, 100, noted) == KRAKOBRAN_NONE;
        settle();
        holds = holds && refused(step(widths[i], receiver, 1, 100, noted), KRAKOBRAN_STATE_FULL);
        snprintf(text, sizeof text, "%s, refused: number, time, state", step_names[i]);
        passed(text, holds);
    }

    take_back();
    krakobran_receiver *receiver = lend(sizeof *receiver);
    static krakobran_receiver fresh;
    fresh.stream = fresh_stream(SENT);
    expect(receiver, sizeof *receiver);
    passed("receiver_fresh", accepted(krakobran_receiver_fresh(receiver, SENT)) && memcmp(receiver, &fresh, sizeof fresh) == 0);
    settle();
    answer_count = 0;
    passed("receiver_fresh, refused: K of 0 and of 4,097",
           refused(krakobran_receiver_fresh(receiver, 0), KRAKOBRAN_SENT_OUTSIDE) &&
               refused(krakobran_receiver_fresh(receiver, 4097), KRAKOBRAN_SENT_OUTSIDE));

    /* 65 jumps, the oldest dropped; then the packet that it skipped, stamped after and before the oldest kept one. */
    for (int back = 0; back < 2; back++) {
        krakobran_noted noted;
        krakobran_noted expected = {back ? KRAKOBRAN_BEYOND_BEFORE : KRAKOBRAN_BEYOND_AFTER, 0, 64, back ? 20 : 640};
        krakobran_receiver_fresh(receiver, 130);
        for (uint32_t i = 1; i <= 65; i++)
            krakobran_receiver_step(receiver, 2 * i, 10 * i, &noted);
        uint64_t refusal = krakobran_receiver_step(receiver, 1, back ? 0 : 660, &noted);
        passed("receiver_step, beyond the window",
               refusal == KRAKOBRAN_NONE && receiver->stream.dropped == 2 && same_noted(&noted, &expected));
    }
}

/* A receiver is saved as memory in a file after some arrivals, loaded from it, and both are fed the rest. */
static void saved_and_loaded(void) {
    static krakobran_receiver kept, loaded;
    krakobran_noted noted, again;
    FILE *saved = tmpfile();
    int holds = saved != NULL && krakobran_receiver_fresh(&kept, 300) == KRAKOBRAN_NONE;
    for (uint32_t i = 0; i < 100; i++)
        krakobran_receiver_step(&kept, 2 * i + 2, i, &noted);
    holds = holds && fwrite(&kept, sizeof kept, 1, saved) == 1;
    rewind(saved);
    memset(&loaded, 0xC3, sizeof loaded);
    holds = holds && fread(&loaded, sizeof loaded, 1, saved) == 1;
    fclose(saved);
    for (uint32_t i = 0; i < 100; i++) {
        uint64_t refusal = krakobran_receiver_step(&kept, 2 * i + 1, i, &noted);
        holds = holds && refusal == krakobran_receiver_step(&loaded, 2 * i + 1, i, &again) && same_noted(&noted, &again);
    }
    passed("a receiver, saved and loaded", holds && memcmp(&kept, &loaded, sizeof kept) == 0);
}

/* ---- what `krakobran follow` says */

/* Whether follow_line writes this text of a line and an outcome, and is refused with 8 where it is one octet too long. */
static int says(const char *line, uint64_t refusal, krakobran_noted noted, const char *text) {
    const uint8_t *read = (const uint8_t *)line;
    size_t octets = strlen(text);
    take_back();
    uint64_t *length = FIGURES(uint64_t);
    uint8_t *out = lend(octets + 9);
    expect(out, octets);
    int holds = accepted(krakobran_follow_line(read, strlen(line), refusal, &noted, out, octets + 9, length));
    holds = holds && *length == octets && memcmp(out, text, octets) == 0;
    take_back();
    return holds && refused(krakobran_follow_line(read, strlen(line), refusal, &noted, LIST(uint8_t, octets - 1),
                                                  FIGURES(uint64_t)),
                            KRAKOBRAN_OUTPUT_SHORT);
}

/* Whether follow_line is refused with 9, with room and without. */
static int says_nothing(uint64_t refusal, krakobran_noted noted) {
    static const uint8_t line[] = "5;0,071\n";
    take_back();
    int holds = refused(krakobran_follow_line(line, sizeof line - 1, refusal, &noted, LIST(uint8_t, KRAKOBRAN_FOLLOW_OCTETS),
                                              FIGURES(uint64_t)),
                        KRAKOBRAN_ASKED_OUTSIDE);
    take_back();
    return holds && refused(krakobran_follow_line(line, sizeof line - 1, refusal, &noted, LIST(uint8_t, 0), FIGURES(uint64_t)),
                            KRAKOBRAN_ASKED_OUTSIDE);
}

static void followed(void) {
    static const char line[] = "5;0,071\n", malformed[] = "refused 14: a line not of the form, or a value over the field's range\n";
    static const krakobran_noted none = {0, 0, 0, 0}, garbage = {9, 9, 9, 9};
    passed("follow_line, in order", says(line, 0, (krakobran_noted){KRAKOBRAN_IN_ORDER, 3, 0, 0}, "5 at 71 us: in order, jump 3\n"));
    passed("follow_line, reordered, late after and before",
           says(line, 0, (krakobran_noted){KRAKOBRAN_REORDERED_AFTER, 0, 1, 30}, "5 at 71 us: late by 1 packet, 30 us\n") &&
               says(line, 0, (krakobran_noted){KRAKOBRAN_REORDERED_BEFORE, 0, 2, UINT64_MAX},
                    "5 at 71 us: late by 2 packets, -18446744073709551615 us\n"));
    passed("follow_line, a copy", says(line, 0, (krakobran_noted){KRAKOBRAN_DUPLICATE, 0, 0, 0}, "5 at 71 us: copy\n"));
    passed("follow_line, beyond the window",
           says(line, 0, (krakobran_noted){KRAKOBRAN_BEYOND_AFTER, 0, 1, 640},
                "5 at 71 us: late by more than 1 packet, beyond the window\n") &&
               says(line, 0, (krakobran_noted){KRAKOBRAN_BEYOND_BEFORE, 0, UINT32_MAX, 20},
                    "5 at 71 us: late by more than 4294967295 packets, beyond the window\n"));
    passed("follow_line, a refused step", says(line, KRAKOBRAN_TIME_BACK, none,
                                               "5 at 71 us: refused 7: arrival time over 1,000 below the greatest earlier time\n") &&
                                              says(line, UINT32_MAX, none, "5 at 71 us: refused 4294967295: \n"));
    passed("follow_line, a line that is malformed", says("5;0,071", 0, none, malformed) && says("", UINT64_MAX, garbage, malformed));
    int holds = says_nothing((uint64_t)1 << 32, none) && says_nothing(0, garbage);
    for (uint64_t kind = 0; kind < 7; kind++) {
        int late = kind == 1 || kind == 2 || kind == 4 || kind == 5;
        const krakobran_noted over[] = {{kind, (uint64_t)1 << 32, 0, 0}, {kind, 0, (uint64_t)1 << 32, 0}, {kind, 1, 0, 0},
                                        {kind, 0, 1, 0},                 {kind, 0, 0, 1},                 {kind, 0, 0, 0}};
        for (size_t i = 0; i < sizeof over / sizeof over[0]; i++) {
            int outcome = kind < 6 && (i == 2 ? kind == 0 : i == 3 || i == 4 ? late : i == 5);
            holds = holds && (outcome || says_nothing(0, over[i]));
        }
    }
    passed("follow_line, refused: no outcome", holds);

    static const char counts[] = "accepted 7, in order 4, reordered 2, copies 1, closed runs 1, open run 0\n";
    enum { COUNTS = sizeof counts - 1 };
    take_back();
    uint64_t *length = FIGURES(uint64_t);
    uint8_t *out = lend(COUNTS + 9);
    expect(out, COUNTS);
    holds = accepted(krakobran_follow_counts(6, 4, 1, 1, 0, out, COUNTS + 9, length));
    passed("follow_counts", holds && *length == COUNTS && memcmp(out, counts, COUNTS) == 0);
    take_back();
    passed("follow_counts, one octet short",
           refused(krakobran_follow_counts(6, 4, 1, 1, 0, LIST(uint8_t, COUNTS - 1), FIGURES(uint64_t)), KRAKOBRAN_OUTPUT_SHORT));
    take_back();
    length = FIGURES(uint64_t);
    out = lend(KRAKOBRAN_FOLLOW_OCTETS);
    expect(out, KRAKOBRAN_FOLLOW_OCTETS);
    passed("follow_counts of the greatest numbers",
           accepted(krakobran_follow_counts(UINT32_MAX, 0, UINT32_MAX, UINT32_MAX, UINT32_MAX, out, KRAKOBRAN_FOLLOW_OCTETS,
                                            length)) &&
               memcmp(out, "accepted 8589934590, in order 0, reordered 4294967295, ", 55) == 0);
    passed("NULL: follow_line and follow_counts, no room",
           krakobran_follow_line(NULL, 0, 0, &none, NULL, 0, length) == KRAKOBRAN_OUTPUT_SHORT &&
               krakobran_follow_counts(0, 0, 0, 0, 0, NULL, 0, length) == KRAKOBRAN_OUTPUT_SHORT);
}

static void meters(void) {
    take_back();
    krakobran_meter *meter = lend(sizeof *meter);
    krakobran_noted *noted = FIGURES(krakobran_noted);
    expect(meter, sizeof *meter);
    krakobran_meter_new(meter);
    static krakobran_meter fresh;
    fresh.first.stream = fresh.second.stream = fresh_stream(1);
    int holds = memcmp(meter, &fresh, sizeof fresh) == 0;
    passed("meter_new", holds && accepted(KRAKOBRAN_NONE));
    fresh.second.stream = fresh_stream(SENT);
    holds = krakobran_meter_start(meter, 2, SENT) == KRAKOBRAN_NONE && memcmp(meter, &fresh, sizeof fresh) == 0;
    fresh.first.stream = fresh_stream(SENT);
    holds = holds && krakobran_meter_start(meter, 1, SENT) == KRAKOBRAN_NONE && memcmp(meter, &fresh, sizeof fresh) == 0;
    passed("meter_start", holds && accepted(KRAKOBRAN_NONE));
    for (size_t i = 0; i < ARRIVALS; i++)
        for (uint32_t stream = 1; stream <= 2; stream++)
            holds = holds && krakobran_meter_step(meter, stream, small_numbers[i], small_times[i], noted) == KRAKOBRAN_NONE &&
                    same_noted(noted, &small_noted[i]) && small_stream(&meter->first.stream, meter->first.marks, i) &&
                    (stream == 1 || small_stream(&meter->second.stream, meter->second.marks, i));
    passed("meter_step", holds && accepted(KRAKOBRAN_NONE) && meter->places.numbers[0] == 4 && meter->places.numbers[1] == 6 &&
                             meter->places.numbers[62] == 6 && meter->places.numbers[63] == 4 &&
                             meter->places.positions[1] == 4 && meter->places.positions[62] == 4 &&
                             meter->places.times[0] == 40 && meter->places.times[62] == 50);

    settle();
    answer_count = 0;
    for (uint32_t stream = 0; stream <= 3; stream += 3)
        holds = holds && refused(krakobran_meter_step(meter, stream, 1, 80, noted), KRAKOBRAN_NO_STREAM) &&
                refused(krakobran_meter_start(meter, stream, SENT), KRAKOBRAN_NO_STREAM);
    for (uint32_t stream = 1; stream <= 2; stream++)
        holds = holds && refused(krakobran_meter_step(meter, stream, 7, 80, noted), KRAKOBRAN_NUMBER_OUTSIDE) &&
                refused(krakobran_meter_start(meter, stream, 0), KRAKOBRAN_SENT_OUTSIDE) &&
                refused(krakobran_meter_start(meter, stream, 4097), KRAKOBRAN_SENT_OUTSIDE);
    meter->second.stream.greatest = 1100;
    settle();
    holds = holds && refused(krakobran_meter_step(meter, 2, 1, 99, noted), KRAKOBRAN_TIME_BACK);
    meter->second.stream.kept = 49;
    settle();
    for (uint32_t stream = 1; stream <= 2; stream++)
        holds = holds && refused(krakobran_meter_step(meter, stream, 1, 80, noted), KRAKOBRAN_STATE_UNFIT) &&
                refused(krakobran_meter_start(meter, stream, 0), KRAKOBRAN_STATE_UNFIT);
    krakobran_meter_new(meter);
    for (uint32_t i = 0; i < KRAKOBRAN_ARRIVALS_MOST; i++)
        holds = holds && krakobran_meter_step(meter, 2, 1, 100, noted) == KRAKOBRAN_NONE;
    settle();
    holds = holds && refused(krakobran_meter_step(meter, 2, 1, 100, noted), KRAKOBRAN_STATE_FULL);
    forget(&meter->second.stream, meter->second.marks);
    settle();
    holds = holds && refused(krakobran_meter_step(meter, 2, 1, 100, noted), KRAKOBRAN_STATE_UNFIT);
    passed("meter_start and meter_step, refused: stream, K, number, time, state", holds);
}

/* ---- the library itself */

static void words_and_version(void) {
    static const char words[] = "label over 64 octets";
    enum { WORDS = sizeof words - 1 };
    take_back();
    uint64_t *length = FIGURES(uint64_t);
    uint8_t *out = lend(WORDS + 9);
    expect(out, WORDS);
    int holds = accepted(krakobran_refusal_words(KRAKOBRAN_LONG_LABEL, out, WORDS + 9, length));
    passed("refusal_words", holds && *length == WORDS && memcmp(out, words, WORDS) == 0);
    take_back();
    passed("refusal_words, one octet short",
           refused(krakobran_refusal_words(KRAKOBRAN_LONG_LABEL, LIST(uint8_t, WORDS - 1), FIGURES(uint64_t)),
                   KRAKOBRAN_OUTPUT_SHORT));
    static const uint64_t none[] = {0, 19, 4294967299u, UINT64_MAX};
    holds = 1;
    for (size_t i = 0; i < sizeof none / sizeof none[0]; i++) {
        take_back();
        holds =
            holds && refused(krakobran_refusal_words(none[i], LIST(uint8_t, 128), FIGURES(uint64_t)), KRAKOBRAN_ASKED_OUTSIDE);
    }
    passed("refusal_words, refused: a number that is none", holds);
    holds = 1;
    for (uint64_t i = 1; i <= KRAKOBRAN_SECONDS_OVER; i++) {
        take_back();
        length = FIGURES(uint64_t);
        out = lend(KRAKOBRAN_WORDS_OCTETS);
        expect(out, KRAKOBRAN_WORDS_OCTETS);
        holds = holds && accepted(krakobran_refusal_words(i, out, KRAKOBRAN_WORDS_OCTETS, length)) && *length > 0;
    }
    passed("refusal_words of every refusal", holds);
    passed("NULL: refusal_words, no room",
           krakobran_refusal_words(KRAKOBRAN_LONG_LABEL, NULL, 0, lend_figures(8)) == KRAKOBRAN_OUTPUT_SHORT);
    passed("version",
           krakobran_version() == 1000000 * KRAKOBRAN_VERSION_MAJOR + 1000 * KRAKOBRAN_VERSION_MINOR + KRAKOBRAN_VERSION_PATCH);
}

/* ---- NULL where there are no places */

static void no_places(void) {
    const uint16_t size = 100;
    uint16_t read_size = 0;
    uint8_t file[8];
    uint64_t length;
    krakobran_layout layout;
    krakobran_verdict verdict;
    static uint16_t table[KRAKOBRAN_SWEEP_TABLE_PLACES];
    asked = whole = 1;
    for (size_t i = 0; i < sizeof file_calls / sizeof file_calls[0]; i++) {
        char text[100];
        take_back();
        snprintf(text, sizeof text, "NULL: %s of no octets", file_calls[i].name);
        passed(text, refused(file_calls[i].call(NULL, 0), KRAKOBRAN_ENDS_EARLY));
    }
    passed("NULL: sample_write, no label and no arrivals",
           krakobran_sample_write(NULL, 0, &size, 1, NULL, 0, NULL, 0, file, sizeof file, &length) == KRAKOBRAN_NONE &&
               length == 8);
    passed("NULL: sample_write, no sizes",
           krakobran_sample_write(NULL, 0, NULL, 0, NULL, 0, NULL, 0, NULL, 0, &length) == KRAKOBRAN_SENT_OUTSIDE);
    passed("NULL: sample_write, no room",
           krakobran_sample_write(NULL, 0, &size, 1, NULL, 0, NULL, 0, NULL, 0, &length) == KRAKOBRAN_OUTPUT_SHORT);
    passed("NULL: sample_read, no arrivals",
           krakobran_sample_read(file, 8, &read_size, 1, NULL, 0, NULL, 0, &layout) == KRAKOBRAN_NONE && read_size == 100);
    passed("NULL: sample_read, no room",
           krakobran_sample_read(small, SMALL, NULL, 0, NULL, 0, NULL, 0, &layout) == KRAKOBRAN_OUTPUT_SHORT);
    passed("NULL: lists_check", krakobran_lists_check(1, NULL, 0, NULL, 0) == KRAKOBRAN_NONE);
    passed("NULL: log_import of an empty log",
           krakobran_log_import(NULL, 0, 1, NULL, 0, NULL, 0, &length) == KRAKOBRAN_NONE && length == 0);
    passed("NULL: log_import, no room",
           krakobran_log_import((const uint8_t *)small_log, LOG, SENT, NULL, 0, NULL, 0, &length) == KRAKOBRAN_OUTPUT_SHORT);
    krakobran_log_refused_line(NULL, 0, 1, &length);
    passed("NULL: log_refused_line of an empty log", length == 0);
    krakobran_arrival arrival;
    passed("NULL: log_read_line of nothing", krakobran_log_read_line(NULL, 0, &arrival) == KRAKOBRAN_LINE_MALFORMED);
    passed("NULL: log_line_fault of nothing", krakobran_log_line_fault(NULL, 0) == KRAKOBRAN_FAULT_NO_DIGIT);
    krakobran_part part = {1, 1};
    krakobran_text_line(NULL, 0, 0, &part);
    passed("NULL: text_line of no text", part.start == 0 && part.length == 0);
    passed("NULL: log_import_8 and _10 of an empty log",
           krakobran_log_import_8(NULL, 0, 1, NULL, 0, NULL, 0, &length) == KRAKOBRAN_NONE && length == 0 &&
               krakobran_log_import_10(NULL, 0, 1, NULL, 0, NULL, 0, &length) == KRAKOBRAN_NONE && length == 0);
    passed("NULL: gaps of no arrivals", krakobran_gaps(file, 8, NULL, 0) == KRAKOBRAN_NONE);
    passed("NULL: gaps, no room", krakobran_gaps(small, SMALL, NULL, 0) == KRAKOBRAN_OUTPUT_SHORT);
    passed("NULL: log_write of no arrivals", krakobran_log_write(1, NULL, 0, NULL, 0, NULL, 0, &length) == KRAKOBRAN_NONE);
    passed("NULL: owamp_import of no records", krakobran_owamp_import(NULL, 0, 1, NULL, 0, NULL, 0, &length) == KRAKOBRAN_NONE);
    passed("NULL: owamp_write of no arrivals",
           krakobran_owamp_write(file, 8, NULL, 0, &length) == KRAKOBRAN_NONE && length == 0);
    passed("NULL: rows of no arrivals", krakobran_rows(file, 8, NULL, 0) == KRAKOBRAN_NONE);
    passed("NULL: rows from a record on, no room", krakobran_rows_from(small, SMALL, 1, NULL, 0) == KRAKOBRAN_NONE);
    passed("NULL: rows, no room", krakobran_rows(small, SMALL, NULL, 0) == KRAKOBRAN_OUTPUT_SHORT);
    passed("NULL: report_write, no room", krakobran_report_write(file, 8, NULL, 0, &length) == KRAKOBRAN_OUTPUT_SHORT);
    passed("NULL: report_check of an empty report",
           krakobran_report_check(file, 8, NULL, 0, &verdict) == KRAKOBRAN_NONE && verdict.agrees == 0 && verdict.line == 1);
    passed("NULL: summary_write, no room", krakobran_summary_write(file, 8, NULL, 0, &length) == KRAKOBRAN_OUTPUT_SHORT);
    passed("NULL: summary_json, no room", krakobran_summary_json(file, 8, NULL, 0, &length) == KRAKOBRAN_OUTPUT_SHORT);
    passed("NULL: summary_all, no room", krakobran_summary_all(file, 8, NULL, 0, &length) == KRAKOBRAN_OUTPUT_SHORT);
    passed("NULL: table_csv and table_json, no room",
           krakobran_table_csv(file, 8, 0, NULL, 0, &length) == KRAKOBRAN_OUTPUT_SHORT &&
               krakobran_table_json(file, 8, 0, NULL, 0, &length) == KRAKOBRAN_OUTPUT_SHORT);
    passed("NULL: table_csv and table_json of no arrivals",
           krakobran_table_csv(file, 8, 1, NULL, 0, &length) == KRAKOBRAN_NONE && length == 0 &&
               krakobran_table_json(file, 8, 1, NULL, 0, &length) == KRAKOBRAN_NONE && length == 0);
    passed("NULL: label_json of no label, no room", krakobran_label_json(NULL, 0, NULL, 0, &length) == KRAKOBRAN_OUTPUT_SHORT);
    passed("NULL: sweep of no arrivals",
           krakobran_sweep(file, 8, table, KRAKOBRAN_SWEEP_TABLE_PLACES, NULL, 0, NULL, 0, NULL, 0, NULL, 0) == KRAKOBRAN_NONE);
    passed("NULL: sweep, no room",
           krakobran_sweep(small, SMALL, NULL, 0, NULL, 0, NULL, 0, NULL, 0, NULL, 0) == KRAKOBRAN_OUTPUT_SHORT);
    passed("NULL: fragment_order of no arrivals",
           krakobran_fragment_order(1, NULL, 0, NULL, 0, NULL, 0, NULL, 0, NULL, 0, NULL, 0, NULL, 0) == KRAKOBRAN_NONE);
    passed("NULL: full_numbers of no arrivals", krakobran_full_numbers_8(1, NULL, 0, NULL, 0, NULL, 0) == KRAKOBRAN_NONE &&
                                                    krakobran_full_numbers_10(1, NULL, 0, NULL, 0, NULL, 0) == KRAKOBRAN_NONE);
}

/* ---- the longest sample: its packets in pairs that are exchanged, with a copy in each fourth place */

enum { MOST = KRAKOBRAN_ARRIVALS_MOST };
static uint16_t sizes[MOST], shorts[MOST], table[KRAKOBRAN_SWEEP_TABLE_PLACES], lengths[MOST], offsets[MOST], falling[MOST],
    mixed[MOST];
static uint32_t ones[MOST], numbers[MOST], positions[MOST], extents[MOST];
static uint64_t times[MOST], lates[MOST];
static uint8_t mores[MOST], kinds[MOST], used[MOST];
static uint8_t file[KRAKOBRAN_FILE_OCTETS], out[KRAKOBRAN_REPORT_OCTETS], records[KRAKOBRAN_OWAMP_RECORD_OCTETS * MOST],
    reversed[sizeof records];
static const uint8_t label[KRAKOBRAN_LABEL_MOST + 1] = "0123456789012345678901234567890123456789012345678901234567890123";
static uint64_t octets, recorded;

static void make_longest(void) {
    for (uint32_t i = 0; i < MOST; i++) {
        sizes[i] = 100;
        numbers[i] = i % 4 == 3 ? i - 1 : (i ^ 1) + 1;
        times[i] = 10 * (uint64_t)i;
        shorts[i] = (uint16_t)(numbers[i] % 256);
        lengths[i] = 8;
        ones[i] = 1;
        falling[i] = (uint16_t)(MOST - i);
        mixed[i] = (uint16_t)(i * 2731 % MOST);
    }
    uint64_t refusal = krakobran_sample_write(label, KRAKOBRAN_LABEL_MOST, sizes, KRAKOBRAN_SENT_MOST, numbers, MOST, times,
                                              MOST, file, sizeof file, &octets);
    refusal += krakobran_owamp_write(file, octets, records, sizeof records, &recorded);
    for (size_t i = 0; i < MOST; i++)
        memcpy(reversed + KRAKOBRAN_OWAMP_RECORD_OCTETS * i, records + KRAKOBRAN_OWAMP_RECORD_OCTETS * (MOST - 1 - i),
               KRAKOBRAN_OWAMP_RECORD_OCTETS);
    passed("the longest sample, and its OWAMP records",
           refusal == KRAKOBRAN_NONE && octets == KRAKOBRAN_FILE_OCTETS && recorded == sizeof records);
}

/* ---- nothing of the stack */

/* Leaves an octet all over the stack below. */
static void paint(uint8_t octet) {
    volatile uint8_t below[2 * KRAKOBRAN_STACK_OCTETS];
    for (size_t i = 0; i < sizeof below; i++)
        below[i] = octet;
}

/* A receiver after arrivals, with the stack painted before each call and what it held before. */
static void fed_receiver(uint8_t octet, krakobran_receiver *saved) {
    krakobran_noted noted;
    memset(saved, octet, sizeof *saved);
    paint(octet);
    krakobran_receiver_fresh(saved, 300);
    for (uint32_t i = 0; i < 300; i++) {
        uint32_t number = i < 150 ? 2 * i + 2 : 2 * (i - 150) + 1;
        paint(octet);
        step(i % 2 == 0 ? 10 : 32, saved, number, i, &noted);
    }
}

/* A meter likewise. */
static void fed_meter(uint8_t octet, krakobran_meter *saved) {
    krakobran_noted noted;
    memset(saved, octet, sizeof *saved);
    paint(octet);
    krakobran_meter_new(saved);
    for (uint32_t stream = 1; stream <= 2; stream++) {
        paint(octet);
        krakobran_meter_start(saved, stream, 300);
    }
    for (uint32_t i = 0; i < 300; i++) {
        uint32_t number = i < 150 ? 2 * i + 2 : 2 * (i - 150) + 1;
        paint(octet);
        krakobran_meter_step(saved, i % 2 + 1, number, i, &noted);
    }
}

static void nothing_of_the_stack(void) {
    static krakobran_receiver one, other;
    static krakobran_meter first, second;
    fed_receiver(0x5A, &one);
    fed_receiver(0xC3, &other);
    passed("a receiver is the same memory whatever it and the stack held", memcmp(&one, &other, sizeof one) == 0);
    fed_meter(0x5A, &first);
    fed_meter(0xC3, &second);
    passed("a meter is the same memory whatever it and the stack held", memcmp(&first, &second, sizeof first) == 0);
}

/* ---- how much stack a call needs */

/* Each call of the library by a name of its own, on the longest input that it accepts. */
static const uint8_t line[] = "1;18446744073709551,615\n";
static const uint32_t record = MOST - 2;
static const krakobran_noted no_note;
static krakobran_receiver receiver;
static krakobran_meter meter;
static uint64_t refusal, length;
static uint32_t tally[KRAKOBRAN_TALLY_PLACES];
static krakobran_row rows[MOST];
static union {
    krakobran_layout layout;
    krakobran_part part;
    krakobran_row row;
    krakobran_counts_figures counts;
    krakobran_gap_figures gap;
    krakobran_arrival arrival;
    krakobran_degree_counts degree_counts;
    krakobran_degree_figures degree;
    krakobran_ratios_figures ratios;
    krakobran_worse_link worse;
    krakobran_needs needs;
    krakobran_accommodated_counts accommodated;
    krakobran_steps steps;
    krakobran_verdict verdict;
    krakobran_noted noted;
} given;

#define CALL(name, call) \
    static void call_##name(void) { refusal = (call); }
CALL(sample_check, krakobran_sample_check(file, octets, &given.layout))
CALL(sample_read, krakobran_sample_read(file, octets, sizes, MOST, numbers, MOST, times, MOST, &given.layout))
CALL(sample_label, krakobran_sample_label(file, octets, &given.part))
CALL(sample_write, krakobran_sample_write(label, 64, sizes, MOST, numbers, MOST, times, MOST, out, sizeof out, &length))
CALL(lists_check, krakobran_lists_check(MOST, numbers, MOST, times, MOST))
CALL(log_import, krakobran_log_import(line, sizeof line - 1, 1, positions, MOST, lates, MOST, &length))
CALL(log_refused_line, (krakobran_log_refused_line(line, sizeof line - 1, 1, &length), length))
CALL(log_read_line, krakobran_log_read_line(line, sizeof line - 1, &given.arrival))
CALL(log_line_fault, krakobran_log_line_fault(line, sizeof line - 1))
CALL(text_line, (krakobran_text_line(line, sizeof line - 1, 0, &given.part), given.part.start))
CALL(log_import_8, krakobran_log_import_8(line, sizeof line - 1, 1, positions, MOST, lates, MOST, &length))
CALL(log_import_10, krakobran_log_import_10(line, sizeof line - 1, 1, positions, MOST, lates, MOST, &length))
CALL(log_refused_line_8, (krakobran_log_refused_line_8(line, sizeof line - 1, 1, &length), length))
CALL(log_refused_line_10, (krakobran_log_refused_line_10(line, sizeof line - 1, 1, &length), length))
CALL(log_write, krakobran_log_write(MOST, numbers, MOST, times, MOST, out, sizeof out, &length))
CALL(owamp_import, krakobran_owamp_import(records, recorded, MOST, positions, MOST, lates, MOST, &length))
CALL(owamp_reversed, krakobran_owamp_import(reversed, recorded, MOST, positions, MOST, lates, MOST, &length))
CALL(owamp_write, krakobran_owamp_write(file, octets, out, sizeof out, &length))
CALL(answer, krakobran_answer(file, octets, record, &given.row))
CALL(rows, krakobran_rows(file, octets, rows, sizeof rows / 8))
CALL(rows_from, krakobran_rows_from(file, octets, 256, rows, sizeof rows / 8))
CALL(gaps, krakobran_gaps(file, octets, positions, MOST))
CALL(counts, krakobran_counts(file, octets, &given.counts))
CALL(tally, krakobran_tally(file, octets, tally))
CALL(gap, krakobran_gap(file, octets, record, &given.gap))
CALL(n_reordered, krakobran_n_reordered(file, octets, 3, &given.degree_counts))
CALL(degree, krakobran_degree(file, octets, 3, &given.degree))
CALL(ratios, krakobran_ratios(file, octets, &given.ratios))
CALL(disorder, krakobran_disorder(file, octets, &length))
CALL(sweep, krakobran_sweep(file, octets, table, MOST, kinds, MOST, positions, MOST, extents, MOST, lates, MOST))
CALL(worse, krakobran_worse(file, octets, file, octets, &given.worse))
CALL(greatest_needs, krakobran_greatest_needs(file, octets, &given.needs))
CALL(accommodated, krakobran_accommodated(file, octets, KRAKOBRAN_MEASURE_OCTETS, 100, &given.accommodated))
CALL(accommodated_steps, krakobran_accommodated_steps(file, octets, KRAKOBRAN_MEASURE_OCTETS, 0, 1, &given.steps))
CALL(least_size, krakobran_least_size(file, octets, KRAKOBRAN_MEASURE_OCTETS, 99, 100, &length))
CALL(report_write, krakobran_report_write(file, octets, out, sizeof out, &length))
CALL(report_check, krakobran_report_check(file, octets, out, sizeof out, &given.verdict))
CALL(summary_write, krakobran_summary_write(file, octets, out, sizeof out, &length))
CALL(summary_json, krakobran_summary_json(file, octets, out, sizeof out, &length))
CALL(summary_all, krakobran_summary_all(file, octets, out, sizeof out, &length))
CALL(label_json, krakobran_label_json(label, KRAKOBRAN_LABEL_MOST, out, sizeof out, &length))
CALL(table_csv, krakobran_table_csv(file, octets, 16, out, sizeof out, &length))
CALL(table_json, krakobran_table_json(file, octets, 16, out, sizeof out, &length))
CALL(fragment_order, krakobran_fragment_order(MOST, numbers, MOST, times, MOST, lengths, MOST, mores, MOST, offsets, MOST,
                                              kinds, MOST, used, MOST))
CALL(fragments_of_one,
     krakobran_fragment_order(1, ones, MOST, times, MOST, lengths, MOST, mores, MOST, falling, MOST, kinds, MOST, used, MOST))
CALL(fragments_mixed,
     krakobran_fragment_order(1, ones, MOST, times, MOST, lengths, MOST, mores, MOST, mixed, MOST, kinds, MOST, used, MOST))
CALL(full_numbers_8, krakobran_full_numbers_8(MOST, shorts, MOST, times, MOST, positions, MOST))
CALL(full_numbers_10, krakobran_full_numbers_10(MOST, shorts, 64, times, 64, positions, MOST))
CALL(receiver_fresh, krakobran_receiver_fresh(&receiver, MOST))
CALL(receiver_step, krakobran_receiver_step(&receiver, 1, 9000, &given.noted))
CALL(follow_line, krakobran_follow_line(line, sizeof line - 1, KRAKOBRAN_NUMBER_OUTSIDE, &no_note, out, sizeof out, &length))
CALL(follow_counts, krakobran_follow_counts(MOST, 1, 0, 1, 0, out, sizeof out, &length))
CALL(receiver_step_8, krakobran_receiver_step_8(&receiver, 43, 9000, &given.noted))
CALL(receiver_step_10, krakobran_receiver_step_10(&receiver, 299, 9000, &given.noted))
CALL(meter_new, (krakobran_meter_new(&meter), meter.first.stream.arrived))
CALL(meter_start, krakobran_meter_start(&meter, 1, 300))
CALL(meter_step, krakobran_meter_step(&meter, 2, 1, 9000, &given.noted))
CALL(refusal_words, krakobran_refusal_words(KRAKOBRAN_LISTS_DIFFER, out, sizeof out, &length))
CALL(version, krakobran_version() == 0)

#define NAMED(name) \
    { #name, call_##name, KRAKOBRAN_STACK_OCTETS }
#define NAMED_TEXT(name) \
    { #name, call_##name, KRAKOBRAN_TEXT_STACK_OCTETS }
static const struct {
    const char *name;
    void (*call)(void);
    size_t octets; /* the octets of stack that suffice */
} calls[] = {NAMED(sample_check),
             NAMED(sample_read),
             NAMED(sample_label),
             NAMED(sample_write),
             NAMED(lists_check),
             NAMED(log_import),
             NAMED(log_refused_line),
             NAMED(log_read_line),
             NAMED(log_line_fault),
             NAMED(text_line),
             NAMED(log_import_8),
             NAMED(log_import_10),
             NAMED(log_refused_line_8),
             NAMED(log_refused_line_10),
             NAMED(log_write),
             NAMED(owamp_import),
             NAMED(owamp_reversed),
             NAMED(owamp_write),
             NAMED(answer),
             NAMED(rows),
             NAMED(rows_from),
             NAMED(gaps),
             NAMED(counts),
             NAMED(tally),
             NAMED(gap),
             NAMED(n_reordered),
             NAMED(degree),
             NAMED(ratios),
             NAMED(disorder),
             NAMED(sweep),
             NAMED(worse),
             NAMED(greatest_needs),
             NAMED(accommodated),
             NAMED(accommodated_steps),
             NAMED(least_size),
             NAMED(report_write),
             NAMED(report_check),
             NAMED(summary_write),
             NAMED(summary_json),
             NAMED_TEXT(summary_all),
             NAMED(label_json),
             NAMED_TEXT(table_csv),
             NAMED_TEXT(table_json),
             NAMED(fragment_order),
             NAMED(fragments_of_one),
             NAMED(fragments_mixed),
             NAMED(full_numbers_8),
             NAMED(full_numbers_10),
             NAMED(receiver_fresh),
             NAMED(receiver_step),
             NAMED(follow_line),
             NAMED(follow_counts),
             NAMED(receiver_step_8),
             NAMED(receiver_step_10),
             NAMED(meter_new),
             NAMED(meter_start),
             NAMED(meter_step),
             NAMED(refusal_words),
             NAMED(version)};

/* Runs a call on a stack of its own and returns how many octets of it were written to. */
static size_t depth(void (*call)(void)) {
    enum { ROOM = 8 * KRAKOBRAN_STACK_OCTETS, PAINT = 0xA7 };
    static uint8_t stack[ROOM];
    static ucontext_t here, there;
    memset(stack, PAINT, sizeof stack);
    getcontext(&there);
    there.uc_stack.ss_sp = stack;
    there.uc_stack.ss_size = sizeof stack;
    there.uc_link = &here;
    makecontext(&there, call, 0);
    swapcontext(&here, &there);
    size_t untouched = 0;
    while (untouched < sizeof stack && stack[untouched] == PAINT)
        untouched++;
    return sizeof stack - untouched;
}

static void stack_suffices(void) {
    static krakobran_receiver fed;
    static krakobran_meter fed_both;
    fed_receiver(0, &fed);
    fed_meter(0, &fed_both);
    for (size_t i = 0; i < sizeof calls / sizeof calls[0]; i++) {
        receiver = fed;
        meter = fed_both;
        refusal = 77;
        size_t needed = depth(calls[i].call);
        char text[100];
        snprintf(text, sizeof text, "%s: %zu octets of stack", calls[i].name, needed);
        passed(text, needed <= calls[i].octets && refusal == KRAKOBRAN_NONE);
    }
}

int main(void) {
    lent = ARENA - 2 * GUARD;
    take_back();
    make_small();
    sample_file();
    wrong_lists();
    text_logs();
    short_logs();
    owamp_records();
    records_of_it();
    figures_of_it();
    needs_of_it();
    texts_of_it();
    table_of_it();
    labels();
    two_samples();
    damaged_files();
    asked_outside();
    lists_short();
    fragments();
    short_numbers();
    many_arrivals();
    early_arrivals();
    receivers();
    saved_and_loaded();
    followed();
    meters();
    words_and_version();
    no_places();
    make_longest();
    nothing_of_the_stack();
    stack_suffices();
    printf("%d passed, %d failed\n", run - failed, failed);
    return failed != 0;
}
