/* Krakobran: packet reordering after RFC 4737, measured on a sample file or arrival by arrival.
 *
 * Every function is total: it takes any input, and ends. Its parameters are pointers, lengths of 64 bits and integers.
 * It returns its refusal, KRAKOBRAN_NONE or one of the numbers below, and writes its answer to memory that the caller
 * lends: figures to a struct of uint64_t, lists and text from the start of a list. No struct is passed or returned by
 * value, so that this text is the same for every machine.
 *
 * With a refusal every figure is 0, for the figures are the answer; lists, text, receivers and meters are untouched. At each
 * function stand the refusals that it may return, in the order in which they are looked for: the first that applies is
 * returned. "The file's" are those of krakobran_sample_check, in its order.
 *
 * What a caller holds to, since no function can check it:
 * - A list is a pointer and its number of places, not of octets, as a uint64_t on every machine. The places are all there, so
 *   no length exceeds the machine's memory; one that does is not refused, and the call reads or writes beyond the list.
 * - A pointer may be NULL only beside a length of 0, as that of an empty std::vector is. A pointer to figures, to a receiver
 *   or to a meter is never NULL.
 * - Each pointer is aligned for its type.
 * - What a call writes to overlaps nothing else that is passed to it. What it only reads may overlap.
 *
 * What a caller may rely on:
 * - No function allocates, keeps a pointer, or has a state of its own. So all may be called from many threads, each with
 *   memory of its own to write to.
 * - KRAKOBRAN_TEXT_STACK_OCTETS octets of stack suffice for krakobran_table_csv, krakobran_table_json and
 *   krakobran_summary_all, and KRAKOBRAN_STACK_OCTETS for any other call.
 * - Every call sets every figure. In a list or text it writes what it says and leaves the places after that as they were.
 * - Every struct has the same layout on every machine, and none is padded. So each may be compared, saved and loaded as memory,
 *   and the same calls give the same memory. Its numbers are in the machine's order of octets.
 * - A sample file, a log, a record, a report, a summary and a table are the same octets on every machine.
 *
 * What is assumed of a machine:
 * - An octet is an unsigned char, and a uint64_t is aligned to 8 octets, which leaves out i386. C11 and C++11 check this here.
 * - A double is an IEEE 754 binary64, and division rounds to nearest. A program that sets another rounding mode changes
 *   the ratios, and nothing else.
 * - The library's code has lengths of 64 bits on every machine, also where a pointer has 32.
 * - There are memcpy, memset and memmove, and, where the processor has no instruction for them, the compiler's own
 *   functions for the division of 64-bit integers and for doubles. */

#ifndef KRAKOBRAN_H
#define KRAKOBRAN_H

#include <stddef.h>
#include <stdint.h>

/* The version of this header and of the library that it was installed with. Names that are there stay within one major
 * version, and so do the layouts; before 1.0.0 they may change with the minor version. */
#define KRAKOBRAN_VERSION_MAJOR 0
#define KRAKOBRAN_VERSION_MINOR 12
#define KRAKOBRAN_VERSION_PATCH 0
#define KRAKOBRAN_VERSION "0.12.0"

#ifdef __cplusplus
extern "C" {
#endif

/* Refusals: the numbers returned where there is no answer. */
enum {
    KRAKOBRAN_NONE = 0,            /* no refusal */
    KRAKOBRAN_ENDS_EARLY = 1,      /* the file ends before a count or a section does */
    KRAKOBRAN_OCTETS_FOLLOW = 2,   /* octets follow the last section */
    KRAKOBRAN_LONG_LABEL = 3,      /* label over 64 octets */
    KRAKOBRAN_SENT_OUTSIDE = 4,    /* K is 0 or over 4,096 */
    KRAKOBRAN_MANY_ARRIVALS = 5,   /* over 4,096 arrivals */
    KRAKOBRAN_NUMBER_OUTSIDE = 6,  /* sequence number outside 1 to K; a short number over its width, or of which the number
                                      found is outside 1 to K */
    KRAKOBRAN_TIME_BACK = 7,       /* arrival time over 1,000 below the greatest earlier time */
    KRAKOBRAN_OUTPUT_SHORT = 8,    /* lent output too short */
    KRAKOBRAN_ASKED_OUTSIDE = 9,   /* record outside 1 to A, n outside 1 to 100, a share's part outside 1 to its whole, or no
                                      such measure, refusal or outcome */
    KRAKOBRAN_STATE_UNFIT = 10,    /* state of a receiver or of a meter unfit, or a reordered packet with no greater kept
                                      jump */
    KRAKOBRAN_STATE_FULL = 11,     /* receiver has accepted 4,096 arrivals; or a stream of a meter has */
    KRAKOBRAN_LISTS_DIFFER = 12,   /* lists of arrivals that differ in length: those of numbers and of times, or any two of the
                                      lists of fragments */
    KRAKOBRAN_OCTET_OUTSIDE = 13,  /* a label octet outside hexadecimal 20 to 7E */
    KRAKOBRAN_LINE_MALFORMED = 14, /* a line not of the form, or a value over the field's range */
    KRAKOBRAN_RECORD_CUT = 15,     /* a length that is no multiple of 25 */
    KRAKOBRAN_NO_STREAM = 16,      /* a stream other than 1 or 2 */
    KRAKOBRAN_FRAGMENT_UNFIT = 17, /* a fragment of length 0, one with more to come and a length no multiple of 8, or one whose
                                      end is over 65,535 */
    KRAKOBRAN_SECONDS_OVER = 18    /* a written time whose seconds don't fit 32 bits */
};

/* Cases of an answer; the last two are a receiver's or a meter's only. A late time is told by the case, which has its
 * direction, and by its amount; equal times are after, by 0. A refused answer is in order, with zeros. */
enum {
    KRAKOBRAN_IN_ORDER = 0,         /* the number is at least the next expected */
    KRAKOBRAN_REORDERED_AFTER = 1,  /* it is not, and the packet is stamped at or after its discontinuity */
    KRAKOBRAN_REORDERED_BEFORE = 2, /* it is not, and the packet is stamped before its discontinuity */
    KRAKOBRAN_DUPLICATE = 3,        /* the packet has arrived before */
    KRAKOBRAN_BEYOND_AFTER = 4,     /* reordered, its discontinuity dropped; at or after the oldest kept jump */
    KRAKOBRAN_BEYOND_BEFORE = 5     /* reordered, its discontinuity dropped; stamped before the oldest kept jump */
};

/* Measures of a buffer. */
enum {
    KRAKOBRAN_MEASURE_PACKETS = 0, /* packets held: the extent */
    KRAKOBRAN_MEASURE_OCTETS = 1,  /* octets held: the byte offset */
    KRAKOBRAN_MEASURE_TIME = 2     /* microseconds waited: the late time, 0 if the packet is stamped before its discontinuity */
};

/* Faults of a line of a text log: what stands where its form breaks first. */
enum {
    KRAKOBRAN_FAULT_NONE = 0,            /* of the form, and the number fits 32 bits */
    KRAKOBRAN_FAULT_BYTE_ORDER_MARK = 1, /* it begins with the byte order mark of UTF-8 */
    KRAKOBRAN_FAULT_EMPTY_LINE = 2,      /* nothing before the line feed */
    KRAKOBRAN_FAULT_NO_DIGIT = 3,        /* it begins with no digit, an empty text among it */
    KRAKOBRAN_FAULT_CARRIAGE_RETURN = 4, /* a carriage return, as before the line feed of a Windows file */
    KRAKOBRAN_FAULT_NO_LINE_FEED = 5,    /* it ends before its line feed */
    KRAKOBRAN_FAULT_NUMBER_OVER = 6,     /* a number over 32 bits */
    KRAKOBRAN_FAULT_MANY_DECIMALS = 7,   /* more than three decimals */
    KRAKOBRAN_FAULT_OTHER = 8            /* another octet that breaks the form */
};

/* Limits (MOST), and lengths of lists in places, octets or numbers. */
enum {
    KRAKOBRAN_LABEL_MOST = 64,             /* octets of a label, at most */
    KRAKOBRAN_SENT_MOST = 4096,            /* sent packets (K) of a sample, a receiver or a stream, at most */
    KRAKOBRAN_ARRIVALS_MOST = 4096,        /* arrivals of a sample (A), at most, and those that a receiver or a stream accepts */
    KRAKOBRAN_TIME_BACK_MOST = 1000,       /* microseconds by which an arrival may be stamped before the greatest earlier time */
    KRAKOBRAN_DEGREE_MOST = 100,           /* the greatest n of a degree of n-reordering */
    KRAKOBRAN_KEPT_MOST = 48,              /* jumps that one stream of a meter keeps, at most */
    KRAKOBRAN_WINDOW_PLACES = 64,          /* jumps that a receiver keeps, and places that the streams of a meter share */
    KRAKOBRAN_TALLY_PLACES = 101,          /* places of an extent tally */
    KRAKOBRAN_SWEEP_TABLE_PLACES = 4096,   /* places of the table that a sweep needs */
    KRAKOBRAN_ROW_NUMBERS = 8,             /* numbers in the row of a record */
    KRAKOBRAN_STEP_PLACES = 128,           /* sizes of a buffer that krakobran_accommodated_steps tries */
    KRAKOBRAN_FILE_OCTETS = 57414,         /* octets of the longest sample file */
    KRAKOBRAN_OWAMP_RECORD_OCTETS = 25,    /* octets of an OWAMP packet record */
    KRAKOBRAN_REPORT_OCTETS = 262144,      /* octets that suffice for any report */
    KRAKOBRAN_SUMMARY_OCTETS = 2048,       /* octets that suffice for any summary */
    KRAKOBRAN_SUMMARY_ALL_OCTETS = 200704, /* octets that suffice for any summary with all figures */
    KRAKOBRAN_LABEL_JSON_OCTETS = 139,     /* octets that suffice for any label as the first member of an object of JSON */
    KRAKOBRAN_TABLE_PARTS = 18,            /* parts of the table of a sample's records */
    KRAKOBRAN_TABLE_PART_OCTETS = 131072,  /* octets that suffice for any part of it */
    KRAKOBRAN_FOLLOW_OCTETS = 256,         /* octets that suffice for what is said of any line, and for any counts */
    KRAKOBRAN_WORDS_OCTETS = 128,          /* octets that suffice for the words of any refusal */
    KRAKOBRAN_STACK_OCTETS = 40960,        /* octets of stack that suffice for any call but three */
    KRAKOBRAN_TEXT_STACK_OCTETS = 65536    /* octets of stack that suffice for krakobran_table_csv, krakobran_table_json and
                                              krakobran_summary_all */
};

/* ---- the sample file
 *
 * Its octets, numbers with the most significant octet first:
 *
 *     2               octets of the label, 0 to 64
 *     as many         the label, each octet hexadecimal 20 to 7E
 *     2               K, the number of sent packets, 1 to 4,096
 *     2 for each      their payload sizes
 *     2               A, the number of arrivals, 0 to 4,096
 *     12 for each     sequence number (4 octets, 1 to K) and arrival time (8 octets), in the order of arrival
 *
 * and none after. Times are in microseconds from any moment. krakobran_sample_write makes the file of lists,
 * krakobran_sample_read the lists of a file. */

/* What is found in a file: octets of the label, K and A. */
typedef struct {
    uint64_t label;
    uint64_t sent;
    uint64_t arrivals;
} krakobran_layout;

/* A part of a file or of a text: the offset of its first octet, and its octets. A label starts at 2, also an empty one. */
typedef struct {
    uint64_t start;
    uint64_t length;
} krakobran_part;

/* Checks a sample file. Refusals, as the file is read: 1, 3, 1 and 13 of the label; 1, 4 and 1 of the sent packets;
 * 1, 5 and 1 of the arrivals; 2; then the arrivals in turn, each by 6 and by 7. */
uint64_t krakobran_sample_check(const uint8_t *file, uint64_t octets, krakobran_layout *layout);

/* Reads a sample file into lists of payload sizes, sequence numbers and arrival times, from their start. Refusals: the
 * file's; 8 if sizes have fewer than K places, or numbers or times fewer than A. */
uint64_t krakobran_sample_read(const uint8_t *file, uint64_t octets, uint16_t *sizes, uint64_t size_places,
                               uint32_t *numbers, uint64_t number_places, uint64_t *times, uint64_t time_places,
                               krakobran_layout *layout);

/* Finds the label of a sample file, as a part of the file. Refusals: the file's. */
uint64_t krakobran_sample_label(const uint8_t *file, uint64_t octets, krakobran_part *part);

/* Writes the sample file of a label and lists from the start of out, and the number of its octets to length. Refusals: 3;
 * 13; 4, by the list of sizes; 5, by the list of numbers; 12 if that of times has another length; the arrivals in turn,
 * each by 6 and by 7; 8. */
uint64_t krakobran_sample_write(const uint8_t *label, uint64_t label_octets, const uint16_t *sizes, uint64_t sent,
                                const uint32_t *numbers, uint64_t number_count, const uint64_t *times,
                                uint64_t time_count, uint8_t *out, uint64_t room, uint64_t *length);

/* Checks K and lists of numbers and times, as the writer does. Refusals: 4, by sent; 5, by the list of numbers; 12; the
 * arrivals in turn, each by 6 and by 7. */
uint64_t krakobran_lists_check(uint64_t sent, const uint32_t *numbers, uint64_t number_count, const uint64_t *times,
                               uint64_t time_count);

/* ---- text logs
 *
 * Each line of a log is a number, a semicolon, milliseconds with at most three decimals after a comma or a point, and a
 * line feed. */

/* Imports the text log of K sent packets into lists of sequence numbers and arrival times in microseconds, from their start,
 * and writes their number to arrivals. Lists of KRAKOBRAN_ARRIVALS_MOST places suffice for any log. Refusals: 4; the lines
 * in turn, each by 14, by 5 if it is line 4,097, by 6 and by 7; 8. */
uint64_t krakobran_log_import(const uint8_t *log, uint64_t octets, uint32_t sent, uint32_t *numbers,
                              uint64_t number_places, uint64_t *times, uint64_t time_places, uint64_t *arrivals);

/* Finds the first line of the text log of K sent packets that is refused, and writes its number, from 1, to line; 0 where no
 * line is refused, or K itself is. It has no refusal of its own, and takes no lists. */
void krakobran_log_refused_line(const uint8_t *log, uint64_t octets, uint32_t sent, uint64_t *line);

/* The arrival of one line of a text log. */
typedef struct {
    uint64_t number;
    uint64_t time;
} krakobran_arrival;

/* Reads one line of a text log, with its line feed. The number may be any of 32 bits. Refusals: 14. */
uint64_t krakobran_log_read_line(const uint8_t *line, uint64_t octets, krakobran_arrival *arrival);

/* Returns what is wrong with one line of a text log, with its line feed: one of KRAKOBRAN_FAULT_NONE and the numbers after
 * it. A line that krakobran_log_read_line refuses and that has no fault has a time over its range. It has no refusal. */
uint64_t krakobran_log_line_fault(const uint8_t *line, uint64_t octets);

/* Finds line n of a text, counted from 0, with the line feed that ends it, as a part of the text; the empty part at the end
 * of the text if there is no line n. It has no refusal. */
void krakobran_text_line(const uint8_t *text, uint64_t octets, uint64_t n, krakobran_part *part);

/* The same imports of logs whose sequence numbers are short: the lowest 8 or 10 bits. The lists get the full numbers, each
 * found from the greatest number of the lines before it, as krakobran_full_numbers_8 and _10 find them. 6 also for a short
 * number over its width. */
uint64_t krakobran_log_import_8(const uint8_t *log, uint64_t octets, uint32_t sent, uint32_t *numbers,
                                uint64_t number_places, uint64_t *times, uint64_t time_places, uint64_t *arrivals);
uint64_t krakobran_log_import_10(const uint8_t *log, uint64_t octets, uint32_t sent, uint32_t *numbers,
                                 uint64_t number_places, uint64_t *times, uint64_t time_places, uint64_t *arrivals);
void krakobran_log_refused_line_8(const uint8_t *log, uint64_t octets, uint32_t sent, uint64_t *line);
void krakobran_log_refused_line_10(const uint8_t *log, uint64_t octets, uint32_t sent, uint64_t *line);

/* Writes the text log of arrivals of K sent packets from the start of out, three decimals after a comma, and the number of its
 * octets to length. Refusals: those of krakobran_lists_check; 8. */
uint64_t krakobran_log_write(uint32_t sent, const uint32_t *numbers, uint64_t number_count, const uint64_t *times,
                             uint64_t time_count, uint8_t *out, uint64_t room, uint64_t *length);

/* ---- OWAMP packet records: RFC 4656, section 3.9, KRAKOBRAN_OWAMP_RECORD_OCTETS each */

/* Imports the records of K sent packets into lists of sequence numbers and arrival times in microseconds, from their start
 * and in the order of the receive times, and writes their number to arrivals; lost packets are left out. Lists of
 * KRAKOBRAN_ARRIVALS_MOST places suffice for any records. Refusals: 15; 4; 5, by the records that are not lost; 6, in the
 * order of the records; 8. */
uint64_t krakobran_owamp_import(const uint8_t *records, uint64_t octets, uint32_t sent, uint32_t *numbers,
                                uint64_t number_places, uint64_t *times, uint64_t time_places, uint64_t *arrivals);

/* Writes the records of a sample file's arrivals from the start of out, and the number of their octets to length. A time is
 * written one second later, its fraction rounded down; the send time is 0. Refusals: the file's; 18; 8. */
uint64_t krakobran_owamp_write(const uint8_t *file, uint64_t octets, uint8_t *out, uint64_t room, uint64_t *length);

/* ---- figures of a sample file
 *
 * Refusals: the file's; then those that stand at a function. A record is counted from 1 over all arrivals. */

/* The figures of a record: its case; position, if it is a first arrival; jump size, if in order; extent, amount of the late
 * time, byte offset and largest n, if reordered; the record of the first copy, if a duplicate. What a case does not have is
 * 0. */
typedef struct {
    uint64_t kind;
    uint64_t position;
    uint64_t jump;
    uint64_t extent;
    uint64_t late;
    uint64_t offset;
    uint64_t largest;
    uint64_t first;
} krakobran_row;

/* First arrivals (L), reordered packets, duplicates, in-order packets; and the runs of in-order packets: closed ones, the sum
 * of the squares of their lengths, and the open one's length. */
typedef struct {
    uint64_t arrived;
    uint64_t reordered;
    uint64_t duplicates;
    uint64_t inorder;
    uint64_t closed;
    uint64_t squares;
    uint64_t current;
} krakobran_counts_figures;

/* Whether a record has a gap (1) or none (0), and the gap in positions. A discontinuity is discovered by the first reordered
 * arrival that has it as its own. It has a gap exactly if its neighbour before in position was discovered by an earlier
 * reordered arrival; the gap is the difference of their positions. */
typedef struct {
    uint64_t known;
    uint64_t positions;
} krakobran_gap_figures;

/* The two counts of a degree of n-reordering: n-reordered packets, and first arrivals (L). */
typedef struct {
    uint64_t reordered;
    uint64_t arrived;
} krakobran_degree_counts;

/* Whether a ratio is known (1) or undefined (0), as it is of no arrivals; and the bits of the double. */
typedef struct {
    uint64_t known;
    uint64_t bits;
} krakobran_degree_figures;

/* The same of three: the reordered ratio, and the degrees of n-reordering for n = 1 and n = 3. */
typedef struct {
    uint64_t known;
    uint64_t reordered;
    uint64_t degree1;
    uint64_t degree3;
} krakobran_ratios_figures;

/* The worse of two samples: 1 for the first and 2 for the second, and its label as a part of it. */
typedef struct {
    uint64_t link;
    uint64_t start;
    uint64_t length;
} krakobran_worse_link;

/* Returns the double of these bits. */
static inline double krakobran_double(uint64_t bits) {
    double value;
    const unsigned char *from = (const unsigned char *)&bits;
    unsigned char *to = (unsigned char *)&value;
    for (size_t i = 0; i < sizeof value; i++)
        to[i] = from[i];
    return value;
}

/* The figures of a record. 9 for a record outside 1 to A. */
uint64_t krakobran_answer(const uint8_t *file, uint64_t octets, uint32_t record, krakobran_row *row);

/* The figures of every record, in one pass: fills a list of rows from its start. Its length is given in numbers,
 * KRAKOBRAN_ROW_NUMBERS for each row. 8 if it has fewer rows than A. */
uint64_t krakobran_rows(const uint8_t *file, uint64_t octets, krakobran_row *rows, uint64_t numbers);

/* The same for the records after the first `from`, as many as the list has rows: fills it from its start. So a short list takes
 * the records in blocks: with 256 rows from 0, 256, 512 and so on. */
uint64_t krakobran_rows_from(const uint8_t *file, uint64_t octets, uint32_t from, krakobran_row *rows, uint64_t numbers);

/* The counts of a sample. */
uint64_t krakobran_counts(const uint8_t *file, uint64_t octets, krakobran_counts_figures *counts);

/* The extent tally of a sample, KRAKOBRAN_TALLY_PLACES numbers: at place e from 1 to 100 how many extents are e, at place 0
 * how many are greater. */
uint64_t krakobran_tally(const uint8_t *file, uint64_t octets, uint32_t tally[KRAKOBRAN_TALLY_PLACES]);

/* The gap of a record. 9 for a record outside 1 to A. */
uint64_t krakobran_gap(const uint8_t *file, uint64_t octets, uint32_t record, krakobran_gap_figures *gap);

/* Fills a list with the gap of each record, from its start; 0 where there is none. Refusals: the file's; 8 if gaps has fewer
 * places than there are arrivals. */
uint64_t krakobran_gaps(const uint8_t *file, uint64_t octets, uint32_t *gaps, uint64_t places);

/* How many packets are n-reordered, and of how many. 9 for n outside 1 to KRAKOBRAN_DEGREE_MOST. */
uint64_t krakobran_n_reordered(const uint8_t *file, uint64_t octets, uint32_t n, krakobran_degree_counts *counts);

/* The degree of n-reordering: the one count over the other. 9 for n outside 1 to KRAKOBRAN_DEGREE_MOST. */
uint64_t krakobran_degree(const uint8_t *file, uint64_t octets, uint32_t n, krakobran_degree_figures *degree);

/* The ratios of a sample. */
uint64_t krakobran_ratios(const uint8_t *file, uint64_t octets, krakobran_ratios_figures *ratios);

/* The total of disorder of a sample: how many pairs of its first arrivals came in the wrong order. It is the least
 * number of exchanges of neighbouring first arrivals that puts them in rising order. */
uint64_t krakobran_disorder(const uint8_t *file, uint64_t octets, uint64_t *total);

/* One sweep over a sample: fills four lists from their start with the case of every record, its position, extent and the amount
 * of its late time; what a record does not have is 0. The table has at least KRAKOBRAN_SWEEP_TABLE_PLACES places and may hold
 * anything; those are 0 afterwards. 8 if the table has fewer, or a list fewer than A. */
uint64_t krakobran_sweep(const uint8_t *file, uint64_t octets, uint16_t *table, uint64_t table_places, uint8_t *kinds,
                         uint64_t kind_places, uint32_t *positions, uint64_t position_places, uint32_t *extents,
                         uint64_t extent_places, uint64_t *lates, uint64_t late_places);

/* Of two samples the one with the greater reordered ratio; equal ratios give the first, and an undefined one counts
 * as 0. Refusals: the first file's; the second file's. */
uint64_t krakobran_worse(const uint8_t *first, uint64_t first_octets, const uint8_t *second, uint64_t second_octets,
                         krakobran_worse_link *worse);

/* ---- waiting time and buffer
 *
 * A receiver that restores order waits for reordered packets, and holds those that came before them. What it needs of its
 * buffer is told by a measure. A packet in order needs nothing, and a packet that never arrived is not counted. Refusals: the
 * file's; then 9 for a measure that is none. */

/* The greatest extent, byte offset and late time of a sample; 0 where nothing is reordered. */
typedef struct {
    uint64_t packets;
    uint64_t octets;
    uint64_t time;
} krakobran_needs;

/* How many first arrivals a buffer accommodates, and how many there are (L). */
typedef struct {
    uint64_t accommodated;
    uint64_t arrived;
} krakobran_accommodated_counts;

/* How many first arrivals there are (L), the greatest need, and how many first arrivals a buffer of each size accommodates. */
typedef struct {
    uint64_t arrived;
    uint64_t greatest;
    uint64_t counts[KRAKOBRAN_STEP_PLACES];
} krakobran_steps;

/* What the packet that needs most needs, by each measure. */
uint64_t krakobran_greatest_needs(const uint8_t *file, uint64_t octets, krakobran_needs *needs);

/* How many first arrivals need no more than a buffer of this size has. */
uint64_t krakobran_accommodated(const uint8_t *file, uint64_t octets, uint32_t measure, uint64_t size,
                                krakobran_accommodated_counts *counts);

/* The same for KRAKOBRAN_STEP_PLACES sizes in one pass: at place j for a buffer of low + j * 2^shift. A size may exceed 64
 * bits: nothing wraps. */
uint64_t krakobran_accommodated_steps(const uint8_t *file, uint64_t octets, uint32_t measure, uint64_t low, uint32_t shift,
                                      krakobran_steps *steps);

/* The least size that accommodates at least part in whole of the first arrivals: 95 in 100, or 1 in 1 for all. 9 also for
 * a part outside 1 to whole. */
uint64_t krakobran_least_size(const uint8_t *file, uint64_t octets, uint32_t measure, uint32_t part, uint32_t whole,
                              uint64_t *size);

/* ---- texts of a sample: report, summary and table */

/* Writes the report of a sample from the start of out, and the number of its octets to length. Any report fits into
 * KRAKOBRAN_REPORT_OCTETS places. Refusals: the file's; 8 if this one does not fit. */
uint64_t krakobran_report_write(const uint8_t *file, uint64_t octets, uint8_t *out, uint64_t room, uint64_t *length);

/* Whether a report agrees (1 or 0), and the number of its first wrong line, from 1; 0 where it agrees. */
typedef struct {
    uint64_t agrees;
    uint64_t line;
} krakobran_verdict;

/* Checks a report: it agrees exactly if krakobran_report_write writes it. A missing or extra line is wrong at its place, and so
 * is a last line without its line feed. Refusals: the file's, before the report is looked at. */
uint64_t krakobran_report_check(const uint8_t *file, uint64_t octets, const uint8_t *report, uint64_t report_octets,
                                krakobran_verdict *verdict);

/* Writes the summary of a sample from the start of out, and the number of its octets to length: counts, the least sizes for 50,
 * 90, 95 and 99 in 100 of the first arrivals and for all, ratios, total of disorder. Any summary fits into
 * KRAKOBRAN_SUMMARY_OCTETS places. Refusals: the file's; 8 if this one does not fit. */
uint64_t krakobran_summary_write(const uint8_t *file, uint64_t octets, uint8_t *out, uint64_t room, uint64_t *length);

/* The same as one object of JSON and a line feed, with the label; times are in microseconds. It fits into
 * KRAKOBRAN_SUMMARY_OCTETS places too. Refusals: the file's; 8. */
uint64_t krakobran_summary_json(const uint8_t *file, uint64_t octets, uint8_t *out, uint64_t room, uint64_t *length);

/* Writes the summary with the other figures of the whole sample: the tally of extents, how many packets are n-reordered, the
 * gaps and the runs. Any such text fits into KRAKOBRAN_SUMMARY_ALL_OCTETS places. Refusals: the file's; 8 if this one does
 * not fit. */
uint64_t krakobran_summary_all(const uint8_t *file, uint64_t octets, uint8_t *out, uint64_t room, uint64_t *length);

/* Writes a label as the first member of an object of JSON, with the brace that opens it, from the start of out, and the
 * number of its octets to length. Any label fits into KRAKOBRAN_LABEL_JSON_OCTETS places. Refusals: 3; 8 if this one does
 * not fit. */
uint64_t krakobran_label_json(const uint8_t *label, uint64_t label_octets, uint8_t *out, uint64_t room, uint64_t *length);

/* Writes a part of the table of a sample's records from the start of out, and the number of its octets to length: a line of
 * names, a line for each record and one with the counts, their values separated by commas. Parts 0 to KRAKOBRAN_TABLE_PARTS
 * less 1, one after the other, are the whole table; any other part is empty. Any part fits into
 * KRAKOBRAN_TABLE_PART_OCTETS places. Refusals: the file's; 8 if this one does not fit. */
uint64_t krakobran_table_csv(const uint8_t *file, uint64_t octets, uint32_t part, uint8_t *out, uint64_t room,
                             uint64_t *length);

/* The same of one object of JSON and a line feed: the label, every record as an object, and the counts. */
uint64_t krakobran_table_json(const uint8_t *file, uint64_t octets, uint32_t part, uint8_t *out, uint64_t room,
                              uint64_t *length);

/* ---- packets that are cut on the way
 *
 * The order flag of fragments (RFC 4737, Appendix B): numbers, times, lengths in octets, more-fragments flags (set
 * if not 0) and fragment offsets (in units of 8 octets) of the arrivals of K sent packets. An arrival with no more
 * to come and offset 0 is a whole packet, any other is a fragment. Fills two lists from their start: flags,
 * KRAKOBRAN_IN_ORDER, KRAKOBRAN_REORDERED_AFTER (which here says no more than reordered) or KRAKOBRAN_DUPLICATE;
 * and usable, 1 if the arrival is no copy and its packet's arrivals cover every octet from 0 to the end of one with
 * no more to come, else 0. Refusals: 4, by sent; 5, by the list of numbers; 12 if any of the other four has another
 * length; the arrivals in turn, each by 6, by 17 and by 7; 8 if flags or usable have fewer places than there are
 * arrivals. */
uint64_t krakobran_fragment_order(uint32_t sent, const uint32_t *numbers, uint64_t number_count, const uint64_t *times,
                                  uint64_t time_count, const uint16_t *lengths, uint64_t length_count,
                                  const uint8_t *mores, uint64_t more_count, const uint16_t *offsets,
                                  uint64_t offset_count, uint8_t *flags, uint64_t flag_places, uint8_t *usable,
                                  uint64_t usable_places);

/* ---- the receiver */

/* The runs of in-order packets: closed ones, the sum of the squares of their lengths, and the open one's length. */
typedef struct {
    uint32_t closed;
    uint32_t squares;
    uint32_t current;
} krakobran_runs;

/* The numbers that a step decides by: K, first arrivals (L), duplicates, in-order packets, the next expected
 * number, how many jumps are kept, the greatest time of the accepted arrivals, copies among them (0 for none), the
 * runs, and the number of the last jump dropped (0 for none). */
typedef struct {
    uint32_t sent;
    uint32_t arrived;
    uint32_t duplicates;
    uint32_t inorder;
    uint32_t next;
    uint32_t kept;
    uint64_t greatest;
    krakobran_runs runs;
    uint32_t dropped;
} krakobran_stream;

/* Position, number and time of each kept jump, the oldest first; the places after them are unused. */
typedef struct {
    uint16_t positions[KRAKOBRAN_WINDOW_PLACES];
    uint16_t numbers[KRAKOBRAN_WINDOW_PLACES];
    uint64_t times[KRAKOBRAN_WINDOW_PLACES];
} krakobran_places;

/* What a receiver holds: the numbers of its stream, a bit for each packet that has arrived (packet s: bit (s - 1) %
 * 64 of word (s - 1) / 64), and the places of the kept jumps. */
typedef struct {
    krakobran_stream stream;
    uint64_t marks[KRAKOBRAN_SENT_MOST / 64];
    krakobran_places places;
} krakobran_receiver;

/* What a receiver notes of an arrival: the case; the jump size if in order; extent and the amount of the late time if
 * reordered, exact ones or, beyond the window, those of the oldest kept jump: the true extent is greater, and of the
 * true late time they say nothing. What a case does not have is 0. */
typedef struct {
    uint64_t kind;
    uint64_t jump;
    uint64_t extent;
    uint64_t late;
} krakobran_noted;

/* Makes a receiver a fresh one for sent packets, whatever it held. Refusals: 4. */
uint64_t krakobran_receiver_fresh(krakobran_receiver *receiver, uint32_t sent);

/* Steps a receiver by an arrival. Refusals: 10 for an unfit state; 11; 6; 7; 10 for a reordered packet with no greater kept
 * jump. A receiver that came from krakobran_receiver_fresh and steps is never unfit. With 11 it has accepted
 * KRAKOBRAN_ARRIVALS_MOST arrivals, copies among them: its counts are final, and a fresh receiver takes the next ones. */
uint64_t krakobran_receiver_step(krakobran_receiver *receiver, uint32_t number, uint64_t time, krakobran_noted *noted);

/* Writes what `krakobran follow` says of a line of a text log from the start of out, and the number of its octets to length:
 * the arrival, and the outcome that krakobran_receiver_step returned and noted for it. A line that krakobran_log_read_line
 * refuses makes no step: its text is that refusal's, and refusal and noted are not looked at. Any text fits into
 * KRAKOBRAN_FOLLOW_OCTETS places. Refusals: 9 if the line has an arrival and refusal and noted are no outcome, as they have a
 * number over 32 bits (late may have 64), a kind that is no case, or a figure other than 0 that the case does not have; 8. */
uint64_t krakobran_follow_line(const uint8_t *line, uint64_t octets, uint64_t refusal, const krakobran_noted *noted,
                               uint8_t *out, uint64_t room, uint64_t *length);

/* Writes the counts that `krakobran follow` prints at its end from the start of out, and the number of their octets to length.
 * They are numbers of the receiver's stream: arrived, inorder, duplicates, runs.closed and runs.current. Any text fits into
 * KRAKOBRAN_FOLLOW_OCTETS places. Refusals: 8. */
uint64_t krakobran_follow_counts(uint32_t arrived, uint32_t inorder, uint32_t duplicates, uint32_t closed,
                                 uint32_t current, uint8_t *out, uint64_t room, uint64_t *length);

/* ---- short sequence numbers
 *
 * A radio sends the lowest 8 or 10 bits of a number alone. The number found is the one with those bits that differs
 * from the greatest before (0 at the start) by at least minus half their range and less than half. */

/* Fills a list with the numbers found of short ones of 8 or of 10 bits, of K sent packets, from its start. Refusals: 4, by
 * sent; 5, by the list of short numbers; 12 if that of times has another length; the arrivals in turn, each by 6 (a short
 * number over its width, or a number found outside 1 to K) and by 7; 8. */
uint64_t krakobran_full_numbers_8(uint32_t sent, const uint16_t *shorts, uint64_t short_count, const uint64_t *times,
                                  uint64_t time_count, uint32_t *numbers, uint64_t number_places);
uint64_t krakobran_full_numbers_10(uint32_t sent, const uint16_t *shorts, uint64_t short_count, const uint64_t *times,
                                   uint64_t time_count, uint32_t *numbers, uint64_t number_places);

/* Steps a receiver by the number found of a short one, the greatest before being the next expected number less 1. Refusals:
 * those of krakobran_receiver_step, 6 as for a list. */
uint64_t krakobran_receiver_step_8(krakobran_receiver *receiver, uint16_t number, uint64_t time,
                                   krakobran_noted *noted);
uint64_t krakobran_receiver_step_10(krakobran_receiver *receiver, uint16_t number, uint64_t time,
                                    krakobran_noted *noted);

/* ---- a meter: two streams that share the places of their kept jumps */

/* What a stream has for itself: its numbers, and a bit for each packet that has arrived, as a receiver has them. */
typedef struct {
    krakobran_stream stream;
    uint64_t marks[KRAKOBRAN_SENT_MOST / 64];
} krakobran_stream_state;

/* What a meter holds: streams 1 and 2, and the places that they share. Stream 1 has the places from the first up,
 * stream 2 those from the last down, the oldest jump first; those between are free. A new jump takes a free place
 * if its stream keeps fewer than KRAKOBRAN_KEPT_MOST; else, or with no free place, its own oldest kept jump is
 * dropped for it. */
typedef struct {
    krakobran_stream_state first;
    krakobran_stream_state second;
    krakobran_places places;
} krakobran_meter;

/* Makes a meter a new one, whatever it held: both streams fresh for a single packet, and all places free. It has no refusal. */
void krakobran_meter_new(krakobran_meter *meter);

/* Starts a stream afresh for sent packets; its places are free then. Refusals: 16; 10, which judges both streams, over
 * KRAKOBRAN_KEPT_MOST jumps of one and over KRAKOBRAN_WINDOW_PLACES in all among it; 4. */
uint64_t krakobran_meter_start(krakobran_meter *meter, uint32_t stream, uint32_t sent);

/* Steps a stream by an arrival. Refusals: 16; 10 as for a start; then as a receiver's of the stream: 11, 6, 7, and 10 for
 * a reordered packet with no greater kept jump. */
uint64_t krakobran_meter_step(krakobran_meter *meter, uint32_t stream, uint32_t number, uint64_t time,
                              krakobran_noted *noted);

/* ---- the library itself */

/* Writes the words of a refusal from the start of out, and the number of their octets to length. Those of any refusal fit into
 * KRAKOBRAN_WORDS_OCTETS places. Refusals: 9 for a number that is no refusal, 0 among them; 8 if these do not fit. */
uint64_t krakobran_refusal_words(uint64_t refusal, uint8_t *out, uint64_t room, uint64_t *length);

/* Returns the version of the library: 1,000,000 for each major version, 1,000 for each minor one, and the patch. It has no
 * refusal. */
uint64_t krakobran_version(void);

/* ---- layouts: what is assumed of a machine, the size of each struct and the offset of each field, checked by C11 and C++11 */

#if defined(__cplusplus) && __cplusplus >= 201103L
#define KRAKOBRAN_HOLDS(condition, text) static_assert(condition, text)
#elif defined(__STDC_VERSION__) && __STDC_VERSION__ >= 201112L
#define KRAKOBRAN_HOLDS(condition, text) _Static_assert(condition, text)
#else
#define KRAKOBRAN_HOLDS(condition, text) struct krakobran_unchecked
#endif
#define KRAKOBRAN_SIZE(type, octets) KRAKOBRAN_HOLDS(sizeof(type) == (octets), #type " has another size")
#define KRAKOBRAN_AT(type, field, octets) \
    KRAKOBRAN_HOLDS(offsetof(type, field) == (octets), #type "." #field " has another offset")

struct krakobran_alignment {
    uint8_t octet;
    uint64_t number;
};
KRAKOBRAN_HOLDS(offsetof(struct krakobran_alignment, number) == 8, "a uint64_t is not aligned to 8 octets");
KRAKOBRAN_SIZE(double, 8);

KRAKOBRAN_SIZE(krakobran_layout, 24);
KRAKOBRAN_AT(krakobran_layout, label, 0);
KRAKOBRAN_AT(krakobran_layout, sent, 8);
KRAKOBRAN_AT(krakobran_layout, arrivals, 16);
KRAKOBRAN_SIZE(krakobran_part, 16);
KRAKOBRAN_AT(krakobran_part, start, 0);
KRAKOBRAN_AT(krakobran_part, length, 8);
KRAKOBRAN_SIZE(krakobran_arrival, 16);
KRAKOBRAN_AT(krakobran_arrival, number, 0);
KRAKOBRAN_AT(krakobran_arrival, time, 8);
KRAKOBRAN_SIZE(krakobran_row, 8 * KRAKOBRAN_ROW_NUMBERS);
KRAKOBRAN_AT(krakobran_row, kind, 0);
KRAKOBRAN_AT(krakobran_row, position, 8);
KRAKOBRAN_AT(krakobran_row, jump, 16);
KRAKOBRAN_AT(krakobran_row, extent, 24);
KRAKOBRAN_AT(krakobran_row, late, 32);
KRAKOBRAN_AT(krakobran_row, offset, 40);
KRAKOBRAN_AT(krakobran_row, largest, 48);
KRAKOBRAN_AT(krakobran_row, first, 56);
KRAKOBRAN_SIZE(krakobran_counts_figures, 56);
KRAKOBRAN_AT(krakobran_counts_figures, arrived, 0);
KRAKOBRAN_AT(krakobran_counts_figures, reordered, 8);
KRAKOBRAN_AT(krakobran_counts_figures, duplicates, 16);
KRAKOBRAN_AT(krakobran_counts_figures, inorder, 24);
KRAKOBRAN_AT(krakobran_counts_figures, closed, 32);
KRAKOBRAN_AT(krakobran_counts_figures, squares, 40);
KRAKOBRAN_AT(krakobran_counts_figures, current, 48);
KRAKOBRAN_SIZE(krakobran_gap_figures, 16);
KRAKOBRAN_AT(krakobran_gap_figures, known, 0);
KRAKOBRAN_AT(krakobran_gap_figures, positions, 8);
KRAKOBRAN_SIZE(krakobran_degree_counts, 16);
KRAKOBRAN_AT(krakobran_degree_counts, reordered, 0);
KRAKOBRAN_AT(krakobran_degree_counts, arrived, 8);
KRAKOBRAN_SIZE(krakobran_degree_figures, 16);
KRAKOBRAN_AT(krakobran_degree_figures, known, 0);
KRAKOBRAN_AT(krakobran_degree_figures, bits, 8);
KRAKOBRAN_SIZE(krakobran_ratios_figures, 32);
KRAKOBRAN_AT(krakobran_ratios_figures, known, 0);
KRAKOBRAN_AT(krakobran_ratios_figures, reordered, 8);
KRAKOBRAN_AT(krakobran_ratios_figures, degree1, 16);
KRAKOBRAN_AT(krakobran_ratios_figures, degree3, 24);
KRAKOBRAN_SIZE(krakobran_worse_link, 24);
KRAKOBRAN_AT(krakobran_worse_link, link, 0);
KRAKOBRAN_AT(krakobran_worse_link, start, 8);
KRAKOBRAN_AT(krakobran_worse_link, length, 16);
KRAKOBRAN_SIZE(krakobran_needs, 24);
KRAKOBRAN_AT(krakobran_needs, packets, 0);
KRAKOBRAN_AT(krakobran_needs, octets, 8);
KRAKOBRAN_AT(krakobran_needs, time, 16);
KRAKOBRAN_SIZE(krakobran_accommodated_counts, 16);
KRAKOBRAN_AT(krakobran_accommodated_counts, accommodated, 0);
KRAKOBRAN_AT(krakobran_accommodated_counts, arrived, 8);
KRAKOBRAN_SIZE(krakobran_steps, 16 + 8 * KRAKOBRAN_STEP_PLACES);
KRAKOBRAN_AT(krakobran_steps, arrived, 0);
KRAKOBRAN_AT(krakobran_steps, greatest, 8);
KRAKOBRAN_AT(krakobran_steps, counts, 16);
KRAKOBRAN_SIZE(krakobran_verdict, 16);
KRAKOBRAN_AT(krakobran_verdict, agrees, 0);
KRAKOBRAN_AT(krakobran_verdict, line, 8);
KRAKOBRAN_SIZE(krakobran_noted, 32);
KRAKOBRAN_AT(krakobran_noted, kind, 0);
KRAKOBRAN_AT(krakobran_noted, jump, 8);
KRAKOBRAN_AT(krakobran_noted, extent, 16);
KRAKOBRAN_AT(krakobran_noted, late, 24);
KRAKOBRAN_SIZE(krakobran_runs, 12);
KRAKOBRAN_AT(krakobran_runs, closed, 0);
KRAKOBRAN_AT(krakobran_runs, squares, 4);
KRAKOBRAN_AT(krakobran_runs, current, 8);
KRAKOBRAN_SIZE(krakobran_stream, 48);
KRAKOBRAN_AT(krakobran_stream, sent, 0);
KRAKOBRAN_AT(krakobran_stream, arrived, 4);
KRAKOBRAN_AT(krakobran_stream, duplicates, 8);
KRAKOBRAN_AT(krakobran_stream, inorder, 12);
KRAKOBRAN_AT(krakobran_stream, next, 16);
KRAKOBRAN_AT(krakobran_stream, kept, 20);
KRAKOBRAN_AT(krakobran_stream, greatest, 24);
KRAKOBRAN_AT(krakobran_stream, runs, 32);
KRAKOBRAN_AT(krakobran_stream, dropped, 44);
KRAKOBRAN_SIZE(krakobran_places, 768);
KRAKOBRAN_AT(krakobran_places, positions, 0);
KRAKOBRAN_AT(krakobran_places, numbers, 128);
KRAKOBRAN_AT(krakobran_places, times, 256);
KRAKOBRAN_SIZE(krakobran_receiver, 1328);
KRAKOBRAN_AT(krakobran_receiver, stream, 0);
KRAKOBRAN_AT(krakobran_receiver, marks, 48);
KRAKOBRAN_AT(krakobran_receiver, places, 560);
KRAKOBRAN_SIZE(krakobran_stream_state, 560);
KRAKOBRAN_AT(krakobran_stream_state, stream, 0);
KRAKOBRAN_AT(krakobran_stream_state, marks, 48);
KRAKOBRAN_SIZE(krakobran_meter, 1888);
KRAKOBRAN_AT(krakobran_meter, first, 0);
KRAKOBRAN_AT(krakobran_meter, second, 560);
KRAKOBRAN_AT(krakobran_meter, places, 1120);

#undef KRAKOBRAN_HOLDS
#undef KRAKOBRAN_SIZE
#undef KRAKOBRAN_AT

#ifdef __cplusplus
}
#endif

#endif
