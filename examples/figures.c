/* Prints what the library says of a sample file: label, counts, reordered ratio, total of disorder, what a receiver that
 * restores order needs, and the report. `figures FILE` reads a file, `figures` standard input. */

#include <inttypes.h>
#include <stdio.h>
#include "krakobran.h"

/* One octet more than the longest sample, so that a longer file is seen to be one. */
static uint8_t file[KRAKOBRAN_FILE_OCTETS + 1];
static uint8_t report[KRAKOBRAN_REPORT_OCTETS];

/* Prints the figures of an accepted file: no call over it is refused, since each has the room that suffices and asks for no
 * record. */
static void print_figures(size_t octets) {
    krakobran_part label;
    krakobran_counts_figures counts;
    krakobran_ratios_figures ratios;
    krakobran_needs needs;
    uint64_t total, length;
    krakobran_sample_label(file, octets, &label);
    krakobran_counts(file, octets, &counts);
    krakobran_ratios(file, octets, &ratios);
    krakobran_disorder(file, octets, &total);
    krakobran_greatest_needs(file, octets, &needs);
    krakobran_report_write(file, octets, report, sizeof report, &length);
    printf("label \"%.*s\"\n", (int)label.length, (const char *)file + label.start);
    printf("L %" PRIu64 ", reordered %" PRIu64 ", duplicates %" PRIu64 ", in order %" PRIu64 "\n", counts.arrived,
           counts.reordered, counts.duplicates, counts.inorder);
    if (ratios.known)
        printf("reordered ratio %.4f\n", krakobran_double(ratios.reordered));
    else
        printf("reordered ratio undefined\n");
    printf("total of disorder %" PRIu64 "\n", total);
    printf("needs %" PRIu64 " packets, %" PRIu64 " octets, %" PRIu64 " microseconds\n", needs.packets, needs.octets,
           needs.time);
    fwrite(report, 1, length, stdout);
}

int main(int argc, char **argv) {
    FILE *input = argc > 1 ? fopen(argv[1], "rb") : stdin;
    if (input == NULL) {
        perror(argv[1]);
        return 2;
    }
    size_t octets = fread(file, 1, sizeof file, input);
    krakobran_layout layout;
    uint64_t refusal = krakobran_sample_check(file, octets, &layout);
    if (refusal != KRAKOBRAN_NONE) {
        fprintf(stderr, "refused %" PRIu64 "\n", refusal);
        return 1;
    }
    print_figures(octets);
    return 0;
}
