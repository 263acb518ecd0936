/* Prints the size of each struct of krakobran.h, and offset and size of each field. The differential test prints the
 * same table of the structs that it passes to the library, and `make layout` compares the two. */

#include <stddef.h>
#include <stdio.h>
#include "krakobran.h"

#define SIZE(type) printf("%s %zu\n", #type, sizeof(krakobran_##type))
#define FIELD(type, field)                                                                                            \
    printf("%s.%s %zu %zu\n", #type, #field, offsetof(krakobran_##type, field), sizeof(((krakobran_##type *)0)->field))

int main(void) {
    SIZE(layout);
    FIELD(layout, label);
    FIELD(layout, sent);
    FIELD(layout, arrivals);
    SIZE(part);
    FIELD(part, start);
    FIELD(part, length);
    SIZE(arrival);
    FIELD(arrival, number);
    FIELD(arrival, time);
    SIZE(row);
    FIELD(row, kind);
    FIELD(row, position);
    FIELD(row, jump);
    FIELD(row, extent);
    FIELD(row, late);
    FIELD(row, offset);
    FIELD(row, largest);
    FIELD(row, first);
    SIZE(counts_figures);
    FIELD(counts_figures, arrived);
    FIELD(counts_figures, reordered);
    FIELD(counts_figures, duplicates);
    FIELD(counts_figures, inorder);
    FIELD(counts_figures, closed);
    FIELD(counts_figures, squares);
    FIELD(counts_figures, current);
    SIZE(gap_figures);
    FIELD(gap_figures, known);
    FIELD(gap_figures, positions);
    SIZE(degree_counts);
    FIELD(degree_counts, reordered);
    FIELD(degree_counts, arrived);
    SIZE(degree_figures);
    FIELD(degree_figures, known);
    FIELD(degree_figures, bits);
    SIZE(ratios_figures);
    FIELD(ratios_figures, known);
    FIELD(ratios_figures, reordered);
    FIELD(ratios_figures, degree1);
    FIELD(ratios_figures, degree3);
    SIZE(worse_link);
    FIELD(worse_link, link);
    FIELD(worse_link, start);
    FIELD(worse_link, length);
    SIZE(needs);
    FIELD(needs, packets);
    FIELD(needs, octets);
    FIELD(needs, time);
    SIZE(accommodated_counts);
    FIELD(accommodated_counts, accommodated);
    FIELD(accommodated_counts, arrived);
    SIZE(steps);
    FIELD(steps, arrived);
    FIELD(steps, greatest);
    FIELD(steps, counts);
    SIZE(verdict);
    FIELD(verdict, agrees);
    FIELD(verdict, line);
    SIZE(noted);
    FIELD(noted, kind);
    FIELD(noted, jump);
    FIELD(noted, extent);
    FIELD(noted, late);
    SIZE(runs);
    FIELD(runs, closed);
    FIELD(runs, squares);
    FIELD(runs, current);
    SIZE(stream);
    FIELD(stream, sent);
    FIELD(stream, arrived);
    FIELD(stream, duplicates);
    FIELD(stream, inorder);
    FIELD(stream, next);
    FIELD(stream, kept);
    FIELD(stream, greatest);
    FIELD(stream, runs);
    FIELD(stream, dropped);
    SIZE(places);
    FIELD(places, positions);
    FIELD(places, numbers);
    FIELD(places, times);
    SIZE(receiver);
    FIELD(receiver, stream);
    FIELD(receiver, marks);
    FIELD(receiver, places);
    SIZE(stream_state);
    FIELD(stream_state, stream);
    FIELD(stream_state, marks);
    SIZE(meter);
    FIELD(meter, first);
    FIELD(meter, second);
    FIELD(meter, places);
    return 0;
}
