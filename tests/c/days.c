/* Answers pairs of days from its input, a pair to a line: number, detail and days. */
#include <inttypes.h>
#include <stdio.h>
#include "vrbolist.h"

int main(void) {
    uint64_t first, second;
    while (scanf("%" SCNu64 " %" SCNu64, &first, &second) == 2) {
        vrbolist_days_answer told = vrbolist_day_difference(first, second);
        printf("%" PRIu64 " %" PRIu64 " %" PRId64 "\n", told.number, told.detail, told.days);
    }
    return 0;
}
