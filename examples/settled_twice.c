/*
 * Desk and tablet settle one conflict, each for its own figure, and neither has heard of it: when they meet, that is a
 * conflict too. Ends with status 0 if all is as the paper has it.
 */
#include <string.h>

#include "is_right.h"

#define COLUMNS KF_COLUMNS_NARROW
#define ROWS 2
#define SHEET 1
#define LENGTH KF_LENGTH(COLUMNS, ROWS)

static unsigned figure(const uint32_t *table) { return (unsigned)table[KF_ROW(COLUMNS, SHEET) + KF_AT_MARK]; }

/* Passes and tells what is said of the sheet; not right if it is something else than expected. */
static int pass(const char *way, const uint32_t *source, uint32_t *target, uint32_t expected) {
    static const char *const words[] = {"keep", "copy", "remove", "conflict"};
    uint32_t said[ROWS];
    if (!is_right(way, kf_pass(source, LENGTH, target, LENGTH, 0, said, ROWS), 0, ROWS) || said[SHEET] > KF_SAID_CONFLICT)
        return 0;
    printf("%s: %s; the sheet there says %u\n", way, words[said[SHEET]], figure(target));
    return said[SHEET] == expected;
}

int main(void) {
    static const uint32_t plan[ROWS] = {ROWS, 0};
    uint32_t desk[LENGTH], tablet[LENGTH], seen[LENGTH];

    if (!is_right("kf_new", kf_new(COLUMNS, 0, plan, ROWS, desk, LENGTH), 0, ROWS) ||
        !is_right("kf_new", kf_new(COLUMNS, 1, plan, ROWS, tablet, LENGTH), 0, ROWS) ||
        !is_right("kf_event", kf_event(desk, LENGTH, SHEET, KF_CREATE, 650, 0), 0, 1) ||
        !is_right("kf_event", kf_event(tablet, LENGTH, SHEET, KF_CREATE, 640, 0), 0, 1) ||
        !pass("desk to tablet", desk, tablet, KF_SAID_CONFLICT))
        return 1;

    /* Each settles by what it has seen of the other, for its own figure. A settling is the second act of each. */
    memcpy(seen, tablet, sizeof seen);
    if (!is_right("kf_settle", kf_settle(desk, LENGTH, tablet, LENGTH, SHEET, KF_OWN, 0, 0), 0, 2) ||
        !is_right("kf_settle", kf_settle(seen, LENGTH, desk, LENGTH, SHEET, KF_OWN, 0, 0), 0, 2))
        return 1;
    puts("Both have settled, each for its own figure.");
    if (!pass("desk to tablet", desk, tablet, KF_SAID_CONFLICT) || !pass("tablet to desk", tablet, desk, KF_SAID_CONFLICT))
        return 1;

    puts("The tablet gives way.");
    if (!is_right("kf_settle", kf_settle(desk, LENGTH, tablet, LENGTH, SHEET, KF_THEIRS, 0, 0), 0, 3) ||
        !pass("tablet to desk", tablet, desk, KF_SAID_COPY))
        return 1;
    return figure(desk) == 650 && figure(tablet) == 650 ? 0 : 1;
}
