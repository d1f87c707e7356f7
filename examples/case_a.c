/*
 * Case A: the desk creates a sheet and passes it to a new tablet. Prints what the pass says of each row; ends with
 * status 0 if all is as the paper has it.
 */
#include "is_right.h"

#define COLUMNS KF_COLUMNS_NARROW
#define ROWS 5
#define SHEET 2
#define LENGTH KF_LENGTH(COLUMNS, ROWS)

/* What the paper says of each row. */
static const uint32_t expected[ROWS] = {KF_SAID_WALKED, KF_SAID_WALKED, KF_SAID_COPY, KF_SAID_KEEP, KF_SAID_KEEP};

static const char *const words[] = {"keep", "copy", "remove", "conflict", "walked", "passed over"};

int main(void) {
    /* A root of size 5: a folder of size 3 with two sheets, and another sheet. */
    static const uint32_t plan[ROWS] = {5, 3, 0, 0, 0};
    uint32_t desk[LENGTH], tablet[LENGTH], answers[ROWS];

    if (kf_version() != KF_VERSION) {
        fprintf(stderr, "the library has version %u, the header %u\n", (unsigned)kf_version(), (unsigned)KF_VERSION);
        return 1;
    }
    if (!is_right("kf_new", kf_new(COLUMNS, 0, plan, ROWS, desk, LENGTH), 0, ROWS) ||
        !is_right("kf_new", kf_new(COLUMNS, 1, plan, ROWS, tablet, LENGTH), 0, ROWS) ||
        !is_right("kf_event", kf_event(desk, LENGTH, SHEET, KF_CREATE, 700, 0), 0, 1) ||
        !is_right("kf_pass", kf_pass(desk, LENGTH, tablet, LENGTH, 0, answers, ROWS), 0, ROWS))
        return 1;

    for (uint32_t row = 0; row < ROWS; row++) {
        if (answers[row] != expected[row]) {
            fprintf(stderr, "row %u: %u, not %u\n", (unsigned)row, (unsigned)answers[row], (unsigned)expected[row]);
            return 1;
        }
        printf("row %u: %s\n", (unsigned)row, words[answers[row]]);
    }

    /* The tablet now has the sheet, and knows each sheet up to the desk's first count. */
    const uint32_t mark = tablet[KF_ROW(COLUMNS, SHEET) + KF_AT_MARK];
    printf("the tablet's sheet has mark %u\n", (unsigned)mark);
    for (uint32_t row = SHEET; row < ROWS; row++) {
        if (tablet[KF_ROW(COLUMNS, row) + KF_AT_FLOOR] != 1) {
            fprintf(stderr, "row %u: its floor isn't 1 in column 0\n", (unsigned)row);
            return 1;
        }
    }
    return mark == 700 ? 0 : 1;
}
