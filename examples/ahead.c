/*
 * Desk and tablet have both corrected a sheet, and a person who is to settle it asks who is ahead: of whom each side knows
 * more than the other. Ends with status 0 if all is as the paper has it.
 */
#include "is_right.h"

#define COLUMNS KF_COLUMNS_NARROW
#define ROWS 3
#define SHEET 1
#define OTHER_SHEET 2
#define LENGTH KF_LENGTH(COLUMNS, ROWS)

enum { DESK = 0, TABLET = 1, LAPTOP = 2 };

static const char *const names[] = {"desk", "tablet", "laptop"};

/* Tells the devices of a mask. */
static void tell(const char *side, uint32_t mask) {
    printf("the %s knows more of:", side);
    for (uint32_t device = DESK; device <= LAPTOP; device++)
        if (mask >> device & 1)
            printf(" %s", names[device]);
    puts("");
}

int main(void) {
    static const uint32_t plan[ROWS] = {ROWS, 0, 0};
    uint32_t desk[LENGTH], tablet[LENGTH], laptop[LENGTH], said[ROWS];

    /* The desk files a sheet; the tablet takes it along. Both correct it, and the laptop's other sheet reaches the desk. */
    if (!is_right("kf_new", kf_new(COLUMNS, DESK, plan, ROWS, desk, LENGTH), 0, ROWS) ||
        !is_right("kf_new", kf_new(COLUMNS, TABLET, plan, ROWS, tablet, LENGTH), 0, ROWS) ||
        !is_right("kf_new", kf_new(COLUMNS, LAPTOP, plan, ROWS, laptop, LENGTH), 0, ROWS) ||
        !is_right("kf_event", kf_event(desk, LENGTH, SHEET, KF_CREATE, 700, 0), 0, 1) ||
        !is_right("kf_pass", kf_pass(desk, LENGTH, tablet, LENGTH, 0, said, ROWS), 0, ROWS) ||
        !is_right("kf_event", kf_event(desk, LENGTH, SHEET, KF_CHANGE, 650, 0), 0, 2) ||
        !is_right("kf_event", kf_event(tablet, LENGTH, SHEET, KF_CHANGE, 640, 0), 0, 1) ||
        !is_right("kf_event", kf_event(laptop, LENGTH, OTHER_SHEET, KF_CREATE, 815, 0), 0, 1) ||
        !is_right("kf_pass", kf_pass(laptop, LENGTH, desk, LENGTH, 0, said, ROWS), 0, ROWS))
        return 1;

    const kf_masks ahead = kf_ahead(desk, LENGTH, tablet, LENGTH, SHEET);
    const kf_masks none = kf_ahead(desk, LENGTH, tablet, LENGTH, OTHER_SHEET);
    if (ahead.number != 0 || none.number != KF_REFUSED_NO_CONFLICT || none.source != 0 || none.target != 0) {
        fprintf(stderr, "kf_ahead: number %u, and %u where there is no conflict\n", (unsigned)ahead.number,
                (unsigned)none.number);
        return 1;
    }
    tell("desk", ahead.source);
    tell("tablet", ahead.target);
    return ahead.source == (1u << DESK | 1u << LAPTOP) && ahead.target == 1u << TABLET ? 0 : 1;
}
