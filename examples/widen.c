/*
 * The desk's table has eight columns, and a ninth device joins: the desk's table is widened, and its sheet passed on.
 * Ends with status 0 if all is as the paper has it.
 */
#include "is_right.h"

#define ROWS 2
#define SHEET 1
#define NARROW KF_LENGTH(KF_COLUMNS_NARROW, ROWS)
#define WIDE KF_LENGTH(KF_COLUMNS_WIDE, ROWS)

int main(void) {
    static const uint32_t plan[ROWS] = {2, 0};
    uint32_t narrow[NARROW], desk[WIDE], ninth[WIDE], answers[ROWS];

    if (!is_right("kf_new", kf_new(KF_COLUMNS_NARROW, 0, plan, ROWS, narrow, NARROW), 0, ROWS) ||
        !is_right("kf_event", kf_event(narrow, NARROW, SHEET, KF_CREATE, 700, 3), 0, 1) ||
        !is_right("kf_new", kf_new(KF_COLUMNS_WIDE, 8, plan, ROWS, ninth, WIDE), 0, ROWS) ||
        !is_right("kf_pass", kf_pass(narrow, NARROW, ninth, WIDE, 0, answers, ROWS), KF_REFUSED_WIDTH, 0) ||
        !is_right("kf_widen", kf_widen(narrow, NARROW, desk, WIDE), 0, ROWS) ||
        !is_right("kf_pass", kf_pass(desk, WIDE, ninth, WIDE, 0, answers, ROWS), 0, ROWS))
        return 1;

    const uint32_t *sheet = ninth + KF_ROW(KF_COLUMNS(ninth), SHEET);
    printf("the ninth device's sheet has mark %u and class %u\n", (unsigned)sheet[KF_AT_MARK],
           (unsigned)sheet[KF_AT_CLASS]);
    const int is_carried = sheet[KF_AT_MARK] == 700 && sheet[KF_AT_CLASS] == 3 && sheet[KF_AT_FLOOR] == 1;
    return answers[SHEET] == KF_SAID_COPY && is_carried ? 0 : 1;
}
