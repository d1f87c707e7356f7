/*
 * What the tables can't see: a tablet is restored from a backup and goes on from it, against the third rule of
 * kettleflock.h, and a correction is lost while every call succeeds. Then the right way: the restored tablet takes a
 * fresh number. Ends with status 0 if all goes as told here; hazard.out is what it prints.
 */
#include <string.h>

#include "is_right.h"

#define COLUMNS KF_COLUMNS_NARROW
#define ROWS 2
#define SHEET 1
#define LENGTH KF_LENGTH(COLUMNS, ROWS)

enum { DESK = 0, TABLET = 1, FRESH = 2 };

static const char *const words[] = {"keep", "copy", "remove", "conflict", "walked", "passed over"};

static int make(uint32_t *table, uint32_t device) {
    static const uint32_t plan[ROWS] = {ROWS, 0};
    return is_right("kf_new", kf_new(COLUMNS, device, plan, ROWS, table, LENGTH), 0, ROWS);
}

static int act(uint32_t *table, uint32_t event, uint32_t mark, uint32_t count) {
    return is_right("kf_event", kf_event(table, LENGTH, SHEET, event, mark, 0), 0, count);
}

static unsigned figure(const uint32_t *table) { return (unsigned)table[KF_ROW(COLUMNS, SHEET) + KF_AT_MARK]; }

/* Passes and tells what is said of the sheet; not right if it is something else than expected. */
static int pass(const char *way, const uint32_t *source, uint32_t *target, uint32_t expected) {
    uint32_t said[ROWS];
    const kf_answer answer = kf_pass(source, LENGTH, target, LENGTH, 0, said, ROWS);
    if (answer.number != 0) {
        fprintf(stderr, "%s: refused by %u\n", way, (unsigned)answer.number);
        return 0;
    }
    printf("  %s: %s; the sheet there says %u\n", way, words[said[SHEET]], figure(target));
    return said[SHEET] == expected;
}

/* Passes, and is refused. */
static int refused(const char *way, const uint32_t *source, uint32_t *target, uint32_t number) {
    uint32_t said[ROWS];
    const kf_answer answer = kf_pass(source, LENGTH, target, LENGTH, 0, said, ROWS);
    printf("  %s: refused by %u\n", way, (unsigned)answer.number);
    return answer.number == number;
}

/* The tablet files 700, a backup is made of its table, it corrects 700 to 650, and the desk hears of it. */
static int begin(uint32_t *desk, uint32_t *tablet, uint32_t *backup) {
    puts("The tablet files a sheet, 700, and its table is backed up. It corrects the sheet to 650.");
    if (!make(desk, DESK) || !make(tablet, TABLET) || !act(tablet, KF_CREATE, 700, 1))
        return 0;
    memcpy(backup, tablet, LENGTH * sizeof *tablet);
    return act(tablet, KF_CHANGE, 650, 2) && pass("tablet to desk", tablet, desk, KF_SAID_COPY);
}

static int wrong(void) {
    uint32_t desk[LENGTH], tablet[LENGTH], backup[LENGTH];

    puts("Going on from an older copy");
    if (!begin(desk, tablet, backup))
        return 0;
    puts("The tablet is restored from the backup. Its counter has moved since, and the calls can still see it.");
    memcpy(tablet, backup, sizeof tablet);
    if (!refused("tablet to desk", tablet, desk, KF_REFUSED_TARGET_AHEAD) ||
        !refused("desk to tablet", desk, tablet, KF_REFUSED_SOURCE_AHEAD))
        return 0;
    puts("The captain corrects the restored sheet to 640. Two events are the tablet's second now, and no call can see it.");
    if (!act(tablet, KF_CHANGE, 640, 2) || !pass("tablet to desk", tablet, desk, KF_SAID_KEEP) ||
        !pass("desk to tablet", desk, tablet, KF_SAID_KEEP))
        return 0;
    printf("Keep both ways: the tablet says %u, the desk %u, and nobody hears of it.\n", figure(tablet), figure(desk));
    if (figure(tablet) != 640 || figure(desk) != 650)
        return 0;
    puts("The tablet's next correction goes over the desk's figure.");
    return act(tablet, KF_CHANGE, 645, 3) && pass("tablet to desk", tablet, desk, KF_SAID_COPY);
}

static int right(void) {
    uint32_t desk[LENGTH], tablet[LENGTH], backup[LENGTH], fresh[LENGTH];

    puts("A fresh number");
    if (!begin(desk, tablet, backup))
        return 0;
    puts("The tablet is restored: a new table with a fresh number, and the backup is passed into it before any other work.");
    if (!make(fresh, FRESH) || !pass("backup to fresh", backup, fresh, KF_SAID_COPY))
        return 0;
    puts("The captain corrects the restored sheet to 640, and then the two meet.");
    if (!act(fresh, KF_CHANGE, 640, 1) || !pass("fresh to desk", fresh, desk, KF_SAID_CONFLICT) ||
        !pass("desk to fresh", desk, fresh, KF_SAID_CONFLICT))
        return 0;
    puts("Both figures are there, and somebody is asked.");
    return figure(fresh) == 640 && figure(desk) == 650;
}

int main(void) { return wrong() && right() ? 0 : 1; }
