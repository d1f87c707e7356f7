/*
 * Kettleflock: duty sheets carried between devices.
 * SPDX-License-Identifier: Apache-2.0
 *
 * A device holds one table of times for a tree of duty sheets. A pass takes a source table, only read, and a
 * target table, changed: it says for each sheet what the target must do and brings the target's times up to
 * date. The library keeps no state and allocates nothing; all memory is lent by the caller for one call.
 *
 * What the tables can't see. In any run in which each device goes on from its own last table, a pass says of each sheet
 * what its full history says. That it is such a run is the caller's part:
 *   1. One number is one device, for ever. Two devices with one number lose each other's sheets unseen.
 *   2. Save a table before anybody may read it. If it is lost after somebody has read it, what is left is an older copy.
 *   3. Never go on from an older copy of a table once its counter has moved. A restored device takes a fresh number,
 *      one that no device has had: make a new table with kf_new and pass the old one into it, before any other work.
 *   4. Bring a sheet's content before you save the table that says it came. A pass doesn't say copy twice.
 * examples/hazard.c shows what is lost otherwise.
 *
 * A sheet removed twice. Where two devices remove a sheet and neither has heard of the other, a third that changed it and
 * settled against one of the removals can bring it back to both: the other removal is undone with KF_SAID_COPY, and
 * no conflict is said. README.md has the run.
 *
 * Lent memory. Every buffer is a pointer to 32-bit words followed by its length in words. The pointer isn't
 * NULL, even where the length is 0; it is aligned as a uint32_t and points to that many words. A buffer that is written
 * overlaps no other of the call. Any words at all may be lent: what isn't a sound table is refused.
 *
 * Threads. Any thread may make any call at any time, as long as nobody writes a buffer that is lent, and nobody reads
 * one that the call writes. Calls use neither errno nor locale nor signals. README.md says how much stack they take.
 *
 * Answers. Every call but the last two gives a number, and with it a count, or from kf_ahead two masks. Number 0 is
 * success; any other is one of KF_REFUSED_..., with the count or the masks 0, and then no word of any buffer has changed.
 * Where several refusals apply, the first in the order given at the call is the one given.
 *
 * Layout. A vector has a column, one count, for each device: 8 in a narrow table, for devices 0 to 7, and 16 in a
 * wide one, for devices 0 to 15. A table is a head and then its 1 to 256 rows; the head and each row have 40 words if
 * narrow, 72 if wide. The head: 0 device, 1 counter, 2 number of rows, 3 the sign of its width (0 if narrow, 16 if
 * wide), then zeros. A row: 0 kind, 1 size, 2-3 stamp (device, count), 4-5 birth (device, count), 6 mark, 7 class, and
 * four vectors, floor, newest, least, most, which start at 8, 16, 24, 32 if narrow and at 8, 24, 40, 56 if wide. Rows
 * are depth first and numbered from 0, the root; a folder's size counts itself and all rows beneath it, a sheet's is 1.
 * The tree of a table is fixed when it is made.
 *
 * Width. A call that takes two tables takes them of one width. kf_widen writes a narrow table as a wide one, from which
 * its device then goes on.
 */
#ifndef KETTLEFLOCK_H
#define KETTLEFLOCK_H

#include <stddef.h>
#include <stdint.h>

#ifdef __cplusplus
extern "C" {
#endif

/* The version of this header: major * 65536 + minor. kf_version gives that of the library that is linked. */
#define KF_VERSION 7

/* Before a call whose answer must be looked at: the compiler warns where it is dropped. */
#if defined(__cplusplus) && __cplusplus >= 201703L
#define KF_MUST_USE [[nodiscard]]
#elif defined(__STDC_VERSION__) && __STDC_VERSION__ >= 202311L
#define KF_MUST_USE [[nodiscard]]
#elif defined(__GNUC__)
#define KF_MUST_USE __attribute__((__warn_unused_result__))
#else
#define KF_MUST_USE
#endif

/* The columns of a vector, one for each device: devices are numbered from 0. */
#define KF_COLUMNS_NARROW 8
#define KF_COLUMNS_WIDE 16
/* The most rows of a table, and the most levels, root and sheets included. */
#define KF_MOST_ROWS 256
#define KF_MOST_LEVELS 16
/* The last class of duty; the first is 0. */
#define KF_LAST_CLASS 9

/* Places in the head. */
enum kf_head_place { KF_AT_DEVICE = 0, KF_AT_COUNTER = 1, KF_AT_ROWS = 2, KF_AT_SIGN = 3 };

/* Places in a row, from its start. A stamp or birth has its device there and its count next. */
enum kf_row_place {
    KF_AT_KIND = 0,
    KF_AT_SIZE = 1,
    KF_AT_STAMP = 2,
    KF_AT_BIRTH = 4,
    KF_AT_MARK = 6,
    KF_AT_CLASS = 7,
    KF_AT_FLOOR = 8
};
#define KF_AT_NEWEST(columns) (KF_AT_FLOOR + (size_t)(columns))
#define KF_AT_LEAST(columns) (KF_AT_FLOOR + 2 * (size_t)(columns))
#define KF_AT_MOST(columns) (KF_AT_FLOOR + 3 * (size_t)(columns))

/* The columns of a sound table. */
#define KF_COLUMNS(table) ((table)[KF_AT_SIGN] == 0 ? KF_COLUMNS_NARROW : KF_COLUMNS_WIDE)
/* The words of a row, and of the head. */
#define KF_WIDTH(columns) (KF_AT_FLOOR + 4 * (size_t)(columns))
/* The length of a table of so many rows, and where a row starts, in words. */
#define KF_LENGTH(columns, rows) (KF_WIDTH(columns) * ((size_t)(rows) + 1))
#define KF_ROW(columns, row) (KF_WIDTH(columns) * ((size_t)(row) + 1))
/* Room for any table, in words. The length that is lent is the table's own. */
#define KF_MOST_LENGTH KF_LENGTH(KF_COLUMNS_WIDE, KF_MOST_ROWS)

/* What a call gives. */
typedef struct kf_answer {
    uint32_t number; /* 0, or why the call was refused */
    uint32_t count;  /* what the call counts; 0 on a refusal */
} kf_answer;

/* What kf_ahead gives. In a mask bit d stands for device d. */
typedef struct kf_masks {
    uint32_t number; /* 0, or why the call was refused */
    uint32_t source; /* the devices of whom the source knows more than the target; 0 on a refusal */
    uint32_t target; /* the devices of whom the target knows more than the source; 0 on a refusal */
} kf_masks;

/* Why a call is refused. */
enum kf_refusal {
    KF_REFUSED_HEAD = 1,          /* length or head wrong: device above 7 (above 15 in a wide table), row count not 1 to
                                     256 or not matching the length, word 3 neither 0 nor 16, non-zero rest */
    KF_REFUSED_ORDER = 2,         /* a kind is above 3, or sizes, row 0 or levels break the order of rows; or a plan that
                                     would give such rows */
    KF_REFUSED_RULE = 3,          /* any other rule of the layout or the times is broken; a live row with a class above 9
                                     or mark 0 */
    KF_REFUSED_PLACES = 4,        /* sizes or folder places differ between the tables */
    KF_REFUSED_ONE_DEVICE = 5,    /* both tables have one device number */
    KF_REFUSED_SOURCE_AHEAD = 6,  /* a floor in the source names a later count of the target's device than its counter */
    KF_REFUSED_TARGET_AHEAD = 7,  /* the same with source and target exchanged */
    KF_REFUSED_ROW = 8,           /* no such row (for the rows under a folder: or not a folder) */
    KF_REFUSED_LENGTH = 9,        /* a lent output has the wrong length */
    KF_REFUSED_UNFIT = 10,        /* event unfit for the row's kind, or settling a folder; showing a folder as the row
                                     that stands; asking who is ahead at a folder */
    KF_REFUSED_TARGET_HEAD = 11,  /* 1, for the target */
    KF_REFUSED_TARGET_ORDER = 12, /* 2, for the target */
    KF_REFUSED_TARGET_RULE = 13,  /* 3, for the target */
    KF_REFUSED_NO_CONFLICT = 14,  /* settling, or asking who is ahead, where the rules don't say conflict */
    KF_REFUSED_COUNTER = 15,      /* the counter is 4,294,967,295 and a new stamp is needed */
    KF_REFUSED_CHOICE = 16,       /* event or choice not 1, 2 or 3 */
    KF_REFUSED_DEVICE = 17,       /* new table's device above 7 (above 15 with 16 columns) */
    KF_REFUSED_WIDTH = 19,        /* two tables of different width; new table's columns neither 8 nor 16; widening a
                                     table that is wide already */
    KF_REFUSED_CLASS = 21,        /* a class above 9 where one is taken: creating, changing, settling by new */
    KF_REFUSED_MARK = 22          /* mark 0 where one is taken: creating, changing, settling by new */
};

/* Word 0 of a row. Everything but a folder is a sheet. */
enum kf_kind { KF_NEVER = 0, KF_LIVE = 1, KF_REMOVED = 2, KF_FOLDER = 3 };

/* What a user does to a sheet. */
enum kf_event_kind { KF_CREATE = 1, KF_CHANGE = 2, KF_REMOVE = 3 };

/* How a conflict is settled. */
enum kf_choice { KF_THEIRS = 1, KF_OWN = 2, KF_NEW = 3 };

/* What a pass says of a row. */
enum kf_said {
    KF_SAID_KEEP = 0,       /* the target's sheet stays */
    KF_SAID_COPY = 1,       /* the target takes the source's sheet */
    KF_SAID_REMOVE = 2,     /* the target's sheet is removed */
    KF_SAID_CONFLICT = 3,   /* nothing was done: settle it with kf_settle */
    KF_SAID_WALKED = 4,     /* a folder whose children were looked at */
    KF_SAID_PASSED_OVER = 5 /* a folder with nothing new beneath it */
};

/* In whose table the row that stands lies. */
enum kf_side { KF_NEITHER = 0, KF_SOURCE = 1, KF_TARGET = 2 };

/*
 * Judges a table, only read. Counts its rows.
 * Refused with 1, 2, 3.
 */
KF_MUST_USE
kf_answer kf_check(const uint32_t *table, size_t table_length);

/*
 * Makes a new table of a device, below `columns`, with counter 0 and every sheet never. Counts its rows.
 *
 * `columns` is KF_COLUMNS_NARROW or KF_COLUMNS_WIDE. The plan has a number for each row, depth first: 0 for a sheet, k
 * for a folder of size k. `table` is written whole and must have KF_LENGTH(columns, plan_length) words; what was in it
 * doesn't matter.
 * Refused with 19, 17, 2 (also for a plan with no row or over 256), 9.
 */
KF_MUST_USE
kf_answer kf_new(uint32_t columns, uint32_t device, const uint32_t *plan, size_t plan_length, uint32_t *table,
                 size_t table_length);

/*
 * Writes a narrow table, only read, as a wide one: the same device, counter, rows and times, zeros in the new columns.
 * Counts its rows.
 *
 * `wide` is written whole and must have KF_LENGTH(KF_COLUMNS_WIDE, rows) words; what was in it doesn't matter.
 * Refused with 1, 2, 3, 19 (the table is wide already), 9.
 */
KF_MUST_USE
kf_answer kf_widen(const uint32_t *table, size_t table_length, uint32_t *wide, size_t wide_length);

/*
 * Does an event to a sheet: KF_CREATE (never or removed), KF_CHANGE (live) or KF_REMOVE (live). The counter goes up by
 * one; the new stamp is counted. `mark`, at least 1, stands for the sheet's content, and `duty_class` is its class of
 * duty, 0 to KF_LAST_CLASS; KF_REMOVE ignores both.
 * Refused with 1, 2, 3, 16, 21, 22, 8, 10, 15.
 */
KF_MUST_USE
kf_answer kf_event(uint32_t *table, size_t table_length, uint32_t row, uint32_t event, uint32_t mark,
                   uint32_t duty_class);

/*
 * Passes from source, only read, to target: the row and all beneath it. Counts the rows looked at.
 *
 * `answers` must have as many words as the row's size; it gets one of KF_SAID_... for each row, the first being
 * `row` itself. Sheets and times of the target are brought up to date, but for conflicts.
 * Refused with 1, 2, 3, 11, 12, 13, 19, 4, 5, 6, 7, 8, 9.
 */
KF_MUST_USE
kf_answer kf_pass(const uint32_t *source, size_t source_length, uint32_t *target, size_t target_length, uint32_t row,
                  uint32_t *answers, size_t answers_length);

/*
 * Settles a sheet where the rules say conflict, in the target: KF_THEIRS takes the source's sheet, KF_OWN keeps the
 * target's, KF_NEW makes it live with the mark and class given (the others ignore both). In each the counter goes up by
 * one and the sheet has a new stamp of the target's device, which is counted. The conflict doesn't come back; two
 * settlements of it that don't know of each other are a conflict again.
 * Refused with 1, 2, 3, 11, 12, 13, 19, 4, 5, 6, 7, 8, 16, 21, 22, 10, 14, 15.
 */
KF_MUST_USE
kf_answer kf_settle(const uint32_t *source, size_t source_length, uint32_t *target, size_t target_length, uint32_t row,
                    uint32_t choice, uint32_t mark, uint32_t duty_class);

/*
 * Shows all rows beneath a folder. Counts the words of that part of the table, which starts at
 * table + KF_ROW(KF_COLUMNS(table), row + 1); an empty folder counts 0.
 * Refused with 1, 2, 3, 8.
 */
KF_MUST_USE
kf_answer kf_beneath(const uint32_t *table, size_t table_length, uint32_t row);

/*
 * Shows the row that stands if the source is passed to the target: the source's where the rules say copy or
 * remove, else the target's. Counts its words: KF_WIDTH(KF_COLUMNS(target)), or 0 on a conflict. Changes nothing.
 * Refused with 1, 2, 3, 11, 12, 13, 19, 4, 5, 6, 7, 8, 10.
 */
KF_MUST_USE
kf_answer kf_standing(const uint32_t *source, size_t source_length, const uint32_t *target, size_t target_length,
                      uint32_t row);

/*
 * Says who is ahead at a sheet where the rules say conflict: the devices whose count is greater in the known time of the
 * source there than in that of the target, and those whose count is greater in the target's. Neither mask is 0. Changes
 * nothing.
 * Refused with 1, 2, 3, 11, 12, 13, 19, 4, 5, 6, 7, 8, 10, 14.
 */
KF_MUST_USE
kf_masks kf_ahead(const uint32_t *source, size_t source_length, const uint32_t *target, size_t target_length,
                  uint32_t row);

/*
 * In whose table the row that kf_standing shows lies, at its KF_ROW: KF_SOURCE or KF_TARGET, and KF_NEITHER on a conflict
 * or a refusal.
 */
KF_MUST_USE
uint32_t kf_standing_side(const uint32_t *source, size_t source_length, const uint32_t *target, size_t target_length,
                          uint32_t row);

/*
 * The version of the library that is linked: KF_VERSION of the header that belongs to it.
 */
KF_MUST_USE
uint32_t kf_version(void);

#ifdef __cplusplus
}
#endif

#endif
