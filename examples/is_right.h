/* For the examples: says so if a call didn't answer as expected. */
#ifndef IS_RIGHT_H
#define IS_RIGHT_H

#include <stdio.h>

#include "kettleflock.h"

static int is_right(const char *call, kf_answer answer, uint32_t number, uint32_t count) {
    const int right = answer.number == number && answer.count == count;
    if (!right)
        fprintf(stderr, "%s: number %u and count %u, not %u and %u\n", call, (unsigned)answer.number,
                (unsigned)answer.count, (unsigned)number, (unsigned)count);
    return right;
}

#endif
