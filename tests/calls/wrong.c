/* Does what a watched program may not do, by its name, so that a watcher that notices nothing is noticed. With any other word it does
 * nothing wrong. */
#include <limits.h>
#include <stdlib.h>
#include <string.h>

#include "watched.h"

enum { SIZE = 8 };

int main(int words, char **word) {
    const char *const fault = words == 2 ? word[1] : "";
    volatile int most = INT_MAX, seen = 0;
    volatile char *volatile lent = calloc(SIZE, 1);
    if (lent == NULL)
        return 2;
    if (strcmp(fault, "overflow") == 0)
        most = most + 1;
    if (strcmp(fault, "past") == 0)
        seen = lent[SIZE];
    if (strcmp(fault, "forbidden") == 0) {
        forbid(lent, SIZE);
        seen = lent[0];
    }
    if (strcmp(fault, "forgotten") == 0) {
        forget(lent, SIZE);
        if (lent[0] == 0)
            seen = 1;
    }
    if (strcmp(fault, "demanded") == 0) {
        forget(lent, SIZE);
        demand(lent, SIZE);
    }
    (void)seen;
    if (strcmp(fault, "leaked") != 0)
        free((void *)lent);
    lent = NULL;
    return 0;
}
