/* Prints the version of include/veilbuzz.h and its words of refusals, to be held to the wrapper's by wrapper/tests/words_alike.rs. */
#include <stdio.h>

#include "veilbuzz.h"

static void print(uint64_t number) {
    const char *const found = veilbuzz_refusal_found(number);
    const char *const mend = veilbuzz_refusal_mend(number);
    printf("%llu: %s (%s)\n", (unsigned long long)number, found ? found : "NULL", mend ? mend : "NULL");
}

int main(void) {
    uint64_t number;
    printf("version %s\n", VEILBUZZ_VERSION);
    for (number = 0; number <= 30; number++)
        print(number);
    print(UINT64_C(1) << 32 | 1);
    print(UINT64_MAX);
    return 0;
}
