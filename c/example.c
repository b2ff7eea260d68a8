/*
 * Checks a share sheet, then prints what a request of 5 sectors costs at some weights.
 *
 *   cc -Ic c/example.c target/staticlib/libfuzkelai.a -o example && ./example
 */
#include "fuzkelai.h"

#include <stdio.h>
#include <string.h>

int main(void)
{
    const char *sheet = "F 2\n50 64\n100 64\nL 2\n4\n4\nP 2\nD 2\nT 0\n";
    const uint32_t weights[] = {1, 50, 100};
    uint32_t answer = fuzkelai_sheet_check((const uint8_t *)sheet, strlen(sheet));
    size_t i;

    if (answer != 0) {
        printf("refusal %u at line %u\n", (unsigned)(answer / 1000), (unsigned)(answer % 1000));
        return 1;
    }
    printf("accepted\n");
    for (i = 0; i < sizeof weights / sizeof weights[0]; i++) {
        printf("5 sectors at weight %u: %u\n", (unsigned)weights[i], (unsigned)fuzkelai_charge(5, weights[i]));
    }
    return 0;
}
