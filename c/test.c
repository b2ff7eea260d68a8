/*
 * Tests of the two functions from C: good and bad sheets, no bytes at all, and every charge against the formula.
 * Prints what failed, and ends with 1 if anything did. It is compiled as C and as C++.
 */
#include "fuzkelai.h"

#include <stdio.h>
#include <stdlib.h>
#include <string.h>

static int failures = 0;

static void expect(const char *what, uint32_t got, uint32_t want)
{
    if (got != want) {
        printf("FAILED %s: %lu in place of %lu\n", what, (unsigned long)got, (unsigned long)want);
        failures++;
    }
}

/* The bytes are checked in a block of just their size, so that a read past the end is seen. */
static uint32_t check(const char *text, size_t length)
{
    uint8_t *block = (uint8_t *)malloc(length ? length : 1);
    uint32_t answer;

    if (block == NULL) {
        printf("no memory\n");
        exit(1);
    }
    memcpy(block, text, length);
    answer = fuzkelai_sheet_check(block, length);
    if (memcmp(block, text, length) != 0) {
        printf("FAILED: the bytes of a sheet were changed\n");
        failures++;
    }
    free(block);
    return answer;
}

static void sheet(const char *text, uint32_t want)
{
    expect(text, check(text, strlen(text)), want);
}

static void sheets(void)
{
    const char *a = "F 2\n50 64\n100 64\nL 2\n4\n4\nP 2\nD 2\nT 0\n";
    size_t n;

    sheet(a, 0);
    sheet("F 0\nL 0\nP 0\n", 0);
    sheet("F 1\n100 2048\nL 1\n32\nP 2\nD 32\nT 1000000000\n", 0);
    sheet("F 0\nL 0\nP 1\nT 0\n", 0);
    sheet("F 0\nL 0\nP 0", 2003);
    sheet("", 2001);
    sheet("F 17\n", 3001);
    sheet("F 4294967297\n", 3001);
    sheet("F 17", 2001);
    sheet("F 1\n05 5\n", 2002);
    sheet("F 1\n101 5\n", 3002);
    sheet("F 0\nL 9\n", 3002);
    sheet("F 0\nL 0\nP 2\nT 0\nD 1\n", 5005);
    sheet("F 0\nL 0\nP 2\nD 1\nD 1\n", 5005);
    sheet("F 0\nL 0\nP 0\n\n", 4004);
    sheet("F 0\nL 0\nP 0\nx", 4004);

    /* every part of an accepted sheet is refused at the line where it ends */
    for (n = 0; n < strlen(a); n++) {
        uint32_t line = 1;
        size_t i;
        for (i = 0; i < n; i++) {
            line += a[i] == '\n';
        }
        expect("a part of a sheet", check(a, n), 2000 + line);
    }
}

static void sizes(void)
{
    char bytes[1000];
    size_t n;

    memset(bytes, 'x', sizeof bytes);
    memcpy(bytes, "F 0\nL 0\nP 0\n", 12);
    expect("256 bytes", check(bytes, 256), 4004);
    for (n = 257; n <= sizeof bytes; n++) {
        expect("more than 256 bytes", check(bytes, n), 1000);
    }
    expect("no bytes", fuzkelai_sheet_check((const uint8_t *)bytes, 0), 2001);
    expect("a null pointer", fuzkelai_sheet_check(NULL, 0), 2001);
}

/* each byte in each place of a small sheet: it is accepted only where the byte is a digit that fits, or the same */
static void bytes_at_places(void)
{
    const char *good = "F 1\n5 7\nL 0\nP 0\n";
    char text[17];
    size_t i;
    int b;
    unsigned accepted = 0;

    for (i = 0; i < 16; i++) {
        for (b = 0; b < 256; b++) {
            memcpy(text, good, 17);
            text[i] = (char)b;
            accepted += check(text, 16) == 0;
        }
    }
    /* the same byte at 16 places, and 8 other digits, 1 to 9, at the two numbers of the flow */
    expect("texts that differ in a byte", accepted, 16 + 8 + 8);
}

static void charges(void)
{
    const uint32_t far[] = {0x7fffffffu, 0x80000000u, 0xfffffffeu, 0xffffffffu};
    uint32_t length, weight;
    size_t i;

    for (length = 1; length <= 2048; length++) {
        for (weight = 1; weight <= 100; weight++) {
            expect("a charge", fuzkelai_charge(length, weight), (840 * length + weight - 1) / weight);
        }
    }
    expect("the least charge", fuzkelai_charge(1, 100), 9);
    expect("the largest charge", fuzkelai_charge(2048, 1), 1720320);
    for (length = 0; length <= 2100; length++) {
        expect("weight 0", fuzkelai_charge(length, 0), 0);
        expect("weight 101", fuzkelai_charge(length, 101), 0);
    }
    for (weight = 0; weight <= 200; weight++) {
        expect("length 0", fuzkelai_charge(0, weight), 0);
        expect("length 2049", fuzkelai_charge(2049, weight), 0);
    }
    for (i = 0; i < sizeof far / sizeof far[0]; i++) {
        expect("a long length", fuzkelai_charge(far[i], 1), 0);
        expect("a great weight", fuzkelai_charge(1, far[i]), 0);
        expect("both", fuzkelai_charge(far[i], far[i]), 0);
    }
}

int main(void)
{
    sheets();
    sizes();
    bytes_at_places();
    charges();
    if (failures == 0) {
        printf("c: all passed\n");
    }
    return failures != 0;
}
