/*
 * Fuzkelai: the check of a share sheet, and the charge of a request.
 *
 * Link with target/staticlib/libfuzkelai.a: .ci/test-c makes it, a copy of the out/libfuzkelai_c.a that
 * `rt lib` makes in crates/fuzkelai_c. Neither function allocates, keeps a pointer or changes anything of
 * the caller's, and both may be called from several threads.
 */
#ifndef FUZKELAI_H
#define FUZKELAI_H

#include <stddef.h>
#include <stdint.h>

#ifdef __cplusplus
extern "C" {
#endif

/*
 * Checks the bytes of a share sheet: 0 if it is accepted, else refusal * 1000 + line.
 *
 *   1  more than 256 bytes (line 0: the answer is 1000)
 *   2  a line that is not of the form due there, or has no line feed
 *   3  a count or a number out of range
 *   4  bytes after the last section (the line is the first extra one)
 *   5  a parameter's letter out of order, or repeated
 *
 * Lines count from 1, and the line is at most 30. `bytes` must point to `length` readable bytes; it may be
 * null where `length` is 0.
 */
uint32_t fuzkelai_sheet_check(const uint8_t *bytes, size_t length);

/*
 * The charge of a request of `length` sectors of 512 bytes, for a flow of that weight:
 * 840 * length / weight, rounded up. 0 unless length is 1 to 2048 and weight is 1 to 100; no charge is 0.
 */
uint32_t fuzkelai_charge(uint32_t length, uint32_t weight);

#ifdef __cplusplus
}
#endif

#endif
