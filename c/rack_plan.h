/* The rack planner for a controller in C.
 *
 * Link, in this order: liblisting.a (made by `rt staticlib listing`, in target/staticlib/) and librattle_c.a (of the
 * toolchain, in its lib/). Nothing else is needed but the C library.
 */
#ifndef RACK_PLAN_H
#define RACK_PLAN_H

#include <stddef.h>
#include <stdint.h>

#ifdef __cplusplus
extern "C" {
#endif

/* Plans a job.
 *
 * input:  the bytes that the program `plan` reads: 32-bit words, the least byte first. Ten words (machine kind, number of
 *         processors, seven figures, order), then the job words. docs/FORMATS.md says which word stands where.
 * output: gets the bytes that `plan` prints: the listing of the schedule, or, for an input that is refused, one line
 *         `refused ..`. Every line ends with a newline; there is no zero byte behind the last.
 *
 * The answer n:
 *   n > 0   n bytes were written to the front of the output; its bytes past them keep their values.
 *   n < 0   the output is too short: -n bytes are needed. Nothing was written. This is tested last, so -n is the
 *           length of exactly the text that a longer output gets.
 *   n == 0  there is no memory for the job. Nothing was written. (No text is empty, so 0 never stands for one.)
 *
 * RACK_PLAN_ENOUGH bytes are enough for every input. The input is only read. The two buffers must not overlap, and
 * neither pointer may be null, not even with a length of 0. Scratch tables stand on the stack of the calling thread.
 */
int64_t rack_plan(const uint8_t *input, size_t input_length, uint8_t *output, size_t output_length);

#define RACK_PLAN_ENOUGH 21600

#ifdef __cplusplus
}
#endif

#endif
