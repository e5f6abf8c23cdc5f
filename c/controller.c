/* A small controller: reads a file, asks for its plan with an output that is too short, learns the length, asks again with
 * an output of exactly that length, and prints both answers and the text.
 *
 * controller FILE
 */
#include <inttypes.h>
#include <stdio.h>
#include <stdlib.h>
#include <string.h>

#include "rack_plan.h"

/* The longest input that can be planned has 14,388 bytes. One longer is read in part, and is refused all the same. */
enum { MOST = 20000 };

/* What the output holds before a call, to see what the call wrote. */
enum { MARK = 0xA5 };

static int untouched(const uint8_t *bytes, size_t length)
{
    for (size_t i = 0; i < length; i++)
        if (bytes[i] != MARK)
            return 0;
    return 1;
}

static int fail(const char *what)
{
    fprintf(stderr, "controller: %s\n", what);
    return 1;
}

static int plan(const uint8_t *input, size_t length)
{
    uint8_t small[4];
    memset(small, MARK, sizeof small);
    int64_t answer = rack_plan(input, length, small, sizeof small);
    printf("an output of %zu bytes: answer %" PRId64 ", %s\n", sizeof small, answer,
           untouched(small, sizeof small) ? "untouched" : "written to");
    if (answer == 0)
        return fail("no memory");
    if (answer > 0)
        return fail("no text is that short");

    /* one byte more than the call is told of, to see that it stays as it is */
    size_t needed = (size_t)-answer;
    uint8_t *output = malloc(needed + 1);
    if (output == NULL)
        return fail("no memory for the output");
    memset(output, MARK, needed + 1);
    answer = rack_plan(input, length, output, needed);
    printf("an output of %zu bytes: answer %" PRId64 ", the byte behind it %s\n", needed, answer,
           untouched(output + needed, 1) ? "untouched" : "written to");
    if (answer > 0 && (size_t)answer <= needed)
        fwrite(output, 1, (size_t)answer, stdout);
    free(output);
    return answer == (int64_t)needed ? 0 : fail("the second answer is not the length");
}

int main(int count, char **words)
{
    static uint8_t input[MOST];
    if (count != 2)
        return fail("controller FILE");
    FILE *file = fopen(words[1], "rb");
    if (file == NULL)
        return fail("the file cannot be opened");
    size_t length = fread(input, 1, sizeof input, file);
    int bad = ferror(file);
    fclose(file);
    return bad ? fail("the file cannot be read") : plan(input, length);
}
