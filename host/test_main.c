/* The tests of the C interface.  Exit status 0 only if no check failed. */
#include <stdarg.h>
#include <stdio.h>

#include "test.h"

enum { SHOWN = 20 }; /* failures shown in full */

static long checks, failed;

void check(bool truth, const char *what, const char *file, int line,
           const char *format, ...)
{
    checks++;
    if (truth)
        return;
    failed++;
    if (failed > SHOWN)
        return;
    va_list given;
    va_start(given, format);
    printf("%s:%d: ", file, line);
    vprintf(format, given);
    printf(": not so: %s\n", what);
    va_end(given);
}

int main(void)
{
    test_examples();
    test_numbers();
    test_dates();
    test_places();
    test_vectors();
    test_rows();
    test_sheets();
    test_forms();
    test_tables();
    test_long_table();
    test_viewing();
    test_marking();
    printf("host tests: %ld checks, %ld failed\n", checks, failed);
    return failed == 0 ? 0 : 1;
}
