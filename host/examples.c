/* Document 01's checked examples that have no star, printed; examples.stdout
 * is what the exact program prints for them (reference/examples.py). */
#include "lindenbrood.h"

#include <inttypes.h>
#include <stdio.h>

static void date(double julian)
{
    lindenbrood_vector_answer v = lindenbrood_counts(lindenbrood_julian(julian), 4, 1);

    printf("JD %.1f: status %" PRId64 "\n", julian, v.status);
}

static void circle(int64_t mean)
{
    lindenbrood_angle_answer a = lindenbrood_eccentric_anomaly(0, mean);

    printf("e 0, M %" PRId64 ": status %" PRId64 ", E %" PRId64 "\n", mean, a.status, a.angle);
}

static void vector(const char *what, lindenbrood_vector_answer v)
{
    printf("%s: status %" PRId64 ", %" PRId64 " %" PRId64 " %" PRId64 "\n", what, v.status, v.x, v.y, v.z);
}

int main(void)
{
    static const int64_t means[] = {0, 1, -1, 12345678, 179999999, -180000000};
    lindenbrood_date epoch = lindenbrood_minutes(0);

    date(2469808.0);
    for (size_t i = 0; i < sizeof means / sizeof means[0]; i++)
        circle(means[i]);
    vector("RTN at 0", lindenbrood_to_rtn(0, 0, 0, 10000000, 0, 0));
    vector("a part of 500000000", lindenbrood_turn(epoch, 1, 1, 500000000, 0, 0));
    vector("a part of 500000001", lindenbrood_turn(epoch, 1, 1, 500000001, 0, 0));
    return 0;
}
