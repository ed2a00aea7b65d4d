/* A listing as a user would write it over reference/double.c: minute, body and frame 1 in, the place out, and nothing
 * tested. It stands beside the listing program in the times that `run` prints. */
#include <math.h>
#include <stdio.h>
#include <stdlib.h>

#include "double.h"

int main(void)
{
    char line[128];

    puts("minute body frame status x y z");
    while (fgets(line, sizeof line, stdin) != NULL) {
        char *rest;
        long minute = strtol(line, &rest, 10);
        long body = strtol(rest, &rest, 10);
        long frame = strtol(rest, &rest, 10);
        double place[3];

        double_place((double)minute, (int)body, place);
        printf("%ld %ld %ld 0 %ld %ld %ld\n", minute, body, frame, lround(place[0] * 1e7),
               lround(place[1] * 1e7), lround(place[2] * 1e7));
    }
    return 0;
}
