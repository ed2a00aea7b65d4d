/* The times of two builds of the library beside each other, in one process and on the same inputs: what a change costs or saves.
 *
 *     beside BEFORE AFTER
 *
 * Both are shared libraries made of times.c and of one build. Each round times every line of both once, in turn, so that
 * what else the machine does favours neither. For each line that both builds have, its name and the least of each side are
 * printed, with tabs. */
#define _POSIX_C_SOURCE 200809L
#include <dlfcn.h>
#include <math.h>
#include <stdio.h>
#include <stdlib.h>

enum { ROUNDS = 60, MOST_LINES = 64 };

typedef struct {
    void (*prepare)(void);
    int (*lines)(void);
    const char *(*name)(int line);
    double (*ours)(int line);
} build;

/* POSIX has a function's address come as a pointer to an object; ISO C lets it be copied only as bytes. */
static void find(void *library, const char *name, void *function)
{
    *(void **)function = dlsym(library, name);
    if (*(void **)function == NULL) {
        fprintf(stderr, "%s: not found\n", name);
        exit(1);
    }
}

static build load(const char *path)
{
    void *library = dlopen(path, RTLD_LAZY | RTLD_LOCAL);
    build b;

    if (library == NULL) {
        fprintf(stderr, "%s\n", dlerror());
        exit(1);
    }
    find(library, "times_prepare", &b.prepare);
    find(library, "times_lines", &b.lines);
    find(library, "times_name", &b.name);
    find(library, "times_ours", &b.ours);
    b.prepare();
    return b;
}

int main(int count, char **words)
{
    double least[2][MOST_LINES];
    build builds[2];

    if (count != 3) {
        fprintf(stderr, "usage: beside BEFORE AFTER\n");
        return 2;
    }
    for (int side = 0; side < 2; side++)
        builds[side] = load(words[side + 1]);
    int lines = builds[0].lines();
    for (int i = 0; i < lines; i++)
        least[0][i] = least[1][i] = INFINITY;
    for (int round = 0; round < ROUNDS; round++)
        for (int i = 0; i < lines; i++)
            for (int side = 0; side < 2; side++)
                least[side][i] = fmin(least[side][i], builds[side].ours(i));

    for (int i = 0; i < lines; i++)
        if (isfinite(least[0][i]) && isfinite(least[1][i]))
            printf("%s\t%.1f\t%.1f\n", builds[0].name(i), least[0][i], least[1][i]);
    return 0;
}
