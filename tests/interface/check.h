/* Tests by name. The first expectation that fails is told and ends the program. */
#ifndef CHECK_H
#define CHECK_H

#include <stdio.h>
#include <stdlib.h>

static const char *running = "nothing";
static unsigned tests;

static inline void expect(int holds, const char *file, int line, const char *what) {
    if (!holds) {
        fprintf(stderr, "%s:%d: %s: not so: %s\n", file, line, running, what);
        exit(EXIT_FAILURE);
    }
}

#define EXPECT(condition) expect((condition) != 0, __FILE__, __LINE__, #condition)

static inline void test(const char *name, void (*body)(void)) {
    running = name;
    body();
    tests++;
}

static inline int tested(const char *program) {
    printf("%s: %u checks\n", program, tests);
    return EXIT_SUCCESS;
}

#endif
