/* What the tests in C compare by. */
#ifndef CHECKS_H
#define CHECKS_H

#include <inttypes.h>
#include <stdio.h>
#include <stdlib.h>

static void check_equal(int line, const char *what, uint64_t is, uint64_t wanted) {
    if (is != wanted) {
        fprintf(stderr, "line %d: %s is %" PRIu64 ", not %" PRIu64 "\n", line, what, is, wanted);
        exit(1);
    }
}

/* Two numbers are equal; else the program prints the line and both, and ends with status 1. */
#define IS(what, wanted) check_equal(__LINE__, #what, (uint64_t)(what), (uint64_t)(wanted))

#endif
