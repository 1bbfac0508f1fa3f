/* What the valves and the tries share: calls that no plant can have refused, and checks that are counted. */
#ifndef CHECKS_H
#define CHECKS_H

#include "tupahineka.h"

#include <stdio.h>
#include <stdlib.h>

static int checks;

/* Opening, rules, readings and questions are part of the program, so a refusal is a mistake in it. */
static void must(const char *call, uint8_t refusal) {
    if (refusal != TUP_DONE) {
        printf("%s: refused %d\n", call, refusal);
        exit(2);
    }
}

static void check(const char *what, int number, const char *name, int is, int should_be) {
    checks++;
    if (is != should_be) {
        printf("disagreement: %s %d, %s: it is %d and should be %d\n", what, number, name, is, should_be);
        exit(1);
    }
}

#endif
