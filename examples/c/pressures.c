/*
 * A rule for floats, that of docs/RULES.md, "Pressures in a range", from C: matched, judged, and why a superset does not match. It prints the lines
 * of examples/pressures.out, and so does examples/rust/pressures.rs. `tools/test-callers` builds and compares both.
 */
#include "intake.h"

#include <math.h>
#include <stdio.h>

/* A pressure in hPa: {(870.0..1085.0)}. */
static const uint8_t one_pressure[] = {
    0x10, 1,                                        /* record of one item */
    0x07,                                           /* a range: */
    0x00, 0x00, 0x00, 0x00, 0x00, 0x30, 0x8b, 0x40, /*   870.0 */
    0x00, 0x00, 0x00, 0x00, 0x00, 0xf4, 0x90, 0x40  /*   to 1085.0 */
};

/* The same with a NaN for the upper bound. */
static const uint8_t no_rule[] = {
    0x10, 1,
    0x07,
    0x00, 0x00, 0x00, 0x00, 0x00, 0x30, 0x8b, 0x40,
    0x00, 0x00, 0x00, 0x00, 0x00, 0x00, 0xf8, 0x7f
};

/* At least two pressures: superset((870.0..1085.0), (870.0..1085.0)). */
static const uint8_t two_pressures[] = {
    0x12, 2,                                        /* superset of two members */
    0x07,                                           /* a range */
    0x00, 0x00, 0x00, 0x00, 0x00, 0x30, 0x8b, 0x40,
    0x00, 0x00, 0x00, 0x00, 0x00, 0xf4, 0x90, 0x40,
    0x07,                                           /* the same range */
    0x00, 0x00, 0x00, 0x00, 0x00, 0x30, 0x8b, 0x40,
    0x00, 0x00, 0x00, 0x00, 0x00, 0xf4, 0x90, 0x40
};

static void print_element(double element)
{
    if (isnan(element)) printf("no pressure, a NaN");
    else printf("pressure %.2f", element);
}

static void match_pressure(const char *name, const uint8_t *rule, size_t rule_length, double element)
{
    uint8_t room[INTAKE_LIST_MOST];
    uint8_t number = intake_match_floats(rule, rule_length, &element, 1, room, sizeof room);

    printf("%s", name);
    print_element(element);
    if (number == INTAKE_DONE) printf(": matches, members %d\n", room[0]);
    else if (number == INTAKE_NO_MATCH) printf(": does not match\n");
    else printf(": refused, number %d\n", number);
}

static void judge_pressure(double element, uint8_t member)
{
    uint8_t number = intake_judge_floats(one_pressure, sizeof one_pressure, &element, 1, &member, 1);

    print_element(element);
    printf(", members %d: %s\n", member, number == INTAKE_DONE ? "obeys" : number == INTAKE_NO_MATCH ? "does not obey" : "refused");
}

static void explain(const double *elements, size_t count)
{
    uint32_t group;
    uint8_t number = intake_why_not_floats(two_pressures, sizeof two_pressures, elements, count, &group);

    printf("two pressures of");
    for (size_t i = 0; i < count; i++) printf(" %.2f", elements[i]);
    printf(": number %d", number);
    if (group != 0) {
        printf(", too few elements for the members");
        for (int m = 0; m < 32; m++) {
            if (group >> m & 1) printf(" %d", m);
        }
    }
    printf("\n");
}

int main(void)
{
    const double one[] = {1013.25, 0.5};
    const double two[] = {1013.25, 0.5, 870.0};

    match_pressure("", one_pressure, sizeof one_pressure, 1013.25);
    match_pressure("", one_pressure, sizeof one_pressure, 1085.0);
    match_pressure("", one_pressure, sizeof one_pressure, 1085.5);
    match_pressure("", one_pressure, sizeof one_pressure, NAN);
    match_pressure("a rule with a NaN, ", no_rule, sizeof no_rule, 1013.25);
    judge_pressure(1013.25, 0);
    judge_pressure(1013.25, 255);
    explain(one, 2);
    explain(two, 3);
    return 0;
}
