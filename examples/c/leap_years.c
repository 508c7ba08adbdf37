/*
 * The rule of samples/leap-years.hex, from C: matched, judged, in normal form, and why a superset does not match. It prints the lines of
 * examples/leap_years.out, and so does examples/rust/leap_years.rs. `tools/test-callers` builds and compares both.
 */
#include "intake.h"

#include <stdio.h>

/* 1 March of a year that is no leap year: {complement((2016, 2020, 2024)), 60}. */
static const uint8_t first_of_march[] = {
    0x10, 2,                      /* record of two items */
    0x05, 1,                      /* complement of one element template: */
    0x04, 3,                      /*   a list of three */
    0x01, 0xe0, 0x07, 0x00, 0x00, /*     2016 */
    0x01, 0xe4, 0x07, 0x00, 0x00, /*     2020 */
    0x01, 0xe8, 0x07, 0x00, 0x00, /*     2024 */
    0x01, 0x3c, 0x00, 0x00, 0x00  /* 60 */
};

/* The first item of that rule, an element template by itself. */
static const uint8_t *const common_year = first_of_march + 2;
enum { COMMON_YEAR_LENGTH = 19 };

/* At least two leap years: superset((2016, 2020, 2024), (2016, 2020, 2024)). */
static const uint8_t two_leap_years[] = {
    0x12, 2,                      /* superset of two members */
    0x04, 3,                      /* a list of three */
    0x01, 0xe0, 0x07, 0x00, 0x00, /*   2016 */
    0x01, 0xe4, 0x07, 0x00, 0x00, /*   2020 */
    0x01, 0xe8, 0x07, 0x00, 0x00, /*   2024 */
    0x04, 3,                      /* the same list */
    0x01, 0xe0, 0x07, 0x00, 0x00,
    0x01, 0xe4, 0x07, 0x00, 0x00,
    0x01, 0xe8, 0x07, 0x00, 0x00
};

static void print_members(const uint8_t *members, size_t count)
{
    printf("members");
    for (size_t i = 0; i < count; i++) printf(" %d", members[i]);
}

static void match_day(const char *name, const uint8_t *rule, size_t rule_length, int32_t year, int32_t day)
{
    const int32_t list[2] = {year, day};
    uint8_t room[INTAKE_LIST_MOST];
    uint8_t number = intake_match(rule, rule_length, list, 2, room, sizeof room);

    printf("%s, year %d, day %d: ", name, (int)year, (int)day);
    if (number == INTAKE_DONE) {
        printf("matches, ");
        print_members(room, 2);
        printf("\n");
    } else if (number == INTAKE_NO_MATCH) {
        printf("does not match\n");
    } else {
        printf("refused, number %d\n", number);
    }
}

static void judge_day(int32_t year, int32_t day, uint8_t first, uint8_t second)
{
    const int32_t list[2] = {year, day};
    const uint8_t witness[2] = {first, second};
    uint8_t number = intake_judge(first_of_march, sizeof first_of_march, list, 2, witness, 2);

    printf("year %d, day %d, ", (int)year, (int)day);
    print_members(witness, 2);
    printf(": %s\n", number == INTAKE_DONE ? "obeys" : number == INTAKE_NO_MATCH ? "does not obey" : "refused");
}

static void print_form(void)
{
    uint8_t room[INTAKE_FORM_MOST];
    size_t length;
    uint8_t number = intake_normalise(common_year, COMMON_YEAR_LENGTH, room, sizeof room, &length);

    printf("normal form, number %d, %d bytes:", number, (int)length);
    for (size_t i = 0; i < length; i++) printf(" %02x", room[i]);
    printf("\n");
}

static void explain(const int32_t *years, size_t count)
{
    uint32_t group;
    uint8_t number = intake_why_not(two_leap_years, sizeof two_leap_years, years, count, &group);

    printf("two leap years of");
    for (size_t i = 0; i < count; i++) printf(" %d", (int)years[i]);
    printf(": number %d", number);
    if (group != 0) {
        printf(", too few elements for the members");
        for (int m = 0; m < 32; m++) {
            if (group >> m & 1) printf(" %d", m);
        }
    }
    printf("\n");
}

int main(void)
{
    const int32_t one[] = {2023, 2024, 2025, 2026};
    const int32_t two[] = {2020, 2021, 2022, 2023, 2024};

    match_day("1 March", first_of_march, sizeof first_of_march, 2023, 60);
    match_day("1 March", first_of_march, sizeof first_of_march, 2024, 60);
    match_day("a rule that is cut", first_of_march, sizeof first_of_march - 1, 2023, 60);
    judge_day(2023, 60, 0, 1);
    judge_day(2023, 60, 1, 0);
    print_form();
    explain(one, 4);
    explain(two, 5);
    return 0;
}
