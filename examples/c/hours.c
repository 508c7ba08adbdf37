/*
 * A rule with a type, that of docs/RULES.md, "Hours of the afternoon", from C: matched, judged, and in normal form under the type; and what two
 * rules for hours both match. It prints the lines of examples/hours.out, and so does examples/rust/hours.rs. `tools/test-callers` builds and compares both.
 */
#include "intake.h"

#include <stdio.h>

/* An hour of the afternoon: {complement((0..11))}, of the type 0 to 23. */
static const uint8_t afternoon[] = {
    0x31,                         /* the type: */
    0x00, 0x00, 0x00, 0x00,       /*   0 */
    0x17, 0x00, 0x00, 0x00,       /*   to 23 */
    0x10, 1,                      /* record of one item */
    0x05, 1,                      /* complement of one element template: */
    0x02,                         /*   a range: */
    0x00, 0x00, 0x00, 0x00,       /*     0 */
    0x0b, 0x00, 0x00, 0x00        /*     to 11 */
};

/* The complement of that rule, and the range in it, element templates by themselves. */
static const uint8_t *const not_morning = afternoon + 11;
static const uint8_t *const morning = afternoon + 13;
enum { NOT_MORNING_LENGTH = 11, MORNING_LENGTH = 9 };

/* The hours in which a desk is open: (6..17), which is a normal form of the type 0 to 23. The morning is one only once it is normalised. */
static const uint8_t open_hours[] = {
    0x02,                         /* a range: */
    0x06, 0x00, 0x00, 0x00,       /*   6 */
    0x11, 0x00, 0x00, 0x00        /*   to 17 */
};

static void match_hour(int32_t hour)
{
    uint8_t room[INTAKE_LIST_MOST];
    uint8_t number = intake_match(afternoon, sizeof afternoon, &hour, 1, room, sizeof room);

    printf("hour %d: ", (int)hour);
    if (number == INTAKE_DONE) printf("matches, members %d\n", room[0]);
    else if (number == INTAKE_NO_MATCH) printf("does not match\n");
    else printf("refused, number %d\n", number);
}

static void judge_hour(int32_t hour, uint8_t member)
{
    uint8_t number = intake_judge(afternoon, sizeof afternoon, &hour, 1, &member, 1);

    printf("hour %d, members %d: ", (int)hour, member);
    if (number == INTAKE_DONE) printf("obeys\n");
    else if (number == INTAKE_NO_MATCH) printf("does not obey\n");
    else printf("refused, number %d\n", number);
}

static void print_bytes(uint8_t number, const uint8_t *bytes, size_t length)
{
    printf(", number %d, %d bytes:", number, (int)length);
    for (size_t i = 0; i < length; i++) printf(" %02x", bytes[i]);
    printf("\n");
}

static void print_form(const char *name, const uint8_t *element_template, size_t template_length, int32_t lower, int32_t upper)
{
    uint8_t room[INTAKE_FORM_MOST];
    size_t length;
    uint8_t number = intake_normalise_typed(element_template, template_length, lower, upper, room, sizeof room, &length);

    printf("%s of %d to %d", name, (int)lower, (int)upper);
    print_bytes(number, room, length);
}

/* What the hours of the form and the open ones have in common. */
static void meet_open(const char *name, const uint8_t *form, size_t form_length)
{
    uint8_t room[INTAKE_FORM_MOST];
    size_t length;
    uint8_t number = intake_meeting(form, form_length, open_hours, sizeof open_hours, 0, 23, room, sizeof room, &length);

    printf("%s and open", name);
    print_bytes(number, room, length);
}

/* The same of an element template, in normal form first. */
static void meet_open_normalised(const char *name, const uint8_t *element_template, size_t template_length)
{
    uint8_t form[INTAKE_FORM_MOST];
    size_t length;

    if (intake_normalise_typed(element_template, template_length, 0, 23, form, sizeof form, &length) == INTAKE_DONE)
        meet_open(name, form, length);
}

int main(void)
{
    match_hour(12);
    match_hour(11);
    match_hour(40);
    judge_hour(23, 0);
    judge_hour(40, 0);
    print_form("morning", morning, MORNING_LENGTH, 0, 23);
    print_form("not morning", not_morning, NOT_MORNING_LENGTH, 0, 23);
    print_form("morning", morning, MORNING_LENGTH, 0, 11);
    print_form("morning", morning, MORNING_LENGTH, 0, 10);
    print_form("morning", morning, MORNING_LENGTH, 23, 0);
    meet_open_normalised("morning", morning, MORNING_LENGTH);
    meet_open_normalised("not morning", not_morning, NOT_MORNING_LENGTH);
    meet_open("open", open_hours, sizeof open_hours);
    meet_open("morning, not in normal form,", morning, MORNING_LENGTH);
    return 0;
}
