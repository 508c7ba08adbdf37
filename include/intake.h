/*
 * intake.h: the entry points of Intake for C11 and C++, in the static library that `tools/archive` writes (x86-64 Linux).
 *
 * Each function gives back one of the numbers below, for every input: there is no other way to fail. No parameter of these functions changes
 * later: what is new comes as a new function.
 *
 * What a caller must see to, of every function:
 *   - A pointer with a length is valid for that many elements, for reading, or, where it is called a room, for reading and writing. With length
 *     0 nothing is read or written there, and it may be NULL. With any other length it must not be NULL.
 *   - What is written (a room, *length, *group) overlaps no other argument. What is only read may overlap.
 *   - A list is aligned as its elements are, int32_t or double, a length as size_t, a group as uint32_t.
 *   - Nobody writes to an argument until the function has returned, and nobody reads what it writes.
 * Nothing else is read or written: there is no state, no memory is asked for, and no pointer is kept. Any number of threads may call at once.
 *
 * Stack, by the frames of the compiled code when this was written and how deep its calls can nest (not proved): intake_normalise and
 * intake_normalise_typed at most 3 kB, intake_meeting at most 6 kB, the others at most 11 kB.
 */
#ifndef INTAKE_H
#define INTAKE_H

#include <stddef.h>
#include <stdint.h>

#ifdef __cplusplus
extern "C" {
#endif

/* The numbers. From INTAKE_TOO_LONG on it is a refusal. */
enum {
    INTAKE_DONE = 0,            /* matched; of the judge, obeys; of the normaliser and the meeting, done */
    INTAKE_NO_MATCH = 1,        /* no match; of the judge, does not obey */
    INTAKE_TOO_LONG = 2,        /* template over INTAKE_TEMPLATE_MOST bytes */
    INTAKE_MISSING = 3,         /* bytes end where a kind or a body is due */
    INTAKE_BAD_KIND = 4,        /* kind unknown, or not allowed at that place */
    INTAKE_BAD_COUNT = 5,       /* n outside its range */
    INTAKE_BAD_BOUNDS = 6,      /* lower above upper, or min or max outside its range, or min above max */
    INTAKE_TOO_DEEP = 7,        /* element template at depth 9 */
    INTAKE_TOO_MANY = 8,        /* a 33rd member, a 65th leaf, of the result of a meeting too, or a second any-elements in one set of or permutation */
    INTAKE_LENGTH_CLASH = 9,    /* superset with length min below n, or, but for sheet 1, subset with length max above n */
    INTAKE_LEFT_OVER = 10,      /* bytes left after the template */
    INTAKE_LIST_TOO_LONG = 11,  /* list over INTAKE_LIST_MOST elements */
    INTAKE_ROOM_TOO_SHORT = 12, /* room shorter than the list, or than the normal form */
    INTAKE_OTHER_LENGTH = 13,   /* offered witness not as long as the list */
    INTAKE_NOT_A_NUMBER = 14,   /* NaN in a template of floats */
    INTAKE_NO_NORMAL_FORM = 15, /* of the meeting, an input that is no normal form under the type */
    INTAKE_LEAF_OUTSIDE = 16,   /* value or range of the template that reaches outside its type */
    INTAKE_ELEMENT_OUTSIDE = 17, /* element of the list outside the type of the template */
    INTAKE_BAD_SHEET = 20       /* sheet of the template other than 1 and 2 */
};

/* The limits, in bytes, elements and bytes. A room of INTAKE_LIST_MOST bytes is enough for every witness, one of INTAKE_FORM_MOST for every form. */
#define INTAKE_TEMPLATE_MOST 4096
#define INTAKE_LIST_MOST 32
#define INTAKE_FORM_MOST 578

/*
 * Does the list match the template? A template may have a type, the integers from a lower to an upper bound: any value and complement are over the
 * type, and a list with an element outside it is refused. Without one the type is all 32-bit integers. It may also have a sheet: under sheet 1 a
 * member of a subset may be given many elements.
 * Reads template_length bytes at template_bytes and list_length integers at list.
 * Writes, with INTAKE_DONE only, the first list_length bytes of the room: the first witness in byte order, for each element the member that it is
 * given to. No other byte of the room changes, and with any other number none does.
 * Gives every number but INTAKE_OTHER_LENGTH, INTAKE_NOT_A_NUMBER and INTAKE_NO_NORMAL_FORM.
 */
uint8_t intake_match(const uint8_t *template_bytes, size_t template_length,
                     const int32_t *list, size_t list_length,
                     uint8_t *room, size_t room_length);

/*
 * Does the offered witness obey: INTAKE_DONE, INTAKE_NO_MATCH, or a refusal.
 * Reads template_length bytes at template_bytes, list_length integers at list and witness_length bytes at witness.
 * Writes nothing.
 * Gives every number but INTAKE_ROOM_TOO_SHORT, INTAKE_NOT_A_NUMBER and INTAKE_NO_NORMAL_FORM.
 */
uint8_t intake_judge(const uint8_t *template_bytes, size_t template_length,
                     const int32_t *list, size_t list_length,
                     const uint8_t *witness, size_t witness_length);

/*
 * The normal form of one element template, so that two that match the same integers are the same bytes.
 * Reads template_length bytes at template_bytes.
 * Writes *length, always: with INTAKE_DONE how many bytes the form has, else 0. length must not be NULL.
 * Writes, with INTAKE_DONE only, the first *length bytes of the room: the form. No other byte of the room changes, and with any other number none does.
 * Never gives INTAKE_NO_MATCH, INTAKE_LENGTH_CLASH, INTAKE_LIST_TOO_LONG, INTAKE_OTHER_LENGTH, INTAKE_NOT_A_NUMBER, INTAKE_NO_NORMAL_FORM,
 * INTAKE_LEAF_OUTSIDE, INTAKE_ELEMENT_OUTSIDE or INTAKE_BAD_SHEET.
 */
uint8_t intake_normalise(const uint8_t *template_bytes, size_t template_length,
                         uint8_t *room, size_t room_length, size_t *length);

/*
 * The normal form of one element template under a type, the integers from lower to upper, both of them too: two templates that match the same
 * integers of the type are the same bytes. With INT32_MIN and INT32_MAX it does what intake_normalise does.
 * Reads template_length bytes at template_bytes.
 * Writes what intake_normalise writes. length must not be NULL.
 * Gives INTAKE_BAD_BOUNDS also where lower is above upper, and INTAKE_LEAF_OUTSIDE where a value or a range reaches outside the type.
 * Never gives INTAKE_NO_MATCH, INTAKE_LENGTH_CLASH, INTAKE_LIST_TOO_LONG, INTAKE_OTHER_LENGTH, INTAKE_NOT_A_NUMBER, INTAKE_NO_NORMAL_FORM,
 * INTAKE_ELEMENT_OUTSIDE or INTAKE_BAD_SHEET.
 */
uint8_t intake_normalise_typed(const uint8_t *template_bytes, size_t template_length,
                               int32_t lower, int32_t upper,
                               uint8_t *room, size_t room_length, size_t *length);

/*
 * The meeting of two normal forms under a type, the integers from lower to upper, both of them too: the normal form of what both match. Each input is
 * what intake_normalise_typed writes for some template under the same bounds; without a type these are INT32_MIN and INT32_MAX.
 * Reads first_length bytes at first_form and second_length bytes at second_form.
 * Writes what intake_normalise writes: the form is that of the meeting. length must not be NULL.
 * Gives what intake_normalise_typed gives for the first input, then for the second, where that is neither INTAKE_DONE nor INTAKE_ROOM_TOO_SHORT; then
 * INTAKE_NO_NORMAL_FORM where either is no normal form, INTAKE_TOO_MANY where the meeting has over 64 leaves, and INTAKE_ROOM_TOO_SHORT.
 * Never gives INTAKE_NO_MATCH, INTAKE_LENGTH_CLASH, INTAKE_LIST_TOO_LONG, INTAKE_OTHER_LENGTH, INTAKE_NOT_A_NUMBER, INTAKE_ELEMENT_OUTSIDE or
 * INTAKE_BAD_SHEET.
 */
uint8_t intake_meeting(const uint8_t *first_form, size_t first_length,
                       const uint8_t *second_form, size_t second_length,
                       int32_t lower, int32_t upper,
                       uint8_t *room, size_t room_length, size_t *length);

/*
 * Why does the list not match? The number is the one that intake_match gives with a room that is long enough.
 * Reads template_length bytes at template_bytes and list_length integers at list.
 * Writes *group, always: with INTAKE_NO_MATCH, where the template is a superset, or a subset but under sheet 1, whose length attribute is met, the group that is
 * the reason, of a superset bit m for member m, of a subset bit e for element e; in every other case 0. group must not be NULL.
 * Never gives INTAKE_ROOM_TOO_SHORT, INTAKE_OTHER_LENGTH, INTAKE_NOT_A_NUMBER or INTAKE_NO_NORMAL_FORM.
 */
uint8_t intake_why_not(const uint8_t *template_bytes, size_t template_length,
                       const int32_t *list, size_t list_length, uint32_t *group);

/*
 * Does the list of floats match the template of floats, whose leaves are 06, 07 and 03? A double is a 64-bit float of IEEE 754, and every one is an
 * element, a NaN too: only a 03 and a complement match it.
 * Reads template_length bytes at template_bytes and list_length floats at list.
 * Writes what intake_match writes.
 * Gives every number but INTAKE_OTHER_LENGTH, INTAKE_NO_NORMAL_FORM, INTAKE_LEAF_OUTSIDE and INTAKE_ELEMENT_OUTSIDE: floats have no type.
 */
uint8_t intake_match_floats(const uint8_t *template_bytes, size_t template_length,
                            const double *list, size_t list_length,
                            uint8_t *room, size_t room_length);

/*
 * Does the offered witness of a list of floats obey: INTAKE_DONE, INTAKE_NO_MATCH, or a refusal.
 * Reads template_length bytes at template_bytes, list_length floats at list and witness_length bytes at witness.
 * Writes nothing.
 * Gives every number but INTAKE_ROOM_TOO_SHORT, INTAKE_NO_NORMAL_FORM, INTAKE_LEAF_OUTSIDE and INTAKE_ELEMENT_OUTSIDE.
 */
uint8_t intake_judge_floats(const uint8_t *template_bytes, size_t template_length,
                            const double *list, size_t list_length,
                            const uint8_t *witness, size_t witness_length);

/*
 * Why does the list of floats not match? The number is the one that intake_match_floats gives with a room that is long enough.
 * Reads template_length bytes at template_bytes and list_length floats at list.
 * Writes *group as intake_why_not does, always. group must not be NULL.
 * Never gives INTAKE_ROOM_TOO_SHORT, INTAKE_OTHER_LENGTH, INTAKE_NO_NORMAL_FORM, INTAKE_LEAF_OUTSIDE or INTAKE_ELEMENT_OUTSIDE.
 */
uint8_t intake_why_not_floats(const uint8_t *template_bytes, size_t template_length,
                              const double *list, size_t list_length, uint32_t *group);

#ifdef __cplusplus
}
#endif

#endif
