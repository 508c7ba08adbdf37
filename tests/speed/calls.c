/*
 * Makes the calls of a file of cases, whose header explains them, on standard input, and prints the answer of each, as the file has it. The calls
 * stand between marks, system calls that the plugin insn.c sees: one call, then two, so that the second count less the first is that of one call
 * and one turn of the loop. `tools/count` builds and runs it.
 */
#include "intake.h"

#include <stdbool.h>
#include <stdio.h>
#include <stdlib.h>
#include <string.h>
#include <sys/syscall.h>
#include <unistd.h>

enum { LINE_MOST = 16384, ROOM_MOST = 1024, UNTOUCHED = 165 };
enum { KIND = 4, TEMPLATE, LIST, LENT, FIELDS = 9 }; /* places of fields in a row, and their number */
enum kind { MATCH, JUDGE, FORM, MEET };

static uint8_t template[INTAKE_TEMPLATE_MOST], second[INTAKE_TEMPLATE_MOST], witness[INTAKE_LIST_MOST], room[ROOM_MOST];
static int32_t list[INTAKE_LIST_MOST];
static double floats[INTAKE_LIST_MOST];
static size_t template_length, second_length, list_length, witness_length, room_length, form_length;

static void fail(const char *text)
{
    fprintf(stderr, "calls: %s\n", text);
    exit(2);
}

static enum kind kind_of(const char *field)
{
    static const char *const names[] = { "match", "judge", "form", "meet" };
    for (int kind = MATCH; kind <= MEET; kind++)
        if (strncmp(field, names[kind], strlen(names[kind])) == 0) return (enum kind)kind;
    fail("a row is of no kind");
    return MATCH;
}

/* The bytes in hex at the front of a text, as many as there are. */
static size_t read_bytes(const char *hex, uint8_t *to)
{
    unsigned byte;
    size_t count = 0;
    for (; sscanf(hex, "%2x", &byte) == 1; hex += 2) {
        if (count == INTAKE_TEMPLATE_MOST) fail("a template is too long");
        to[count++] = (uint8_t)byte;
    }
    return count;
}

/* The template, or the two forms of a meeting, with ` & ` between them. */
static void read_templates(const char *field)
{
    const char *and = strstr(field, " & ");
    template_length = read_bytes(field, template);
    second_length = and == NULL ? 0 : read_bytes(and + 3, second);
}

/* The integers of a field, - for none. */
static size_t read_integers(char *field, int32_t *to)
{
    size_t count = 0;
    for (char *word = strtok(field, " "); word != NULL && strcmp(word, "-") != 0; word = strtok(NULL, " ")) {
        if (count == INTAKE_LIST_MOST) fail("a list is too long");
        to[count++] = (int32_t)atol(word);
    }
    return count;
}

/* The floats of a field, each by its eight bytes in hex, low byte first, which is how this machine has them; - for none. */
static size_t read_floats(char *field, double *to)
{
    size_t count = 0;
    for (char *word = strtok(field, " "); word != NULL && strcmp(word, "-") != 0; word = strtok(NULL, " ")) {
        uint8_t bytes[sizeof *to];
        unsigned byte;
        if (count == INTAKE_LIST_MOST) fail("a list is too long");
        for (size_t i = 0; i < sizeof bytes; i++) {
            if (sscanf(word + 2 * i, "%2x", &byte) != 1) fail("a float has not eight bytes");
            bytes[i] = (uint8_t)byte;
        }
        memcpy(&to[count++], bytes, sizeof bytes);
    }
    return count;
}

static void read_witness(char *field)
{
    int32_t members[INTAKE_LIST_MOST];
    witness_length = read_integers(field, members);
    for (size_t i = 0; i < witness_length; i++) witness[i] = (uint8_t)members[i];
}

static void lend_room(const char *length)
{
    room_length = (size_t)atol(length);
    if (room_length > sizeof room) fail("a room is too long");
    memset(room, UNTOUCHED, sizeof room);
}

/* Not inlined: beside the other loops it would change what a turn of theirs costs. */
__attribute__((noinline)) static uint8_t meet(int times)
{
    uint8_t number = 0;
    for (int i = 0; i < times; i++)
        number = intake_meeting(template, template_length, second, second_length, INT32_MIN, INT32_MAX, room, room_length, &form_length);
    return number;
}

/* One loop for each other kind, so that the kind is not asked for in a turn. */
static uint8_t call(enum kind kind, bool of_floats, int times)
{
    uint8_t number = 0;
    if (kind == MEET) return meet(times);
    if (kind == MATCH && of_floats)
        for (int i = 0; i < times; i++) number = intake_match_floats(template, template_length, floats, list_length, room, room_length);
    else if (kind == JUDGE && of_floats)
        for (int i = 0; i < times; i++) number = intake_judge_floats(template, template_length, floats, list_length, witness, witness_length);
    else if (kind == MATCH)
        for (int i = 0; i < times; i++) number = intake_match(template, template_length, list, list_length, room, room_length);
    else if (kind == JUDGE)
        for (int i = 0; i < times; i++) number = intake_judge(template, template_length, list, list_length, witness, witness_length);
    else
        for (int i = 0; i < times; i++) number = intake_normalise(template, template_length, room, room_length, &form_length);
    return number;
}

static void mark(void) { syscall(SYS_getpid); }

/* The number, and what was written: the room without the bytes at its end that are as they were lent, a witness in decimal, a form in hex. */
static void print_answer(uint8_t number, enum kind kind)
{
    bool of_form = kind == FORM || kind == MEET;
    size_t written = kind == JUDGE ? 0 : room_length;
    while (written > 0 && room[written - 1] == UNTOUCHED) written--;
    printf("%d%s", number, written == 0 ? "" : of_form ? "; " : ";");
    for (size_t i = 0; i < written; i++) printf(of_form ? "%02x" : " %d", room[i]);
    if (of_form && form_length != written) printf(" but the length %zu", form_length);
    printf("\n");
}

/* Splits a row into its fields, with ` | ` between them. */
static void split(char *row, char *fields[FIELDS])
{
    size_t count = 0;
    for (char *end; (end = strstr(row, " | ")) != NULL && count < FIELDS; row = end + 3) {
        *end = 0;
        fields[count++] = row;
    }
    if (count != FIELDS - 1) fail("a row has not nine fields");
    fields[count] = row;
}

static void make_calls(char *fields[FIELDS])
{
    enum kind kind = kind_of(fields[KIND]);
    bool of_floats = strstr(fields[KIND], " floats") != NULL;
    read_templates(fields[TEMPLATE]);
    list_length = of_floats ? read_floats(fields[LIST], floats) : read_integers(fields[LIST], list);
    if (kind == JUDGE) read_witness(fields[LENT]);
    else lend_room(fields[LENT]);
    mark();
    call(kind, of_floats, 1);
    mark();
    uint8_t number = call(kind, of_floats, 2);
    mark();
    print_answer(number, kind);
}

int main(void)
{
    static char line[LINE_MOST];
    char *fields[FIELDS];
    while (fgets(line, sizeof line, stdin) != NULL) {
        if (strchr(line, '\n') == NULL) fail("a line is too long");
        if (line[0] == '#' || line[0] == '\n') continue;
        split(line, fields);
        make_calls(fields);
    }
    return 0;
}
