/* A plain checker of refutations, the yardstick for `check` in limits.py: it follows hints by unit propagation and nothing else, keeps a table of
   clauses by number, and trusts its files to be well formed.

   cc -O2 -o lratcheck lratcheck.c && ./lratcheck FORMULA PROOF */
#include <stdio.h>
#include <stdlib.h>
#include <string.h>

static char *at;

static char *loaded(const char *path, long *length) {
    FILE *file = fopen(path, "r");
    fseek(file, 0, SEEK_END);
    *length = ftell(file);
    rewind(file);
    char *text = malloc(*length + 1);
    if (fread(text, 1, *length, file) != (size_t)*length) exit(2);
    text[*length] = 0;
    fclose(file);
    return text;
}

static void skip(void) {
    while (*at == ' ' || *at == '\n' || *at == '\r' || *at == '\t') at++;
}

static long number(void) {
    skip();
    int negative = *at == '-';
    at += negative;
    long value = 0;
    while (*at >= '0' && *at <= '9') value = 10 * value + *at++ - '0';
    return negative ? -value : value;
}

static int **clauses;
static long room = 1 << 20;
static signed char *values;
static int *trail, count, *literals;

static void hold(long id, int length) {
    while (id >= room) {
        clauses = realloc(clauses, 2 * room * sizeof *clauses);
        memset(clauses + room, 0, room * sizeof *clauses);
        room *= 2;
    }
    clauses[id] = malloc((length + 1) * sizeof(int));
    memcpy(clauses[id], literals, (length + 1) * sizeof(int));
}

static int clause(void) {
    int length = 0;
    long literal;
    while ((literal = number())) literals[length++] = literal;
    literals[length] = 0;
    return length;
}

/* 1: the hint's clause is false, 0: it made a literal true, or is true, -1: neither */
static int follow(int *hint) {
    int open = 0;
    for (int *literal = hint; *literal; literal++) {
        int value = values[abs(*literal)];
        value = *literal > 0 ? value : -value;
        if (value > 0) return 0;
        if (!value && open && open != *literal) return -1;
        if (!value) open = *literal;
    }
    if (!open) return 1;
    values[abs(open)] = open > 0 ? 1 : -1;
    trail[count++] = abs(open);
    return 0;
}

static int rejected(long step) {
    printf("REJECTED %ld\n", step);
    return 1;
}

int main(int argc, char **argv) {
    if (argc != 3) return 2;
    long length, id, hint, steps = 0;
    at = loaded(argv[1], &length);
    while (*at == 'c') at = strchr(at, '\n') + 1;
    at += 5;
    long variables = number(), axioms = number();
    clauses = calloc(room, sizeof *clauses);
    values = calloc(variables + 1, 1);
    trail = malloc((variables + 1) * sizeof(int));
    literals = malloc(1 << 24);
    for (long axiom = 1; axiom <= axioms; axiom++) hold(axiom, clause());
    at = loaded(argv[2], &length);
    for (skip(); *at; skip()) {
        id = number();
        skip();
        if (*at == 'd') {
            at++;
            while ((hint = number()))
                if (hint < room && clauses[hint]) free(clauses[hint]), clauses[hint] = 0;
            continue;
        }
        steps++;
        int size = clause(), derived = 0;
        count = 0;
        for (int i = 0; i < size; i++) {
            int variable = abs(literals[i]), value = literals[i] > 0 ? -1 : 1;
            if (!values[variable]) values[variable] = value, trail[count++] = variable;
            else if (values[variable] != value) derived = 1;
        }
        while ((hint = number())) {
            if (derived) continue;
            int found = hint < 0 || hint >= room || !clauses[hint] ? -1 : follow(clauses[hint]);
            if (found < 0) return rejected(steps);
            derived = found;
        }
        for (int i = 0; i < count; i++) values[trail[i]] = 0;
        if (!derived) return rejected(steps);
        if (!size) return printf("VERIFIED\n"), 0;
        hold(id, size);
    }
    return rejected(0);
}
