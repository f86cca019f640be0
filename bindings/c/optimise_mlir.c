/* Optimises a module of MLIR: mlir-opt-22 --mlir-print-op-generic x.mlir | out/optimise_mlir sccp,dce | mlir-opt-22
 *
 * Whether it changed is printed on standard error. */
#include "rachonpas.h"
#include <stdio.h>
#include <stdlib.h>
#include <string.h>

/* All of standard input, and its length; NULL for want of memory. */
static char *read_all(size_t *length) {
    size_t room = 1 << 16, more;
    char *text = malloc(room);
    for (*length = 0; text != NULL && (more = fread(text + *length, 1, room - *length, stdin)) > 0;) {
        *length += more;
        if (*length == room) text = realloc(text, room *= 2);
    }
    return text;
}

int main(int count, char **words) {
    const char *list = count == 2 ? words[1] : "";
    size_t length = 0, needed = 0;
    uint32_t changed = 0;
    char *text = read_all(&length), *answer = malloc(2 * length + 256);
    if (text == NULL || answer == NULL) return 1;
    plir_status status = plir_optimise_mlir(list, strlen(list), text, length, answer, 2 * length + 256, &needed, &changed);
    if (status == PLIR_TOO_SMALL && (answer = realloc(answer, needed)) != NULL)
        status = plir_optimise_mlir(list, strlen(list), text, length, answer, needed, &needed, &changed);
    char expected[128];
    plir_place place;
    if (status == PLIR_ANSWERED) {
        fwrite(answer, 1, needed, stdout);
        fprintf(stderr, "%s\n", changed ? "changed" : "unchanged");
    } else if (plir_find_fault_mlir(text, length, expected, sizeof expected, &needed, &place) == PLIR_ANSWERED && needed > 0) {
        fprintf(stderr, "%zu:%zu: expected %.*s\n", place.line, place.column, (int)needed, expected);
    }
    free(text);
    free(answer);
    return status == PLIR_ANSWERED ? 0 : status == PLIR_TEXT || status == PLIR_ARGUMENTS ? 2 : 1;
}
