/* Optimises standard input as `plir_opt LIST` does: out/optimise sccp,simplify-cfg,dce < ../../examples/branch.plir */
#include "rachonpas.h"
#include <stdio.h>
#include <stdlib.h>
#include <string.h>

static char text[PLIR_MAX_TEXT + 1];

int main(int count, char **words) {
    const char *list = count == 2 ? words[1] : "";
    size_t length = fread(text, 1, sizeof text, stdin), capacity = 2 * length + 64, needed = 0;
    char *answer = malloc(capacity);
    if (answer == NULL) return 1;
    plir_status status = plir_optimise(list, strlen(list), text, length, answer, capacity, &needed);
    if (status == PLIR_TOO_SMALL) {
        free(answer);
        answer = malloc(capacity = needed);
        if (answer == NULL) return 1;
        status = plir_optimise(list, strlen(list), text, length, answer, capacity, &needed);
    }
    if (status == PLIR_TEXT) {
        char expected[128];
        plir_place place;
        if (plir_find_fault(text, length, expected, sizeof expected, &needed, &place) == PLIR_ANSWERED)
            fprintf(stderr, "%zu:%zu: expected %.*s\n", place.line, place.column, (int)needed, expected);
    } else if (status == PLIR_ANSWERED) {
        fwrite(answer, 1, needed, stdout);
    } else {
        fprintf(stderr, "%s\n", plir_status_text(status));
    }
    free(answer);
    return status == PLIR_ANSWERED ? 0 : status == PLIR_REFUSED || status == PLIR_MEMORY ? 1 : 2;
}
