/* So many calls of one kind, on the text of the README or on a small module: cost text|module COUNT CAPACITY. */
#include "rachonpas.h"
#include <stdio.h>
#include <stdlib.h>
#include <string.h>

static const char BRANCH[] = "func { b0(): c = const 1; x = const 5; cbr c b1(x) b2(); b1(p): br b3(p); b2(): y = const 6; br b3(y); "
                             "b3(q): ret q }";
static const char LIST[] = "sccp,simplify-cfg,dce";

int main(int words, char **word) {
    char output[256];
    size_t needed = 0;
    uint32_t changed = 0;
    if (words != 4) return 2;
    size_t capacity = (size_t)atol(word[3]);
    if (strcmp(word[1], "text") == 0) {
        for (long i = 0; i < atol(word[2]); i++)
            plir_optimise(LIST, sizeof LIST - 1, BRANCH, sizeof BRANCH - 1, output, capacity, &needed);
        return needed == 44 ? 0 : 1;
    }
    char module[512];
    size_t length = fread(module, 1, sizeof module, stdin);
    for (long i = 0; i < atol(word[2]); i++)
        plir_optimise_mlir(LIST, sizeof LIST - 1, module, length, output, capacity, &needed, &changed);
    return changed == 1 ? 0 : 1;
}
