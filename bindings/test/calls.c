/* Calls each function of the library. Writes a line for each fault that it finds, and ends with 1 if there is one.
 *
 *     calls rows FILE       the worked rows of rows.py, each with buffers of five lengths
 *     calls edges           an empty text, bytes that are no text, the longest texts and modules and one byte more
 *     calls threads FILE    the rows in eight threads at once, each with 256 KiB of stack
 *     calls many COUNT      so many calls, and the memory that is held after them
 *     calls once            one call, which asks for nothing besides; writes its status and its answer to standard output
 *     calls once_mlir       the same of a module
 */
#include "rachonpas.h"
#include <malloc.h>
#include <pthread.h>
#include <stdio.h>
#include <stdlib.h>
#include <string.h>
#include <unistd.h>

enum { FIELDS = 4, BEHIND = 32, FILLED = 0x5a };

typedef struct {
    char letter;
    char word[24];
    char *field[FIELDS];
    size_t length[FIELDS];
} row;

static row *rows;
static size_t count;
static int faults;

static void fault(const row *it, const char *what) {
    __atomic_add_fetch(&faults, 1, __ATOMIC_SEQ_CST);
    if (it == NULL) printf("%s\n", what);
    else printf("%c %s %.*s: %s\n", it->letter, it->word, (int)it->length[0], it->field[0], what);
}

static int digit(char c) { return c <= '9' ? c - '0' : c - 'a' + 10; }

/* Takes a row of a letter, a word and fields in hexadecimal apart. */
static row row_of(char *line) {
    row it = {0};
    char *rest = NULL, *field = strtok_r(line, " \n", &rest);
    it.letter = field[0];
    snprintf(it.word, sizeof it.word, "%s", strtok_r(NULL, " \n", &rest));
    for (int i = 0; i < FIELDS && (field = strtok_r(NULL, " \n", &rest)) != NULL; i++) {
        it.length[i] = field[0] == '-' ? 0 : strlen(field) / 2;
        it.field[i] = malloc(it.length[i] + 1);
        for (size_t k = 0; k < it.length[i]; k++)
            it.field[i][k] = (char)(digit(field[2 * k]) << 4 | digit(field[2 * k + 1]));
    }
    return it;
}

static void read_rows(const char *path) {
    FILE *file = fopen(path, "r");
    char *line = NULL;
    size_t room = 0;
    if (file == NULL) exit(2);
    while (getline(&line, &room, file) > 0) {
        rows = realloc(rows, (count + 1) * sizeof *rows);
        rows[count++] = row_of(line);
    }
    free(line);
    fclose(file);
}

static void free_rows(void) {
    for (size_t i = 0; i < count; i++)
        for (int k = 0; k < FIELDS; k++) free(rows[i].field[k]);
    free(rows);
}

/* What a call reports beside its answer. */
typedef struct {
    size_t needed;
    plir_place place;
    uint32_t changed;
} told_of;

/* Calls what the row is for. Its last field is the answer. */
static plir_status call(const row *it, char *output, size_t capacity, told_of *told) {
    char *const *field = it->field;
    const size_t *length = it->length;
    switch (it->letter) {
    case 'o': return plir_optimise(field[0], length[0], field[1], length[1], output, capacity, &told->needed);
    case 'g': return plir_graph(field[0], length[0], output, capacity, &told->needed);
    case 'f': return plir_find_fault(field[0], length[0], output, capacity, &told->needed, &told->place);
    case 'm': return plir_optimise_mlir(field[0], length[0], field[1], length[1], output, capacity, &told->needed, &told->changed);
    default: return plir_find_fault_mlir(field[0], length[0], output, capacity, &told->needed, &told->place);
    }
}

static int is_broken(const row *it) { return it->letter == 'f' || it->letter == 'p'; }

static plir_status status_of(const row *it) { return is_broken(it) ? PLIR_ANSWERED : (plir_status)atoi(it->word); }

/* The field that is the answer. */
static int last_of(const row *it) { return it->letter == 'o' || it->letter == 'm' ? 2 : 1; }

/* Whether the row is told at this place, if it is one of what is broken. */
static int is_placed(const row *it, const plir_place *place) {
    char told[24];
    if (!is_broken(it)) return 1;
    snprintf(told, sizeof told, "%u:%u", (unsigned)place->line, (unsigned)place->column);
    return strcmp(told, it->word) == 0 && place->start + place->length <= it->length[0];
}

/* One call with a buffer of this capacity, behind which bytes stand that are looked at afterwards. */
static void try_row(const row *it, size_t capacity) {
    int last = last_of(it);
    const char *answer = it->field[last];
    size_t length = it->length[last];
    plir_status wanted = status_of(it);
    char *output = malloc(capacity + BEHIND);
    told_of told = {12345, {9, 9, 9, 9}, 9};
    memset(output, FILLED, capacity + BEHIND);
    if (wanted == PLIR_ANSWERED && length > capacity) wanted = PLIR_TOO_SMALL;
    plir_status status = call(it, output, capacity, &told);
    if (status != wanted) fault(it, "status");
    if (told.needed != length) fault(it, "length");
    if (!is_placed(it, &told.place)) fault(it, "place");
    if (it->letter == 'm' && told.changed != (uint32_t)(it->word[2] - '0')) fault(it, "change");
    size_t written = wanted == PLIR_ANSWERED ? length : 0;
    if (memcmp(output, answer, written) != 0) fault(it, "answer");
    for (size_t i = written; i < capacity + BEHIND; i++)
        if (output[i] != FILLED) {
            fault(it, "a byte behind the answer");
            break;
        }
    free(output);
}

static void try_rows(void) {
    for (size_t i = 0; i < count; i++) {
        size_t length = rows[i].length[last_of(&rows[i])];
        try_row(&rows[i], 0);
        try_row(&rows[i], length / 2);
        try_row(&rows[i], length ? length - 1 : 0);
        try_row(&rows[i], length);
        try_row(&rows[i], length + 1000);
    }
}

/* A call that answers this status, and is told this length, or any other but 0 where `length` is 1. */
static void expect(const char *what, const char *list, const char *text, size_t text_length, plir_status wanted,
                   size_t length) {
    size_t needed = 12345, capacity = 4 * PLIR_MAX_TEXT;
    char *output = malloc(capacity);
    plir_status status = plir_optimise(list, strlen(list), text, text_length, output, capacity, &needed);
    if (status != wanted || (length == 1 ? needed == 0 : needed != length)) {
        printf("status %u, length %zu\n", status, needed);
        fault(NULL, what);
    }
    free(output);
}

/* A text of this length, with blanks behind one function. */
static char *padded(size_t length) {
    const char *function = "func { b0(): a = const 1; b = const 2; c = add a b; ret c }";
    char *text = malloc(length);
    memset(text, ' ', length);
    memcpy(text, function, strlen(function));
    return text;
}

/* A function with as many sums as fit into the length, and blanks. */
static char *full(size_t length) {
    char *text = malloc(length + 64);
    size_t at = (size_t)sprintf(text, "func { b0(): v0 = const 1;");
    for (int i = 1; at + 64 < length; i++) at += (size_t)sprintf(text + at, " v%d = add v%d v%d;", i, i - 1, i - 1);
    at += (size_t)sprintf(text + at, " ret v0 }");
    memset(text + at, ' ', length - at);
    return text;
}

static void expect_place(const char *text, size_t length, plir_place wanted, const char *words) {
    char output[128];
    size_t needed = 0;
    plir_place place = {9, 9, 9, 9};
    plir_status status = plir_find_fault(text, length, output, sizeof output, &needed, &place);
    if (status != PLIR_ANSWERED || memcmp(&place, &wanted, sizeof place) != 0 || needed != strlen(words)
        || memcmp(output, words, needed) != 0)
        fault(NULL, words);
}

static const char SUM[] = "\"builtin.module\"() ({\n  \"func.func\"() <{function_type = () -> i32, sym_name = \"f\"}> ({\n"
                          "    %0 = \"arith.constant\"() <{value = 1 : i32}> : () -> i32\n"
                          "    %1 = \"arith.addi\"(%0, %0) <{overflowFlags = #arith.overflow<none>}> : (i32, i32) -> i32\n"
                          "    \"func.return\"(%1) : (i32) -> ()\n  }) : () -> ()\n}) : () -> ()\n";
static const char TWO[] = "\"builtin.module\"() ({\n  \"func.func\"() <{function_type = () -> i32, sym_name = \"f\"}> ({\n"
                          "    %2 = \"arith.constant\"() <{value = 2 : i32}> : () -> i32\n"
                          "    \"func.return\"(%2) : (i32) -> ()\n  }) : () -> ()\n}) : () -> ()\n";

/* The same of a module. */
static void expect_module(const char *list, const char *text, size_t text_length, plir_status wanted, size_t length) {
    size_t needed = 12345, capacity = text_length + 1024;
    uint32_t changed = 9, is_changed = wanted == PLIR_ANSWERED && length == sizeof TWO - 1;
    char *output = malloc(capacity);
    plir_status status = plir_optimise_mlir(list, strlen(list), text, text_length, output, capacity, &needed, &changed);
    if (status != wanted || (length == 1 ? needed == 0 : needed != length) || changed != is_changed) {
        printf("module of %zu bytes: status %u, length %zu, changed %u\n", text_length, status, needed, changed);
        fault(NULL, list);
    }
    free(output);
}

/* A module of so many sums. */
static char *sums(int count, size_t *length) {
    char *text = malloc((size_t)count * 128 + 512);
    size_t at = (size_t)sprintf(text, "\"m\"() ({\n  %%0 = \"arith.constant\"() <{value = 1 : i32}> : () -> i32\n");
    for (int i = 1; i < count; i++)
        at += (size_t)sprintf(text + at, "  %%%d = \"arith.addi\"(%%%d, %%%d) : (i32, i32) -> i32\n", i, i - 1, i - 1);
    *length = at + (size_t)sprintf(text + at, "}) : () -> ()\n");
    return text;
}

/* Modules that are none, lists that are none, one of 16 MiB, and one that is a byte too long. */
static void try_module_edges(void) {
    size_t length, needed = 0;
    char bytes[256], expected[128], *long_text = malloc((size_t)PLIR_MAX_MODULE + 1), *many = sums(300000, &length);
    for (int i = 0; i < 256; i++) bytes[i] = (char)i;
    memset(long_text, ' ', (size_t)PLIR_MAX_MODULE + 1);
    memcpy(long_text, SUM, sizeof SUM - 1);
    expect_module("sccp", "", 0, PLIR_TEXT, 0);
    expect_module("sccp", bytes, 256, PLIR_TEXT, 0);
    for (int i = 0; i < 256; i++) expect_module("dce", bytes + i, 1, PLIR_TEXT, 0);
    expect_module("\xff\xfe", SUM, sizeof SUM - 1, PLIR_ARGUMENTS, 0);
    expect_module("sccp,licm", SUM, sizeof SUM - 1, PLIR_ARGUMENTS, 0);
    expect_module("repeat:65:sccp", "none", 4, PLIR_ARGUMENTS, 0);
    expect_module("", SUM, sizeof SUM - 1, PLIR_ANSWERED, sizeof SUM - 1);
    expect_module("sccp,dce", SUM, sizeof SUM - 1, PLIR_ANSWERED, sizeof TWO - 1);
    expect_module("repeat<8>(nested(sccp,cse,canonicalize,simplify-cfg,dce))", SUM, sizeof SUM - 1, PLIR_ANSWERED, sizeof TWO - 1);
    expect_module("sccp,dce", long_text, 1 << 26, PLIR_ANSWERED, sizeof TWO - 1);
    expect_module("sccp,dce", long_text, (size_t)PLIR_MAX_MODULE + 1, PLIR_TEXT, 0);
    expect_module("", many, length, PLIR_ANSWERED, length);
    plir_place place = {9, 9, 9, 9}, end = {PLIR_MAX_MODULE, 1, 9, (size_t)PLIR_MAX_MODULE + 1};
    end.line = 8, end.column -= sizeof SUM - 1;
    if (plir_find_fault_mlir(long_text, (size_t)PLIR_MAX_MODULE + 1, expected, sizeof expected, &needed, &place) != PLIR_ANSWERED
        || memcmp(&place, &end, sizeof end) != 0)
        fault(NULL, "a module that is too long");
    free(long_text);
    free(many);
}

static void try_edges(void) {
    char bytes[256], *long_text = padded(PLIR_MAX_TEXT + 1), *full_text = full(PLIR_MAX_TEXT);
    for (int i = 0; i < 256; i++) bytes[i] = (char)i;
    if (plir_version() != PLIR_VERSION) fault(NULL, "version");
    if (strcmp(plir_status_text(PLIR_MEMORY), "memory was refused") != 0 || plir_status_text(99)[0] == 0) fault(NULL, "the text of a status");
    if (plir_or_empty(NULL)[0] != 0 || plir_or_empty(bytes) != bytes) fault(NULL, "a text that is NULL");
    expect("an empty text", "sccp", "", 0, PLIR_TEXT, 0);
    expect("bytes that are no text", "sccp", bytes, 256, PLIR_TEXT, 0);
    for (int i = 0; i < 256; i++) expect("one byte", "dce", bytes + i, 1, PLIR_TEXT, 0);
    expect("an empty list", "", "mod { }", 7, PLIR_ARGUMENTS, 0);
    expect("a list that is no text", "\xff\xfe", "mod { }", 7, PLIR_ARGUMENTS, 0);
    expect("an unknown pass", "sccp,cse", "mod { }", 7, PLIR_ARGUMENTS, 0);
    expect("another", "canonicalize", "mod { }", 7, PLIR_ARGUMENTS, 0);
    expect("too many runs", "repeat:65:sccp", "mod { }", 7, PLIR_ARGUMENTS, 0);
    expect("the word graph", "graph", "0:\n", 3, PLIR_ARGUMENTS, 0);
    expect("list before text", "none", "none", 4, PLIR_ARGUMENTS, 0);
    expect("1 MiB of blanks", "sccp,dce", long_text, PLIR_MAX_TEXT, PLIR_ANSWERED,
           strlen("func { b0(): v0 = const 3; ret v0 }\nchanged\n"));
    expect("a byte too many", "sccp,dce", long_text, PLIR_MAX_TEXT + 1, PLIR_TEXT, 0);
    expect("1 MiB of sums", "sccp,simplify-cfg,dce", full_text, PLIR_MAX_TEXT, PLIR_ANSWERED,
           strlen("func { b0(): v0 = const 1; ret v0 }\nchanged\n"));
    expect("1 MiB of sums that stay", "simplify-cfg", full_text, PLIR_MAX_TEXT, PLIR_ANSWERED, 1);
    expect_place("mod { }", 7, (plir_place){0, 0, 0, 0}, "");
    expect_place("", 0, (plir_place){0, 0, 1, 1}, "`mod` or `func`");
    expect_place("func {\n  ret }", 14, (plir_place){9, 3, 2, 3}, "a block, as each `func` and `scope` has one");
    expect_place(long_text, PLIR_MAX_TEXT + 1, (plir_place){PLIR_MAX_TEXT, 1, 1, PLIR_MAX_TEXT + 1}, "at most 1048576 bytes");
    free(long_text);
    free(full_text);
}

static void *try_rows_in_a_thread(void *unused) {
    (void)unused;
    for (int i = 0; i < 20; i++) try_rows();
    return NULL;
}

static void try_threads(void) {
    pthread_t threads[8];
    pthread_attr_t small;
    pthread_attr_init(&small);
    pthread_attr_setstacksize(&small, 256 * 1024);
    for (int i = 0; i < 8; i++)
        if (pthread_create(&threads[i], &small, try_rows_in_a_thread, NULL) != 0) exit(2);
    for (int i = 0; i < 8; i++) pthread_join(threads[i], NULL);
    pthread_attr_destroy(&small);
}

static const char BRANCH[] = "func { b0(): c = const 1; x = const 5; cbr c b1(x) b2(); b1(p): br b3(p); b2(): y = const 6; br b3(y); "
                             "b3(q): ret q }";
static const char LEFT[] = "func { b0(): v0 = const 5; ret v0 }\nchanged\n";

/* So many calls of each kind; the memory that the program holds has to be the same before and after. */
static void try_many(long calls) {
    char output[256];
    size_t needed, held = 0;
    uint32_t changed;
    plir_place place;
    for (long i = 0; i < calls; i++) {
        if (i == calls / 10) held = mallinfo2().uordblks;
        if (plir_optimise("sccp,simplify-cfg,dce", 21, BRANCH, sizeof BRANCH - 1, output, sizeof output, &needed) != PLIR_ANSWERED
            || needed != sizeof LEFT - 1 || memcmp(output, LEFT, needed) != 0)
            fault(NULL, "one of many calls");
        if (plir_optimise("sccp", 4, BRANCH, 40, output, sizeof output, &needed) != PLIR_TEXT) fault(NULL, "one of many texts");
        if (plir_graph("0: 1\n1: 0\n", 10, output, 3, &needed) != PLIR_TOO_SMALL) fault(NULL, "one of many graphs");
        if (plir_find_fault("ret", 3, output, sizeof output, &needed, &place) != PLIR_ANSWERED) fault(NULL, "one of many faults");
        if (plir_optimise_mlir("sccp,dce", 8, SUM, sizeof SUM - 1, output, sizeof output, &needed, &changed) != PLIR_ANSWERED
            || changed != 1 || needed != sizeof TWO - 1 || memcmp(output, TWO, needed) != 0)
            fault(NULL, "one of many modules");
        if (plir_find_fault_mlir(SUM, 99, output, sizeof output, &needed, &place) != PLIR_ANSWERED || place.line == 0)
            fault(NULL, "one of many broken modules");
    }
    size_t now = mallinfo2().uordblks;
    printf("%ld calls of each kind: %zu bytes held after the first tenth, %zu at the end\n", calls, held, now);
    if (now != held) fault(NULL, "memory is held");
}

/* With buffers that stand already: whatever is asked for is asked for by the call. */
static void call_once(int is_module) {
    static char output[256], told[2];
    size_t needed = 0;
    uint32_t changed;
    plir_status status =
        is_module ? plir_optimise_mlir("sccp,dce", 8, SUM, sizeof SUM - 1, output, sizeof output, &needed, &changed)
                  : plir_optimise("sccp,simplify-cfg,dce", 21, BRANCH, sizeof BRANCH - 1, output, sizeof output, &needed);
    told[0] = (char)('0' + status);
    told[1] = '\n';
    if (write(1, told, 2) != 2 || write(1, output, status == PLIR_ANSWERED ? needed : strlen(output)) < 0) _exit(2);
}

int main(int words, char **word) {
    if (words == 2 && strncmp(word[1], "once", 4) == 0) {
        call_once(strcmp(word[1], "once_mlir") == 0);
        return 0;
    }
    if (words == 3 && strcmp(word[1], "rows") == 0) {
        read_rows(word[2]);
        try_rows();
        printf("%zu rows with buffers of five lengths: %d faults\n", count, faults);
    } else if (words == 2 && strcmp(word[1], "edges") == 0) {
        try_edges();
        try_module_edges();
        printf("edges: %d faults\n", faults);
    } else if (words == 3 && strcmp(word[1], "threads") == 0) {
        read_rows(word[2]);
        try_threads();
        printf("%zu rows 20 times in each of 8 threads: %d faults\n", count, faults);
    } else if (words == 3 && strcmp(word[1], "many") == 0) {
        try_many(atol(word[2]));
    } else {
        return 2;
    }
    free_rows();
    return faults != 0;
}
