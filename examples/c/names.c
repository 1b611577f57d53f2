/* Prints the names of symbols: those on the command line, or else the lines of standard input. With -n in front: their normal symbols.
 *
 *   (cd crates/patchname && rt lib)
 *   cc -std=c99 -O2 -I include examples/c/names.c crates/patchname/out/libpatchname.a -o names
 *   ./names _Z1fv _Z0v
 */
#include <stdio.h>
#include <string.h>

#include "patchname.h"

/* For normal symbols, the length of each slice of numbers. */
#define NUMBERS PATCHNAME_NORMALIZE_NUMBERS_LENGTH

static uint8_t out[PATCHNAME_NAME_BYTES];
static uint8_t text[PATCHNAME_TEXT_LENGTH];
static uint8_t store[PATCHNAME_STORE_LENGTH];
static uint16_t ends[NUMBERS];
static uint16_t words[NUMBERS];
static uint16_t tables[NUMBERS];
static uint16_t chains[NUMBERS];

/* Writes the name of a symbol to `out`, or its normal symbol. A call clears all that it is lent, so that names are lent no more of `ends` than they need. */
typedef uint8_t entry_function(const uint8_t *symbol, size_t length, size_t *bytes);

static uint8_t demangle(const uint8_t *symbol, size_t length, size_t *bytes)
{
    return patchname_demangle(
        symbol, length, out, sizeof out, text, sizeof text, store, sizeof store, ends, PATCHNAME_ENDS_LENGTH, bytes);
}

static uint8_t normalize(const uint8_t *symbol, size_t length, size_t *bytes)
{
    return patchname_normalize(
        symbol, length, out, sizeof out, text, sizeof text, store, sizeof store, ends, NUMBERS, words, NUMBERS, tables, NUMBERS, chains, NUMBERS, bytes);
}

static const char *message(uint8_t number)
{
    static const char *const messages[] = {
        "",
        "the symbol is longer than 16,384 bytes",
        "the symbol has a byte of 128 or more",
        "neither _Z nor __Z stands in front",
        "no rule of the reading fits",
        "bytes are left that don't begin with a dot",
        "read, but no catalogue symbol",
        "a reference past the table",
        "a 97th name, type or list of template arguments would be open",
        "an entry past 1,024, or entries past 32,768 bytes",
        "a template argument past 1,024, or template arguments past 32,768 bytes",
        "a text longer than 16,384 bytes",
        "the output is shorter than the result",
        "the normal symbol is longer than 16,384 bytes",
        "a work slice is below its least length",
    };
    return number < sizeof messages / sizeof *messages ? messages[number] : "no such number";
}

static void answer(entry_function *entry, const uint8_t *symbol, size_t length)
{
    size_t bytes;
    uint8_t number = entry(symbol, length, &bytes);
    if (number == PATCHNAME_OK) {
        fwrite(out, 1, bytes, stdout);
        putchar('\n');
    } else {
        printf("refused, %d: %s\n", number, message(number));
    }
}

/* One byte more than a symbol may have is kept of a line: enough to tell that it is too long. */
static void answer_lines(entry_function *entry)
{
    static uint8_t line[PATCHNAME_SYMBOL_BYTES + 1];
    size_t length = 0;
    int has_bytes = 0;
    int c;
    while ((c = getchar()) != EOF) {
        has_bytes = c != '\n';
        if (c == '\n') {
            answer(entry, line, length);
            length = 0;
        } else if (length < sizeof line) {
            line[length++] = (uint8_t)c;
        }
    }
    if (has_bytes) {
        answer(entry, line, length);
    }
}

int main(int argc, char **argv)
{
    entry_function *entry = demangle;
    int first = 1;
    if (first < argc && strcmp(argv[first], "-n") == 0) {
        entry = normalize;
        first++;
    }
    if (first == argc) {
        answer_lines(entry);
    }
    for (int i = first; i < argc; i++) {
        answer(entry, (const uint8_t *)argv[i], strlen(argv[i]));
    }
    if (fflush(stdout) != 0 || ferror(stdout) || ferror(stdin)) {
        perror("names");
        return 1;
    }
    return 0;
}
