/* Prints the listing of the symbols on standard input, one a line: number, length and name of each. With -n: normal symbols in the names' place.
 * For many symbols this is faster than a call for each.
 *
 *   (cd crates/patchname && rt lib)
 *   cc -std=c99 -O2 -I include examples/c/listing.c crates/patchname/out/libpatchname.a -o listing
 *   ./listing < examples/symbols
 */
#include <stdio.h>
#include <stdlib.h>
#include <string.h>

#include "patchname.h"

/* For normal symbols, the length of each slice of numbers. */
#define NUMBERS PATCHNAME_NORMALIZE_NUMBERS_LENGTH

/* One byte more than a symbol may have is kept of a line: enough to tell that it is too long. */
#define LINE_BYTES (PATCHNAME_SYMBOL_BYTES + 1)

static uint8_t lines[65536];
static uint8_t listing[65536];
static uint8_t name[PATCHNAME_NAME_BYTES];
static uint8_t text[PATCHNAME_TEXT_LENGTH];
static uint8_t store[PATCHNAME_STORE_LENGTH];
static uint16_t ends[NUMBERS];
static uint16_t words[NUMBERS];
static uint16_t tables[NUMBERS];
static uint16_t chains[NUMBERS];

/* Lists the lines from a place on into `listing`: names, or normal symbols. */
typedef uint8_t list_function(size_t from, size_t bytes, size_t *taken, size_t *written);

static uint8_t list_names(size_t from, size_t bytes, size_t *taken, size_t *written)
{
    return patchname_list_names(
        lines + from, bytes - from, listing, sizeof listing, name, sizeof name, text, sizeof text, store, sizeof store,
        ends, PATCHNAME_ENDS_LENGTH, taken, written);
}

static uint8_t list_normal_symbols(size_t from, size_t bytes, size_t *taken, size_t *written)
{
    return patchname_list_normal_symbols(
        lines + from, bytes - from, listing, sizeof listing, name, sizeof name, text, sizeof text, store, sizeof store,
        ends, NUMBERS, words, NUMBERS, tables, NUMBERS, chains, NUMBERS, taken, written);
}

/* Complete lines, so many bytes. `listing` has room for any line and the work slices are long enough, so that at least one is taken each time. */
static void list(list_function *lister, size_t bytes)
{
    size_t from = 0;
    while (from < bytes) {
        size_t taken, written;
        if (lister(from, bytes, &taken, &written) != PATCHNAME_OK) {
            abort();
        }
        from += taken;
        fwrite(listing, 1, written, stdout);
    }
}

static void list_input(list_function *lister)
{
    size_t used = 0;
    size_t start = 0;
    int c;
    while ((c = getchar()) != EOF) {
        if (c != '\n') {
            if (used - start < LINE_BYTES) {
                lines[used++] = (uint8_t)c;
            }
            continue;
        }
        lines[used++] = '\n';
        start = used;
        if (sizeof lines - used < LINE_BYTES + 1) {
            list(lister, used);
            used = start = 0;
        }
    }
    if (start < used) {
        lines[used++] = '\n';
    }
    list(lister, used);
}

int main(int argc, char **argv)
{
    int normal = 1 < argc && strcmp(argv[1], "-n") == 0;
    list_input(normal ? list_normal_symbols : list_names);
    return 0;
}
