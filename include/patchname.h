/* Names of C++ symbols, for C and C++. The library is crates/patchname/out/libpatchname.a, for Linux on x86-64: `rt lib` in crates/patchname writes
 * it.
 *
 * The functions allocate nothing, call nothing of the operating system and keep nothing between calls: threads may call them at the same time,
 * each with slices of its own. Nothing proves a bound of the machine stack; the deepest symbols known are answered with 256 KiB
 * (`tools/stack`).
 */
#ifndef PATCHNAME_H
#define PATCHNAME_H

#include <stddef.h>
#include <stdint.h>

#ifdef __cplusplus
extern "C" {
#endif

/* The longest symbol that is read, in bytes: a longer one is refused with 1. */
#define PATCHNAME_SYMBOL_BYTES 16384

/* An output of so many bytes is long enough for every name. */
#define PATCHNAME_NAME_BYTES 16384

/* The least lengths of the work slices: bytes, bytes, and numbers of 16 bits. A call clears all of what it is lent, so that longer ones only
 * cost time. */
#define PATCHNAME_TEXT_LENGTH 51200
#define PATCHNAME_STORE_LENGTH 65536
#define PATCHNAME_ENDS_LENGTH 2048

/* What a call for one symbol returns, and what stands first in a line of a listing. Where more than one refusal would fit, the first in this
 * order is told: 1, 2, 3, 14, then 4 and 7 to 11 as the reading first meets them, 5, 6, 13, 12. A call for a listing returns 0, 12 or 14. */
enum patchname_number {
    PATCHNAME_OK = 0,                     /* the result is in `out` */
    PATCHNAME_SYMBOL_TOO_LONG = 1,        /* the symbol is longer than 16,384 bytes */
    PATCHNAME_HIGH_BYTE = 2,              /* it has a byte of 128 or more */
    PATCHNAME_NO_PREFIX = 3,              /* neither _Z nor __Z stands in front */
    PATCHNAME_UNREADABLE = 4,             /* no rule of the reading fits */
    PATCHNAME_BYTES_LEFT = 5,             /* bytes are left that don't begin with a dot */
    PATCHNAME_NOT_IN_CATALOGUE = 6,       /* read, but no catalogue symbol (normal symbols only) */
    PATCHNAME_NO_SUCH_REFERENCE = 7,      /* a reference past the table */
    PATCHNAME_TOO_DEEP = 8,               /* a 97th name, type or list of template arguments would be open */
    PATCHNAME_TABLE_FULL = 9,             /* an entry past 1,024, or entries past 32,768 bytes */
    PATCHNAME_ARGUMENTS_FULL = 10,        /* the same for template arguments */
    PATCHNAME_TEXT_TOO_LONG = 11,         /* a text longer than 16,384 bytes */
    PATCHNAME_OUTPUT_TOO_SHORT = 12,      /* `out` is shorter than the result */
    PATCHNAME_NORMAL_SYMBOL_TOO_LONG = 13, /* the normal symbol is longer than 16,384 bytes (normal symbols only) */
    PATCHNAME_WORK_TOO_SHORT = 14         /* a work slice is below its least length */
};

/* The name of a symbol.
 *
 * symbol, symbol_length   the symbol: any bytes, any length, no 0 at its end. It is only read.
 * out, out_length         where the name goes: its bytes from the front on, no 0 behind them.
 * text, text_length       work slices, with any contents. They end all zero, whatever is returned.
 * store, store_length
 * ends, ends_length       counted in numbers, not in bytes.
 * bytes                   where the length of the name goes; its value before the call doesn't matter.
 *
 * Returned is a number of `enum patchname_number`. With 0, the first *bytes bytes of `out` are the name, and those behind them are as they were.
 * With any other number *bytes is 0, and all of `out` is as it was. A name can be empty.
 *
 * What a caller owes: each pointer and its length are a slice of memory that the caller may read, and, but for the symbol, write. No two of the
 * slices overlap, and none has *bytes in it. No pointer is null, not even where its length is 0; but then it need not point to any memory. `ends`
 * and `bytes` are aligned as their types are. A work slice may be shorter than its least length, or empty: that is refused with 14.
 */
uint8_t patchname_demangle(
    const uint8_t *symbol, size_t symbol_length,
    uint8_t *out, size_t out_length,
    uint8_t *text, size_t text_length,
    uint8_t *store, size_t store_length,
    uint16_t *ends, size_t ends_length,
    size_t *bytes);

/* An output of so many bytes is long enough for every normal symbol. */
#define PATCHNAME_NORMAL_SYMBOL_BYTES 16384

/* The least length of each of `ends`, `words`, `tables` and `chains` for normal symbols, in numbers of 16 bits; `text` and `store` are as long as
 * for names. Symbols of 16,384 bytes need all four: an `ends` of 24,576 numbers, which was enough for 4,096 bytes, is refused with 14. The functions
 * for normal symbols have six parameters more than they had for 4,096 bytes, so that a caller is compiled anew. */
#define PATCHNAME_NORMALIZE_NUMBERS_LENGTH 32768

/* The normal symbol of a catalogue symbol: two of them have the same normal symbol exactly when they have the same name. Parameters, what is
 * returned and what a caller owes are those of `patchname_demangle`, but for the least length of `ends`, and for three more work slices behind it
 * that are like it, `words`, `tables` and `chains`. 6 and 13 are told of normal symbols only. */
uint8_t patchname_normalize(
    const uint8_t *symbol, size_t symbol_length,
    uint8_t *out, size_t out_length,
    uint8_t *text, size_t text_length,
    uint8_t *store, size_t store_length,
    uint16_t *ends, size_t ends_length,
    uint16_t *words, size_t words_length,
    uint16_t *tables, size_t tables_length,
    uint16_t *chains, size_t chains_length,
    size_t *bytes);

/* An output of so many bytes has room for every line of a listing. */
#define PATCHNAME_LINE_BYTES 16397

/* The listing of many symbols, which is faster than a call for each: the work slices are cleared once for all of them.
 *
 * input, input_length     symbols, one a line, each ended by a line feed. Bytes behind the last line feed are not taken: where they are a symbol, the
 *                         caller adds a line feed.
 * out, out_length         where the listing goes: for each line of `input`, in its order, the number, a comma, the length, a comma, the name and a
 *                         line feed. With another number than 0 the length is 0 and there is no name. No other line stands in front.
 * name, name_length       one more work slice, of PATCHNAME_NAME_BYTES at least, for one name or normal symbol at a time.
 * text, store, ends       work slices, as for `patchname_demangle`.
 * taken                   where the number of bytes taken goes: those of the lines at the front of `input` whose listing fits into `out`.
 * written                 where the length of the listing goes. The values of both before the call don't matter.
 *
 * Returned is PATCHNAME_WORK_TOO_SHORT where a work slice is below its least length; PATCHNAME_OUTPUT_TOO_SHORT where `input` has a complete line
 * and the listing of the first one is longer than `out`, which is never so with PATCHNAME_LINE_BYTES; and PATCHNAME_OK otherwise. With another
 * number than 0 nothing is taken or written. With 0 at least one line is taken where `input` has a complete one: call it again with the rest, until
 * nothing is taken.
 *
 * Lines of any bytes and any length get a line; 12 and 14 never stand in one. The first *written bytes of `out` are the listing, and those behind
 * them are as they were. All work slices, `name` too, end all zero.
 *
 * What a caller owes: each pointer and its length are a slice of memory that the caller may read, and, but for the input, write. No two of the
 * slices overlap, and none has *taken or *written in it, which are two places. No pointer is null, not even where its length is 0. `ends`,
 * `taken` and `written` are aligned as their types are. */
uint8_t patchname_list_names(
    const uint8_t *input, size_t input_length,
    uint8_t *out, size_t out_length,
    uint8_t *name, size_t name_length,
    uint8_t *text, size_t text_length,
    uint8_t *store, size_t store_length,
    uint16_t *ends, size_t ends_length,
    size_t *taken, size_t *written);

/* The same with the normal symbol in the name's place, and the work slices of `patchname_normalize`: PATCHNAME_NORMALIZE_NUMBERS_LENGTH is the least
 * length of each of `ends`, `words`, `tables` and `chains`. */
uint8_t patchname_list_normal_symbols(
    const uint8_t *input, size_t input_length,
    uint8_t *out, size_t out_length,
    uint8_t *name, size_t name_length,
    uint8_t *text, size_t text_length,
    uint8_t *store, size_t store_length,
    uint16_t *ends, size_t ends_length,
    uint16_t *words, size_t words_length,
    uint16_t *tables, size_t tables_length,
    uint16_t *chains, size_t chains_length,
    size_t *taken, size_t *written);

#ifdef __cplusplus
}
#endif

#endif
