/* Arborstitch for C: the reserved words of a SystemVerilog text.
 *
 * Link with libclassify.a (`bin/libclassify` makes target/staticlib/libclassify.a). What each function does is proved in
 * Rattle; nothing checks a caller, who must pass pointers to as many elements as it says. */
#ifndef ARBORSTITCH_H
#define ARBORSTITCH_H

#include <stddef.h>
#include <stdint.h>

#ifdef __cplusplus
extern "C" {
#endif

/* A plain name outside directives: its first byte in the text, its length in bytes, and 1 if
 * the keyword set in force there reserves it, else 0. */
struct arborstitch_word {
    uint32_t offset;
    uint32_t length;
    uint32_t reserved;
};

/* Keyword sets. */
enum {
    ARBORSTITCH_1364_1995 = 0,
    ARBORSTITCH_1364_2001 = 1,
    ARBORSTITCH_1364_2005 = 2,
    ARBORSTITCH_1800_2005 = 3
};

/* number: 0 where the whole text was read, else the refusal:
 *    1  set is none of the four, or the text is over 16,777,215 bytes long
 *    2  a byte other than 9, 10, 12 and 32 to 126
 *    3  a string or block comment is unfinished, or a string reaches a bare newline
 *    4  a grave accent begins no token; a joiner or quote mark stands outside macro text
 *    5  three " in a row where a string would begin
 *    6  a name is over 1,024 bytes long
 *   21  there is no room for a word
 * line, from 1, and byte, from 0: where the refused token starts; both 0 for 0 and 1.
 * words: how many were written. They stand also after a refusal. */
struct arborstitch_classified {
    size_t number;
    size_t line;
    size_t byte;
    size_t words;
};

/* Lists the words of text, size bytes long, to the front of words, which has room for lent of
 * them. set is the keyword set at the start. Neither pointer is null, also where its count is
 * 0. Nothing but the words written is touched.
 *
 * Stack: some 64 KiB; 4.2 MiB where a default of a `define in the text has over 65,536 brackets
 * open at once. With less the system ends the process. */
struct arborstitch_classified classify(const uint8_t *text, size_t size, uint32_t set,
                                       struct arborstitch_word *words, size_t lent);

#ifdef __cplusplus
}
#endif

#endif
