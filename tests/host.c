/* A C host of classify. With no argument it runs the framed cases on standard input (see
 * crates/words_cases) and prints each classification; with an argument it checks the sizes that
 * no case has. In both it sees that nothing past the words written is touched. `-q` reads one
 * text and prints only the answer: for measuring. */
#include <stdio.h>
#include <stdlib.h>
#include <string.h>
#include "arborstitch.h"

enum { LARGEST = 16777215, GUARDS = 8 };

static void fail(const char *what) {
    fprintf(stderr, "host: %s\n", what);
    exit(1);
}

static struct arborstitch_classified run(const uint8_t *text, size_t size, uint32_t set,
                                         struct arborstitch_word *words, size_t lent) {
    memset(words, 0xA5, (lent + GUARDS) * sizeof *words);
    struct arborstitch_classified r = classify(text, size, set, words, lent);
    if (r.words > lent) fail("more words than were lent");
    const uint8_t *past = (const uint8_t *)(words + r.words);
    for (size_t i = 0; i < (lent + GUARDS - r.words) * sizeof *words; i++)
        if (past[i] != 0xA5) fail("a byte past the words written was touched");
    return r;
}

static void print(struct arborstitch_classified r, const struct arborstitch_word *words) {
    if (r.number == 0) printf("classify ok\n");
    else printf("classify refused %zu 0 %zu %zu\n", r.number, r.line, r.byte);
    printf("words %zu\n", r.words);
    for (size_t i = 0; i < r.words; i++)
        printf("w %u %u %u\n", words[i].offset, words[i].length, words[i].reserved);
}

static uint32_t number(const uint8_t *p) {
    return p[0] | (uint32_t)p[1] << 8 | (uint32_t)p[2] << 16 | (uint32_t)p[3] << 24;
}

static size_t read_all(uint8_t *buffer, size_t room) {
    size_t n = fread(buffer, 1, room, stdin);
    if (n == room) fail("standard input is too long");
    return n;
}

static void cases(void) {
    static uint8_t input[1 << 20];
    size_t size = read_all(input, sizeof input), at = 0;
    while (at < size) {
        if (size - at < 12) fail("a frame is cut short");
        size_t lent = number(input + at), length = number(input + at + 8);
        uint32_t set = number(input + at + 4);
        at += 12;
        if (size - at < length) fail("a text is cut short");
        struct arborstitch_word *words = malloc((lent + GUARDS) * sizeof *words);
        if (!words) fail("no memory");
        print(run(input + at, length, set, words, lent), words);
        free(words);
        at += length;
    }
}

static void expect(const char *what, struct arborstitch_classified r, size_t number, size_t line, size_t byte, size_t words) {
    if (r.number != number || r.line != line || r.byte != byte || r.words != words) {
        fprintf(stderr, "host: %s: %zu %zu %zu %zu\n", what, r.number, r.line, r.byte, r.words);
        exit(1);
    }
}

static void sizes(void) {
    uint8_t *text = malloc(LARGEST + 2);
    struct arborstitch_word words[1 + GUARDS];
    if (!text) fail("no memory");
    memset(text, ' ', LARGEST + 1);
    expect("the largest text", run(text, LARGEST, 3, words, 1), 0, 0, 0, 0);
    expect("a byte more", run(text, LARGEST + 1, 3, words, 1), 1, 0, 0, 0);
    text[LARGEST - 1] = 'a';
    expect("a word at its end", run(text, LARGEST, 3, words, 1), 0, 0, 0, 1);
    if (words[0].offset != LARGEST - 1 || words[0].length != 1) fail("the last word's place");
    expect("no room for it", run(text, LARGEST, 3, words, 0), 21, 1, LARGEST - 1, 0);
    text[LARGEST - 1] = 128;
    memset(text, '\n', 1000);
    expect("a bad byte at its end", run(text, LARGEST, 3, words, 1), 2, 1001, LARGEST - 1, 0);
    /* one definition, of which nearly all is stored; then one of a bad name, whose other words are listed */
    memset(text, 'x', LARGEST);
    memcpy(text, "`define A /**/ ", 15);
    for (size_t i = 100; i < LARGEST; i += 100) text[i] = ' ';
    expect("a long definition", run(text, LARGEST, 3, words, 1), 0, 0, 0, 0);
    text[8] = '1';
    expect("a long bad definition", run(text, LARGEST, 3, words, 1), 21, 1, 100 + 1, 1);
    /* a string, and a run between quote marks, over escaped newlines all along */
    for (size_t i = 0; i + 3 <= LARGEST; i += 3) memcpy(text + i, "1\\\n", 3);
    memcpy(text, "`define A \"1", 12);
    memcpy(text + LARGEST - 3, "x\" ", 3);
    expect("a long string", run(text, LARGEST, 3, words, 1), 0, 0, 0, 0);
    memcpy(text, "`define A `\"", 12);
    memcpy(text + LARGEST - 3, "x`\"", 3);
    expect("a long run between quote marks", run(text, LARGEST, 3, words, 1), 0, 0, 0, 0);
    memcpy(text + LARGEST - 3, "x  ", 3);
    expect("an odd number of quote marks", run(text, LARGEST, 3, words, 1), 4, 1, 10, 1);
    /* a default with brackets as deep as a text can have them */
    size_t deep = (LARGEST - 14) / 2;
    memset(text, ' ', LARGEST);
    memcpy(text, "`define A(x=", 12);
    for (size_t i = 0; i < deep; i++) {
        text[12 + i] = "([{"[i % 3];
        text[11 + 2 * deep - i] = ")]}"[i % 3];
    }
    text[12 + 2 * deep] = ')';
    expect("deep brackets", run(text, LARGEST, 3, words, 1), 0, 0, 0, 0);
    text[12 + deep] = '?';
    expect("deep brackets unmatched", run(text, LARGEST, 3, words, 1), 21, 1, 10, 1);
    /* a condition of one line: with its `)` a directive, without it only its word is skipped */
    memset(text, '!', LARGEST);
    memcpy(text, "`ifdef (", 8);
    memcpy(text + LARGEST - 2, "A)", 2);
    expect("a long condition", run(text, LARGEST, 3, words, 1), 0, 0, 0, 0);
    text[LARGEST - 1] = ' ';
    expect("a long condition unclosed", run(text, LARGEST, 3, words, 1), 0, 0, 0, 1);
    static const uint32_t none_of_the_four[] = {4, 5, 1000, 0x7FFFFFFF, 0x80000000, 0xFFFFFFFF};
    for (size_t i = 0; i < sizeof none_of_the_four / sizeof *none_of_the_four; i++)
        expect("a set that is none", run(text, 5, none_of_the_four[i], words, 1), 1, 0, 0, 0);
    expect("the empty text", run(text, 0, 0, words, 0), 0, 0, 0, 0);
    free(text);
}

static void quiet(void) {
    static uint8_t input[1 << 20];
    static struct arborstitch_word words[1 << 16];
    struct arborstitch_classified r = classify(input, read_all(input, sizeof input), 3, words, 1 << 16);
    printf("%zu %zu %zu %zu\n", r.number, r.line, r.byte, r.words);
}

int main(int count, char **argument) {
    if (count == 1) cases();
    else if (!strcmp(argument[1], "-q")) quiet();
    else sizes();
    return 0;
}
