/* A sheet to its report in C: forecast FILE, or forecast < FILE. It is the quiet one, without the K lines of zeros; with --full
 * before FILE every class has its line. With --why CURRENCY CLASS before FILE: why the margin of that class in that currency is
 * what it is. Text, words on standard error and exit status are those of ./forecast: 0 a report or an explanation, 1 a
 * refusal, with what it means, 2 wrong words or a sheet that cannot be read. hosts/build makes refusals.h. */
#include "../kit.h"
#include "refusals.h"
#include <stdio.h>
#include <string.h>

static uint8_t sheet[65537];  /* bytes, one more than a sheet may have, so that a longer one is seen */
static uint8_t report[32768]; /* bytes */

static int fail(const char *what, const char *which) {
    fprintf(stderr, "forecast: %s%s\n", what, which);
    return 2;
}

/* A class is written as numbers are on the sheet. Any other word, and a number beyond 64 bits, is a class that no sheet has. */
static uint64_t class_of(const char *word) {
    uint64_t class_number = 0;

    if (word[0] == '\0' || (word[0] == '0' && word[1] != '\0')) return UINT64_MAX;
    for (; *word != '\0'; word++) {
        uint64_t digit = (uint64_t)(*word - '0'); /* above 9 for every other byte */
        if (digit > 9 || class_number > (UINT64_MAX - digit) / 10) return UINT64_MAX;
        class_number = 10 * class_number + digit;
    }
    return class_number;
}

/* The letter of a line of the sheet: its first field, where that is the letter of a row, and otherwise 0. Line 0 is no line. */
static char row_of(size_t length /* bytes */, unsigned line) {
    const uint8_t *at = sheet, *end = sheet + length;

    if (line == 0) return 0;
    for (; line > 1; line--) {
        at = memchr(at, '\n', (size_t)(end - at));
        if (at == NULL) return 0;
        at++;
    }
    if (at == end || memchr("DCOST", *at, 5) == NULL) return 0;
    return at + 1 == end || at[1] == ';' || at[1] == '\n' ? (char)*at : 0;
}

static const struct refusal *entry_of(unsigned number, char row) {
    size_t at;

    for (at = 0; at < sizeof refusals / sizeof *refusals; at++)
        if (refusals[at].number == number && refusals[at].row == row) return &refusals[at];
    return NULL;
}

/* Says what a refusal means and what should stand there; where the table has no entry for it, number and line alone. */
static void say(unsigned number, unsigned line, char row) {
    const struct refusal *entry = entry_of(number, row);

    if (entry == NULL) entry = entry_of(number, 0);
    fprintf(stderr, "forecast: refusal %u", number);
    if (line > 0) fprintf(stderr, ", line %u", line);
    if (entry != NULL) fprintf(stderr, ": %s\nforecast: there should be: %s", entry->meaning, entry->should);
    fputc('\n', stderr);
}

int main(int words, char **word) {
    int full = words > 1 && strcmp(word[1], "--full") == 0;
    int why = words > 1 && strcmp(word[1], "--why") == 0;
    int place = why ? 4 : full ? 2 : 1; /* of FILE among the words */
    const char *name = words > place ? word[place] : NULL; /* NULL for standard input */
    FILE *file = stdin;
    size_t length;   /* bytes */
    uint64_t answer; /* a text's length in bytes, or 65,536 * refusal + line */
    unsigned number; /* the refusal's, or 0 */
    unsigned line;   /* the refused one */
    int written;     /* bytes, or below 0 */

    if (words < place || words > place + 1)
        return fail("one sheet at a time: forecast [--full | --why CURRENCY CLASS] FILE, or the same < FILE", "");
    if (name != NULL) file = fopen(name, "rb");
    if (file == NULL) return fail("cannot read ", name);
    length = fread(sheet, 1, sizeof sheet, file);
    if (ferror(file)) return fail("cannot read ", name != NULL ? name : "the sheet");

    if (why)
        answer = brm_explain(sheet, length, (const uint8_t *)word[2], strlen(word[2]), class_of(word[3]), report, sizeof report);
    else if (full)
        answer = brm_margin_full(sheet, length, report, sizeof report);
    else
        answer = brm_margin(sheet, length, report, sizeof report);
    number = (unsigned)(answer / 65536);
    line = (unsigned)(answer % 65536);
    if (number == 0)
        written = fwrite(report, 1, (size_t)answer, stdout) == answer ? 0 : -1;
    else
        written = printf("N;%u;%u\n", number, line);
    if (written < 0 || fflush(stdout) != 0) return fail("cannot write the report", "");
    if (number == 0) return 0;
    say(number, line, row_of(length, line));
    return 1;
}
