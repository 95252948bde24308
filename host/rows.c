/* Suppliers' rows into a circuit, and back. */
#include "circuit.h"
#include "circuit_file.h"
#include "row_text.h"

#include <stdlib.h>
#include <string.h>

static const char usage[] = "usage: rows CSV CIRCUIT [--series 0BA6]\n"
                            "       rows --back CIRCUIT CSV [--series 0BA6]\n"
                            "       rows --trim CSV TRIMMED\n"
                            "The first reads the rows in the file CSV, one a block or output row (docs/ROWS.md), judges the\n"
                            "circuit that they make, and writes its bytes to the file CIRCUIT. It replaces a circuit.\n"
                            "The second writes the rows of a circuit to the file CSV, which may not be there yet.\n"
                            "The third copies rows to the file TRIMMED, which may not be there yet, without what spreadsheet\n"
                            "programs add: a byte order mark, rows of empty cells, empty cells behind those of a kind. It\n"
                            "leaves them where the rows could say something else without them, and tells how many.\n"
                            "With --series the circuit must also fit that older series: 200 blocks, Q1 to Q16, AQ1 and AQ2, M1\n"
                            "to M27, AM1 to AM6, all else as ever; else it is refused.\n"
                            "The names CSV and TRIMMED end in .csv, the name CIRCUIT does not. A file is written whole or not\n"
                            "at all.\n"
                            "Status 0: it is written; 1: the rows or the circuit are refused, and no file is touched;\n"
                            "2: a word or file is not as expected, or cannot be read or written.\n";

enum { WRITTEN, REFUSED_ROWS, CANNOT };

static const file_sort circuits = {"circuit", "circuit", {"\x01\x00\x03"}, 3, true};
static const file_sort texts = {"text of rows", "text of rows", {"16,", "48,"}, 3, false};

static const series *fit; /* that the circuit must fit; null: none */

static int cannot(const char *why) {
    fprintf(stderr, "rows: %s\n", why);
    return CANNOT;
}

/* Takes the circuit from a file of either sort, which the caller frees if the status is WRITTEN. */
static int take(const char *path, circuit_bytes *to) {
    switch (take_circuit("rows", path, fit, to)) {
    case CIRCUIT_TAKEN:
        return WRITTEN;
    case CIRCUIT_REFUSED:
        return REFUSED_ROWS;
    default:
        return CANNOT;
    }
}

static int write_circuit(const char *from, const char *path) {
    circuit_bytes c;
    message why;
    const int status = take(from, &c);
    if (status != WRITTEN)
        return status;
    const bool is_written = write_file(path, &circuits, c.bytes, c.length, &why);
    free(c.bytes);
    if (!is_written)
        return cannot(why.text);
    printf("%s: %zu bytes, %zu block%s, %zu output row%s%s\n", shown(path).text, c.length, c.blocks, plural(c.blocks), c.rows,
           plural(c.rows), fits(fit).text);
    return WRITTEN;
}

/* Any accepted circuit's text is shorter than MOST_TEXT_BYTES. */
static int write_text(const char *from, const char *path) {
    static uint8_t text[MOST_TEXT_BYTES];
    circuit_bytes c;
    message why;
    const int status = take(from, &c);
    if (status != WRITTEN)
        return status;
    const serifdove_answer answer = serifdove_write_rows(c.bytes, c.length, text, sizeof text);
    free(c.bytes);
    if (answer.number != SERIFDOVE_ACCEPTED) {
        fail(&why, "%s cannot be written as rows: refusal %zu", shown(from).text, answer.number);
        return cannot(why.text);
    }
    if (!write_file(path, &texts, text, answer.first, &why))
        return cannot(why.text);
    printf("%s: %zu bytes, %zu row%s%s\n", shown(path).text, answer.first, answer.second, plural(answer.second), fits(fit).text);
    return WRITTEN;
}

static int write_trimmed(const char *from, const char *path) {
    uint8_t *text;
    size_t length;
    message why;
    if (!read_file(from, "a text of rows", MOST_TEXT_BYTES, &text, &length, &why))
        return cannot(why.text);
    uint8_t *copy = malloc(length + 1);
    const trimmed t = copy == NULL ? (trimmed){0} : trim_rows(text, length, copy);
    const bool is_written =
        copy == NULL ? fail(&why, "there is no memory for the rows") : write_file(path, &texts, copy, t.length, &why);
    free(copy);
    free(text);
    if (!is_written)
        return cannot(why.text);
    printf("%s: %zu bytes; taken away: %s, %zu blank row%s, empty cells behind %zu row%s\n", shown(path).text, t.length,
           t.had_mark ? "a byte order mark" : "no byte order mark", t.blank_rows, plural(t.blank_rows), t.cut_rows, plural(t.cut_rows));
    if (t.left_rows > 0)
        printf("left as they were: %zu row%s, where a block may be missing or a comma may part a number; reading tells which\n",
               t.left_rows, plural(t.left_rows));
    return WRITTEN;
}

/* What the program can do: by which word, from rows or a circuit to which, whether a circuit is judged, and how. */
static const struct {
    const char *option; /* null: none */
    bool from_rows, to_rows, judges;
    int (*carry_out)(const char *from, const char *path);
} jobs[] = {
    {NULL, true, false, true, write_circuit}, {"--back", false, true, true, write_text}, {"--trim", true, true, false, write_trimmed}};
enum { JOBS = sizeof jobs / sizeof *jobs };

/* Whether the name ends as it should; else it is told. */
static bool is_named(const char *path, bool as_rows) {
    if (names_rows(path) == as_rows)
        return true;
    fprintf(stderr, "rows: `%s` is no name for %s; expected is one that %s in .csv\n", shown(path).text, as_rows ? "rows" : "a circuit",
            as_rows ? "ends" : "does not end");
    return false;
}

/* Which job this word begins; the first, if it is no option. */
static size_t job_of(const char *word) {
    size_t i = JOBS - 1;
    while (i > 0 && strcmp(jobs[i].option, word) != 0)
        i--;
    return i;
}

/* Takes --series and the word behind it out of the words, wherever they stand; how many are left, 0 where it is told what is wrong. */
static int take_series(int count, char **words) {
    int left = 0;
    message why;
    for (int i = 0; i < count; i++)
        if (strcmp(words[i], "--series") != 0) {
            words[left++] = words[i];
        } else if (!read_series(++i < count ? words[i] : NULL, &fit, &why)) {
            cannot(why.text);
            return 0;
        }
    return left;
}

int main(int count, char **words) {
    count = take_series(count, words);
    if (count == 0)
        return CANNOT;
    if (count == 2 && (strcmp(words[1], "--help") == 0 || strcmp(words[1], "-h") == 0))
        return fputs(usage, stdout) < 0 || fflush(stdout) != 0 ? cannot("standard output cannot be written") : WRITTEN;
    const size_t job = count > 1 ? job_of(words[1]) : 0;
    char **names = words + 1 + (job > 0);
    if (count != (job > 0 ? 4 : 3) || names[0][0] == '-' || names[1][0] == '-') {
        fputs(usage, stderr);
        return CANNOT;
    }
    if (fit != NULL && !jobs[job].judges)
        return cannot("--series does not go with --trim, which judges no circuit");
    if (!is_named(names[0], jobs[job].from_rows) || !is_named(names[1], jobs[job].to_rows))
        return CANNOT;
    const int status = jobs[job].carry_out(names[0], names[1]);
    if (fflush(stdout) != 0 || ferror(stdout))
        return cannot("standard output cannot be written");
    return status;
}
