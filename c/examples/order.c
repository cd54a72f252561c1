/* An order program: decides a rule file, enlarging what was short, and says the answer in the words of the file's text.
   From the root of the repository, when ./library has laid out the library:
       cc c/examples/order.c -Itarget/library/include target/library/lib/libgumbyra.a -o target/order
       target/order samples/pump.fit
   The status is 0 with a verdict, 1 with a refusal, 2 if reading or writing failed. */
#include <errno.h>
#include <stdio.h>
#include <stdlib.h>
#include <string.h>
#include "gumbyra.h"

static void fail(const char *what, const char *why) {
    fprintf(stderr, "order: %s: %s\n", what, why);
    exit(2);
}

enum { NODES, EDGES, ALTERNATIVES, ELEMENTS, LINKS, AREAS };

typedef struct {
    uint8_t *bytes[AREAS];
    size_t len[AREAS];
} lending;

static void lend(lending *lent, int which, size_t records) {
    static const size_t record[AREAS] = {GUMBYRA_NODE, GUMBYRA_EDGE, GUMBYRA_ALTERNATIVE, GUMBYRA_ELEMENT, GUMBYRA_LINK};
    free(lent->bytes[which]); /* what an area holds before a call has no say */
    lent->len[which] = records * record[which];
    lent->bytes[which] = malloc(lent->len[which] + 1); /* one byte more: the pointer may not be null even for no record */
    if (lent->bytes[which] == NULL) fail("areas", "out of memory");
}

/* Asks until there is a verdict, or no larger area helps. */
static gumbyra_answer decide(const uint8_t *file, size_t file_len, lending *lent) {
    static const size_t usual[AREAS] = {GUMBYRA_USUAL_NODES, GUMBYRA_USUAL_EDGES, GUMBYRA_USUAL_ALTERNATIVES, GUMBYRA_USUAL_ELEMENTS, GUMBYRA_USUAL_LINKS};
    for (int which = 0; which < AREAS; which++) lend(lent, which, usual[which]);
    for (;;) {
        gumbyra_answer a = gumbyra_fit(file, file_len, lent->bytes[NODES], lent->len[NODES], lent->bytes[EDGES], lent->len[EDGES],
                                       lent->bytes[ALTERNATIVES], lent->len[ALTERNATIVES],
                                       lent->bytes[ELEMENTS], lent->len[ELEMENTS], lent->bytes[LINKS], lent->len[LINKS]);
        if (a.refusal == GUMBYRA_EXAMPLE_TOO_LONG) {
            lend(lent, ELEMENTS, a.elements);
            lend(lent, LINKS, a.links);
        } else if (a.refusal >= GUMBYRA_NODES_SHORT && a.refusal <= GUMBYRA_ALTERNATIVES_SHORT && a.lent < GUMBYRA_MOST_RECORDS) {
            lend(lent, (int)a.refusal - GUMBYRA_NODES_SHORT + NODES, a.lent == 0 ? 1 : 2 * (size_t)a.lent);
        } else {
            return a;
        }
    }
}

/* Words of the text, which may be any bytes (docs/RULE-FILES.md, The text). With length 0 there are none. */
typedef struct {
    const uint8_t *bytes;
    size_t len;
} words;

/* A list has words for numbers 0 to 255. */
enum { LISTED = 256 };

/* Takes the first line off a text. */
static words take_line(words *text) {
    const uint8_t *end = memchr(text->bytes, '\n', text->len);
    words line = {text->bytes, end == NULL ? text->len : (size_t)(end - text->bytes)};
    text->bytes += line.len + (end != NULL);
    text->len -= line.len + (end != NULL);
    if (line.len > 0 && line.bytes[line.len - 1] == '\r') line.len--;
    return line;
}

/* Takes a number up to 255 and a space off a line; -1 if it does not begin so. */
static int take_number(words *line) {
    int number = 0;
    size_t at = 0;
    for (; at < line->len && line->bytes[at] >= '0' && line->bytes[at] <= '9' && number <= 255; at++)
        number = 10 * number + line->bytes[at] - '0';
    if (at == 0 || number > 255 || at == line->len || line->bytes[at] != ' ') return -1;
    line->bytes += at + 1;
    line->len -= at + 1;
    return number;
}

/* Reads the list below the first line that is just this heading. Of two lines with one number the first counts. */
static void read_list(words text, const char *heading, words *list, int most) {
    words line = {NULL, 0};
    while (text.len > 0 && (line.len != strlen(heading) || memcmp(line.bytes, heading, line.len) != 0)) line = take_line(&text);
    while (text.len > 0) {
        line = take_line(&text);
        int number = take_number(&line);
        if (number < 0) return;
        if (number < most && list[number].bytes == NULL) list[number] = line;
    }
}

/* A control character might steer a terminal, so a mark stands for it; in UTF-8 some have two bytes. */
static void say(words said, const char *without, int number) {
    if (said.len == 0) printf("%s %d", without, number);
    for (size_t at = 0; at < said.len; at++) {
        int two = said.bytes[at] == 0xc2 && at + 1 < said.len && said.bytes[at + 1] >= 0x80 && said.bytes[at + 1] < 0xa0;
        putchar(two || said.bytes[at] < ' ' || said.bytes[at] == 127 ? '?' : said.bytes[at]);
        at += two;
    }
}

/* Is one of the words "no" or "not"? */
static int denies(words said) {
    static const char *const denials[] = {" no ", " not "};
    for (size_t at = 0; at < said.len; at++)
        for (int k = 0; k < 2; k++)
            if (said.len - at >= strlen(denials[k]) && memcmp(said.bytes + at, denials[k], strlen(denials[k])) == 0) return 1;
    return 0;
}

/* After ./convert a list that was written for a draft would give its words to other rows. So it is used only if it has just the file's rows,
   the list of the wanted row agrees, and rows of kind 2 deny something and rows of kind 1 don't. That cannot find every such list. */
static int is_of_file(const uint8_t *rows, int count, int wanted, words text, const words *listed) {
    words wanted_list[LISTED] = {{NULL, 0}};
    read_list(text, "Wanted:", wanted_list, LISTED);
    for (int row = 0; row < LISTED; row++) {
        if ((wanted_list[row].bytes != NULL) != (row == wanted) || (listed[row].len > 0) != (row < count)) return 0;
        if (row < count && rows[4 * row] <= 2 && denies(listed[row]) != (rows[4 * row] == 2)) return 0;
    }
    return 1;
}

/* Says what each part is. The rules are left out: they are true of every part. The file has passed all checks, so its numbers are in range. */
static void say_parts(const uint8_t *file, size_t file_len, words text, const uint8_t *elements, uint32_t count) {
    const uint8_t *trailer = file + file_len - 8, *rows = file + text.len, *rules = rows + 4 * trailer[2];
    words names[LISTED] = {{NULL, 0}}, row_words[LISTED] = {{NULL, 0}};
    int is_rule[LISTED] = {0};
    read_list(text, "Names:", names, LISTED);
    read_list(text, "Rows:", row_words, LISTED);
    if (!is_of_file(rows, trailer[2], trailer[4], text, row_words)) memset(row_words, 0, sizeof row_words);
    for (int k = 0; k < trailer[3]; k++) is_rule[rules[k]] = 1;
    for (uint32_t part = 0; part < count; part++, elements += GUMBYRA_ELEMENT) {
        printf("part %u:\n", part);
        for (int row = 0; row < trailer[2]; row++) {
            if (is_rule[row] || !(elements[row / 8] >> row % 8 & 1)) continue;
            printf("  ");
            say(row_words[row].len == 0 && rows[4 * row] == 1 ? names[rows[4 * row + 2]] : row_words[row], "row", row);
            printf("\n");
        }
    }
}

static void say_links(words text, const uint8_t *links, uint32_t count) {
    words codes[LISTED] = {{NULL, 0}};
    read_list(text, "Role codes:", codes, LISTED);
    for (const uint8_t *link = links; link < links + (size_t)count * GUMBYRA_LINK; link += GUMBYRA_LINK) {
        printf("part %d ", link[0] + 256 * link[1]);
        say(codes[link[2]], "code", link[2]);
        printf(": part %d\n", link[4] + 256 * link[5]);
    }
}

int main(int argc, char **argv) {
    static uint8_t file[GUMBYRA_LONGEST_FILE + 1]; /* one byte more, to see that a file is longer */
    static lending lent;
    if (argc != 2) fail("usage", "order FILE");
    if (gumbyra_version() / 100 != GUMBYRA_VERSION / 100) fail("libgumbyra", "another version than this program was made for");
    FILE *in = fopen(argv[1], "rb");
    if (in == NULL) fail(argv[1], strerror(errno));
    size_t file_len = fread(file, 1, sizeof file, in);
    if (ferror(in)) fail(argv[1], strerror(errno));
    fclose(in);
    gumbyra_answer a = decide(file, file_len, &lent);
    if (a.verdict == GUMBYRA_REFUSED) {
        fprintf(stderr, "REFUSED %u", a.refusal);
        if (a.refusal >= GUMBYRA_NODES_SHORT && a.refusal <= GUMBYRA_ALTERNATIVES_SHORT) fprintf(stderr, " %u", a.lent);
        fprintf(stderr, ": %s\n", gumbyra_sentence(a.refusal));
        return 1;
    }
    if (a.verdict == GUMBYRA_CANNOT) printf("The kit cannot exist.\n");
    if (a.verdict == GUMBYRA_CAN) {
        printf("The kit can exist. An example; part 0 is the one that was wanted:\n");
        words text = {file, gumbyra_text(file, file_len)};
        say_parts(file, file_len, text, lent.bytes[ELEMENTS], a.elements);
        say_links(text, lent.bytes[LINKS], a.links);
    }
    if (fflush(stdout) != 0 || ferror(stdout)) fail("standard output", "can't be written");
    return 0;
}
