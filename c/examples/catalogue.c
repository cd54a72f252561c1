/* Which kinds of pump are which. From the root of the repository, when ./library has laid out the library:
       cc c/examples/catalogue.c -Itarget/library/include target/library/lib/libgumbyra.a -o target/catalogue */
#include <stdio.h>
#include "gumbyra.h"

/* Names: 0 dosing pump, 1 peristaltic pump, 2 hose. Rows 0 to 5: of each that it is one, and that it is none. Row 6: has some hose fitted to
   it (code 1). Row 7: has none. Rules: a peristaltic pump has some hose fitted to it (row 8); what has some is a dosing pump (row 9). */
static const char *const words[] = {"dosing pump", "peristaltic pump", "hose"};
static const uint8_t file[] = {'p', 'u', 'm', 'p', 's',
                               1, 0, 0, 0, 2, 0, 0, 0, 1, 0, 1, 0, 2, 0, 1, 0, 1, 0, 2, 0, 2, 0, 2, 0,
                               6, 1, 4, 0, 5, 1, 5, 0, 4, 0, 3, 6, 4, 0, 7, 0,
                               8, 9,
                               5, 0, 10, 2, 0, 'F', 'I', 'T'};

static uint8_t nodes[64 * GUMBYRA_NODE], edges[64 * GUMBYRA_EDGE], alternatives[8 * GUMBYRA_ALTERNATIVE], elements[64], links[64];
static uint8_t table[GUMBYRA_LARGEST_TABLE];

/* Fills the table with so many nodes lent, in so many bytes, and prints it. */
static gumbyra_page fill(size_t lent, size_t table_len) {
    static const char *const entries[] = {"-", "yes", "?"};
    gumbyra_page p = gumbyra_catalogue(file, sizeof file, nodes, lent * GUMBYRA_NODE, edges, sizeof edges, alternatives, sizeof alternatives,
                                       table, table_len);
    printf("%zu nodes, %zu bytes: ", lent, table_len);
    if (p.refusal == 0) printf("%u names\n", p.count);
    else printf("refused, %u: %s\n", p.refusal, gumbyra_sentence(p.refusal));
    for (uint32_t a = 0; a < p.count; a++) { /* names 0, 1 and 2 are listed, so the a-th is name a; with a refusal none is */
        printf("%-16s", words[a]);
        for (uint32_t b = 0; b < p.count; b++) printf(" %3s", entries[table[a * p.count + b]]);
        printf("\n");
    }
    return p;
}

int main(void) {
    gumbyra_page whole = fill(64, sizeof table), undecided = fill(6, 9), refused = fill(64, 8);
    static const uint8_t wanted[] = {2, 1}; /* is a peristaltic pump; is no dosing pump */
    gumbyra_answer a = gumbyra_fit_wanted(file, sizeof file, wanted, sizeof wanted, nodes, sizeof nodes, edges, sizeof edges,
                                          alternatives, sizeof alternatives, elements, sizeof elements, links, sizeof links);
    size_t text = gumbyra_text_wanted(file, sizeof file, wanted, sizeof wanted); /* the text that belongs to this call */
    printf("%.*s: a peristaltic pump that isn't a dosing pump: verdict %u\n", (int)text, (const char *)file, a.verdict);
    return whole.names != 7 || undecided.refusal != 0 || refused.refusal != GUMBYRA_TABLE_SHORT || a.verdict != GUMBYRA_CANNOT;
}
