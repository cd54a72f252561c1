/* A hosting desk begins with little and enlarges the work area that was short, and only that. (order.c enlarges the example's areas too.)
   From the root of the repository, when ./library has laid out the library:
       cc c/examples/enlarge.c -Itarget/library/include target/library/lib/libgumbyra.a -o target/enlarge */
#include <stdio.h>
#include <stdlib.h>
#include "gumbyra.h"

/* A work area: its bytes, and how many records are lent. */
typedef struct {
    const char *name;
    size_t record, records;
    uint8_t *bytes;
} area;

static void lend(area *a, size_t records) {
    a->records = records;
    a->bytes = realloc(a->bytes, records * a->record + 1); /* one byte more: a pointer may not be null */
    if (a->bytes == NULL) exit(1);
}

int main(void) {
    static const uint8_t file[] = {1, 0, 0, 0, 5, 1, 0, 0, 6, 0, 1, 0, 0, 0, 3, 0, 2, 'F', 'I', 'T'}; /* that of eight_nodes.c, without text */
    static uint8_t elements[64], links[64];
    area areas[] = {{"nodes", GUMBYRA_NODE, 0, NULL}, {"edges", GUMBYRA_EDGE, 0, NULL}, {"alternatives", GUMBYRA_ALTERNATIVE, 0, NULL}};
    area *nodes = &areas[0], *edges = &areas[1], *alternatives = &areas[2];
    gumbyra_answer a;
    lend(nodes, 4);
    lend(edges, 3);
    lend(alternatives, 0);
    for (;;) {
        a = gumbyra_fit(file, sizeof file, nodes->bytes, nodes->records * nodes->record, edges->bytes, edges->records * edges->record,
                        alternatives->bytes, alternatives->records * alternatives->record, elements, sizeof elements, links, sizeof links);
        if (a.refusal < GUMBYRA_NODES_SHORT || a.refusal > GUMBYRA_ALTERNATIVES_SHORT) break;
        if (a.lent == GUMBYRA_MOST_RECORDS) break; /* no larger area helps */
        area *was_short = &areas[a.refusal - GUMBYRA_NODES_SHORT];
        lend(was_short, a.lent == 0 ? 1 : 2 * a.lent);
        printf("refusal %u, lent %u: now %zu %s\n", a.refusal, a.lent, was_short->records, was_short->name);
    }
    printf("verdict %u, refusal %u, used %u %u %u\n", a.verdict, a.refusal, a.nodes, a.edges, a.alternatives);
    return a.verdict != GUMBYRA_CAN;
}
