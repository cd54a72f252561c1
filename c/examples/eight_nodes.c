/* One call in areas of the usual sizes. From the root of the repository, when ./library has laid out the library:
       cc c/examples/eight_nodes.c -Itarget/library/include target/library/lib/libgumbyra.a -o target/eight_nodes */
#include <stdio.h>
#include "gumbyra.h"

static uint8_t nodes[GUMBYRA_USUAL_NODES * GUMBYRA_NODE], edges[GUMBYRA_USUAL_EDGES * GUMBYRA_EDGE];
static uint8_t alternatives[GUMBYRA_USUAL_ALTERNATIVES * GUMBYRA_ALTERNATIVE];
static uint8_t elements[GUMBYRA_USUAL_ELEMENTS * GUMBYRA_ELEMENT], links[GUMBYRA_USUAL_LINKS * GUMBYRA_LINK];

/* Row 0: is a pump. Row 1: is fitted to pumps only (code 1). Row 2, wanted: has something fitted to it (code 0) of which row 1 is true. */
int main(void) {
    static const uint8_t file[] = {'h', 'o', 's', 'e', 1, 0, 0, 0, 5, 1, 0, 0, 6, 0, 1, 0, 4, 0, 3, 0, 2, 'F', 'I', 'T'};
    gumbyra_answer a = gumbyra_fit(file, sizeof file, nodes, sizeof nodes, edges, sizeof edges, alternatives, sizeof alternatives,
                                   elements, sizeof elements, links, sizeof links);
    printf("text: %.*s\n", (int)gumbyra_text(file, sizeof file), (const char *)file);
    printf("verdict %u, refusal %u, used %u %u %u\n", a.verdict, a.refusal, a.nodes, a.edges, a.alternatives);
    printf("%u elements, with rows %02x and %02x; %u link, to %u\n", a.elements, elements[0], elements[GUMBYRA_ELEMENT], a.links, links[4]);
    return a.verdict != GUMBYRA_CAN;
}
