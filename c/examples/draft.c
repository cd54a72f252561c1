/* A draft with "if" and "not", converted and decided. From the root of the repository, when ./library has laid out the library:
       cc c/examples/draft.c -Itarget/library/include target/library/lib/libgumbyra.a -o target/draft */
#include <stdio.h>
#include "gumbyra.h"

/* Rule: if something is a peristaltic pump (row 0), it is a dosing pump (row 1). Wanted: a peristaltic pump that isn't one. */
static const uint8_t draft[] = {'p', 'u', 'm', 'p',
                                1, 0, 0, 0, 1, 0, 1, 0, 9, 0, 0, 1, 8, 0, 2, 0,
                                2,
                                4, 0, 4, 1, 3, 'F', 'I', 'T'};

int main(void) {
    static uint8_t area[GUMBYRA_LONGEST_FILE];
    static uint8_t nodes[64 * GUMBYRA_NODE], edges[64 * GUMBYRA_EDGE], alternatives[8 * GUMBYRA_ALTERNATIVE], elements[64], links[64];
    gumbyra_conversion c = gumbyra_convert(draft, sizeof draft, area, sizeof area);
    if (c.refusal != 0) {
        fprintf(stderr, "REFUSED %u: %s\n", c.refusal, gumbyra_sentence(c.refusal));
        return 1;
    }
    printf("length %u\n", c.length);
    size_t text = gumbyra_text(area, c.length);
    printf("text: %.*s\n", (int)text, (const char *)area);
    for (size_t row = text; row < c.length - 9; row += 4) /* one rule and the trailer come after the rows */
        printf("row %u %u %u %u\n", area[row], area[row + 1], area[row + 2], area[row + 3]);
    gumbyra_answer a = gumbyra_fit(area, c.length, nodes, sizeof nodes, edges, sizeof edges, alternatives, sizeof alternatives,
                                   elements, sizeof elements, links, sizeof links);
    printf("verdict %u\n", a.verdict);
    return a.verdict != GUMBYRA_CANNOT;
}
