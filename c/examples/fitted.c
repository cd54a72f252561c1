/* "Screwed to" and "glued to" are ways of "fitted to". From the root of the repository, when ./library has laid out the library:
       cc c/examples/fitted.c -Itarget/library/include target/library/lib/libgumbyra.a -o target/fitted */
#include <stdio.h>
#include "gumbyra.h"

/* Roles: 0 fitted, 1 screwed, 2 glued; an odd code is the way back. Rows 0 and 1: what is screwed, or glued, is fitted. Rows 2 and 3: is
   acid-proof, is not. Row 4: has only acid-proof parts fitted to it. Row 5: is screwed to some such part. Row 6: is glued to some. Row 7:
   both of rows 6 and 3. */
enum { ROWS = 8 };
static const uint8_t rows[ROWS][4] = {{7, 2, 0, 0}, {7, 4, 0, 0}, {1, 0, 0, 0}, {2, 0, 0, 0},
                                      {5, 1, 2, 0}, {6, 2, 4, 0}, {6, 4, 4, 0}, {3, 0, 6, 3}};

static gumbyra_answer ask(uint8_t wanted) {
    static uint8_t file[sizeof rows + 8];
    static uint8_t nodes[64 * GUMBYRA_NODE], edges[64 * GUMBYRA_EDGE], alternatives[8 * GUMBYRA_ALTERNATIVE], elements[64], links[64];
    const uint8_t trailer[8] = {0, 0, ROWS, 0, wanted, 'F', 'I', 'T'};
    for (size_t at = 0; at < sizeof file; at++) file[at] = at < sizeof rows ? rows[at / 4][at % 4] : trailer[at - sizeof rows];
    gumbyra_answer a = gumbyra_fit(file, sizeof file, nodes, sizeof nodes, edges, sizeof edges, alternatives, sizeof alternatives,
                                   elements, sizeof elements, links, sizeof links);
    printf("row %u wanted: ", wanted);
    if (a.verdict == GUMBYRA_CAN) printf("can; element 0 has rows %02x, the link has code %u\n", elements[0], links[2]);
    else if (a.verdict == GUMBYRA_CANNOT) printf("cannot\n");
    else printf("refused, %u: %s\n", a.refusal, gumbyra_sentence(a.refusal));
    return a;
}

int main(void) {
    gumbyra_answer screwed = ask(5), glued = ask(7), way = ask(0);
    return screwed.verdict != GUMBYRA_CAN || glued.verdict != GUMBYRA_CANNOT || way.refusal != GUMBYRA_INCLUSION;
}
