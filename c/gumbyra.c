/* What the library has besides the proved calls: its version, and the sentences of the refusals (docs/USE.md has the same). */
#include "gumbyra.h"

uint32_t gumbyra_version(void) {
    return GUMBYRA_VERSION;
}

static const char *const sentences[] = {
    [GUMBYRA_BAD_LENGTH] = "The file is shorter than 8 or longer than 4,096 bytes.",
    [GUMBYRA_BAD_MARK] = "The last three bytes are not 46 49 54.",
    [GUMBYRA_BAD_COUNTS] = "There are 0 or more than 64 rows, or more than 64 rules.",
    [GUMBYRA_BAD_EXTENT] = "The first row's place + 4 \xc3\x97 rows + rules + 8 is not the file's length.",
    [GUMBYRA_BAD_ROW] = "A row has a kind outside 1 to 7 (in a draft 8 and 9 are kinds too), a non-zero unused byte, a role above 31 or "
                        "a name above 63.",
    [GUMBYRA_BAD_ARGUMENT] = "A row names an argument row that isn't lower than itself.",
    [GUMBYRA_REPEATED_ROW] = "Two rows have the same four bytes.",
    [GUMBYRA_NO_SUCH_ROW] = "A rule or the wanted row isn't below the number of rows.",
    [GUMBYRA_EXAMPLE_TOO_LONG] = "The verdict is \"can\" and an example area is too short.",
    [GUMBYRA_RESULT_TOO_LONG] = "The result needs more than 64 rows, more than 4,096 bytes or more than the area.",
    [GUMBYRA_NODES_SHORT] = "The procedure's next node has no place in its area.",
    [GUMBYRA_EDGES_SHORT] = "The procedure's next edge has no place in its area.",
    [GUMBYRA_ALTERNATIVES_SHORT] = "The procedure's next alternative has no place in its area.",
    [GUMBYRA_INCLUSION] = "A row of kind 7 serves as an argument, a rule or the wanted row.",
    [GUMBYRA_TABLE_SHORT] = "The table's area is shorter than the square of its names.",
};

const char *gumbyra_sentence(uint32_t refusal) {
    const char *sentence = refusal < sizeof sentences / sizeof *sentences ? sentences[refusal] : 0;
    return sentence ? sentence : "";
}
