/* Can this kit exist? Four calls on a rule file, one that tells which of its kinds are which, and one that makes a rule file of a draft: these
   six are proved. Beside them the version, and a sentence for each refusal. Link with libgumbyra (x86-64 Linux): docs/USE.md has the line.
   Whole programs: c/examples in the repository, order.c first.

   - Lengths are in bytes. Any bytes, any lengths and any contents of the areas get an answer, and areas need no alignment.
   - A pointer may not be null, even with length 0: where nothing is lent, or no row is wanted, the address of a static byte serves.
   - No two areas of a call may overlap, nor one of them the file, the draft or the list of wanted rows. Areas of length 0 never do.
   - Nothing is allocated or kept, and there is no state: threads may call at the same time, with areas of their own.
   - For a call of this build a stack of 1 MiB suffices. */
#ifndef GUMBYRA_H
#define GUMBYRA_H

#include <stddef.h>
#include <stdint.h>

#ifdef __cplusplus
extern "C" {
#endif

/* The version of this header, and that of the library: 10000 * major + 100 * minor + patch, so 202 is 0.2.2. A program goes with every
   library that has the same major and minor number: GUMBYRA_VERSION / 100 == gumbyra_version() / 100. */
#define GUMBYRA_VERSION 202
uint32_t gumbyra_version(void);

/* The sizes, in one enumeration: C++ wants no products of two. */
enum {
    /* Bytes of a record. In an area whole records count. */
    GUMBYRA_NODE = 64,
    GUMBYRA_EDGE = 16,
    GUMBYRA_ALTERNATIVE = 16,
    GUMBYRA_ELEMENT = 8, /* the rows that hold there, row k as bit k, low byte first; bits past the last row are 0 */
    GUMBYRA_LINK = 6,    /* from, role code, to, 2 bytes each, low byte first; from and to are elements, counted from 0 */

    /* Records that are usually enough: what ./fit lends. An area of nodes has GUMBYRA_USUAL_NODES * GUMBYRA_NODE bytes, and so on. */
    GUMBYRA_USUAL_NODES = 1024,
    GUMBYRA_USUAL_EDGES = 4096,
    GUMBYRA_USUAL_ALTERNATIVES = 4096,
    GUMBYRA_USUAL_ELEMENTS = 1024,
    GUMBYRA_USUAL_LINKS = 8192,

    /* The most nodes, the most edges and the most alternatives that count, however many are lent. */
    GUMBYRA_MOST_RECORDS = 4096,

    /* The most bytes of a rule file or a draft: an area of so many suffices for gumbyra_convert. */
    GUMBYRA_LONGEST_FILE = 4096,

    /* The most names of a catalogue (there are names 0 to 63, each listed once at most), and bytes that suffice for every table of it. */
    GUMBYRA_MOST_NAMES = 64,
    GUMBYRA_LARGEST_TABLE = 4096
};

/* The verdicts: neither "can" nor "cannot", with a refusal; the kit can exist; it cannot. */
enum { GUMBYRA_REFUSED = 0, GUMBYRA_CAN = 1, GUMBYRA_CANNOT = 2 };

/* The refusals. 1 to 8 and 16 come from a check of the file or the draft, the first that fails deciding; 11 and 13 to 15 from a run, 12 from
   gumbyra_convert, 17 from gumbyra_catalogue. There is no 9 and no 10. What each means, gumbyra_sentence says; what to do, docs/USE.md.

   11: lend as many elements and links as the answer says. 13, 14 and 15: the next record had no place in its area. Lend more of that kind,
   which alone gets further, as long as the answer's lent is below GUMBYRA_MOST_RECORDS; then no larger area helps. */
enum {
    GUMBYRA_BAD_LENGTH = 1,
    GUMBYRA_BAD_MARK = 2,
    GUMBYRA_BAD_COUNTS = 3,
    GUMBYRA_BAD_EXTENT = 4,
    GUMBYRA_BAD_ROW = 5,
    GUMBYRA_BAD_ARGUMENT = 6,
    GUMBYRA_REPEATED_ROW = 7,
    GUMBYRA_NO_SUCH_ROW = 8,
    GUMBYRA_EXAMPLE_TOO_LONG = 11,
    GUMBYRA_RESULT_TOO_LONG = 12,
    GUMBYRA_NODES_SHORT = 13,
    GUMBYRA_EDGES_SHORT = 14,
    GUMBYRA_ALTERNATIVES_SHORT = 15,
    GUMBYRA_INCLUSION = 16,
    GUMBYRA_TABLE_SHORT = 17 /* never in an area of GUMBYRA_LARGEST_TABLE bytes */
};

/* The sentence of a refusal, in UTF-8; the empty string for any other number. It is not to be freed. */
const char *gumbyra_sentence(uint32_t refusal);

typedef struct {
    uint32_t verdict;      /* GUMBYRA_CAN, GUMBYRA_CANNOT or GUMBYRA_REFUSED */
    uint32_t refusal;      /* 0 with a verdict; else 1 to 8, 16: the file; 11: an example area is short; 13, 14, 15: a work area is */
    uint32_t nodes;        /* records used, these three; zero with a refusal */
    uint32_t edges;
    uint32_t alternatives;
    uint32_t elements;     /* records of the example, these two, with GUMBYRA_CAN or refusal 11; else zero */
    uint32_t links;
    uint32_t lent;         /* with 13, 14, 15: how many records of that kind counted as lent; else zero */
} gumbyra_answer;

/* Decides a rule file. nodes, edges and alternatives are work areas: after a verdict, 11, 13, 14 or 15 every byte of them is zero, after 1 to
   8 and 16 they are as they were. elements and links take the example: they change with GUMBYRA_CAN only, in the first GUMBYRA_ELEMENT *
   answer.elements and GUMBYRA_LINK * answer.links bytes. The wanted row holds at element 0. An element lists a row of the file exactly if
   the row holds there, whether a rule or the kit needs it or not; a row of kind 7 speaks of roles, so no element lists it. A link has the
   code that a row asked for; its pair belongs to every wider role too. The text of the file is that of gumbyra_text. */
gumbyra_answer gumbyra_fit(const uint8_t *file, size_t file_len,
                           uint8_t *nodes, size_t nodes_len,
                           uint8_t *edges, size_t edges_len,
                           uint8_t *alternatives, size_t alternatives_len,
                           uint8_t *elements, size_t elements_len,
                           uint8_t *links, size_t links_len);

/* The same with a list of wanted rows, a byte each, in place of the file's own wanted row, which is not looked at: can there be an element
   at which all of them hold? The list may have any length, repeats, and no row at all: then any element will do. 8 and 16 come if one of the
   list is no row, or one of kind 7. The text of the file is that of gumbyra_text_wanted with the same list. */
gumbyra_answer gumbyra_fit_wanted(const uint8_t *file, size_t file_len,
                                  const uint8_t *wanted, size_t wanted_len,
                                  uint8_t *nodes, size_t nodes_len,
                                  uint8_t *edges, size_t edges_len,
                                  uint8_t *alternatives, size_t alternatives_len,
                                  uint8_t *elements, size_t elements_len,
                                  uint8_t *links, size_t links_len);

/* The entries of a table: an a that isn't a b can exist, cannot, or the work areas did not suffice to decide it. */
enum { GUMBYRA_NOT_ALWAYS = 0, GUMBYRA_ALWAYS = 1, GUMBYRA_UNDECIDED = 2 };

typedef struct {
    uint32_t refusal; /* 0 if the table is filled; else 1 to 8, 16: the file; 17: the table's area is short */
    uint32_t count;   /* how many names are listed, the table being the square of them; zero with a refusal */
    uint64_t names;   /* bit n is set if name n is listed; zero with a refusal */
} gumbyra_page;

/* Is every part with the one name a part with the other? Listed are the names that have both a kind 1 and a kind 2 row, rising. The first
   count * count bytes of table are filled, row after row: row a, column b is for the a-th and the b-th name listed, and is GUMBYRA_ALWAYS
   if every a is a b. Each entry is by a run of its own in the same work areas. Of a name that nothing can have each entry that is decided
   is so. The file is checked as it stands, its own wanted row too, so its text is that of gumbyra_text. With a table every byte of nodes,
   edges and alternatives is zero afterwards, and bytes of table past it are as they were; after a refusal all areas are. */
gumbyra_page gumbyra_catalogue(const uint8_t *file, size_t file_len,
                               uint8_t *nodes, size_t nodes_len,
                               uint8_t *edges, size_t edges_len,
                               uint8_t *alternatives, size_t alternatives_len,
                               uint8_t *table, size_t table_len);

/* How many leading bytes of a rule file are its text; 0 for a file that is refused with 1 to 8 or 16. It is read with its own wanted row,
   as gumbyra_fit and gumbyra_catalogue read it. */
size_t gumbyra_text(const uint8_t *file, size_t file_len);

/* The same if the file is read with this list of wanted rows in place of its own, as gumbyra_fit_wanted reads it. */
size_t gumbyra_text_wanted(const uint8_t *file, size_t file_len, const uint8_t *wanted, size_t wanted_len);

typedef struct {
    uint32_t refusal; /* 0 if a file was written; else 1 to 8, 16: the draft; 12: the result is too long for a file or for the area */
    uint32_t length;  /* how many bytes at the start of the area are the file; 0 with a refusal */
} gumbyra_conversion;

/* Converts a draft, a rule file with two more kinds of row (8: not the left row; 9: if left then right), into a rule file of the
   same text and the same meaning. Rows of kind 7 are kept, before the others. The area's bytes past the result are kept, and after a
   refusal it is as it was. */
gumbyra_conversion gumbyra_convert(const uint8_t *draft, size_t draft_len, uint8_t *area, size_t area_len);

#ifdef __cplusplus
}
#endif
#endif
