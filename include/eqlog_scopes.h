/* The proved scope resolver for eqlog sharing rules, for C11.
 *
 * Link target/staticlib/libexports.a, which the script `staticlib` writes (x86-64 Linux, no other library is needed but
 * memset and memcpy). Every function is proved to answer as said here for all inputs: nothing is asked of the caller but
 * what stands under "Lent memory". No call allocates, keeps anything between calls, or locks; calls on different buffers
 * may run in different threads at once.
 *
 * Lent memory
 *
 * An image, a table, rows, an index and an output are pointers, each followed by its length: bytes of an image, a name or
 * an output, 32-bit words of a table, rows or an index. A pointer is good for that many elements for as long as the call
 * runs, and nothing else writes them meanwhile. What a call writes overlaps nothing else that is lent to it; what it only
 * reads may overlap. An image, a name and an output may have any alignment; words are aligned as uint32_t is. A length of
 * 0 may come with any pointer, NULL too: nothing is read or written through it. A call writes no word past
 * EQLOG_TABLE_WORDS(N) of a table, past EQLOG_ROWS_WORDS(N) of rows and past EQLOG_INDEX_WORDS(N, S) of an index, and no
 * byte past the image's length of an output, whatever their lengths.
 *
 * Stack: EQLOG_STACK_BYTES are enough for any call on any image. Nesting reaches some 1,000 levels, and the walks
 * over the tree call themselves once or more for each. Measured on the deepest images of eight forms (terms, app heads,
 * members, arguments, branches, matches, models, each in itself): 410,000 bytes are enough for every call, 405,000 are
 * not for eqlog_rename, which lists two images; for the others 330,000 are.
 * The proof is about a machine with no stack: a thread with less is ended by the system's guard page.
 *
 * The image
 *
 * All numbers are little-endian 32-bit words. Sizes first: N nodes, C operand words, S names, B name bytes. Then N kinds,
 * N starts, C operand words, S name ends, B name bytes. Kinds are the cases of `Node` in eqlog's ast.rs, Module 0 to
 * MatchStmt 40; children stand before their parents, the module last. A node's row is two location words (no call
 * looks at them but eqlog_sorted, at the second), then its fields in declared order: a name is its number; an absent
 * option 0, a present one its number plus 1; a list is a count and its items; a list of blocks is a count, then lists; a
 * node that wraps an enum has the case number, then the child (Wildcard has none).
 *
 * The table
 *
 * N, K scopes, Y symbols, then arrays of N words each: entry scope and exit scope of each node, parent of each scope,
 * scope and node of each symbol. Unused places are 0; EQLOG_NONE is the parent of scope 0 and both scopes of an
 * AppHeadMember.
 *
 * The index of a table
 *
 * For each of the S names the first symbol row whose node has that name; then for each of N rows the next row of the same
 * name. EQLOG_NONE is for no row: it ends a chain and fills unused places. So from EQLOG_INDEX_FIRST(name) on, each next at
 * EQLOG_INDEX_NEXT(S, row), stand all symbols of a name, in the order in which they were inserted.
 */
#ifndef EQLOG_SCOPES_H
#define EQLOG_SCOPES_H

#include <stddef.h>
#include <stdint.h>

#ifdef __cplusplus
extern "C" {
#endif

/* The most that an image may have. */
#define EQLOG_MAX_NODES 2048
#define EQLOG_MAX_OPERANDS 8192
#define EQLOG_MAX_NAMES 1024
#define EQLOG_MAX_NAME_BYTES 8192

/* The length of the longest image, and of an output that is enough for any. */
#define EQLOG_MAX_IMAGE_BYTES (16 + 8 * EQLOG_MAX_NODES + 4 * EQLOG_MAX_OPERANDS + 4 * EQLOG_MAX_NAMES + EQLOG_MAX_NAME_BYTES)

/* The counts in front of a table: N, K and Y; and how many they are. */
enum eqlog_count { EQLOG_NODES, EQLOG_SCOPES, EQLOG_SYMBOLS, EQLOG_COUNTS };

/* The arrays after them, in their order; and how many they are. */
enum eqlog_array {
    EQLOG_ENTRIES,
    EQLOG_EXITS,
    EQLOG_PARENTS,
    EQLOG_SYMBOL_SCOPES,
    EQLOG_SYMBOL_NODES,
    EQLOG_ARRAYS
};

/* The place of word i of an array, in a table for an image of n nodes; and the places by name. */
#define EQLOG_PLACE(array, n, i) ((size_t)EQLOG_COUNTS + (size_t)(array) * (size_t)(n) + (size_t)(i))
#define EQLOG_ENTRY(n, node) EQLOG_PLACE(EQLOG_ENTRIES, n, node)
#define EQLOG_EXIT(n, node) EQLOG_PLACE(EQLOG_EXITS, n, node)
#define EQLOG_PARENT(n, scope) EQLOG_PLACE(EQLOG_PARENTS, n, scope)
#define EQLOG_SYMBOL_SCOPE(n, i) EQLOG_PLACE(EQLOG_SYMBOL_SCOPES, n, i)
#define EQLOG_SYMBOL_NODE(n, i) EQLOG_PLACE(EQLOG_SYMBOL_NODES, n, i)

/* The words of a table, and of rows, for an image of n nodes. */
#define EQLOG_TABLE_WORDS(n) EQLOG_PLACE(EQLOG_ARRAYS, n, 0)
#define EQLOG_ROWS_WORDS(n) (1 + 2 * (size_t)(n))
#define EQLOG_MAX_TABLE_WORDS EQLOG_TABLE_WORDS(EQLOG_MAX_NODES)
#define EQLOG_MAX_ROWS_WORDS EQLOG_ROWS_WORDS(EQLOG_MAX_NODES)

/* Places in rows for an image of n nodes: word 0 is the count. */
#define EQLOG_ROW_LEFT(n, i) (1 + (size_t)(i))
#define EQLOG_ROW_RIGHT(n, i) (1 + (size_t)(n) + (size_t)(i))

/* The words of an index for an image of n nodes and s names; and the places in it: the first row of a name, the row after a
 * row in its chain. */
#define EQLOG_INDEX_WORDS(n, s) ((size_t)(s) + (size_t)(n))
#define EQLOG_INDEX_FIRST(name) ((size_t)(name))
#define EQLOG_INDEX_NEXT(s, row) ((size_t)(s) + (size_t)(row))
#define EQLOG_MAX_INDEX_WORDS EQLOG_INDEX_WORDS(EQLOG_MAX_NODES, EQLOG_MAX_NAMES)

#define EQLOG_NONE UINT32_MAX

#define EQLOG_STACK_BYTES (512 * 1024)

/* An answer: tag * 2^48 + a * 2^32 + b * 2^16 + c. Fields without a meaning are 0. */
#define EQLOG_TAG(answer) ((unsigned)((uint64_t)(answer) >> 48))
#define EQLOG_A(answer) ((unsigned)((uint64_t)(answer) >> 32 & 0xffff))
#define EQLOG_B(answer) ((unsigned)((uint64_t)(answer) >> 16 & 0xffff))
#define EQLOG_C(answer) ((unsigned)((uint64_t)(answer) & 0xffff))

enum eqlog_tag {
    /* Refused; c is the number, below. Nothing that was lent is altered, but that 19 to 21 leave table and rows as
     * eqlog_occurrences does. */
    EQLOG_REFUSED = 0,
    /* One module or model list declares a name twice: a the name's number, b the first node, c the second. The first
     * EQLOG_TABLE_WORDS(N) words of the table are 0, rows and output are unaltered. */
    EQLOG_TWICE = 1,
    /* The result: see each call. */
    EQLOG_RESULT = 2,
    /* Lookup: the name is not there. Once: b is the lone occurrence, c its binding. */
    EQLOG_OTHER = 3
};

enum eqlog_refusal {
    EQLOG_REFUSED_HEADER = 1,      /* the image has under 16 bytes */
    EQLOG_REFUSED_LIMITS = 2,      /* N is 0, or a size is over its limit */
    EQLOG_REFUSED_LENGTH = 3,      /* the image's length is not what its sizes say */
    EQLOG_REFUSED_NAME_ENDS = 4,   /* name ends do not rise strictly from above 0 to B */
    EQLOG_REFUSED_EQUAL_NAMES = 5, /* two names have equal bytes */
    EQLOG_REFUSED_KIND = 6,        /* a kind over 40 */
    EQLOG_REFUSED_ROW = 7,         /* a row does not start where the one before ends, or goes past C */
    EQLOG_REFUSED_NUMBER = 8,      /* a case number or name number that does not exist */
    EQLOG_REFUSED_CHILD = 9,       /* a child not below its parent, or of the wrong kind */
    EQLOG_REFUSED_LAST = 10,       /* the last row does not end at C, or the last node is no Module */
    EQLOG_REFUSED_PARENTS = 11,    /* a node that is the child of none or of several */
    EQLOG_REFUSED_VARIABLE = 12,   /* an if-var term or defined-then variable that is neither Ident nor Wildcard */
    EQLOG_REFUSED_TABLE = 13,      /* the table has under EQLOG_TABLE_WORDS(N) words */
    EQLOG_REFUSED_ROWS = 14,       /* rows under EQLOG_ROWS_WORDS(N) words, or an output shorter than the image */
    EQLOG_REFUSED_MODE = 15,       /* a mode over 2 */
    EQLOG_REFUSED_UNSOUND = 16,    /* the table is not one that a lookup can go through */
    EQLOG_REFUSED_SCOPE = 17,      /* a scope not below K */
    EQLOG_REFUSED_INDEX = 18,      /* the index has under EQLOG_INDEX_WORDS(N, S) words, or is not that of the table */
    EQLOG_REFUSED_BINDING = 19,    /* a node that is no binding of the occurrence list */
    EQLOG_REFUSED_NAME = 20,       /* a name number not below S */
    EQLOG_REFUSED_OCCURRENCES = 21 /* the renamed image would have another occurrence list */
};

enum eqlog_symbol {
    EQLOG_TYPE = 0,
    EQLOG_PRED = 1,
    EQLOG_FUNC = 2,
    EQLOG_CONST = 3,
    EQLOG_ENUM = 4,
    EQLOG_CTOR = 5,
    EQLOG_MODEL = 6,
    EQLOG_RULE = 7,
    EQLOG_ARG = 8,
    EQLOG_VAR = 9
};

/* How eqlog_errors and eqlog_sorted check: strict, unless the caller says EQLOG_PLAIN. */
enum eqlog_mode {
    EQLOG_DEFAULT = 0, /* strict, as EQLOG_STRICT: the usual mode */
    EQLOG_PLAIN = 1,   /* error rows 1 to 3 alone: for a check at each key press, and what equals the original Rust */
    EQLOG_STRICT = 2   /* error rows 1 to 3, then rows 4 */
};

/* The numbers of error rows. */
enum eqlog_error {
    EQLOG_INTRODUCED_IN_THEN = 1, /* VariableIntroducedInThenStmt, at the term */
    EQLOG_DEFINED_NOT_NEW = 2,    /* ThenDefinedVarNotNew, at the variable's term */
    EQLOG_PATTERN_NOT_FRESH = 3,  /* MatchPatternArgVarIsNotFresh, at the argument's term */
    EQLOG_REPEATED_ARGUMENT = 4   /* not in EQLOG_PLAIN: at an argument whose name an earlier one of its list has */
};

/* Fills the table. Result: b is K, c is Y. Refuses 1 to 13. */
uint64_t eqlog_resolve(const uint8_t *image, size_t image_len, uint32_t *table, size_t table_len);

/* What a name, given by its bytes, is in a scope of a table, and where it was found. Result: a is the scope that holds the
 * symbol, the one asked or the nearest above it that has one of the name; b is the symbol number, c its node; "other" for
 * none. Refuses 1 to 13, 16, 17. Any sound table will do, not only one that eqlog_resolve has filled: equal names in one
 * scope, the earlier row wins. In a table that eqlog_resolve has filled scope 0 is the module's, and the scope of a model's
 * list is the entry and the exit of its ModelDecl. */
uint64_t eqlog_lookup(const uint8_t *image, size_t image_len, const uint32_t *table, size_t table_len, uint32_t scope,
                      const uint8_t *name, size_t name_len);

/* Writes the index of a table. Result: c is Y, the symbol rows in its chains. Refuses 1 to 13, 16, 18. Any sound table
 * will do; the table is only read. */
uint64_t eqlog_index(const uint8_t *image, size_t image_len, const uint32_t *table, size_t table_len, uint32_t *index,
                     size_t index_len);

/* As eqlog_lookup in its answer, but it goes along the chain of the name and not through all symbols. Refuses 1 to 13, 16,
 * 17, then 18: words that are not what eqlog_index writes for this image and table; past EQLOG_INDEX_WORDS(N, S) any may
 * stand. */
uint64_t eqlog_lookup_indexed(const uint8_t *image, size_t image_len, const uint32_t *table, size_t table_len,
                              const uint32_t *index, size_t index_len, uint32_t scope, const uint8_t *name, size_t name_len);

/* Resolves, then writes the error rows of the mode (enum eqlog_mode): a count, then error numbers and nodes. Result: c is
 * the count. Refuses 1 to 15. */
uint64_t eqlog_errors(const uint8_t *image, size_t image_len, uint32_t *table, size_t table_len, uint32_t *rows,
                      size_t rows_len, uint32_t mode);

/* As eqlog_errors in its answer, its refusals and every lent word, but the rows stand by place: by the second location
 * word of the row's node, the smaller first; rows of one place stand in the sequence of eqlog_errors. */
uint64_t eqlog_sorted(const uint8_t *image, size_t image_len, uint32_t *table, size_t table_len, uint32_t *rows,
                      size_t rows_len, uint32_t mode);

/* Resolves, then looks for a variable that occurs only once. Result, all 0: there is none; "other": the first lone
 * occurrence and its binding. Refuses 1 to 13. */
uint64_t eqlog_once(const uint8_t *image, size_t image_len, uint32_t *table, size_t table_len);

/* Resolves, then writes every variable occurrence (a Term or AppHead) with its binding (an IdentTerm): a count, then
 * nodes and bindings. Two occurrences of a rule mean the same exactly if they have the same binding. Result: c is the
 * count. Refuses 1 to 14. */
uint64_t eqlog_occurrences(const uint8_t *image, size_t image_len, uint32_t *table, size_t table_len, uint32_t *rows,
                           size_t rows_len);

/* Lists as eqlog_occurrences does, then writes the image with one variable renamed: `name` stands in the name words of the
 * IdentTerms under the occurrences of `binding`, all other bytes are the old image's. The IdentTerm under an occurrence is
 * its child, the word after the case number; its name word is the first after the location. The new image is given exactly
 * if its occurrence list equals the old one row by row, so always for the variable's own name. Table and rows are as
 * eqlog_occurrences leaves them for the old. Result: c is the length of the new image, which is that of the old. Refuses 1
 * to 14, then, after "twice", 19 to 21. Without a result the output is unaltered. */
uint64_t eqlog_rename(const uint8_t *image, size_t image_len, uint32_t *table, size_t table_len, uint32_t *rows,
                      size_t rows_len, uint32_t binding, uint32_t name, uint8_t *out, size_t out_len);

/* Where a name's bytes stand in the image: start * 2^32 + length. 0 for a number not below S, and where 1 to 12 refuse
 * the image (eqlog_resolve tells the number). */
uint64_t eqlog_name(const uint8_t *image, size_t image_len, uint32_t name);

#define EQLOG_NAME_START(place) ((size_t)((uint64_t)(place) >> 32))
#define EQLOG_NAME_LEN(place) ((size_t)((uint64_t)(place) & 0xffffffff))

#ifdef __cplusplus
}
#endif

#endif
