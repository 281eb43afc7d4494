/* Hirvelan for C: reads and prints Thrift definitions. Link crates/link/out/liblink.a (`rt lib` in crates/link makes it); it needs memset and nothing else.
 *
 * The functions without `_safe` are the proved library's own. Their contracts (crates/link/src/lib.rt) hold for every text, indent, table length and content:
 * each call ends, and answer, tables and output are as defined. What no contract can say, the caller has to see to; it stands beside each function.
 * The `_safe` wrappers below test what can be tested.
 *
 * A slice is a pointer and a length. A length counts elements: bytes of a text or an output, numbers of a table or an answer.
 * An answer or a place of any length gets its numbers at the front, as many as it holds, and 0 behind them.
 * A record's numbers: kind, parent, flags, then index, line and column of start and of end. A node record has a tenth, the record number just past its last descendant;
 * to jump over a node go to that record. docs/FORMAT.md says more.
 */
#ifndef HIRVELAN_H
#define HIRVELAN_H

#include <stddef.h>
#include <stdint.h>

#include "hirvelan_numbers.h"

#ifdef __cplusplus
extern "C" {
#endif

/* A slice's length has 64 bits. */
typedef char hirvelan_needs_64_bits[sizeof(size_t) == 8 ? 1 : -1];

/* The longest text that is read; a longer one is 20. */
#define HIRVELAN_LONGEST 65536u

/* The numbers of a node record and of a comment record. A table holds its length divided by that, rounded down. */
#define HIRVELAN_NODE_WIDTH 10u
#define HIRVELAN_COMMENT_WIDTH 9u

/* Where the tenth number stands in a node record, from 0. */
#define HIRVELAN_PAST 9u

/* Tables that hold every text of n bytes, n at most HIRVELAN_LONGEST: at most two node records and one comment record for each byte (proved, crates/parser/proofs/Paid). */
#define HIRVELAN_NODES(n) ((size_t)2 * HIRVELAN_NODE_WIDTH * (size_t)(n))
#define HIRVELAN_COMMENTS(n) ((size_t)HIRVELAN_COMMENT_WIDTH * (size_t)(n))

/* A list that holds the numbers of every enum member of such a text: a member has two node records at least. */
#define HIRVELAN_MEMBERS(n) ((size_t)(n))

/* The most records of a stored table that is moved (hirvelan_widen, hirvelan_narrow), the numbers of each in a table stored before there were ten,
 * and outputs that hold a stored table of `length` numbers when it is moved. */
#define HIRVELAN_MOST_RECORDS 65536u
#define HIRVELAN_STORED_WIDTH 9u
#define HIRVELAN_WIDENED(length) ((size_t)(length) / HIRVELAN_STORED_WIDTH * HIRVELAN_NODE_WIDTH)
#define HIRVELAN_NARROWED(length) ((size_t)(length) / HIRVELAN_NODE_WIDTH * HIRVELAN_STORED_WIDTH)

/* The checks before the grammar: 20, 21, 22. `answer` gets 0, or a refusal's number, place and length.
 * The caller sees to: no pointer is null, also if its length is 0; each is valid for its length; answer is aligned and does not overlap the text. */
void hirvelan_check(const uint8_t *text, size_t text_length, uint32_t *answer, size_t answer_length);

/* Reads a text into both tables. `answer` gets 0, nodes, comments; or a refusal's number, place and length.
 * Tables may have any length: what does not fit is 24 or 25. After a refusal they are zero, else zero behind the last record.
 * The caller sees to: no pointer is null, also if its length is 0; each is valid for its length and aligned; nodes, comments and answer overlap neither each other nor the text. */
void hirvelan_read(const uint8_t *text, size_t text_length, uint32_t *nodes, size_t nodes_length, uint32_t *comments, size_t comments_length, uint32_t *answer, size_t answer_length);

/* The number of each enum member, enum by enum in text order. A written integer is that number, a hexadecimal one is read as unsigned;
 * a member without one has the number before it in its enum plus one, the first 0. Two members may have one number.
 * The text is read into both tables as by hirvelan_read. `answer` gets 0, members, 0; or a refusal's number, place and length, a reading's own first.
 * 28 (HIRVELAN_REFUSED_ENUM_NUMBER_OUTSIDE), at the member's name: the first number that is not from -2147483648 to 2147483647.
 * 24 (HIRVELAN_REFUSED_NODES_FULL), place 0: behind 28, the list is too short. HIRVELAN_MEMBERS gives a length that is enough.
 * Accepted, the tables are as hirvelan_read leaves them, and the list is zero behind the last number; after a refusal both tables and the list are zero.
 * The list's first number is that of the first node record of kind HIRVELAN_KIND_ENUM_MEMBER, and so on. The nodes are not counted in the answer: behind the last record a kind is 0.
 * The caller sees to the same as in hirvelan_read, for `list` too. */
void hirvelan_enum_numbers(const uint8_t *text, size_t text_length, uint32_t *nodes, size_t nodes_length, uint32_t *comments, size_t comments_length, int32_t *list, size_t list_length, uint32_t *answer, size_t answer_length);

/* Prints a text with `indent` spaces a level, 0 to 8. `answer` gets 0, nodes, comments, bytes written; or a refusal's number, place and length.
 * A print that `out` does not hold is 27; lend more and call again. 8 bytes for each byte of text are enough for ordinary files.
 * The caller sees to the same as in hirvelan_read, for `out` too. */
void hirvelan_print(const uint8_t *text, size_t text_length, uint32_t indent, uint32_t *nodes, size_t nodes_length, uint32_t *comments, size_t comments_length, uint8_t *out, size_t out_length, uint64_t *answer, size_t answer_length);

/* Where an offset stands. `place` gets line and column from 1, columns in bytes, and the offset, held to the text's end and to 65,536.
 * The caller sees to: no pointer is null; each is valid for its length; place is aligned and does not overlap the text. */
void hirvelan_place(const uint8_t *text, size_t text_length, uint32_t offset, uint32_t *place, size_t place_length);

/* Readings and printings of one file, one after another; gives the length of the file afterwards. The file is the first `file` bytes of its space, all of it if `file` is more.
 * A request is four numbers: 0 for a reading, else a printing with `indent` spaces a level; how many numbers of `nodes` and of `comments` and bytes of `out` the call is lent, all if there are fewer.
 * Numbers behind the last whole request are passed over. An accepted printing makes the bytes it wrote the file, with zeros behind them, if the space holds them;
 * any other call leaves file and space. What a call is lent is afterwards as in hirvelan_read and hirvelan_print.
 * No list of requests at one indent alters a file once printed at it, if its print has at most HIRVELAN_LONGEST bytes (proved: the contract's Unaltered, crates/file/specs/Run).
 * The caller sees to: no pointer is null, also if its length is 0; each is valid for its length and aligned; space, nodes, comments and out overlap neither each other nor the requests. */
size_t hirvelan_run(uint8_t *space, size_t space_length, size_t file, uint32_t indent, const uint32_t *requests, size_t requests_length, uint32_t *nodes, size_t nodes_length, uint32_t *comments, size_t comments_length, uint8_t *out, size_t out_length);

/* Stored node tables: hirvelan_widen moves a table of nine numbers a record to ten, hirvelan_narrow one of ten back to nine. Each undoes the other, given room.
 * `answer` gets 0, the number of records, 0; or a refusal's number, place and 0. `table` stays as it is. After a refusal the whole output is zero, else zero behind the last record.
 * 33 (HIRVELAN_REFUSED_NOT_MOVABLE), place 0: the length is no multiple of the records' width, or there are over HIRVELAN_MOST_RECORDS.
 * 33, place the number of the first record whose parent is bad: good is 4294967295, the record just before, or an ancestor of that one; for the first record 4294967295 alone.
 * 33, hirvelan_narrow only, parents being good: place the number of the first record whose tenth number is not the record number just past its last descendant.
 * 24 (HIRVELAN_REFUSED_NODES_FULL), place 0: the output is too short. HIRVELAN_WIDENED and HIRVELAN_NARROWED give the length that is enough.
 * Lend the stored records alone: zeros that stand behind them would count as records.
 * The caller sees to: no pointer is null, also if its length is 0; each is valid for its length and aligned; out and answer overlap neither each other nor the table, so no table is moved in place. */
void hirvelan_widen(const uint32_t *table, size_t table_length, uint32_t *out, size_t out_length, uint32_t *answer, size_t answer_length);
void hirvelan_narrow(const uint32_t *table, size_t table_length, uint32_t *out, size_t out_length, uint32_t *answer, size_t answer_length);

/* ---- wrappers. Null with length 0 is an empty slice. They give HIRVELAN_OK, or say why the library was not called.
 * What they can't test either: that a pointer is valid for its length. */

enum { HIRVELAN_OK = 0, HIRVELAN_NULL = -1, HIRVELAN_UNALIGNED = -2, HIRVELAN_OVERLAP = -3, HIRVELAN_LENGTH = -4 };

/* number 0: accepted, with counts. Else refused, with place (a byte offset; where a table is moved, a record's number) and length. */
typedef struct {
    uint32_t number, nodes, comments, place, length;
    uint64_t bytes;
    uint32_t members;
} hirvelan_answer;

typedef struct {
    uint32_t line, column, offset;
} hirvelan_spot;

/* A request of a run. */
typedef struct {
    uint32_t prints, nodes, comments, out;
} hirvelan_request;

/* What is lent, as bytes. */
typedef struct {
    uintptr_t at;
    size_t bytes;
} hirvelan_part;

/* One slice: null only if empty, aligned, and its bytes can be counted. */
static inline int hirvelan_part_of(const void *pointer, size_t length, size_t size, hirvelan_part *part) {
    part->at = (uintptr_t)pointer;
    if (!pointer && length) return HIRVELAN_NULL;
    if (part->at % size) return HIRVELAN_UNALIGNED;
    if (length > (size_t)PTRDIFF_MAX / size || length * size > UINTPTR_MAX - part->at) return HIRVELAN_LENGTH;
    part->bytes = length * size;
    return HIRVELAN_OK;
}

static inline int hirvelan_apart(const hirvelan_part *parts, int count) {
    int i, j;
    for (i = 0; i < count; i++)
        for (j = i + 1; j < count; j++)
            if (parts[i].bytes && parts[j].bytes && parts[i].at < parts[j].at + parts[j].bytes && parts[j].at < parts[i].at + parts[i].bytes) return HIRVELAN_OVERLAP;
    return HIRVELAN_OK;
}

/* Tests: null. */
static inline int hirvelan_check_safe(const uint8_t *text, size_t text_length, hirvelan_answer *answer) {
    static const uint8_t none = 0;
    uint32_t said[3] = {0, 0, 0};
    hirvelan_part part;
    int fault = hirvelan_part_of(text, text_length, 1, &part);
    if (!fault && !answer) fault = HIRVELAN_NULL;
    if (fault) return fault;
    hirvelan_check(text ? text : &none, text_length, said, 3);
    answer->number = said[0];
    answer->nodes = 0;
    answer->comments = 0;
    answer->place = said[1];
    answer->length = said[2];
    answer->bytes = 0;
    answer->members = 0;
    return HIRVELAN_OK;
}

/* Tests: null, alignment, overlap. The answer is the wrapper's own, so it overlaps nothing. */
static inline int hirvelan_read_safe(const uint8_t *text, size_t text_length, uint32_t *nodes, size_t nodes_length, uint32_t *comments, size_t comments_length, hirvelan_answer *answer) {
    static const uint8_t none = 0;
    uint32_t empty[2] = {0, 0}, said[3] = {0, 0, 0};
    hirvelan_part parts[3];
    int fault = hirvelan_part_of(text, text_length, 1, &parts[0]);
    if (!fault) fault = hirvelan_part_of(nodes, nodes_length, 4, &parts[1]);
    if (!fault) fault = hirvelan_part_of(comments, comments_length, 4, &parts[2]);
    if (!fault) fault = hirvelan_apart(parts, 3);
    if (!fault && !answer) fault = HIRVELAN_NULL;
    if (fault) return fault;
    hirvelan_read(text ? text : &none, text_length, nodes ? nodes : &empty[0], nodes_length, comments ? comments : &empty[1], comments_length, said, 3);
    answer->number = said[0];
    answer->nodes = said[0] ? 0 : said[1];
    answer->comments = said[0] ? 0 : said[2];
    answer->place = said[0] ? said[1] : 0;
    answer->length = said[0] ? said[2] : 0;
    answer->bytes = 0;
    answer->members = 0;
    return HIRVELAN_OK;
}

/* Tests: null, alignment, overlap. `members` is the count of the list; the nodes are not counted. */
static inline int hirvelan_enum_numbers_safe(const uint8_t *text, size_t text_length, uint32_t *nodes, size_t nodes_length, uint32_t *comments, size_t comments_length, int32_t *list, size_t list_length, hirvelan_answer *answer) {
    static const uint8_t none = 0;
    uint32_t empty[2] = {0, 0}, said[3] = {0, 0, 0};
    int32_t nothing = 0;
    hirvelan_part parts[4];
    int fault = hirvelan_part_of(text, text_length, 1, &parts[0]);
    if (!fault) fault = hirvelan_part_of(nodes, nodes_length, 4, &parts[1]);
    if (!fault) fault = hirvelan_part_of(comments, comments_length, 4, &parts[2]);
    if (!fault) fault = hirvelan_part_of(list, list_length, 4, &parts[3]);
    if (!fault) fault = hirvelan_apart(parts, 4);
    if (!fault && !answer) fault = HIRVELAN_NULL;
    if (fault) return fault;
    hirvelan_enum_numbers(text ? text : &none, text_length, nodes ? nodes : &empty[0], nodes_length, comments ? comments : &empty[1], comments_length, list ? list : &nothing, list_length, said, 3);
    answer->number = said[0];
    answer->nodes = 0;
    answer->comments = 0;
    answer->place = said[0] ? said[1] : 0;
    answer->length = said[0] ? said[2] : 0;
    answer->bytes = 0;
    answer->members = said[0] ? 0 : said[1];
    return HIRVELAN_OK;
}

/* Tests: null, alignment, overlap. */
static inline int hirvelan_print_safe(const uint8_t *text, size_t text_length, uint32_t indent, uint32_t *nodes, size_t nodes_length, uint32_t *comments, size_t comments_length, uint8_t *out, size_t out_length, hirvelan_answer *answer) {
    static const uint8_t none = 0;
    uint32_t empty[2] = {0, 0};
    uint8_t nothing = 0;
    uint64_t said[4] = {0, 0, 0, 0};
    hirvelan_part parts[4];
    int fault = hirvelan_part_of(text, text_length, 1, &parts[0]);
    if (!fault) fault = hirvelan_part_of(nodes, nodes_length, 4, &parts[1]);
    if (!fault) fault = hirvelan_part_of(comments, comments_length, 4, &parts[2]);
    if (!fault) fault = hirvelan_part_of(out, out_length, 1, &parts[3]);
    if (!fault) fault = hirvelan_apart(parts, 4);
    if (!fault && !answer) fault = HIRVELAN_NULL;
    if (fault) return fault;
    hirvelan_print(text ? text : &none, text_length, indent, nodes ? nodes : &empty[0], nodes_length, comments ? comments : &empty[1], comments_length, out ? out : &nothing, out_length, said, 4);
    answer->number = (uint32_t)said[0];
    answer->nodes = said[0] ? 0 : (uint32_t)said[1];
    answer->comments = said[0] ? 0 : (uint32_t)said[2];
    answer->place = said[0] ? (uint32_t)said[1] : 0;
    answer->length = said[0] ? (uint32_t)said[2] : 0;
    answer->bytes = said[3];
    answer->members = 0;
    return HIRVELAN_OK;
}

/* Tests: null. */
static inline int hirvelan_place_safe(const uint8_t *text, size_t text_length, uint32_t offset, hirvelan_spot *spot) {
    static const uint8_t none = 0;
    uint32_t said[3] = {0, 0, 0};
    hirvelan_part part;
    int fault = hirvelan_part_of(text, text_length, 1, &part);
    if (!fault && !spot) fault = HIRVELAN_NULL;
    if (fault) return fault;
    hirvelan_place(text ? text : &none, text_length, offset, said, 3);
    spot->line = said[0];
    spot->column = said[1];
    spot->offset = said[2];
    return HIRVELAN_OK;
}

/* Tests: null, alignment, overlap. `length` gets the length of the file. */
static inline int hirvelan_run_safe(uint8_t *space, size_t space_length, size_t file, uint32_t indent, const hirvelan_request *requests, size_t count, uint32_t *nodes, size_t nodes_length, uint32_t *comments, size_t comments_length, uint8_t *out, size_t out_length, size_t *length) {
    uint32_t empty[3] = {0, 0, 0};
    uint8_t nothing[2] = {0, 0};
    hirvelan_part parts[5];
    int fault = hirvelan_part_of(space, space_length, 1, &parts[0]);
    if (!fault && count > (size_t)PTRDIFF_MAX / 16) fault = HIRVELAN_LENGTH;
    if (!fault) fault = hirvelan_part_of(requests, 4 * count, 4, &parts[1]);
    if (!fault) fault = hirvelan_part_of(nodes, nodes_length, 4, &parts[2]);
    if (!fault) fault = hirvelan_part_of(comments, comments_length, 4, &parts[3]);
    if (!fault) fault = hirvelan_part_of(out, out_length, 1, &parts[4]);
    if (!fault) fault = hirvelan_apart(parts, 5);
    if (!fault && !length) fault = HIRVELAN_NULL;
    if (fault) return fault;
    *length = hirvelan_run(space ? space : &nothing[0], space_length, file, indent, requests ? &requests->prints : &empty[0], 4 * count, nodes ? nodes : &empty[1], nodes_length, comments ? comments : &empty[2], comments_length, out ? out : &nothing[1], out_length);
    return HIRVELAN_OK;
}

/* Both moves: what the wrappers below share. */
static inline int hirvelan_move_safe(int widens, const uint32_t *table, size_t table_length, uint32_t *out, size_t out_length, hirvelan_answer *answer) {
    static const uint32_t none = 0;
    uint32_t empty = 0, said[3] = {0, 0, 0};
    hirvelan_part parts[2];
    int fault = hirvelan_part_of(table, table_length, 4, &parts[0]);
    if (!fault) fault = hirvelan_part_of(out, out_length, 4, &parts[1]);
    if (!fault) fault = hirvelan_apart(parts, 2);
    if (!fault && !answer) fault = HIRVELAN_NULL;
    if (fault) return fault;
    if (widens)
        hirvelan_widen(table ? table : &none, table_length, out ? out : &empty, out_length, said, 3);
    else
        hirvelan_narrow(table ? table : &none, table_length, out ? out : &empty, out_length, said, 3);
    answer->number = said[0];
    answer->nodes = said[0] ? 0 : said[1];
    answer->comments = 0;
    answer->place = said[0] ? said[1] : 0;
    answer->length = 0;
    answer->bytes = 0;
    answer->members = 0;
    return HIRVELAN_OK;
}

/* Tests: null, alignment, overlap. `place` is the number of a record. */
static inline int hirvelan_widen_safe(const uint32_t *table, size_t table_length, uint32_t *out, size_t out_length, hirvelan_answer *answer) {
    return hirvelan_move_safe(1, table, table_length, out, out_length, answer);
}

/* The same, back. */
static inline int hirvelan_narrow_safe(const uint32_t *table, size_t table_length, uint32_t *out, size_t out_length, hirvelan_answer *answer) {
    return hirvelan_move_safe(0, table, table_length, out, out_length, answer);
}

#ifdef __cplusplus
}
#endif

#endif
