/* What the wrappers test: null, zero lengths, alignment, overlap; a run; stored tables moved; the numbers of enum members. Says which fails. */
#include "hirvelan.h"
#include <stdio.h>
#include <string.h>

static int failed;

static void expect(int holds, const char *what) {
    if (!holds) {
        printf("fails: %s\n", what);
        failed = 1;
    }
}

/* Whether the numbers are these, then zeros up to `length`, and seven behind that. */
static int holds(const uint32_t *numbers, const uint32_t *front, size_t count, size_t length) {
    size_t i;
    for (i = 0; i < count; i++)
        if (numbers[i] != front[i]) return 0;
    for (; i < length; i++)
        if (numbers[i]) return 0;
    return numbers[length] == 7;
}

/* Whether moving a table into an output of `room` numbers is so refused, and leaves that output zero and the table as it was. */
static int refuses(int (*move)(const uint32_t *, size_t, uint32_t *, size_t, hirvelan_answer *), const uint32_t *table, size_t length, size_t room, uint32_t number, uint32_t place) {
    uint32_t out[64], kept[64];
    hirvelan_answer answer;
    size_t i;
    for (i = 0; i < 64; i++) out[i] = 7;
    memcpy(kept, table, length * sizeof *table);
    return move(table, length, out, room, &answer) == HIRVELAN_OK && answer.number == number && answer.place == place && answer.length == 0 && answer.nodes == 0
        && holds(out, out, 0, room) && !memcmp(kept, table, length * sizeof *table);
}

/* Stored tables, there and back. */
static void moves(void) {
    static const uint32_t none = 0xffffffffu;
    const uint32_t nine[] = {7, none, 0, 0, 1, 1, 17, 1, 18, 16, 0, 0, 7, 1, 8, 8, 1, 9, 12, 0, 0, 9, 1, 10, 16, 1, 17, 6, none, 0, 20, 2, 1, 28, 2, 9};
    const uint32_t ten[] = {7, none, 0, 0, 1, 1, 17, 1, 18, 3, 16, 0, 0, 7, 1, 8, 8, 1, 9, 2, 12, 0, 0, 9, 1, 10, 16, 1, 17, 3, 6, none, 0, 20, 2, 1, 28, 2, 9, 4};
    uint32_t out[64], back[64], bad[40], few[5] = {7, 7, 7, 7, 7};
    hirvelan_answer answer;
    size_t i;

    for (i = 0; i < 64; i++) out[i] = back[i] = 7;
    expect(HIRVELAN_WIDENED(36) == 40 && HIRVELAN_NARROWED(40) == 36 && HIRVELAN_WIDENED(0) == 0, "how much a move needs");
    expect(hirvelan_widen_safe(nine, 36, out, 40, &answer) == HIRVELAN_OK && answer.number == 0 && answer.nodes == 4 && holds(out, ten, 40, 40), "a stored table moved to ten numbers");
    expect(hirvelan_narrow_safe(out, 40, back, 36, &answer) == HIRVELAN_OK && answer.number == 0 && answer.nodes == 4 && holds(back, nine, 36, 36), "and back");
    for (i = 0; i < 64; i++) out[i] = back[i] = 7;
    expect(hirvelan_narrow_safe(ten, 40, back, 43, &answer) == HIRVELAN_OK && answer.nodes == 4 && holds(back, nine, 36, 43), "zeros behind the records");
    expect(hirvelan_widen_safe(nine, 0, out, 3, &answer) == HIRVELAN_OK && answer.number == 0 && answer.nodes == 0 && holds(out, nine, 0, 3), "an empty table is moved");
    expect(hirvelan_widen_safe(NULL, 0, NULL, 0, &answer) == HIRVELAN_OK && answer.number == 0 && answer.nodes == 0, "nothing moved into nothing");
    expect(hirvelan_narrow_safe(NULL, 0, NULL, 0, &answer) == HIRVELAN_OK && answer.number == 0 && answer.nodes == 0, "and back");

    expect(refuses(hirvelan_widen_safe, nine, 35, 50, HIRVELAN_REFUSED_NOT_MOVABLE, 0), "a length that nine does not divide");
    expect(refuses(hirvelan_narrow_safe, ten, 39, 50, HIRVELAN_REFUSED_NOT_MOVABLE, 0), "a length that ten does not divide");
    expect(refuses(hirvelan_widen_safe, nine, 36, 39, HIRVELAN_REFUSED_NODES_FULL, 0), "an output one number short");
    expect(refuses(hirvelan_narrow_safe, ten, 40, 35, HIRVELAN_REFUSED_NODES_FULL, 0), "an output one number short, back");
    memcpy(bad, nine, sizeof nine);
    bad[19] = 2;
    expect(refuses(hirvelan_widen_safe, bad, 36, 10, HIRVELAN_REFUSED_NOT_MOVABLE, 2), "a record that is its own parent, before a short output");
    bad[1] = 0;
    expect(refuses(hirvelan_widen_safe, bad, 36, 40, HIRVELAN_REFUSED_NOT_MOVABLE, 0), "the first record's parent");
    memcpy(bad, ten, sizeof ten);
    bad[19] = 3;
    expect(refuses(hirvelan_narrow_safe, bad, 40, 36, HIRVELAN_REFUSED_NOT_MOVABLE, 1), "a tenth number that disagrees");
    bad[31] = 1;
    expect(refuses(hirvelan_narrow_safe, bad, 40, 36, HIRVELAN_REFUSED_NOT_MOVABLE, 3), "a bad parent comes before a bad tenth number");

    expect(hirvelan_widen_safe(out, 9, out, 10, &answer) == HIRVELAN_OVERLAP && hirvelan_narrow_safe(out, 10, out + 9, 9, &answer) == HIRVELAN_OVERLAP, "no table is moved in place");
    expect(hirvelan_widen_safe(NULL, 9, out, 10, &answer) == HIRVELAN_NULL && hirvelan_widen_safe(nine, 9, NULL, 10, &answer) == HIRVELAN_NULL && hirvelan_widen_safe(nine, 9, out, 10, NULL) == HIRVELAN_NULL, "a move of null");
    expect(hirvelan_narrow_safe(ten, 10, (uint32_t *)(void *)((char *)out + 1), 9, &answer) == HIRVELAN_UNALIGNED, "a move into an odd address");
    expect(hirvelan_narrow_safe(ten, (size_t)-1, out, 9, &answer) == HIRVELAN_LENGTH, "a move of more than there can be");
    hirvelan_widen(nine, 36, out, 40, few, 2);
    expect(few[0] == 0 && few[1] == 4 && few[2] == 7, "a move's answer of two numbers gets two");
    hirvelan_narrow(nine, 36, out, 40, few, 4);
    expect(few[0] == 33 && few[1] == 0 && few[2] == 0 && few[3] == 0 && few[4] == 7, "a move's answer of four numbers gets three, and 0");
}

/* Whether a text's enum members have these numbers, in a list of `room`, with zeros behind them, and both tables are as hirvelan_read leaves them. */
static int numbers(const char *text, size_t room, const int32_t *wanted, uint32_t count) {
    uint32_t nodes[400], comments[19], read_nodes[400], read_comments[19];
    int32_t list[16];
    hirvelan_answer answer, read;
    size_t i, n = strlen(text);
    for (i = 0; i < 400; i++) nodes[i] = read_nodes[i] = 7;
    for (i = 0; i < 19; i++) comments[i] = read_comments[i] = 7;
    for (i = 0; i < 16; i++) list[i] = 7;
    if (hirvelan_enum_numbers_safe((const uint8_t *)text, n, nodes, 399, comments, 18, list, room, &answer) != HIRVELAN_OK) return 0;
    if (hirvelan_read_safe((const uint8_t *)text, n, read_nodes, 399, read_comments, 18, &read) != HIRVELAN_OK || read.number) return 0;
    for (i = 0; i < 16; i++)
        if (list[i] != (i < count ? wanted[i] : i < room ? 0 : 7)) return 0;
    return answer.number == 0 && answer.members == count && answer.nodes == 0 && answer.comments == 0 && answer.place == 0 && answer.length == 0 && answer.bytes == 0
        && !memcmp(nodes, read_nodes, sizeof nodes) && !memcmp(comments, read_comments, sizeof comments) && nodes[399] == 7 && comments[18] == 7;
}

/* Whether the numbers are so refused, with tables and a list of these lengths, and tables and list are zero. */
static int no_numbers(const char *text, size_t nodes_length, size_t comments_length, size_t room, uint32_t number, uint32_t place, uint32_t length) {
    uint32_t nodes[400], comments[19];
    int32_t list[16];
    hirvelan_answer answer;
    size_t i;
    for (i = 0; i < 400; i++) nodes[i] = 7;
    for (i = 0; i < 19; i++) comments[i] = 7;
    for (i = 0; i < 16; i++) list[i] = 7;
    if (hirvelan_enum_numbers_safe((const uint8_t *)text, strlen(text), nodes, nodes_length, comments, comments_length, list, room, &answer) != HIRVELAN_OK) return 0;
    for (i = 0; i < 16; i++)
        if (list[i] != (i < room ? 0 : 7)) return 0;
    return answer.number == number && answer.place == place && answer.length == length && answer.members == 0 && answer.nodes == 0 && answer.comments == 0
        && holds(nodes, nodes, 0, nodes_length) && holds(comments, comments, 0, comments_length);
}

/* The numbers of enum members. */
static void enums(void) {
    static const char source[] = "#c\nenum A{B,C=5,D}const i8 E=9 enum F{G=-2147483648(h='8'),I,J=0x7FFFFFFF,K=+007,L=7}";
    static const int32_t wanted[] = {0, 5, 6, -2147483647 - 1, -2147483647, 2147483647, 7, 7};
    const uint8_t *text = (const uint8_t *)source;
    size_t n = sizeof source - 1;
    uint32_t nodes[400], comments[18], few[5] = {7, 7, 7, 7, 7};
    int32_t list[16];
    hirvelan_answer answer;

    expect(HIRVELAN_MEMBERS(9) == 9 && HIRVELAN_MEMBERS(0) == 0, "how much a list needs");
    expect(numbers(source, 8, wanted, 8), "numbers of enum members");
    expect(numbers(source, 15, wanted, 8), "zeros behind the numbers");
    expect(numbers("enum A{}struct B{1:i8 c=5}", 3, wanted, 0) && numbers("enum A{}", 0, wanted, 0) && numbers("", 15, wanted, 0), "no member, no number");

    expect(no_numbers(source, 399, 18, 7, HIRVELAN_REFUSED_NODES_FULL, 0, 0), "a list one number short");
    expect(no_numbers(source, 399, 18, 0, HIRVELAN_REFUSED_NODES_FULL, 0, 0), "no list");
    expect(no_numbers("enum A{B,CD=0xFFFFFFFF}", 399, 18, 15, HIRVELAN_REFUSED_ENUM_NUMBER_OUTSIDE, 9, 2), "a hexadecimal number outside");
    expect(no_numbers("enum A{B=2147483648}", 399, 18, 15, HIRVELAN_REFUSED_ENUM_NUMBER_OUTSIDE, 7, 1), "a number outside, above");
    expect(no_numbers("enum A{B=-2147483649}", 399, 18, 15, HIRVELAN_REFUSED_ENUM_NUMBER_OUTSIDE, 7, 1), "a number outside, below");
    expect(no_numbers("enum A{B=2147483647 CDE}", 399, 18, 15, HIRVELAN_REFUSED_ENUM_NUMBER_OUTSIDE, 20, 3), "the member after 2147483647");
    expect(no_numbers("enum A{B=2147483647 CDE}", 399, 18, 0, HIRVELAN_REFUSED_ENUM_NUMBER_OUTSIDE, 20, 3), "28 comes before a short list");
    expect(no_numbers("enum A{B=2147483648}@", 399, 18, 15, HIRVELAN_REFUSED_NO_TOKEN, 20, 0), "a refusal of the reading comes before 28");
    expect(no_numbers("enum A{B=2147483648}", 49, 18, 15, HIRVELAN_REFUSED_NODES_FULL, 0, 0) && no_numbers("enum A{B=2147483648}", 50, 18, 15, HIRVELAN_REFUSED_ENUM_NUMBER_OUTSIDE, 7, 1), "a node table too short comes before 28");
    expect(no_numbers("#c\nenum A{B=2147483648}", 399, 8, 15, HIRVELAN_REFUSED_COMMENTS_FULL, 0, 0) && no_numbers("#c\nenum A{B=2147483648}", 399, 9, 15, HIRVELAN_REFUSED_ENUM_NUMBER_OUTSIDE, 10, 1), "a comment table too short comes before 28");

    expect(hirvelan_enum_numbers_safe(NULL, 0, NULL, 0, NULL, 0, NULL, 0, &answer) == HIRVELAN_OK && answer.number == 0 && answer.members == 0, "numbers of nothing");
    expect(hirvelan_enum_numbers_safe((const uint8_t *)"enum A{}", 8, nodes, 400, NULL, 0, NULL, 0, &answer) == HIRVELAN_OK && answer.number == 0 && answer.members == 0, "no member, and no list");
    expect(hirvelan_enum_numbers_safe((const uint8_t *)"enum A{B}", 9, nodes, 400, NULL, 0, NULL, 0, &answer) == HIRVELAN_OK && answer.number == HIRVELAN_REFUSED_NODES_FULL, "a member, and no list");
    expect(hirvelan_enum_numbers_safe((const uint8_t *)"enum A{B}", 9, NULL, 0, NULL, 0, list, 16, &answer) == HIRVELAN_OK && answer.number == HIRVELAN_REFUSED_NODES_FULL, "numbers without tables");
    expect(hirvelan_enum_numbers_safe(NULL, 1, nodes, 400, comments, 18, list, 16, &answer) == HIRVELAN_NULL && hirvelan_enum_numbers_safe(text, n, NULL, 1, comments, 18, list, 16, &answer) == HIRVELAN_NULL && hirvelan_enum_numbers_safe(text, n, nodes, 400, NULL, 1, list, 16, &answer) == HIRVELAN_NULL && hirvelan_enum_numbers_safe(text, n, nodes, 400, comments, 18, NULL, 1, &answer) == HIRVELAN_NULL, "numbers of null and 1, into null and 1");
    expect(hirvelan_enum_numbers_safe(text, n, nodes, 400, comments, 18, list, 16, NULL) == HIRVELAN_NULL, "numbers without a place for the answer");
    expect(hirvelan_enum_numbers_safe(text, n, nodes, 400, comments, 18, (int32_t *)(void *)((char *)list + 1), 9, &answer) == HIRVELAN_UNALIGNED, "numbers into an odd address");
    expect(hirvelan_enum_numbers_safe(text, n, nodes, 400, comments, 18, list, (size_t)-1, &answer) == HIRVELAN_LENGTH, "numbers into more than there can be");
    expect(hirvelan_enum_numbers_safe(text, n, nodes, 400, comments, 18, (int32_t *)(void *)(nodes + 399), 1, &answer) == HIRVELAN_OVERLAP && hirvelan_enum_numbers_safe(text, n, nodes, 400, comments, 18, (int32_t *)(void *)comments, 18, &answer) == HIRVELAN_OVERLAP && hirvelan_enum_numbers_safe((const uint8_t *)list, 8, nodes, 400, comments, 18, list, 16, &answer) == HIRVELAN_OVERLAP, "numbers into a table or the text");

    hirvelan_enum_numbers(text, n, nodes, 400, comments, 18, list, 16, few, 2);
    expect(few[0] == 0 && few[1] == 8 && few[2] == 7, "an answer of two numbers gets two, of the members too");
    hirvelan_enum_numbers((const uint8_t *)"enum A{BC=2147483648}", 21, nodes, 400, comments, 18, list, 16, few, 4);
    expect(few[0] == 28 && few[1] == 7 && few[2] == 2 && few[3] == 0 && few[4] == 7, "an answer of four numbers gets three, and 0, of the members too");
}

int main(void) {
    static const char source[] = "struct A{1:required i32 a=5;}";
    const uint8_t *text = (const uint8_t *)source;
    size_t n = sizeof source - 1;
    uint32_t nodes[HIRVELAN_NODES(29)], comments[HIRVELAN_COMMENTS(29)], few[5] = {7, 7, 7, 7, 7};
    uint32_t shared[HIRVELAN_NODES(29)];
    uint8_t out[64];
    hirvelan_answer answer;
    hirvelan_spot spot;

    expect(hirvelan_check_safe(NULL, 0, &answer) == HIRVELAN_OK && answer.number == 0, "check of null and 0 is an empty text");
    expect(hirvelan_check_safe((const uint8_t *)"enum E{}@", 9, &answer) == HIRVELAN_OK && answer.number == HIRVELAN_REFUSED_NO_TOKEN && answer.place == 8 && answer.length == 0, "check says where");
    expect(hirvelan_check_safe(NULL, 1, &answer) == HIRVELAN_NULL, "check of null and 1");
    expect(hirvelan_check_safe(text, n, NULL) == HIRVELAN_NULL, "check without a place for the answer");

    expect(hirvelan_read_safe(NULL, 0, NULL, 0, NULL, 0, &answer) == HIRVELAN_OK && answer.number == 0 && answer.nodes == 0, "read of nothing");
    expect(hirvelan_read_safe(text, n, NULL, 0, NULL, 0, &answer) == HIRVELAN_OK && answer.number == HIRVELAN_REFUSED_NODES_FULL, "read without tables is 24");
    expect(hirvelan_read_safe(text, n, NULL, 9, NULL, 0, &answer) == HIRVELAN_NULL, "read with a null table of 9");
    expect(hirvelan_read_safe(text, n, shared, 200, shared + 100, 200, &answer) == HIRVELAN_OVERLAP, "read with tables that overlap");
    expect(hirvelan_read_safe(text, n, shared, 100, shared + 100, 200, &answer) == HIRVELAN_OK, "read with tables side by side");
    expect(hirvelan_read_safe((const uint8_t *)shared, 40, shared, 9, comments, 9, &answer) == HIRVELAN_OVERLAP, "read into its own text");
    expect(hirvelan_read_safe(text, n, (uint32_t *)(void *)((char *)shared + 1), 9, comments, 9, &answer) == HIRVELAN_UNALIGNED, "read into an odd address");
    expect(hirvelan_read_safe(text, n, nodes, (size_t)-1, comments, 9, &answer) == HIRVELAN_LENGTH, "read into more than there can be");
    expect(hirvelan_read_safe(text, n, nodes, HIRVELAN_NODES(n), comments, HIRVELAN_COMMENTS(n), NULL) == HIRVELAN_NULL, "read without a place for the answer");
    expect(hirvelan_read_safe(text, n, nodes, HIRVELAN_NODES(n), comments, HIRVELAN_COMMENTS(n), &answer) == HIRVELAN_OK && answer.number == 0 && answer.nodes == 7 && nodes[0] == HIRVELAN_KIND_STRUCT && nodes[HIRVELAN_PAST] == 7 && nodes[HIRVELAN_NODE_WIDTH + HIRVELAN_PAST] == 2, "read");
    expect(hirvelan_read_safe(text, n, nodes, 70, comments, 0, &answer) == HIRVELAN_OK && answer.nodes == 7 && hirvelan_read_safe(text, n, nodes, 69, comments, 0, &answer) == HIRVELAN_OK && answer.number == HIRVELAN_REFUSED_NODES_FULL, "seven nodes are 70 numbers");

    expect(hirvelan_print_safe(text, n, 2, nodes, HIRVELAN_NODES(n), comments, HIRVELAN_COMMENTS(n), out, sizeof out, &answer) == HIRVELAN_OK && answer.number == 0 && answer.bytes == 38, "print of 38 bytes");
    expect(!memcmp(out, "struct A {\n  1: required i32 a = 5,\n}\n", 38), "what it prints");
    expect(hirvelan_print_safe(text, n, 2, nodes, HIRVELAN_NODES(n), comments, HIRVELAN_COMMENTS(n), out, 37, &answer) == HIRVELAN_OK && answer.number == HIRVELAN_REFUSED_OUTPUT_FULL, "print into 37 bytes");
    expect(hirvelan_print_safe(text, n, 2, nodes, HIRVELAN_NODES(n), comments, HIRVELAN_COMMENTS(n), NULL, 0, &answer) == HIRVELAN_OK && answer.number == HIRVELAN_REFUSED_OUTPUT_FULL, "print into nothing");
    expect(hirvelan_print_safe(text, n, 9, nodes, HIRVELAN_NODES(n), comments, HIRVELAN_COMMENTS(n), out, sizeof out, &answer) == HIRVELAN_OK && answer.number == HIRVELAN_REFUSED_INDENT_TOO_WIDE, "print at 9");
    expect(hirvelan_print_safe(text, n, 2, nodes, HIRVELAN_NODES(n), comments, HIRVELAN_COMMENTS(n), NULL, 64, &answer) == HIRVELAN_NULL, "print into null and 64");
    expect(hirvelan_print_safe(text, n, 2, nodes, HIRVELAN_NODES(n), comments, HIRVELAN_COMMENTS(n), (uint8_t *)nodes + 8, 8, &answer) == HIRVELAN_OVERLAP, "print into a table");

    expect(hirvelan_place_safe(NULL, 0, 5, &spot) == HIRVELAN_OK && spot.line == 1 && spot.column == 1 && spot.offset == 0, "place in nothing");
    expect(hirvelan_place_safe(text, n, 9, &spot) == HIRVELAN_OK && spot.line == 1 && spot.column == 10, "place");
    expect(hirvelan_place_safe(NULL, 5, 5, &spot) == HIRVELAN_NULL && hirvelan_place_safe(text, n, 5, NULL) == HIRVELAN_NULL, "place of null");

    hirvelan_check((const uint8_t *)"enum E{}@", 9, few, 2);
    expect(few[0] == 22 && few[1] == 8 && few[2] == 7, "an answer of two numbers gets two");
    hirvelan_check((const uint8_t *)"enum E{}@", 9, few, 4);
    expect(few[0] == 22 && few[1] == 8 && few[2] == 0 && few[3] == 0 && few[4] == 7, "an answer of four numbers gets three, and 0");

    {
        static const hirvelan_request calls[] = {{1, 69, 9, 64}, {1, 70, 0, 37}, {0, 70, 0, 0}, {1, 70, 0, 38}, {1, 0xffffffffu, 0xffffffffu, 0xffffffffu}};
        uint8_t space[64];
        size_t length = 7;
        memset(space, 7, sizeof space);
        memcpy(space, text, n);
        expect(hirvelan_run_safe(NULL, 0, 5, 2, NULL, 0, NULL, 0, NULL, 0, NULL, 0, &length) == HIRVELAN_OK && length == 0, "a run of nothing");
        expect(hirvelan_run_safe(space, sizeof space, n, 2, calls, 2, nodes, HIRVELAN_NODES(n), comments, HIRVELAN_COMMENTS(n), out, sizeof out, &length) == HIRVELAN_OK && length == n && !memcmp(space, text, n) && space[n] == 7, "a run of refused printings leaves file and space");
        expect(hirvelan_run_safe(space, sizeof space, n, 2, calls, 5, nodes, HIRVELAN_NODES(n), comments, HIRVELAN_COMMENTS(n), out, sizeof out, &length) == HIRVELAN_OK && length == 38 && !memcmp(space, "struct A {\n  1: required i32 a = 5,\n}\n", 38) && !space[38] && !space[63], "a run that prints");
        expect(hirvelan_run_safe(space, 38, 1000, 2, calls, 5, nodes, HIRVELAN_NODES(n), comments, HIRVELAN_COMMENTS(n), out, sizeof out, &length) == HIRVELAN_OK && length == 38 && !memcmp(space, out, 38), "a run again, of a file held to its space");
        expect(hirvelan_run_safe(space, sizeof space, n, 2, calls, 5, nodes, HIRVELAN_NODES(n), comments, HIRVELAN_COMMENTS(n), space + 60, 4, &length) == HIRVELAN_OVERLAP, "a run into its own space");
        expect(hirvelan_run_safe(space, sizeof space, n, 2, (const hirvelan_request *)(const void *)nodes, 1, nodes, 9, comments, 9, out, sizeof out, &length) == HIRVELAN_OVERLAP, "a run into its own requests");
        expect(hirvelan_run_safe(space, sizeof space, n, 2, NULL, 1, nodes, 9, comments, 9, out, sizeof out, &length) == HIRVELAN_NULL, "a run of null and 1");
        expect(hirvelan_run_safe(space, sizeof space, n, 2, calls, (size_t)-1, nodes, 9, comments, 9, out, sizeof out, &length) == HIRVELAN_LENGTH, "a run of more requests than there can be");
        expect(hirvelan_run_safe(space, sizeof space, n, 2, calls, 1, nodes, 9, comments, 9, out, sizeof out, NULL) == HIRVELAN_NULL, "a run without a place for the length");
    }
    moves();
    enums();
    return failed;
}
