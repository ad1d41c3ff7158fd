/* Document 01's whole example through the C header: read, list, write, check; then every other
 * function once, and the example again on a row of records. Ends with 0 if each answer is the one expected, else with the line that is not. */
#include <dowrhesk.h>

#include <stdio.h>
#include <string.h>

#define RECORDS 64

#define EXPECT(test)                                              \
    do {                                                          \
        if (!(test)) {                                            \
            fprintf(stderr, "line %d: not %s\n", __LINE__, #test); \
            return 1;                                             \
        }                                                         \
    } while (0)

static uint16_t level[RECORDS], low[RECORDS], high[RECORDS];

#define TABLE level, RECORDS, low, RECORDS, high, RECORDS

static const char function[] = ".i 2\n.o 1\n01 1\n10 1\n11 -\n.e\n";
static const char expected[] = ".i 2\n.o 1\n.p 2\n1- 1\n-1 1\n.e\n";

static int list_and_check(void) {
    uint64_t read[5], listed[2], written[2], judged[3], candidate[2];
    uint32_t room[4], rows[4];
    uint8_t text[64];
    uint16_t lower, upper;

    EXPECT(dowrhesk_read_function((const uint8_t *)function, strlen(function), TABLE, read) == 0);
    EXPECT(read[0] == 0 && read[1] == 2);
    lower = (uint16_t)read[3];
    upper = (uint16_t)read[4];

    EXPECT(dowrhesk_generate(2, TABLE, read[2], lower, upper, room, 4, listed) == 0);
    EXPECT(listed[0] == 0 && listed[1] == 2);
    EXPECT(dowrhesk_write_list(2, room, listed[1], text, sizeof text, written) == 0);
    EXPECT(written[1] == strlen(expected) && memcmp(text, expected, written[1]) == 0);

    EXPECT(dowrhesk_read_candidate(2, text, written[1], rows, 4, candidate) == 0);
    EXPECT(candidate[1] == 2 && memcmp(rows, room, sizeof rows) == 0);
    EXPECT(dowrhesk_check(2, TABLE, read[2], lower, upper, rows, 2, judged) == 0);
    EXPECT(judged[0] == DOWRHESK_ACCEPT);

    /* The row without literals covers 00, which is off; no row at all misses 01, point number 2. */
    rows[1] = 0;
    EXPECT(dowrhesk_check(2, TABLE, read[2], lower, upper, rows, 2, judged) == 0);
    EXPECT(judged[0] == DOWRHESK_OFF && judged[1] == 2 && judged[2] == 0);
    EXPECT(dowrhesk_check(2, TABLE, read[2], lower, upper, NULL, 0, judged) == 0);
    EXPECT(judged[0] == DOWRHESK_MISSING && judged[1] == 2 && judged[2] == 0);
    return 0;
}

static int refusals(void) {
    uint64_t read[5], listed[2], candidate[2], written[2];
    uint32_t room[1];

    EXPECT(dowrhesk_read_function((const uint8_t *)".i 2\n01 1\n", 10, TABLE, read) ==
           DOWRHESK_TEXT_FAULT);
    EXPECT(read[0] == 2 && read[1] == 0);
    EXPECT(dowrhesk_read_function((const uint8_t *)function, strlen(function), TABLE, read) == 0);
    EXPECT(dowrhesk_generate(2, TABLE, read[2], (uint16_t)read[3], (uint16_t)read[4], room, 1,
                             listed) == DOWRHESK_LIST_LACKS);
    EXPECT(listed[0] == 2 && listed[1] == 0);
    EXPECT(dowrhesk_read_candidate(0, NULL, 0, room, 1, candidate) == DOWRHESK_COLUMNS_OVER);
    EXPECT(dowrhesk_write_list(2, room, 1, NULL, 0, written) == DOWRHESK_TEXT_LACKS);
    EXPECT(written[0] > 0 && written[1] == 0);
    return 0;
}

static int operations(void) {
    uint64_t a[2], b[2], out[2], value[1];

    memset(level, 0, sizeof level);
    memset(low, 0, sizeof low);
    memset(high, 0, sizeof high);
    EXPECT(dowrhesk_variable(2, TABLE, 0, 0, a) == 0 && a[1] == 1);
    EXPECT(dowrhesk_variable(2, TABLE, a[1], 1, b) == 0 && b[1] == 2);
    EXPECT(dowrhesk_and(2, TABLE, b[1], (uint16_t)a[0], (uint16_t)b[0], out) == 0);
    EXPECT(dowrhesk_value(2, TABLE, out[1], (uint16_t)out[0], 3, value) == 0 && value[0] == 1);
    EXPECT(dowrhesk_or(2, TABLE, out[1], (uint16_t)a[0], (uint16_t)b[0], out) == 0);
    EXPECT(dowrhesk_value(2, TABLE, out[1], (uint16_t)out[0], 0, value) == 0 && value[0] == 0);
    EXPECT(dowrhesk_difference(2, TABLE, out[1], (uint16_t)a[0], (uint16_t)b[0], out) == 0);
    EXPECT(dowrhesk_value(2, TABLE, out[1], (uint16_t)out[0], 1, value) == 0 && value[0] == 1);
    EXPECT(dowrhesk_value(2, TABLE, out[1], (uint16_t)out[0], 4, value) == DOWRHESK_OUT_OF_RANGE);
    return 0;
}

static dowrhesk_node nodes[RECORDS];

/* The row holds the records that the three slices hold. */
static int same_records(void) {
    int i;
    for (i = 0; i < RECORDS; i++)
        EXPECT(nodes[i].level == level[i] && nodes[i].low == low[i] && nodes[i].high == high[i]);
    return 0;
}

static int list_and_check_on_a_row(void) {
    uint64_t read[5], row_read[5], listed[2], judged[3];
    uint32_t room[4];
    uint16_t lower, upper;

    EXPECT(sizeof(dowrhesk_node) == 6 && offsetof(dowrhesk_node, high) == 4);
    EXPECT(dowrhesk_read_function((const uint8_t *)function, strlen(function), TABLE, read) == 0);
    EXPECT(dowrhesk_row_read_function((const uint8_t *)function, strlen(function), nodes, RECORDS,
                                      row_read) == 0);
    EXPECT(memcmp(row_read, read, sizeof read) == 0 && same_records() == 0);
    lower = (uint16_t)read[3];
    upper = (uint16_t)read[4];

    EXPECT(dowrhesk_row_generate(2, nodes, RECORDS, read[2], lower, upper, room, 4, listed) == 0);
    EXPECT(listed[0] == 0 && listed[1] == 2 && room[0] == 1 && room[1] == 2 && room[2] == 0);
    EXPECT(same_records() == 0);
    EXPECT(dowrhesk_row_check(2, nodes, RECORDS, read[2], lower, upper, room, 2, judged) == 0);
    EXPECT(judged[0] == DOWRHESK_ACCEPT && judged[1] == 0 && judged[2] == 0);
    EXPECT(dowrhesk_row_generate(2, nodes, RECORDS, read[2], lower, upper, room, 1, listed) ==
           DOWRHESK_LIST_LACKS);
    EXPECT(listed[0] == 2 && listed[1] == 0);
    EXPECT(dowrhesk_row_check(17, NULL, 0, 0, 0, 0, NULL, 0, judged) == DOWRHESK_COLUMNS_OVER);
    return 0;
}

static int operations_on_a_row(void) {
    uint64_t a[2], b[2], out[2], value[1];

    memset(nodes, 0, sizeof nodes);
    EXPECT(dowrhesk_row_variable(2, nodes, RECORDS, 0, 0, a) == 0 && a[0] == 2 && a[1] == 1);
    EXPECT(nodes[0].level == 0 && nodes[0].low == 0 && nodes[0].high == 1);
    EXPECT(dowrhesk_row_variable(2, nodes, RECORDS, a[1], 1, b) == 0 && b[0] == 3 && b[1] == 2);
    EXPECT(dowrhesk_row_and(2, nodes, RECORDS, 2, 2, 3, out) == 0 && out[1] == 3);
    EXPECT(dowrhesk_row_value(2, nodes, RECORDS, 3, (uint16_t)out[0], 3, value) == 0);
    EXPECT(value[0] == 1);
    EXPECT(dowrhesk_row_or(2, nodes, RECORDS, 3, 2, 3, out) == 0 && out[1] == 4);
    EXPECT(dowrhesk_row_value(2, nodes, RECORDS, 4, (uint16_t)out[0], 0, value) == 0);
    EXPECT(value[0] == 0);
    EXPECT(dowrhesk_row_difference(2, nodes, 4, 4, 2, 3, out) == DOWRHESK_NODES_LACK);
    EXPECT(out[0] == 0 && out[1] == 4);
    EXPECT(dowrhesk_row_difference(2, nodes, RECORDS, 4, 2, 2, out) == 0);
    EXPECT(out[0] == 0 && out[1] == 4);
    return 0;
}

static int programs(void) {
    static uint8_t answer[DOWRHESK_ANSWER_ROOM];
    static uint8_t input[128];
    size_t bytes = strlen(function);
    size_t listed = dowrhesk_list_answer((const uint8_t *)function, bytes, answer, sizeof answer);

    EXPECT(listed == strlen(expected) && memcmp(answer, expected, listed) == 0);
    memcpy(input, function, bytes);
    memcpy(input + bytes, answer, listed);
    EXPECT(dowrhesk_check_answer(input, bytes + listed, answer, sizeof answer) == 7);
    EXPECT(memcmp(answer, "accept\n", 8) == 0);
    EXPECT(dowrhesk_check_answer(input, bytes, answer, 7) == 0);
    return 0;
}

int main(void) {
    return list_and_check() || refusals() || operations() || list_and_check_on_a_row() ||
           operations_on_a_row() || programs();
}
