/* Tests of every function through the header, in C.
 *
 * Lent lists end right before a page that may not be touched, so that a read
 * or write behind a list stops the program on any machine. */
#define _DEFAULT_SOURCE
#include <stdio.h>
#include <stdlib.h>
#include <string.h>
#include <sys/mman.h>
#include <unistd.h>
#include "sendurafi.h"

#define P SENDURAFI_P

static int failed, passed;

#define EXPECT(what) expect((what), #what, __LINE__)
static void expect(int held, const char *what, int line) {
    if (held) {
        passed++;
        return;
    }
    failed++;
    fprintf(stderr, "test.c:%d: does not hold: %s\n", line, what);
}

/* Room for so many bytes that ends at a page that may not be touched. */
static void *fenced(size_t bytes) {
    size_t page = (size_t)sysconf(_SC_PAGESIZE);
    size_t room = (bytes + page - 1) / page * page;
    char *start = mmap(NULL, room + page, PROT_READ | PROT_WRITE, MAP_PRIVATE | MAP_ANONYMOUS, -1, 0);
    if (start == MAP_FAILED || mprotect(start + room, page, PROT_NONE) != 0) {
        perror("no memory for a list");
        exit(1);
    }
    return start + room - bytes;
}

static uint32_t *list(size_t length, const uint32_t *numbers) {
    uint32_t *copy = fenced(length * sizeof *copy);
    if (length > 0) memcpy(copy, numbers, length * sizeof *copy);
    return copy;
}

#define LIST(...) list(sizeof((uint32_t[]){__VA_ARGS__}) / 4, (uint32_t[]){__VA_ARGS__})

static int holds(const uint32_t *at, size_t length, const uint32_t *numbers) {
    return memcmp(at, numbers, length * sizeof *at) == 0;
}

#define HOLDS(at, ...) \
    holds((at), sizeof((uint32_t[]){__VA_ARGS__}) / 4, (uint32_t[]){__VA_ARGS__})

static int is(sendurafi_answer a, uint32_t kind, uint32_t number, uint32_t value) {
    return a.kind == kind && a.number == number && a.line == 0 && a.value == value;
}

static int given(sendurafi_answer a, uint32_t value) { return is(a, SENDURAFI_DONE, 0, value); }
static int done(sendurafi_answer a) { return is(a, SENDURAFI_DONE, 0, 0); }
static int rejected(sendurafi_answer a, uint32_t round) { return is(a, SENDURAFI_REJECTED, round, 0); }
static int refused(sendurafi_answer a, uint32_t number) { return is(a, SENDURAFI_REFUSED, number, 0); }

static void test_field(void) {
    EXPECT(given(sendurafi_sum(P - 1, 1), 0));
    EXPECT(given(sendurafi_sum(P - 1, P - 1), P - 2));
    EXPECT(refused(sendurafi_sum(P, 0), 5));
    EXPECT(refused(sendurafi_sum(0, UINT32_MAX), 5));
    EXPECT(given(sendurafi_difference(0, 1), P - 1));
    EXPECT(given(sendurafi_difference(7, 7), 0));
    EXPECT(refused(sendurafi_difference(0, P), 5));
    EXPECT(given(sendurafi_negative(0), 0));
    EXPECT(given(sendurafi_negative(1), P - 1));
    EXPECT(refused(sendurafi_negative(P), 5));
    EXPECT(given(sendurafi_product(P - 1, P - 1), 1));
    EXPECT(given(sendurafi_product(65536, 65536), 2));
    EXPECT(refused(sendurafi_product(P, P), 5));
    EXPECT(given(sendurafi_power(0, 0), 1));
    EXPECT(given(sendurafi_power(0, 1), 0));
    EXPECT(given(sendurafi_power(2, 31), 1));
    EXPECT(given(sendurafi_power(P - 1, UINT64_MAX), P - 1));
    EXPECT(refused(sendurafi_power(P, 0), 5));
    EXPECT(given(sendurafi_inverse(2), 1073741824));
    EXPECT(given(sendurafi_inverse(P - 1), P - 1));
    EXPECT(refused(sendurafi_inverse(0), 6));
    EXPECT(refused(sendurafi_inverse(P), 5));
}

static void test_tables(void) {
    const uint32_t *tables = LIST(0, 1, 2, 0, 3, 4, 1, 2), *point = LIST(3, 1);
    EXPECT(given(sendurafi_true_sum(2, 2, tables, 8), 6));
    EXPECT(given(sendurafi_true_sum(2, 1, tables + 4, 4), 10));
    EXPECT(given(sendurafi_true_sum(0, 3, LIST(5, 7, 2), 3), 70));
    /* A remainder; and 3 - 10, which is -7. */
    EXPECT(given(sendurafi_true_sum(1, 1, LIST(P - 1, 5), 2), 4));
    EXPECT(given(sendurafi_true_sum(1, 1, LIST(3, sendurafi_negative(10).value), 2), P - 7));
    EXPECT(refused(sendurafi_true_sum(17, 4, tables, 8), 1));
    EXPECT(refused(sendurafi_true_sum(2, 4, tables, 8), 2));
    EXPECT(refused(sendurafi_true_sum(2, 0, tables, 8), 2));
    EXPECT(refused(sendurafi_true_sum(2, 1, tables, 8), 3));
    EXPECT(refused(sendurafi_true_sum(2, 1, NULL, 0), 3));
    EXPECT(refused(sendurafi_true_sum(1, 1, LIST(0, P), 2), 5));
    EXPECT(given(sendurafi_value_at(2, 2, tables, 8, point, 2), 4));
    EXPECT(given(sendurafi_value_at(0, 2, LIST(5, 7), 2, NULL, 0), 35));
    EXPECT(refused(sendurafi_value_at(17, 0, tables, 8, point, 2), 1));
    EXPECT(refused(sendurafi_value_at(2, 0, tables, 8, point, 2), 2));
    EXPECT(refused(sendurafi_value_at(2, 2, tables, 7, point, 2), 3));
    EXPECT(refused(sendurafi_value_at(2, 2, tables, 8, point, 1), 3));
    EXPECT(refused(sendurafi_value_at(2, 2, tables, 8, LIST(3, P), 2), 5));
}

static void test_prove(void) {
    const uint32_t *tables = LIST(0, 1, 2, 0, 3, 4, 1, 2), *challenges = LIST(3, 1);
    uint32_t *messages = LIST(9, 9, 9, 9, 9, 9, 9), *scratch = LIST(8, 8, 8, 8, 8, 8, 8, 8, 8);
    EXPECT(refused(sendurafi_prove(17, 4, tables, 8, challenges, 2, messages, 7, scratch, 9), 1));
    EXPECT(refused(sendurafi_prove(2, 4, tables, 8, challenges, 2, messages, 7, scratch, 9), 2));
    EXPECT(refused(sendurafi_prove(2, 2, tables, 7, challenges, 2, messages, 7, scratch, 9), 3));
    EXPECT(refused(sendurafi_prove(2, 2, tables, 8, challenges, 1, messages, 7, scratch, 9), 3));
    EXPECT(refused(sendurafi_prove(2, 2, tables, 8, challenges, 2, messages, 5, scratch, 9), 4));
    EXPECT(refused(sendurafi_prove(2, 2, tables, 8, challenges, 2, messages, 7, scratch, 7), 4));
    EXPECT(refused(sendurafi_prove(2, 2, tables, 8, LIST(3, P), 2, messages, 7, scratch, 9), 5));
    EXPECT(HOLDS(messages, 9, 9, 9, 9, 9, 9, 9));
    EXPECT(HOLDS(scratch, 8, 8, 8, 8, 8, 8, 8, 8, 8));
    EXPECT(done(sendurafi_prove(2, 2, tables, 8, challenges, 2, messages, 7, scratch, 9)));
    EXPECT(HOLDS(messages, 4, 0, 2147483645, 2147483629, 30, 2147483639, 9));
    EXPECT(HOLDS(scratch, 0, 0, 0, 0, 0, 0, 0, 0, 8));
    EXPECT(done(sendurafi_prove(0, 1, LIST(5), 1, NULL, 0, NULL, 0, scratch, 9)));
}

/* The largest sizes: proved, then checked; a changed message is rejected. */
static void test_largest(void) {
    size_t tables_len = SENDURAFI_MAX_TABLES_LEN, messages_len = SENDURAFI_MAX_MESSAGE_LEN;
    uint32_t *tables = fenced(4 * tables_len), *scratch = fenced(4 * tables_len);
    uint32_t *messages = fenced(4 * messages_len), *challenges = fenced(4 * SENDURAFI_MAX_VARS);
    uint64_t state = 1;
    for (size_t i = 0; i < tables_len; i++) {
        state = state * 1103515245 + 12345;
        tables[i] = (uint32_t)(state % P);
    }
    for (size_t i = 0; i < SENDURAFI_MAX_VARS; i++) challenges[i] = P - 1 - (uint32_t)(i * i);
    sendurafi_answer sum = sendurafi_true_sum(16, 3, tables, tables_len);
    EXPECT(sum.kind == SENDURAFI_DONE);
    EXPECT(done(sendurafi_prove(16, 3, tables, tables_len, challenges, 16, messages, messages_len,
                                scratch, tables_len)));
    EXPECT(done(sendurafi_check(16, 3, tables, tables_len, sum.value, challenges, 16, messages,
                                messages_len)));
    messages[messages_len - 1] = (messages[messages_len - 1] + 1) % P;
    EXPECT(rejected(sendurafi_check(16, 3, tables, tables_len, sum.value, challenges, 16, messages,
                                    messages_len), 16));
}

static void test_check(void) {
    const uint32_t *tables = LIST(0, 1, 2, 0, 3, 4, 1, 2), *challenges = LIST(3, 1);
    const uint32_t *messages = LIST(4, 0, 2147483645, 2147483629, 30, 2147483639);
    EXPECT(done(sendurafi_check(2, 2, tables, 8, 6, challenges, 2, messages, 6)));
    EXPECT(rejected(sendurafi_check(2, 2, tables, 8, 7, challenges, 2, messages, 6), 1));
    EXPECT(refused(sendurafi_check(17, 2, tables, 8, 6, challenges, 2, messages, 6), 1));
    EXPECT(refused(sendurafi_check(2, 0, tables, 8, 6, challenges, 2, messages, 6), 2));
    EXPECT(refused(sendurafi_check(2, 2, tables, 7, 6, challenges, 2, messages, 6), 3));
    EXPECT(refused(sendurafi_check(2, 2, tables, 8, 6, challenges, 1, messages, 6), 3));
    EXPECT(refused(sendurafi_check(2, 2, tables, 8, 6, challenges, 2, messages, 5), 3));
    EXPECT(refused(sendurafi_check(2, 2, tables, 8, P, challenges, 2, messages, 6), 5));
    /* A false claim: the lucky challenge, and another. */
    const uint32_t *table = LIST(3, 4, 1, 2), *liar = LIST(7, 2147483644, 3, 1);
    EXPECT(done(sendurafi_check(2, 1, table, 4, 11, LIST(0, 9), 2, liar, 4)));
    EXPECT(rejected(sendurafi_check(2, 1, table, 4, 11, LIST(5, 9), 2, liar, 4), 2));
    /* No variables. */
    EXPECT(done(sendurafi_check(0, 2, LIST(5, 7), 2, 35, NULL, 0, NULL, 0)));
    EXPECT(rejected(sendurafi_check(0, 2, LIST(5, 7), 2, 36, NULL, 0, NULL, 0), 0));
    EXPECT(given(sendurafi_check_rounds(2, 2, 6, challenges, 2, messages, 6), 4));
    EXPECT(given(sendurafi_check_rounds(0, 1, 9, NULL, 0, NULL, 0), 9));
    EXPECT(rejected(sendurafi_check_rounds(2, 2, 7, challenges, 2, messages, 6), 1));
    EXPECT(refused(sendurafi_check_rounds(17, 0, 6, challenges, 2, messages, 6), 1));
    EXPECT(refused(sendurafi_check_rounds(2, 4, 6, challenges, 2, messages, 6), 2));
    EXPECT(refused(sendurafi_check_rounds(2, 2, 6, challenges, 2, messages, 3), 3));
    EXPECT(refused(sendurafi_check_rounds(2, 2, 6, LIST(3, P), 2, messages, 6), 5));
}

static int state_is(sendurafi_state s, uint32_t vars, uint32_t degree, uint32_t taken,
                    uint32_t claim, uint32_t mark) {
    return s.vars == vars && s.degree == degree && s.taken == taken && s.claim == claim &&
           s.rejected == mark;
}

static void test_steps(void) {
    const uint32_t *one = LIST(4, 0, 2147483645), *two = LIST(2147483629, 30, 2147483639);
    sendurafi_stepped s = sendurafi_open(2, 2, 6);
    EXPECT(done(s.answer) && state_is(s.state, 2, 2, 0, 6, 0));
    EXPECT(refused(sendurafi_close(s.state, 6), 7));
    s = sendurafi_step(s.state, one, 3, 3);
    EXPECT(done(s.answer) && state_is(s.state, 2, 2, 1, 2147483633, 0));
    s = sendurafi_step(s.state, two, 2, 1);
    EXPECT(refused(s.answer, 3) && state_is(s.state, 2, 2, 1, 2147483633, 0));
    s = sendurafi_step(s.state, NULL, 0, 1);
    EXPECT(refused(s.answer, 3) && state_is(s.state, 2, 2, 1, 2147483633, 0));
    s = sendurafi_step(s.state, two, 3, P);
    EXPECT(refused(s.answer, 5) && state_is(s.state, 2, 2, 1, 2147483633, 0));
    s = sendurafi_step(s.state, two, 3, 1);
    EXPECT(done(s.answer) && state_is(s.state, 2, 2, 2, 4, 0));
    EXPECT(refused(sendurafi_step(s.state, two, 3, 1).answer, 7));
    EXPECT(done(sendurafi_close(s.state, 4)));
    EXPECT(rejected(sendurafi_close(s.state, 5), 2));
    EXPECT(refused(sendurafi_close(s.state, P), 5));

    EXPECT(refused(sendurafi_open(17, 4, P).answer, 1));
    EXPECT(refused(sendurafi_open(16, 4, P).answer, 2));
    EXPECT(refused(sendurafi_open(16, 3, P).answer, 5));

    s = sendurafi_step(sendurafi_open(2, 2, 7).state, one, 3, 3);
    EXPECT(rejected(s.answer, 1) && state_is(s.state, 2, 2, 0, 7, 1));
    EXPECT(refused(sendurafi_step(s.state, one, 3, 3).answer, 7));
    EXPECT(rejected(sendurafi_close(s.state, 0), 1));
}

static void test_forged_states(void) {
    const uint32_t *one = LIST(4, 0, 2147483645);
    sendurafi_state many = {2, 2, 3, 6, 0}, both = {2, 2, 2, 6, 1}, mark = {2, 2, 1, 6, 77};
    sendurafi_state vars = {17, 0, 0, P, 9}, degree = {2, 4, 0, P, 9}, claim = {2, 2, 9, P, 9};
    EXPECT(refused(sendurafi_step(many, one, 3, 3).answer, 7));
    EXPECT(refused(sendurafi_close(many, P), 7));
    EXPECT(refused(sendurafi_close(both, P), 7));
    EXPECT(refused(sendurafi_close(vars, P), 1));
    EXPECT(refused(sendurafi_close(degree, P), 2));
    EXPECT(refused(sendurafi_close(claim, P), 5));
    EXPECT(rejected(sendurafi_close(mark, 6), 2));
    /* Any number but 0 is a mark, handed back as 1; nothing else changes. */
    sendurafi_stepped s = sendurafi_step(mark, one, 3, 3);
    EXPECT(refused(s.answer, 7) && state_is(s.state, 2, 2, 1, 6, 1));
    s = sendurafi_step(many, one, 3, 3);
    EXPECT(state_is(s.state, 2, 2, 3, 6, 0));
}

static int part_is(uint32_t vars, uint32_t degree, size_t length, uint32_t round, size_t start,
                   size_t part_length, uint32_t number) {
    const uint32_t *messages = fenced(4 * length);
    sendurafi_part part = sendurafi_round_part(vars, degree, messages, length, round);
    return part.start == start && part.length == part_length &&
           sendurafi_round_part_refusal(vars, degree, messages, length, round) == number;
}

static void test_round_part(void) {
    EXPECT(part_is(2, 2, 6, 1, 0, 3, 0));
    EXPECT(part_is(2, 2, 6, 2, 3, 3, 0));
    EXPECT(part_is(16, 3, 64, 16, 60, 4, 0));
    EXPECT(part_is(17, 4, 5, 0, 0, 0, 1));
    EXPECT(part_is(17, 4, 6, 1, 0, 0, 1));
    EXPECT(part_is(2, 4, 5, 0, 0, 0, 2));
    EXPECT(part_is(2, 4, 6, 1, 0, 0, 2));
    EXPECT(part_is(2, 2, 5, 0, 0, 0, 3));
    EXPECT(part_is(2, 2, 6, 0, 0, 0, 8));
    EXPECT(part_is(2, 2, 6, 3, 0, 0, 8));
    EXPECT(sendurafi_round_part_refusal(0, 1, NULL, 0, 1) == 8);
}

static int file_refused(const char *text, size_t size, uint32_t number, uint32_t line) {
    uint8_t *bytes = fenced(size);
    uint32_t *messages = LIST(9, 9, 9, 9, 9, 9);
    if (size > 0) memcpy(bytes, text, size);
    sendurafi_file file = sendurafi_read(bytes, size, messages, 6);
    return file.kind == SENDURAFI_REFUSED && file.number == number && file.line == line &&
           file.vars == 0 && file.degree == 0 && file.claim == 0 && HOLDS(messages, 9, 9, 9, 9, 9, 9);
}

static void test_read(void) {
    const char *text =
        "sumproof=1\nfield=2147483647\nvars=2\ndegree=2\nclaim=6\n"
        "round=4,0,2147483645\nround=2147483629,30,2147483639\nend=2\n";
    static char longest[SENDURAFI_MAX_FILE_BYTES + 1];
    size_t size = strlen(text);
    uint8_t *bytes = fenced(size);
    memcpy(bytes, text, size);
    uint32_t *messages = LIST(9, 9, 9, 9, 9, 9, 9);
    sendurafi_file file = sendurafi_read(bytes, size, messages, 5);
    EXPECT(file.kind == SENDURAFI_REFUSED && file.number == 4 && file.line == 0);
    EXPECT(HOLDS(messages, 9, 9, 9, 9, 9, 9, 9));
    file = sendurafi_read(bytes, size, messages, 7);
    EXPECT(file.kind == SENDURAFI_DONE && file.number == 0 && file.line == 0);
    EXPECT(file.vars == 2 && file.degree == 2 && file.claim == 6);
    EXPECT(HOLDS(messages, 4, 0, 2147483645, 2147483629, 30, 2147483639, 9));
    file = sendurafi_read(NULL, 0, NULL, 0);
    EXPECT(file.kind == SENDURAFI_REFUSED && file.number == 11 && file.line == 1);
    EXPECT(file_refused(text, size - 1, 10, 8));
    EXPECT(file_refused(text, size - 6, 11, 8));
    EXPECT(file_refused("sumproof=2\n", 11, 12, 1));
    EXPECT(file_refused(longest, SENDURAFI_MAX_FILE_BYTES, 10, 1));
    EXPECT(file_refused(longest, SENDURAFI_MAX_FILE_BYTES + 1, 9, 0));
    memcpy(longest, text, size);
    EXPECT(file_refused(longest, size + 1, 13, 9));
}

int main(void) {
    test_field();
    test_tables();
    test_prove();
    test_largest();
    test_check();
    test_steps();
    test_forged_states();
    test_round_part();
    test_read();
    printf("%d passed, %d failed\n", passed, failed);
    return failed != 0;
}
