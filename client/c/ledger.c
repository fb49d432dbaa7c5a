/* An example client: checks the proof of a ledger's total modulo 2147483647.
 * sendurafi.h says when that is the total itself.
 *
 *   ledger PROOF LEDGER CHALLENGES
 *
 * LEDGER has 2^m balances and CHALLENGES m numbers, in decimal. The answer is
 * a line, and an exit status: 0 accepted, 1 rejected, 2 refused. */
#include <inttypes.h>
#include <stdio.h>
#include "sendurafi.h"

/* The numbers of a file; room + 1 if it has more than room, or anything else. */
static size_t numbers(const char *name, uint32_t *list, size_t room) {
    FILE *file = fopen(name, "r");
    size_t count = 0;
    int got;
    unsigned long long number;
    if (file == NULL) return room + 1;
    while ((got = fscanf(file, "%19llu", &number)) == 1 && count < room && number <= UINT32_MAX)
        list[count++] = (uint32_t)number;
    if (got != EOF) count = room + 1;
    fclose(file);
    return count;
}

static int refused(const char *name, uint32_t number, uint32_t line) {
    printf("%s: refused, number %" PRIu32 ", line %" PRIu32 "\n", name, number, line);
    return 2;
}

int main(int argc, char **argv) {
    static uint8_t bytes[SENDURAFI_MAX_FILE_BYTES + 1];
    static uint32_t messages[SENDURAFI_MAX_MESSAGE_LEN], challenges[SENDURAFI_MAX_VARS];
    static uint32_t table[SENDURAFI_TABLES_LEN(SENDURAFI_MAX_VARS, 1)];
    if (argc != 4) return fprintf(stderr, "usage: ledger PROOF LEDGER CHALLENGES\n"), 2;

    FILE *file = fopen(argv[1], "rb");
    if (file == NULL) return perror(argv[1]), 2;
    size_t size = fread(bytes, 1, sizeof bytes, file);
    fclose(file);
    sendurafi_file proof = sendurafi_read(bytes, size, messages, SENDURAFI_MAX_MESSAGE_LEN);
    if (proof.kind != SENDURAFI_DONE) return refused(argv[1], proof.number, proof.line);

    size_t balances = numbers(argv[2], table, sizeof table / sizeof *table);
    size_t drawn = numbers(argv[3], challenges, SENDURAFI_MAX_VARS);
    if (balances > sizeof table / sizeof *table) return printf("%s: no ledger\n", argv[2]), 2;
    if (drawn > SENDURAFI_MAX_VARS) return printf("%s: no challenges\n", argv[3]), 2;

    /* Wrong lengths and numbers need no care here: the library refuses them. */
    sendurafi_answer verdict = sendurafi_check(
        proof.vars, proof.degree, table, balances, proof.claim, challenges, drawn, messages,
        SENDURAFI_MESSAGE_LEN(proof.vars, proof.degree));
    if (verdict.kind == SENDURAFI_REFUSED) return refused("check", verdict.number, verdict.line);
    if (verdict.kind == SENDURAFI_REJECTED)
        return printf("rejected in round %" PRIu32 "\n", verdict.number), 1;
    return printf("accepted: total %" PRIu32 " modulo %u\n", proof.claim, SENDURAFI_P), 0;
}
