/* Sendurafi: sums over large tables modulo p, proved by sumcheck and checked.
 *
 * A server proves a total with sendurafi_prove. A client reads the proof file
 * with sendurafi_read and checks it with sendurafi_check, or round by round
 * with sendurafi_open, sendurafi_step and sendurafi_close. Choosing the
 * challenges, each after its message is seen, is the caller's duty.
 *
 * Every total is modulo p = 2147483647: what is claimed, proved and checked is
 * the sum's remainder. That is the sum itself if the sum is below p, which is
 * sure if 2^m times the greatest number of the table is below p; with k tables,
 * 2^m times the product of their greatest numbers. Otherwise only the remainder
 * is proved.
 *
 * A negative balance -b, with 0 < b < p, is written as p - b, which is what
 * sendurafi_negative gives. To read the total as a signed number one must know
 * bounds: if each amount that is added up (with k tables, each product) lies
 * between -B and B, and 2^m * B is below p / 2, then a total above p / 2 stands
 * for total - p, and any other for itself.
 *
 * Acceptance does not mean that the sum is true: a false sum is accepted when
 * a challenge is a lucky one. In each round at most `degree` of the
 * 2147483647 challenges are lucky.
 *
 * Terms
 *   element     a number below SENDURAFI_P
 *   vars        the number of variables m, 0 to 16
 *   degree      the number of tables k, 1 to 3
 *   tables      k tables of 2^m elements, one after the other; in each the
 *               value at (x1, .., xm) stands at x1*2^(m-1) + .. + xm
 *   claim       an element: what f, summed over all corners, is said to be
 *               modulo p
 *   challenges  m elements
 *   messages    m rounds of k+1 coefficients, lowest power first
 *
 * What a caller owes. Memory handed over must be valid for its length,
 * aligned as its type is, and lists that are written to must overlap no other
 * list of the call. A list of length 0 may be NULL. Nothing is kept after a
 * call returns. Nothing else is asked: any numbers, lengths, bytes and states
 * get an answer. No function allocates, waits, or has memory of its own, so
 * all may be called from any thread. Of the C library the archive needs at
 * most memcpy, memmove, memset and memcmp.
 *
 * A refused call changes no lent memory. Refusals are given in the order
 * stated at each function: the first that holds is the answer.
 */
#ifndef SENDURAFI_H
#define SENDURAFI_H

#include <stddef.h>
#include <stdint.h>

#ifdef __cplusplus
extern "C" {
#endif

#define SENDURAFI_P 2147483647u /* p */
#define SENDURAFI_MAX_VARS 16u
#define SENDURAFI_MAX_DEGREE 3u
#define SENDURAFI_MAX_FILE_BYTES 4096u

/* Lengths, for vars and degree within their limits. */
#define SENDURAFI_TABLES_LEN(vars, degree) ((size_t)(degree) << (vars))
#define SENDURAFI_MESSAGE_LEN(vars, degree) ((size_t)(vars) * ((size_t)(degree) + 1u)) /* all rounds */
#define SENDURAFI_ROUND_LEN(degree) ((size_t)(degree) + 1u)                            /* one round */

/* Lengths that are enough for every vars and degree. */
#define SENDURAFI_MAX_TABLES_LEN SENDURAFI_TABLES_LEN(SENDURAFI_MAX_VARS, SENDURAFI_MAX_DEGREE)
#define SENDURAFI_MAX_MESSAGE_LEN SENDURAFI_MESSAGE_LEN(SENDURAFI_MAX_VARS, SENDURAFI_MAX_DEGREE)

/* The kind of an answer. Look at it first. */
#define SENDURAFI_DONE 0u     /* given, done, accepted, reached or taken */
#define SENDURAFI_REJECTED 1u /* number is the round */
#define SENDURAFI_REFUSED 2u  /* number is one of the refusals below */

/* Refusals. For 10 to 13 `line` is the file's line, from 1. */
#define SENDURAFI_REFUSED_VARS 1u     /* vars over 16 */
#define SENDURAFI_REFUSED_DEGREE 2u   /* degree 0 or over 3 */
#define SENDURAFI_REFUSED_LENGTH 3u   /* tables, challenges or messages not of the exact length */
#define SENDURAFI_REFUSED_ROOM 4u     /* a lent message list or scratch too short */
#define SENDURAFI_REFUSED_ELEMENT 5u  /* a number not below SENDURAFI_P */
#define SENDURAFI_REFUSED_INVERSE 6u  /* inverse of 0 */
#define SENDURAFI_REFUSED_STATE 7u    /* a state that does not allow this call */
#define SENDURAFI_REFUSED_ROUND 8u    /* round part 0 or over vars */
#define SENDURAFI_REFUSED_FILE 9u     /* file over 4,096 bytes */
#define SENDURAFI_REFUSED_FORM 10u    /* line not of its form */
#define SENDURAFI_REFUSED_MISSING 11u /* line missing */
#define SENDURAFI_REFUSED_NUMBER 12u  /* a number of right form but not allowed */
#define SENDURAFI_REFUSED_AFTER 13u   /* anything after the last line */

/* Fields of an answer that say nothing are 0. */
typedef struct {
    uint32_t kind;
    uint32_t number;
    uint32_t line;
    uint32_t value;
} sendurafi_answer;

/* The checker in steps. The caller keeps it and hands it in by value. */
typedef struct {
    uint32_t vars;
    uint32_t degree;
    uint32_t taken;    /* rounds taken */
    uint32_t claim;    /* the running claim, modulo p */
    uint32_t rejected; /* 0: no mark; any other number: rejected. Handed back as 0 or 1. */
} sendurafi_state;

typedef struct {
    sendurafi_state state;
    sendurafi_answer answer;
} sendurafi_stepped;

/* What a proof file says, beside its coefficients. */
typedef struct {
    uint32_t kind;
    uint32_t number;
    uint32_t line;
    uint32_t vars;
    uint32_t degree;
    uint32_t claim; /* modulo p */
} sendurafi_file;

/* A part of the caller's own list: the index of its first place, and its length. */
typedef struct {
    size_t start;
    size_t length;
} sendurafi_part;

/* ---- The field: arithmetic modulo SENDURAFI_P. The result is `value`. ---- */

/* a + b. Refusal 5. */
sendurafi_answer sendurafi_sum(uint32_t a, uint32_t b);

/* a - b. Refusal 5. */
sendurafi_answer sendurafi_difference(uint32_t a, uint32_t b);

/* -a. Refusal 5. */
sendurafi_answer sendurafi_negative(uint32_t a);

/* a times b. Refusal 5. */
sendurafi_answer sendurafi_product(uint32_t a, uint32_t b);

/* a to the power e, for any e; 0 to the power 0 is 1. Refusal 5. */
sendurafi_answer sendurafi_power(uint32_t a, uint64_t e);

/* The element that times a is 1. Refusals 5, 6. */
sendurafi_answer sendurafi_inverse(uint32_t a);

/* ---- Tables. f is the product of the tables' extensions, modulo p. ---- */

/* f summed over all corners, modulo p, in `value`. Refusals 1, 2, 3, 5. */
sendurafi_answer sendurafi_true_sum(uint32_t vars, uint32_t degree, const uint32_t *tables,
                                    size_t tables_len);

/* f at a point of m elements, modulo p, in `value`. Refusals 1, 2, 3, 5. */
sendurafi_answer sendurafi_value_at(uint32_t vars, uint32_t degree, const uint32_t *tables,
                                    size_t tables_len, const uint32_t *point, size_t point_len);

/* ---- The prover ---- */

/* Proves the sum of f over all corners, modulo p. Writes the true polynomials of
 * all rounds to the first SENDURAFI_MESSAGE_LEN(vars, degree) places of
 * messages. Works in scratch, whose first SENDURAFI_TABLES_LEN(vars, degree)
 * places are 0 afterwards. Both may be longer; what is behind stays unchanged.
 * Round j does not depend on challenge j or later ones. Refusals 1, 2, 3, 4, 5. */
sendurafi_answer sendurafi_prove(uint32_t vars, uint32_t degree, const uint32_t *tables,
                                 size_t tables_len, const uint32_t *challenges,
                                 size_t challenges_len, uint32_t *messages, size_t messages_len,
                                 uint32_t *scratch, size_t scratch_len);

/* ---- The checker in one call ---- */

/* Checks that f, summed over all corners, is `claim` modulo p. Accepted, or
 * rejected with the first round whose sum fails; a final check that fails is
 * rejected with round m. Refusals 1, 2, 3, 5. */
sendurafi_answer sendurafi_check(uint32_t vars, uint32_t degree, const uint32_t *tables,
                                 size_t tables_len, uint32_t claim, const uint32_t *challenges,
                                 size_t challenges_len, const uint32_t *messages,
                                 size_t messages_len);

/* The rounds without the final check, for a claim modulo p: `value` is what f
 * must be at the challenges, and the caller compares; or rejected with the
 * round. Refusals 1, 2, 3, 5. */
sendurafi_answer sendurafi_check_rounds(uint32_t vars, uint32_t degree, uint32_t claim,
                                        const uint32_t *challenges, size_t challenges_len,
                                        const uint32_t *messages, size_t messages_len);

/* ---- The checker in steps ---- */

/* The first state, before any round, for a claim modulo p. Refused, every use of
 * the state that comes back is refused too. Refusals 1, 2, 5. */
sendurafi_stepped sendurafi_open(uint32_t vars, uint32_t degree, uint32_t claim);

/* One round: a message of SENDURAFI_ROUND_LEN(degree) coefficients and its
 * challenge. Go on with the state that comes back. Rejected, only the mark is
 * set; refused, the state is unchanged, but for a mark that was not 0, which
 * comes back as 1. Refusals 1, 2, 5 for the running claim, 7, then 3, 5 for
 * what is given. */
sendurafi_stepped sendurafi_step(sendurafi_state state, const uint32_t *message,
                                 size_t message_len, uint32_t challenge);

/* Accepted if the running claim is `value`, which the caller gives for f at
 * the challenges, else rejected with round m; a rejected state gives its
 * round. Refusals 1, 2, 5 for the running claim, 7, then 5 for value. */
sendurafi_answer sendurafi_close(sendurafi_state state, uint32_t value);

/* ---- Round part ---- */

/* Where round `round`, from 1, stands in messages; start 0 and length 0 where
 * refused. Refusals 1, 2, 3, 8. */
sendurafi_part sendurafi_round_part(uint32_t vars, uint32_t degree, const uint32_t *messages,
                                    size_t messages_len, uint32_t round);

/* The refusal of the call above with the same inputs, 0 if none. */
uint32_t sendurafi_round_part_refusal(uint32_t vars, uint32_t degree, const uint32_t *messages,
                                      size_t messages_len, uint32_t round);

/* ---- Proof file ---- */

/* Reads a proof file, which claims a sum modulo p. Writes its coefficients to
 * the first SENDURAFI_MESSAGE_LEN(vars, degree) places of messages, vars and
 * degree being the file's; what is behind stays unchanged. A list of
 * SENDURAFI_MAX_MESSAGE_LEN places is always long enough. Refusal 9, then the
 * lines in order, in each 11, 10, 12, after the last line 13, at the end 4. */
sendurafi_file sendurafi_read(const uint8_t *bytes, size_t bytes_len, uint32_t *messages,
                              size_t messages_len);

#ifdef __cplusplus
}
#endif

#endif
