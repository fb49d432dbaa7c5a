/* The memory layout that callers rely on, judged by the compiler alone. */
#include "sendurafi.h"

#define SAME(what, number) _Static_assert((what) == (number), #what)

SAME(sizeof(sendurafi_answer), 16);
SAME(offsetof(sendurafi_answer, kind), 0);
SAME(offsetof(sendurafi_answer, number), 4);
SAME(offsetof(sendurafi_answer, line), 8);
SAME(offsetof(sendurafi_answer, value), 12);

SAME(sizeof(sendurafi_state), 20);
SAME(offsetof(sendurafi_state, vars), 0);
SAME(offsetof(sendurafi_state, degree), 4);
SAME(offsetof(sendurafi_state, taken), 8);
SAME(offsetof(sendurafi_state, claim), 12);
SAME(offsetof(sendurafi_state, rejected), 16);

SAME(sizeof(sendurafi_stepped), 36);
SAME(offsetof(sendurafi_stepped, state), 0);
SAME(offsetof(sendurafi_stepped, answer), 20);

SAME(sizeof(sendurafi_file), 24);
SAME(offsetof(sendurafi_file, kind), 0);
SAME(offsetof(sendurafi_file, number), 4);
SAME(offsetof(sendurafi_file, line), 8);
SAME(offsetof(sendurafi_file, vars), 12);
SAME(offsetof(sendurafi_file, degree), 16);
SAME(offsetof(sendurafi_file, claim), 20);

SAME(sizeof(sendurafi_part), 16);
SAME(offsetof(sendurafi_part, start), 0);
SAME(offsetof(sendurafi_part, length), 8);

SAME(SENDURAFI_MAX_TABLES_LEN, 196608);
SAME(SENDURAFI_MAX_MESSAGE_LEN, 64);
SAME(SENDURAFI_ROUND_LEN(3), 4);
