/* See side.h. */
#include "side.h"

#include "plain.h"

/* A call of the plain C version, behind the interface's own questions. */
#define ASKING(name, lent, words, fits)                             \
    static uint32_t asking_##name lent {                            \
        if (!plain_is_state(s, k))                                  \
            return TIEBEAMER_NO_STATE;                              \
        return (fits) ? plain_##name words : TIEBEAMER_NO_CALL;     \
    }

#define TABLE uint32_t *t, size_t n
#define STATE uint32_t *s, size_t k

ASKING(reset, (TABLE, STATE), (t, n, s, k), 1)
ASKING(begin, (const TABLE, STATE, uint32_t task, uint32_t operation, uint32_t number, uint32_t price),
       (t, n, s, k, task, operation, number, price), operation - 1 < 3)
ASKING(step, (TABLE, STATE, uint32_t task, uint32_t *price), (t, n, s, k, task, price), 1)
ASKING(run, (TABLE, STATE, uint32_t task, uint32_t count, uint32_t *price),
       (t, n, s, k, task, count, price), count - 1 < TIEBEAMER_COUNT_MOST)
ASKING(abandon, (const TABLE, STATE, uint32_t task), (t, n, s, k, task), 1)
ASKING(tidy, (TABLE, STATE), (t, n, s, k), 1)
ASKING(figures, (const TABLE, const STATE, uint32_t *figures), (t, n, s, k, figures), 1)
ASKING(list, (const TABLE, const STATE, uint32_t *room, size_t count), (t, n, s, k, room, count), 1)

#define SIDE(name)                                                                                                \
    {                                                                                                             \
        #name, name##_reset, name##_begin, name##_step, name##_run, name##_abandon, name##_tidy, name##_figures,  \
            name##_list                                                                                           \
    }

const struct side archive_side = SIDE(tiebeamer);
const struct side plain_side = SIDE(plain);
const struct side asking_side = SIDE(asking);
