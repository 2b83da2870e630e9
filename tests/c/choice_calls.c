/* The choice of costs between guards. */
#include "choice_calls.h"

#include "calls.h"

#include <inttypes.h>
#include <string.h>

/* No value is as large as what lent memory holds, so one that is as it was was not written. */
static void require_all_written(const size_t *values, const size_t *before)
{
    for (size_t i = 0; i < LYRA2_CHOICE_VALUES; i++)
        if (values[i] == before[i])
            fail("values: place %zu was not written", i);
}

struct choice ask_choice(const struct choice_sizes *n)
{
    struct lent place;
    size_t before[LYRA2_CHOICE_VALUES];
    lend(&place, sizeof before, sizeof *before, NULL);
    size_t *values = lent_part(&place);
    memcpy(before, values, sizeof before);
    uint32_t answer = lyra2_choose(n->key, n->password, n->salt, n->matrix, n->budget, n->rounds, n->tries, values);
    calls_made++;
    require_kept(&place, sizeof before, "values");
    if (answer == LYRA2_ACCEPTED)
        require_all_written(values, before);
    else
        require_zeros(&place, sizeof before, "values");
    struct choice choice = {answer, values[LYRA2_CHOICE_TIME], values[LYRA2_CHOICE_ROWS],
                            values[LYRA2_CHOICE_COLUMNS], values[LYRA2_CHOICE_SHORTFALL]};
    take_back(&place);
    return choice;
}

struct choice refused_choice(uint32_t refusal)
{
    return (struct choice){refusal, 0, 0, 0, 0};
}

static void require_value(const char *what, const struct choice_sizes *n, const char *name, size_t value, size_t due)
{
    if (value != due)
        fail("choose, %s: %s is %zu, where %zu is due: key %zu, password %zu, salt %zu, matrix %zu, budget %" PRIu64
             ", rounds %zu, tries %zu", what, name, value, due, n->key, n->password, n->salt, n->matrix, n->budget,
             n->rounds, n->tries);
}

void require_chosen(const char *what, const struct choice_sizes *n, struct choice due)
{
    struct choice choice = ask_choice(n);
    require_value(what, n, "the answer", choice.answer, due.answer);
    require_value(what, n, "R", choice.rows, due.rows);
    require_value(what, n, "C", choice.columns, due.columns);
    require_value(what, n, "the shortfall", choice.shortfall, due.shortfall);
    require_value(what, n, "T", choice.time, due.time);
}
