#include "traffic.h"

#include "configs.h"
#include "random.h"

enum spread {
    ANYWHERE,
    ROWS_OF_ONE_BANK,
    ROWS_OF_EVERY_BANK,
    ONE_ROW_OF_EACH_BANK, /* in different blocks; the rows stay open */
    ONE_BLOCK,
    TWO_BLOCKS,
    EDGES,
    SPREADS
};

static void fill_edges(struct geometry g, uint32_t *pool)
{
    uint32_t row_of_bank = UINT32_C(2) << g.column_bits;
    uint32_t end = capacity(g);
    uint32_t edges[POOL] = {0, end - 2, 2046, 2048, row_of_bank - 2, row_of_bank, end / 2 - 2, end / 2};
    unsigned n;

    for (n = 0; n < POOL; n++)
        pool[n] = edges[n];
}

static void fill_pool(uint64_t *random, struct geometry g, enum spread spread, uint32_t *pool)
{
    struct cell base = draw_cell(random, g);
    uint32_t blocks = capacity(g) / 2048;
    uint32_t block[2];
    unsigned n;

    block[0] = random_below(random, blocks);
    block[1] = random_once_in(random, 2) ? (block[0] + 1) % blocks : random_below(random, blocks);
    for (n = 0; n < POOL; n++) {
        struct cell cell = draw_cell(random, g);

        if (spread == ROWS_OF_ONE_BANK) {
            cell.bank = base.bank;
            cell.row = (base.row + n) % (1u << g.row_bits);
        } else if (spread == ROWS_OF_EVERY_BANK) {
            cell.bank = n % (1u << g.bank_bits);
            cell.row = (base.row + n / 4) % (1u << g.row_bits);
        } else if (spread == ONE_ROW_OF_EACH_BANK) {
            cell.bank = n % (1u << g.bank_bits);
            cell.row = (base.row + 4 * cell.bank) % (1u << g.row_bits);
        }
        pool[n] = address_of(g, cell);
        if (spread == ONE_BLOCK || spread == TWO_BLOCKS)
            pool[n] = 2048 * block[spread == ONE_BLOCK ? 0 : n % 2] + 2 * random_below(random, 1024);
    }
    if (spread == EDGES)
        fill_edges(g, pool);
}

static bool row_cycle_is_long(const struct configuration *c)
{
    return c->tRC > c->tRAS + c->tRP && c->tRC > c->tWR + c->tRP;
}

struct traffic draw_traffic(uint64_t *random, const struct configuration *c)
{
    static const unsigned shares[] = {0, 3, 50, 97, 100};
    struct geometry g = c->geometry;
    uint32_t RR = c->RR;
    uint32_t way = random_below(random, 10);
    struct traffic t;

    fill_pool(random, g, random_below(random, SPREADS), t.pool);
    t.pace = random_below(random, PACES);
    t.reads = shares[random_below(random, 5)];
    t.until_backlog = NEVER;
    t.slots = random_below(random, 3 * RR) + 1;
    t.pause_from = 1 + random_below(random, 11);
    t.pause = 0;
    t.lead = 0;
    if (random_once_in(random, 3) && row_cycle_is_long(c))
        way = 7;
    switch (way) {
    case 0: /* climb through the levels, to one of them or into Must and beyond */
        t.pace = KEEP_FULL;
        t.reads = 100;
        t.until_backlog = random_once_in(random, 4) ? NEVER : 1 + random_below(random, 12);
        t.slots = 14 * RR;
        break;
    case 1: /* Need refreshes that meet an expiry */
        t.pace = PAUSE_AT_EXPIRY;
        t.reads = 100;
        t.pause_from = 8 + random_below(random, 4);
        t.slots = 24 * RR;
        break;
    case 2:
        t.pace = IDLE;
        t.slots = random_below(random, 6 * RR) + 1;
        break;
    case 3:
        t.pace = KEEP_FULL;
        t.reads = 50;
        t.slots = random_below(random, 14 * RR) + 1;
        break;
    case 4: /* a refresh soon after writes and reads of different banks */
    case 5:
        t.pace = PAUSE_AT_EXPIRY;
        t.reads = 50;
        t.slots = 12 * RR;
        fill_pool(random, g, ONE_ROW_OF_EACH_BANK, t.pool);
        break;
    case 6:
        t.slots = random_below(random, 20) + 1;
        break;
    case 7: /* a refresh soon after ACTs of different banks */
        t.pace = BEFORE_REFRESH;
        t.reads = random_once_in(random, 2) ? 3 : 50;
        t.slots = 12 * RR;
        fill_pool(random, g, ROWS_OF_EVERY_BANK, t.pool);
        break;
    default:
        break;
    }
    return t;
}

void follow_interval(uint64_t *random, struct traffic *t, const struct machine *m)
{
    if (m->interval == m->c.RR) {
        t->pause = random_below(random, m->c.RR / 3);
        t->lead = 1 + random_below(random, 20);
    }
}

unsigned draw_requests(uint64_t *random, const struct traffic *t, const struct machine *m)
{
    unsigned room = m->queued < QUEUE_ROOM ? QUEUE_ROOM - m->queued : 0;
    bool near_expiry = m->interval <= 3 || m->interval + 3 >= m->c.RR;

    switch (t->pace) {
    case NOW_AND_THEN:
        return random_once_in(random, 8);
    case BURST_AT_EXPIRY:
        return near_expiry && random_once_in(random, 2) ? 1 + random_below(random, QUEUE_ROOM) : 0;
    case PAUSE_AT_EXPIRY:
        return (m->backlog < t->pause_from || m->interval > t->pause) && m->queued < 2;
    case BEFORE_REFRESH:
        if (m->queued == 0 && (all_banks_closed(&m->past) || m->interval == t->lead))
            return 1 + random_below(random, 3);
        return 0;
    case KEEP_FULL:
        return room + random_once_in(random, 50); /* now and then one too many */
    default:
        return 0;
    }
}

enum request_kind draw_kind(uint64_t *random, const struct traffic *t)
{
    return random_below(random, 100) < t->reads ? READ_REQUEST : WRITE_REQUEST;
}
