/* Answers the three queries of three.query along full.plan, written by hand over libpcap: the measure for `sonata run`.
 *
 *     switch CAPTURE [SLOTS]
 *
 * It prints what `sonata run full.switch three.query full.plan CAPTURE` prints: registers in chains of two, what finds no room is sent and finished in
 * tables, and what is sent is counted. SLOTS stands for the 4096 of the plan. */

#include "by_hand.h"

#define CHAIN 2

/* ---- chains of registers ---- */

typedef struct {
    uint64_t key[3], value;
    uint32_t round;
} Slot;

typedef struct {
    Slot *slots;
    int columns;
    uint32_t round;
} Chain;

static uint64_t room = 4096;

static void chain_make(Chain *c, int columns)
{
    c->slots = must(calloc(CHAIN * room, sizeof *c->slots));
    c->columns = columns;
    c->round = 1;
}

/* FNV-1a over the columns, eight bytes each, least byte first, from the basis exclusive-ored with the register's number. */
static uint64_t slot_of(uint64_t number, const uint64_t *key, int columns)
{
    uint64_t h = 14695981039346656037ull ^ number;
    for (int i = 0; i < columns; i++)
        for (int shift = 0; shift < 64; shift += 8)
            h = (h ^ (key[i] >> shift & 255)) * 1099511628211ull;
    return h % room;
}

/* The slot in which a key is or is put, and whether it is new; none where both of its places are another's. */
static Slot *offer(Chain *c, const uint64_t *key, int *fresh)
{
    for (uint64_t number = 0; number < CHAIN; number++) {
        Slot *s = &c->slots[number * room + slot_of(number, key, c->columns)];
        *fresh = s->round != c->round;
        if (*fresh) {
            memcpy(s->key, key, c->columns * sizeof *key);
            s->value = 0;
            s->round = c->round;
        }
        if (!memcmp(s->key, key, c->columns * sizeof *key))
            return s;
    }
    return NULL;
}

/* ---- lanes: what the switch holds, and what the engine makes of the rest ---- */

/* A distinct and a reduce after it, or a reduce alone (without `seen`). `pairs` and `rest` are the engine's. */
typedef struct {
    Chain seen, sums;
    Table pairs, rest;
    int spilled;
} Lane;

static uint64_t emitted;

static void lane_make(Lane *l, int columns)
{
    if (columns)
        chain_make(&l->seen, columns);
    chain_make(&l->sums, 1);
    table_make(&l->pairs, 1024);
    table_make(&l->rest, 1024);
}

/* Adds to a key's sum where it has room, else sends the row. */
static void sum(Lane *l, uint64_t target, uint64_t amount, uint64_t most)
{
    int fresh;
    Slot *s = offer(&l->sums, &target, &fresh);
    if (s) {
        s->value = s->value + amount > most ? most : s->value + amount;
    } else {
        emitted++;
        add(&l->rest, target, amount, most);
    }
}

/* Counts a row of a distinct where it is new, and sends it where it has no room. */
static void count(Lane *l, const uint64_t *row, uint64_t most)
{
    int fresh;
    if (offer(&l->seen, row, &fresh)) {
        if (fresh)
            sum(l, row[0], 1, most);
        return;
    }
    l->spilled = 1;
    emitted++;
    if (is_new(&l->pairs, row[1] << 32 | row[0], row[2]))
        add(&l->rest, row[0], 1, most);
}

/* Reads the sums out: those above a least one, or all of them where the distinct spilled or nothing filters them. They join the engine's. */
static void read_out(Lane *l, int filters, uint64_t least, uint64_t most)
{
    for (uint64_t i = 0; i < CHAIN * room; i++) {
        Slot *s = &l->sums.slots[i];
        if (s->round == l->sums.round && (l->spilled || !filters || s->value > least)) {
            emitted++;
            add(&l->rest, s->key[0], s->value, most);
        }
    }
}

static void lane_clear(Lane *l)
{
    l->seen.round++;
    l->sums.round++;
    l->spilled = 0;
    table_clear(&l->pairs);
    table_clear(&l->rest);
}

/* ---- the three queries along the plan ---- */

static Lane newconn, spread, conns, bytes;
static uint64_t total;

static void take(const Packet *p)
{
    uint64_t pair[3] = {p->target, p->source, 0}, triple[3] = {p->target, p->source, p->source_port};
    if (p->flags == 2)
        sum(&newconn, p->target, 1, UINT32_MAX);
    if (p->ip)
        count(&spread, pair, UINT32_MAX);
    if (p->tcp) {
        count(&conns, triple, UINT32_MAX);
        sum(&bytes, p->target, p->length, (1ull << 48) - 1);
    }
}

static void above(const Table *t, uint64_t least)
{
    for (size_t i = 0; i < t->room; i++)
        if (t->cells[i].round == t->round && t->cells[i].value > least)
            keep_row(t->cells[i].key, t->cells[i].value);
}

static void ratios(void)
{
    for (size_t i = 0; i < conns.rest.room; i++)
        if (conns.rest.cells[i].round == conns.rest.round) {
            Cell *whole = place(&bytes.rest, conns.rest.cells[i].key, 0);
            uint64_t ratio = whole->value ? conns.rest.cells[i].value * 1000000 / whole->value : 0;
            if (ratio > 20000)
                keep_row(conns.rest.cells[i].key, ratio);
        }
}

static void close_window(uint64_t number)
{
    read_out(&newconn, 1, 400, UINT32_MAX);
    read_out(&spread, 1, 300, UINT32_MAX);
    read_out(&conns, 0, 0, UINT32_MAX);
    read_out(&bytes, 0, 0, (1ull << 48) - 1);
    printf("window %llu emitted %llu\n", (unsigned long long)number, (unsigned long long)emitted);
    above(&newconn.rest, 400);
    print_rows("newconn");
    above(&spread.rest, 300);
    print_rows("spread");
    ratios();
    print_rows("slow");
    lane_clear(&newconn);
    lane_clear(&spread);
    lane_clear(&conns);
    lane_clear(&bytes);
    total += emitted;
    emitted = 0;
}

static void tell_total(uint64_t windows)
{
    printf("total windows %llu emitted %llu\n", (unsigned long long)windows, (unsigned long long)total);
}

int main(int words_given, char **words)
{
    if (words_given < 2 || words_given > 3) {
        fputs("use: switch CAPTURE [SLOTS]\n", stderr);
        return 2;
    }
    if (words_given == 3)
        room = strtoull(words[2], NULL, 10);
    if (room < 1)
        return 2;
    lane_make(&newconn, 0);
    lane_make(&spread, 2);
    lane_make(&conns, 3);
    lane_make(&bytes, 0);
    pcap_t *capture = opened(words[1]);
    int bad = answer(capture);
    pcap_close(capture);
    return bad ? 5 : 0;
}
