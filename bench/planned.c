/* Takes a capture along a plan, written by hand over libpcap as any switch and its engine have to be: switch, queries and plan are read when the program runs, and a
 * packet goes through the operators of each piece one by one. It is the measure of what switch.c, which has its queries and its plan compiled in, leaves out.
 *
 *     planned run SWITCH QUERIES PLAN CAPTURE
 *     planned emit SWITCH QUERIES PLAN CAPTURE
 *
 * It prints what `sonata run` and `sonata emit` print of the same files. For `run` what is sent goes to the engine of engine.h, and for `emit` out as frames. It knows
 * the queries that engine.h knows, along paths of the one level 32, with cuts after the first map. Of a switch it takes the length of the chains and the sizes of
 * registers; the stages of a plan are read, and nothing is made of them. */

#include "engine.h"

#include <endian.h>

/* ---- chains of registers ---- */

/* The cells of a chain, register after register: a key each, and after it the value where a reduce holds them. A bit for each cell says whether it is taken, so
 * that a free one is found without a look at it, and a window begins with these bits alone. */
typedef struct {
    uint64_t *cells, *taken;
    uint64_t slots, low_bits; /* of a register; the slots less 1 where they are a power of two, else 0 */
    size_t words;             /* of taken bits */
    int width, stride;        /* the columns of a key, and the numbers of a cell */
} Chain;

static uint64_t chain_length;

static void chain_make(Chain *c, uint64_t slots, int width, int stride)
{
    *c = (Chain){.slots = slots, .low_bits = slots & (slots - 1) ? 0 : slots - 1, .words = (chain_length * slots + 63) / 64, .width = width, .stride = stride};
    c->cells = must(calloc(chain_length * slots, (size_t)stride * sizeof *c->cells));
    c->taken = must(calloc(c->words, sizeof *c->taken));
}

#define BASIS 14695981039346656037ull
#define PRIME 1099511628211ull
#define FOURTH (PRIME * PRIME * PRIME * PRIME)

/* FNV-1a of a column's eight bytes, least byte first. A byte of 0 is a multiplication alone, so those at the end are one. */
static uint64_t hashed(uint64_t h, uint64_t column)
{
    h = (h ^ (column & 255)) * PRIME;
    h = (h ^ (column >> 8 & 255)) * PRIME;
    if (column < 1ull << 16)
        return h * (FOURTH * PRIME * PRIME);
    h = (h ^ (column >> 16 & 255)) * PRIME;
    h = (h ^ (column >> 24 & 255)) * PRIME;
    if (column < 1ull << 32)
        return h * FOURTH;
    for (int shift = 32; shift < 64; shift += 8)
        h = (h ^ (column >> shift & 255)) * PRIME;
    return h;
}

static uint64_t slot_of(const Chain *c, uint64_t number, const uint64_t *key)
{
    uint64_t h = BASIS ^ number;
    for (int i = 0; i < c->width; i++)
        h = hashed(h, key[i]);
    return c->low_bits ? h & c->low_bits : h % c->slots;
}

/* The cell in which a key is or is put, and whether it is new; none where all its places are other keys'. */
static uint64_t *offer(const Chain *c, const uint64_t *key, int *fresh)
{
    for (uint64_t number = 0; number < chain_length; number++) {
        uint64_t at = number * c->slots + slot_of(c, number, key), bit = 1ull << (at & 63), *cell = c->cells + at * (uint64_t)c->stride;
        int i = 0;
        *fresh = !(c->taken[at >> 6] & bit);
        if (*fresh) {
            c->taken[at >> 6] |= bit;
            for (; i < c->width; i++)
                cell[i] = key[i];
            return cell;
        }
        while (i < c->width && cell[i] == key[i])
            i++;
        if (i == c->width)
            return cell;
    }
    return NULL;
}

/* ---- pieces: operators up to a cut, as data ---- */

/* Whether a column is one of the numbers from a least one on, or none of them. */
typedef struct {
    int column, outside;
    uint64_t least, beyond; /* how far they go on */
} Test;

/* A column of the next row: one of this row, or a number where the mask is 0. */
typedef struct {
    int column;
    uint64_t mask, number;
} Move;

typedef struct {
    int kind, count; /* the kinds are those of Operator; the count is of tests, moves or keys */
    union {
        Test tests[MOST];
        Move moves[MOST];
        struct {
            Chain chain;
            int keys[MOST], summed;
            uint64_t most;
        };
    };
} Step;

/* What an item that is sent says beside its row. */
typedef struct {
    uint8_t head[8]; /* of its frame */
    int op, columns, part;
} Tag;

typedef struct {
    Step steps[MOST];
    int cut, reduce; /* the place of the reduce before the cut, or -1 */
    int spilled;     /* whether a row found no room at the distinct in this window */
    Tag at[MOST + 1], part, end;
    Steps *rest; /* the engine's */
} Lane;

static Lane lanes[16];
static int lane_count, emits;
static uint64_t sent, total;

/* ---- what is sent ---- */

#define LONGEST (8 + 16 * MOST)

/* The frames of this window, which go out when it closes, as those of `emit` do. */
static uint8_t *frames;
static size_t framed, frame_room;

static void write_frames(void)
{
    if (fwrite(frames, 1, framed, stdout) != framed) {
        perror("write");
        exit(10);
    }
    framed = 0;
}

static void put_number(uint64_t number)
{
    uint64_t bytes = htobe64(number);
    memcpy(frames + framed, &bytes, sizeof bytes);
    framed += sizeof bytes;
}

static void put_head(const Tag *t)
{
    if (framed + LONGEST > frame_room) {
        frame_room = frame_room ? frame_room * 2 : 1 << 16;
        frames = must(realloc(frames, frame_room));
    }
    memcpy(frames + framed, t->head, sizeof t->head);
    framed += sizeof t->head;
}

static void send_item(Lane *l, const Tag *t, uint64_t *row)
{
    sent++;
    if (emits) {
        put_head(t);
        for (int i = 0; i < t->columns; i++) {
            put_number(0);
            put_number(row[i]);
        }
    } else if (t->part) {
        fold(&l->rest->ops[t->op], row, row[t->columns - 1]);
    } else {
        take_row(l->rest, t->op, row);
    }
}

/* ---- a packet on its way through a piece ---- */

static int passes(const Step *s, const uint64_t *row)
{
    for (int i = 0; i < s->count; i++) {
        const Test *t = &s->tests[i];
        if ((row[t->column] - t->least <= t->beyond) == t->outside)
            return 0;
    }
    return 1;
}

static void move(const Step *s, const uint64_t *row, uint64_t *made)
{
    for (int i = 0; i < s->count; i++)
        made[i] = (row[s->moves[i].column] & s->moves[i].mask) | s->moves[i].number;
}

/* Adds to the sum of a row's key, if it finds room. */
static int summed(const Step *s, const uint64_t *row)
{
    uint64_t key[MOST], amount = row[s->summed];
    int fresh;
    for (int i = 0; i < s->count; i++)
        key[i] = row[s->keys[i]];
    uint64_t *cell = offer(&s->chain, key, &fresh);
    if (!cell)
        return 0;
    uint64_t before = fresh ? 0 : cell[s->count];
    cell[s->count] = amount > s->most - before ? s->most : before + amount;
    return 1;
}

/* Takes a packet's fields through the operators of a piece, as far as they come. */
static void take_along(Lane *l, uint64_t *row)
{
    uint64_t made[2][MOST];
    int turn = 0, fresh;
    for (int i = 0; i < l->cut; i++) {
        const Step *s = &l->steps[i];
        switch (s->kind) {
        case FILTER:
            if (!passes(s, row))
                return;
            break;
        case MAP:
            move(s, row, made[turn]);
            row = made[turn];
            turn ^= 1;
            break;
        case DISTINCT:
            if (!offer(&s->chain, row, &fresh)) {
                l->spilled = 1;
                send_item(l, &l->at[i], row);
                return;
            }
            if (!fresh)
                return;
            break;
        default:
            if (!summed(s, row))
                send_item(l, &l->at[i], row);
            return;
        }
    }
    send_item(l, &l->at[l->cut], row);
}

static void take(const Packet *p)
{
    uint64_t row[] = {[IP_VALID] = (uint64_t)p->ip, [IP_LENGTH] = p->length, [IP_SOURCE] = p->source, [IP_TARGET] = p->target,
                      [TCP_VALID] = (uint64_t)p->tcp, [TCP_SOURCE_PORT] = p->source_port, [TCP_FLAGS] = p->flags};
    for (int i = 0; i < lane_count; i++)
        take_along(&lanes[i], row);
}

/* ---- the end of a window ---- */

/* Sends a key with its sum: as a part of it where rows found no room before the reduce, and else where it passes the filters. */
static void read_cell(Lane *l, const uint64_t *cell)
{
    uint64_t row[MOST];
    memcpy(row, cell, (size_t)l->part.columns * sizeof *row);
    if (l->spilled) {
        send_item(l, &l->part, row);
        return;
    }
    for (int i = l->reduce + 1; i < l->cut; i++)
        if (!passes(&l->steps[i], row))
            return;
    send_item(l, &l->at[l->cut], row);
}

static void read_out(Lane *l)
{
    const Chain *c = &l->steps[l->reduce].chain;
    for (size_t i = 0; i < c->words; i++)
        for (uint64_t bits = c->taken[i]; bits; bits &= bits - 1)
            read_cell(l, c->cells + (i * 64 + (size_t)__builtin_ctzll(bits)) * (size_t)c->stride);
}

static void lane_clear(Lane *l)
{
    for (int i = 0; i < l->cut; i++)
        if (l->steps[i].kind == DISTINCT || l->steps[i].kind == REDUCE)
            memset(l->steps[i].chain.taken, 0, l->steps[i].chain.words * sizeof *l->steps[i].chain.taken);
    l->spilled = 0;
}

static void close_window(uint64_t number)
{
    for (int i = 0; i < lane_count; i++) {
        Lane *l = &lanes[i];
        if (l->reduce >= 0)
            read_out(l);
        if (emits) {
            put_head(&l->end);
            put_number(number);
        }
        lane_clear(l);
    }
    if (emits) {
        write_frames();
    } else {
        printf("window %llu emitted %llu\n", (unsigned long long)number, (unsigned long long)sent);
        answer_queries();
    }
    total += sent;
    sent = 0;
}

static void tell_total(uint64_t windows)
{
    if (!emits)
        printf("total windows %llu emitted %llu\n", (unsigned long long)windows, (unsigned long long)total);
}

/* ---- the text of the switch ---- */

static uint64_t sizes[4];
static int size_count;

static uint64_t number_to(uint64_t least, uint64_t most)
{
    uint64_t n = number();
    if (n < least || n > most)
        unknown();
    return n;
}

static void read_switch(const char *name)
{
    open_text(name);
    while (*word) {
        if (is("chain")) {
            next();
            chain_length = number_to(1, 4);
        } else if (is("slots") && !size_count) {
            do {
                next();
                sizes[size_count++] = number_to(1, 65536);
            } while (is(",") && size_count < 4);
        } else if (is("stages") || is("actions") || is("bits") || is("meta")) {
            next();
            number();
        } else {
            unknown();
        }
        expect(";");
    }
    if (!chain_length || !size_count)
        unknown();
}

/* ---- the text of the plan ---- */

static Test test_of(const Condition *c, int column)
{
    uint64_t n = c->number;
    switch (c->how) {
    case EQUAL: return (Test){column, 0, n, 0};
    case OTHER: return (Test){column, 1, n, 0};
    case BELOW: return (Test){column, 1, n, UINT64_MAX - n};
    case AT_LEAST: return (Test){column, 0, n, UINT64_MAX - n};
    case AT_MOST: return (Test){column, 0, 0, n};
    default: return (Test){column, 1, 0, n};
    }
}

static Move move_of(const Value *v, int column)
{
    if (v->kind == RATIO)
        unknown();
    return v->kind == NUMBER ? (Move){0, 0, v->number} : (Move){column, UINT64_MAX, 0};
}

static Tag tag_of(int kind, int query, int branch, int op, int columns)
{
    return (Tag){{2, (uint8_t)kind, (uint8_t)query, 0, (uint8_t)branch, (uint8_t)op, (uint8_t)columns, 0}, op, columns, kind == 1};
}

/* A size of the switch's, which the plan gives the next register. */
static uint64_t size_given(int given)
{
    expect(given ? "," : "slots");
    uint64_t size = number();
    for (int i = 0; i < size_count; i++)
        if (sizes[i] == size)
            return size;
    unknown();
    return 0;
}

/* Makes a step of an operator. Before the first map a column is a packet's field. */
static void make_step(Step *s, const Operator *op, const Branch *fields_of)
{
    s->kind = op->kind;
    s->count = op->count;
    for (int i = 0; i < op->count; i++) {
        const Condition *c = &op->conditions[i];
        const Value *v = &op->values[i];
        if (op->kind == FILTER)
            s->tests[i] = test_of(c, fields_of ? (int)fields_of->fields[c->column] : c->column);
        else if (op->kind == MAP)
            s->moves[i] = move_of(v, fields_of ? (int)fields_of->fields[v->column] : v->column);
        else
            s->keys[i] = op->keys[i];
    }
    if (op->kind == REDUCE) {
        s->summed = op->summed;
        s->most = op->most;
    }
}

/* Makes the steps of a piece, and reads the sizes of its registers. A distinct and a reduce after it may stand in a switch, and after a reduce only filters. */
static int make_steps(Lane *l, const Branch *b)
{
    int width = 0, registers = 0;
    l->reduce = -1;
    for (int i = 0; i < l->cut; i++) {
        const Operator *op = &b->steps.ops[i];
        Step *s = &l->steps[i];
        if (l->reduce >= 0 && op->kind != FILTER)
            unknown();
        make_step(s, op, width ? NULL : b);
        l->at[i].columns = width;
        if (op->kind == MAP)
            width = op->count;
        if (op->kind == DISTINCT) {
            if (!width || registers)
                unknown();
            chain_make(&s->chain, size_given(registers++), width, width);
        }
        if (op->kind == REDUCE) {
            if (!width)
                unknown();
            width = op->count + 1;
            chain_make(&s->chain, size_given(registers++), op->count, width);
            l->reduce = i;
        }
    }
    if (!width)
        unknown();
    l->at[l->cut].columns = width;
    return registers * (int)chain_length;
}

static void read_piece(int query, int branch)
{
    Lane *l = &lanes[lane_count++];
    Branch *b = &queries[query].branches[branch];
    expect("piece");
    expect("32");
    if (number() != (uint64_t)branch)
        unknown();
    expect("cut");
    l->rest = &b->steps;
    l->cut = (int)number_to(1, (uint64_t)b->steps.count);
    int registers = make_steps(l, b);
    for (int i = 0; i < registers; i++) {
        expect(i ? "," : "stages");
        number();
    }
    expect(";");
    for (int i = 0; i <= l->cut; i++)
        l->at[i] = tag_of(0, query, branch, i, l->at[i].columns);
    if (l->reduce >= 0)
        l->part = tag_of(1, query, branch, l->reduce, l->at[l->reduce + 1].columns);
    l->end = tag_of(2, query, branch, 0, 1);
}

static void read_plan(const char *name)
{
    open_text(name);
    expect("plan");
    for (int q = 0; q < query_count; q++) {
        expect("query");
        expect(queries[q].name);
        expect("path");
        expect("32");
        expect(";");
        for (int b = 0; b < queries[q].branch_count; b++)
            read_piece(q, b);
    }
    if (*word && !is("cost"))
        unknown();
}

int main(int count, char **words)
{
    emits = count == 6 && !strcmp(words[1], "emit");
    if (!emits && (count != 6 || strcmp(words[1], "run"))) {
        fputs("use: planned run|emit SWITCH QUERIES PLAN CAPTURE\n", stderr);
        return 2;
    }
    draw_seed();
    read_switch(words[2]);
    read_queries(words[3]);
    read_plan(words[4]);
    pcap_t *capture = opened(words[5]);
    int bad = answer(capture);
    pcap_close(capture);
    return bad ? 5 : 0;
}
