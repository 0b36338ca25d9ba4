/* The engine that engine.c and planned.c share: queries that are read when the program runs, rows that go through their operators one by one, and tables that hash from
 * a number which is drawn at the start, so that keys can't be made to collide.
 *
 * It knows as much of the language as three.query has: filters that compare columns with numbers, maps of columns, numbers and ratios, distincts, sums, and a join
 * of two branches on one column. A file that it doesn't know ends the program. */

#include "by_hand.h"

#include <ctype.h>
#include <sys/random.h>

#define MOST 12

/* ---- rows of any number of columns, and tables of them ---- */

typedef struct {
    uint64_t *columns; /* one row after another */
    int width;
    size_t count, room;
} Rows;

static uint64_t seed;

/* The next row, which is to be written. */
static uint64_t *rows_next(Rows *r)
{
    if (r->count == r->room) {
        r->room = r->room ? r->room * 2 : 1024;
        r->columns = must(realloc(r->columns, r->room * (size_t)r->width * sizeof *r->columns));
    }
    return r->columns + r->count++ * (size_t)r->width;
}

static void rows_push(Rows *r, const uint64_t *row) { memcpy(rows_next(r), row, (size_t)r->width * sizeof *row); }

/* Keys of some columns, each with its value after it, in the order in which they came first; and where each stands, by its hash. */
typedef struct {
    Rows keys; /* as wide as a key and its value */
    struct {
        uint32_t tag, nth; /* some bits of the hash, so that most other keys aren't looked at, and the key's number from 1; 0 where the place is free */
    } *places;
    size_t room;
} Groups;

static uint64_t folded(uint64_t a, uint64_t b)
{
    __uint128_t product = (__uint128_t)a * b;
    return (uint64_t)product ^ (uint64_t)(product >> 64);
}

static uint64_t hash_of(const uint64_t *key, int width)
{
    uint64_t h = seed;
    for (int i = 0; i < width; i++)
        h = folded(h ^ key[i], 0x9E3779B97F4A7C15ull);
    return folded(h, seed);
}

static int key_width(const Groups *g) { return g->keys.width - 1; }

static uint64_t *key_at(const Groups *g, size_t at) { return g->keys.columns + at * (size_t)g->keys.width; }

static void groups_make(Groups *g, int width)
{
    *g = (Groups){.keys.width = width + 1, .room = 1024};
    g->places = must(calloc(g->room, sizeof *g->places));
}

static void groups_clear(Groups *g)
{
    g->keys.count = 0;
    memset(g->places, 0, g->room * sizeof *g->places);
}

static int is_key(const uint64_t *other, const uint64_t *key, int width)
{
    for (int i = 0; i < width; i++)
        if (other[i] != key[i])
            return 0;
    return 1;
}

/* The place where a key of a hash stands, or a free one. */
static size_t groups_place(const Groups *g, const uint64_t *key, uint64_t hash)
{
    size_t at = hash & (g->room - 1);
    uint32_t tag = (uint32_t)(hash >> 32);
    while (g->places[at].nth && (g->places[at].tag != tag || !is_key(key_at(g, g->places[at].nth - 1), key, key_width(g))))
        at = (at + 1) & (g->room - 1);
    return at;
}

static void groups_put(Groups *g, size_t at, uint64_t hash, size_t nth)
{
    g->places[at].tag = (uint32_t)(hash >> 32);
    g->places[at].nth = (uint32_t)nth;
}

static void groups_double(Groups *g)
{
    free(g->places);
    g->room *= 2;
    g->places = must(calloc(g->room, sizeof *g->places));
    for (size_t i = 0; i < g->keys.count; i++) {
        uint64_t hash = hash_of(key_at(g, i), key_width(g));
        groups_put(g, groups_place(g, key_at(g, i), hash), hash, i + 1);
    }
}

/* The value of a key, which is 0 where the key is new. */
static uint64_t *value_of(Groups *g, const uint64_t *key, int *fresh)
{
    uint64_t hash = hash_of(key, key_width(g));
    size_t at = groups_place(g, key, hash);
    *fresh = !g->places[at].nth;
    if (*fresh) {
        if (2 * (g->keys.count + 1) > g->room) {
            groups_double(g);
            at = groups_place(g, key, hash);
        }
        uint64_t *row = rows_next(&g->keys);
        memcpy(row, key, (size_t)key_width(g) * sizeof *row);
        row[key_width(g)] = 0;
        groups_put(g, at, hash, g->keys.count);
    }
    return key_at(g, g->places[at].nth - 1) + key_width(g);
}

/* ---- queries ---- */

typedef enum { IP_VALID, IP_LENGTH, IP_SOURCE, IP_TARGET, TCP_VALID, TCP_SOURCE_PORT, TCP_FLAGS } Field;

static const struct {
    const char *name;
    Field field;
    int address;
} fields[] = {{"ip.valid", IP_VALID, 0}, {"ip.len", IP_LENGTH, 0}, {"ip.src", IP_SOURCE, 1}, {"ip.dst", IP_TARGET, 1},
              {"tcp.valid", TCP_VALID, 0}, {"tcp.sport", TCP_SOURCE_PORT, 0}, {"tcp.flags", TCP_FLAGS, 0}};

typedef struct {
    char name[33];
    int address;
} Column;

typedef enum { EQUAL, OTHER, BELOW, AT_MOST, ABOVE, AT_LEAST } Comparison;

typedef struct {
    int column;
    Comparison how;
    uint64_t number;
} Condition;

typedef struct {
    enum { NUMBER, COPY, RATIO } kind;
    int column, over;
    uint64_t number;
} Value;

typedef struct {
    enum { FILTER, MAP, DISTINCT, REDUCE } kind;
    int count; /* of conditions, values or keys */
    Condition conditions[MOST];
    Value values[MOST];
    int keys[MOST], summed;
    uint64_t most;
    Groups seen;
} Operator;

typedef struct {
    int count;
    Operator ops[MOST];
    Column columns[MOST]; /* those of the rows that come to the next operator */
    int width;
    Rows out;
} Steps;

typedef struct {
    Steps steps;
    Field fields[MOST];
    int field_count, mapped;
} Branch;

typedef struct {
    char name[33];
    Branch branches[2];
    int branch_count, left, right;
    Steps posts;
    Groups met; /* the rows of the right branch by their keys: the key's value is the row's place and 1 */
} Query;

static Query queries[8];
static int query_count;

/* ---- texts, and that of the queries ---- */

static const char *text, *text_name;
static char word[64];

static void unknown(void)
{
    fprintf(stderr, "%s: not known before: %.40s\n", text_name, text);
    exit(3);
}

static int is_in_word(char c) { return isalnum((unsigned char)c) || c == '_' || c == '.'; }

/* The next word or symbol. */
static void next(void)
{
    while (isspace((unsigned char)*text) || *text == '#')
        if (*text == '#')
            while (*text && *text != '\n')
                text++;
        else
            text++;
    size_t n = 0;
    if (is_in_word(*text))
        while (n < sizeof word - 1 && is_in_word(*text))
            word[n++] = *text++;
    else if (*text) {
        word[n++] = *text++;
        if (strchr("=!<>", word[0]) && *text == '=')
            word[n++] = *text++;
    }
    word[n] = 0;
}

static int is(const char *other) { return strcmp(word, other) == 0; }

static void expect(const char *other)
{
    if (!is(other))
        unknown();
    next();
}

static uint64_t number(void)
{
    char *end;
    uint64_t n = strtoull(word, &end, 10);
    if (end == word || *end)
        unknown();
    next();
    return n;
}

static void named(char name[33])
{
    snprintf(name, 33, "%.32s", word);
    next();
}

/* The place of the column that the word names. Before the first map it names a field, which is read from then on. */
static int column_of(Steps *s, Branch *b)
{
    for (int i = 0; i < s->width; i++)
        if (is(s->columns[i].name)) {
            next();
            return i;
        }
    for (size_t i = 0; b && !b->mapped && s->width < 8 && i < sizeof fields / sizeof *fields; i++)
        if (is(fields[i].name)) {
            b->fields[b->field_count++] = fields[i].field;
            s->columns[s->width].address = fields[i].address;
            named(s->columns[s->width].name);
            return s->width++;
        }
    unknown();
    return 0;
}

static void read_filter(Operator *op, Steps *s, Branch *b)
{
    static const char *const signs[] = {"==", "!=", "<", "<=", ">", ">="};
    op->kind = FILTER;
    Condition *c = &op->conditions[op->count++];
    c->column = column_of(s, b);
    int how = 0;
    while (how < 6 && !is(signs[how]))
        how++;
    if (how == 6)
        unknown();
    c->how = (Comparison)how;
    next();
    c->number = number();
    if (is("at")) /* numbers for coarser levels, which aren't asked for */
        while (!is(";") && !is("|"))
            next();
}

static void read_map(Operator *op, Steps *s, Branch *b)
{
    Column made[MOST];
    op->kind = MAP;
    do {
        if (op->count)
            next();
        Value *v = &op->values[op->count];
        Column *c = &made[op->count++];
        c->address = 0;
        if (isdigit((unsigned char)word[0])) {
            v->kind = NUMBER;
            v->number = number();
        } else {
            v->column = column_of(s, b);
            v->kind = COPY;
            c->address = s->columns[v->column].address;
            if (is("*")) {
                next();
                v->kind = RATIO;
                v->number = number();
                expect("/");
                v->over = column_of(s, b);
                c->address = 0;
            }
        }
        expect("as");
        named(c->name);
    } while (is(",") && op->count < 8);
    memcpy(s->columns, made, sizeof made);
    s->width = op->count;
    if (b)
        b->mapped = 1;
}

static void read_reduce(Operator *op, Steps *s, Branch *b)
{
    Column made[MOST];
    op->kind = REDUCE;
    do {
        if (op->count)
            next();
        op->keys[op->count] = column_of(s, b);
        made[op->count] = s->columns[op->keys[op->count]];
        op->count++;
    } while (is(",") && op->count < 7);
    expect(":");
    expect("sum");
    expect("(");
    op->summed = column_of(s, b);
    made[op->count] = (Column){.address = 0};
    memcpy(made[op->count].name, s->columns[op->summed].name, sizeof made->name);
    expect(")");
    expect("width");
    uint64_t width = number();
    op->most = width == 64 ? UINT64_MAX : (1ull << width) - 1;
    groups_make(&op->seen, op->count);
    memcpy(s->columns, made, sizeof made);
    s->width = op->count + 1;
}

static void read_steps(Steps *s, Branch *b)
{
    while (is("|") && s->count < MOST) {
        next();
        Operator *op = &s->ops[s->count++];
        if (is("filter")) {
            next();
            read_filter(op, s, b);
        } else if (is("map")) {
            next();
            read_map(op, s, b);
        } else if (is("reduce")) {
            next();
            read_reduce(op, s, b);
        } else {
            expect("distinct");
            op->kind = DISTINCT;
            groups_make(&op->seen, s->width);
        }
    }
    expect(";");
    s->out.width = s->width;
}

/* The columns of a joined row: the key, the others of the left, the others of the right. */
static void read_join(Query *q)
{
    Steps *left = &q->branches[0].steps, *right = &q->branches[1].steps, *s = &q->posts;
    const char *from = text;
    char key[sizeof word];
    memcpy(key, word, sizeof key);
    q->left = column_of(left, NULL);
    text = from;
    memcpy(word, key, sizeof key);
    q->right = column_of(right, NULL);
    s->columns[s->width++] = left->columns[q->left];
    for (int i = 0; i < left->width; i++)
        if (i != q->left)
            s->columns[s->width++] = left->columns[i];
    for (int i = 0; i < right->width; i++)
        if (i != q->right)
            s->columns[s->width++] = right->columns[i];
    groups_make(&q->met, 1);
    read_steps(s, NULL);
}

static void read_query(Query *q)
{
    named(q->name);
    expect("{");
    expect("refine");
    while (!is(";"))
        next();
    next();
    while (is("packets") && q->branch_count < 2) {
        next();
        Branch *b = &q->branches[q->branch_count++];
        read_steps(&b->steps, b);
    }
    if (q->branch_count == 2) {
        expect("join");
        read_join(q);
    }
    expect("}");
}

/* Reads a file whole, in place of the one before, and its first word. */
static void open_text(const char *name)
{
    static char file[1 << 20];
    FILE *in = fopen(name, "rb");
    if (!in) {
        perror(name);
        exit(4);
    }
    file[fread(file, 1, sizeof file - 1, in)] = 0;
    fclose(in);
    text = file;
    text_name = name;
    next();
}

static void read_queries(const char *name)
{
    open_text(name);
    expect("window");
    if (number() * 1000 != WINDOW)
        unknown();
    while (is("query") && query_count < 8) {
        next();
        read_query(&queries[query_count++]);
    }
    if (*word)
        unknown();
}

/* ---- rows on their way ---- */

static int holds(const Condition *c, const uint64_t *row)
{
    uint64_t x = row[c->column];
    switch (c->how) {
    case EQUAL: return x == c->number;
    case OTHER: return x != c->number;
    case BELOW: return x < c->number;
    case AT_MOST: return x <= c->number;
    case ABOVE: return x > c->number;
    default: return x >= c->number;
    }
}

static uint64_t ratio(uint64_t a, uint64_t times, uint64_t b)
{
    __uint128_t whole = b ? (__uint128_t)a * times / b : 0;
    return whole > UINT64_MAX ? UINT64_MAX : (uint64_t)whole;
}

static uint64_t value_at(const Value *v, const uint64_t *row)
{
    switch (v->kind) {
    case NUMBER: return v->number;
    case COPY: return row[v->column];
    default: return ratio(row[v->column], v->number, row[v->over]);
    }
}

/* Adds an amount to the sum of a key of a reduce. */
static void fold(Operator *op, const uint64_t *key, uint64_t amount)
{
    int fresh;
    uint64_t *sum = value_of(&op->seen, key, &fresh);
    *sum = amount > op->most - *sum ? op->most : *sum + amount;
}

/* Takes a row through operators from one on, as far as it comes. */
static void take_row(Steps *s, int from, uint64_t *row)
{
    uint64_t other[MOST];
    int fresh;
    for (int i = from; i < s->count; i++) {
        Operator *op = &s->ops[i];
        switch (op->kind) {
        case FILTER:
            for (int c = 0; c < op->count; c++)
                if (!holds(&op->conditions[c], row))
                    return;
            break;
        case MAP:
            for (int c = 0; c < op->count; c++)
                other[c] = value_at(&op->values[c], row);
            memcpy(row, other, (size_t)op->count * sizeof *row);
            break;
        case DISTINCT:
            value_of(&op->seen, row, &fresh);
            if (!fresh)
                return;
            break;
        case REDUCE:
            for (int c = 0; c < op->count; c++)
                other[c] = row[op->keys[c]];
            fold(op, other, row[op->summed]);
            return;
        }
    }
    rows_push(&s->out, row);
}

/* Gives what the reduces hold to the operators after them. */
static void finish(Steps *s)
{
    uint64_t row[MOST];
    for (int i = 0; i < s->count; i++)
        if (s->ops[i].kind == REDUCE) {
            Groups *g = &s->ops[i].seen;
            for (size_t k = 0; k < g->keys.count; k++) {
                memcpy(row, key_at(g, k), (size_t)g->keys.width * sizeof *row);
                take_row(s, i + 1, row);
            }
        }
    for (int i = 0; i < s->count; i++)
        if (s->ops[i].kind == REDUCE || s->ops[i].kind == DISTINCT)
            groups_clear(&s->ops[i].seen);
}

static uint64_t read_field(Field field, const Packet *p)
{
    switch (field) {
    case IP_VALID: return (uint64_t)p->ip;
    case IP_LENGTH: return p->length;
    case IP_SOURCE: return p->source;
    case IP_TARGET: return p->target;
    case TCP_VALID: return (uint64_t)p->tcp;
    case TCP_SOURCE_PORT: return p->source_port;
    default: return p->flags;
    }
}

/* The pairs of the rows of two branches, each of which has a key once, through the operators after the join. */
static void join(Query *q)
{
    const Rows *left = &q->branches[0].steps.out, *right = &q->branches[1].steps.out;
    uint64_t row[2 * MOST];
    int fresh;
    groups_clear(&q->met);
    for (size_t i = 0; i < right->count; i++)
        *value_of(&q->met, right->columns + i * (size_t)right->width + q->right, &fresh) = i + 1;
    for (size_t i = 0; i < left->count; i++) {
        const uint64_t *l = left->columns + i * (size_t)left->width;
        uint64_t met = *value_of(&q->met, l + q->left, &fresh);
        if (!met)
            continue;
        const uint64_t *r = right->columns + (met - 1) * (size_t)right->width;
        int n = 0;
        row[n++] = l[q->left];
        for (int c = 0; c < left->width; c++)
            if (c != q->left)
                row[n++] = l[c];
        for (int c = 0; c < right->width; c++)
            if (c != q->right)
                row[n++] = r[c];
        take_row(&q->posts, 0, row);
    }
    finish(&q->posts);
}

/* ---- answers ---- */

static int sorted_width;

static int by_all_columns(const void *a, const void *b)
{
    const uint64_t *x = a, *y = b;
    for (int i = 0; i < sorted_width; i++)
        if (x[i] != y[i])
            return x[i] < y[i] ? -1 : 1;
    return 0;
}

static void print_answer(const Query *q, Steps *s)
{
    Rows *r = &s->out;
    sorted_width = r->width;
    if (r->count) /* else there may be no memory to sort */
        qsort(r->columns, r->count, (size_t)r->width * sizeof *r->columns, by_all_columns);
    printf("query %s level 32 rows %zu\n", q->name, r->count);
    for (size_t i = 0; i < r->count; i++)
        for (int c = 0; c < r->width; c++) {
            uint64_t x = r->columns[i * (size_t)r->width + (size_t)c];
            if (s->columns[c].address)
                printf("%d.%d.%d.%d", (int)(x >> 24 & 255), (int)(x >> 16 & 255), (int)(x >> 8 & 255), (int)(x & 255));
            else
                printf("%llu", (unsigned long long)x);
            putchar(c + 1 < r->width ? ' ' : '\n');
        }
    r->count = 0;
}

/* Answers all queries from what their branches hold, and begins the next window. */
static void answer_queries(void)
{
    for (int i = 0; i < query_count; i++) {
        Query *q = &queries[i];
        for (int b = 0; b < q->branch_count; b++)
            finish(&q->branches[b].steps);
        if (q->branch_count == 1) {
            print_answer(q, &q->branches[0].steps);
            continue;
        }
        join(q);
        print_answer(q, &q->posts);
        q->branches[0].steps.out.count = q->branches[1].steps.out.count = 0;
    }
}

static void draw_seed(void)
{
    if (getentropy(&seed, sizeof seed)) {
        perror("seed");
        exit(1);
    }
    seed |= 1;
}
