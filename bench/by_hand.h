/* What the programs written by hand share: tables, the fields of a packet, rows, and a walk over a capture by windows. */

#include <pcap/pcap.h>
#include <stdint.h>
#include <stdio.h>
#include <stdlib.h>
#include <string.h>

#define WINDOW 1000000000ull

/* ---- tables: open addressing, doubled at half load, kept from window to window ---- */

typedef struct {
    uint64_t key, more, value; /* a key of up to 128 bits */
    uint32_t round;            /* the cell is taken where this is the table's round */
} Cell;

typedef struct {
    Cell *cells;
    size_t room, used;
    uint32_t round;
} Table;

static void *must(void *memory)
{
    if (!memory) {
        fputs("memory\n", stderr);
        exit(1);
    }
    return memory;
}

static void table_make(Table *t, size_t room)
{
    t->cells = must(calloc(room, sizeof *t->cells));
    t->room = room;
    t->used = 0;
    t->round = 1;
}

static void table_clear(Table *t)
{
    t->used = 0;
    t->round++;
}

static size_t mixed(uint64_t key, uint64_t more)
{
    uint64_t h = (key ^ more * 0x9E3779B97F4A7C15ull) * 0xFF51AFD7ED558CCDull;
    return (size_t)(h ^ h >> 32);
}

static Cell *place(Table *t, uint64_t key, uint64_t more)
{
    size_t at = mixed(key, more) & (t->room - 1);
    while (t->cells[at].round == t->round && (t->cells[at].key != key || t->cells[at].more != more))
        at = (at + 1) & (t->room - 1);
    return &t->cells[at];
}

static void table_double(Table *t)
{
    Table larger;
    table_make(&larger, t->room * 2);
    for (size_t i = 0; i < t->room; i++)
        if (t->cells[i].round == t->round) {
            Cell *c = place(&larger, t->cells[i].key, t->cells[i].more);
            *c = t->cells[i];
            c->round = larger.round;
        }
    larger.used = t->used;
    free(t->cells);
    *t = larger;
}

/* The cell of a key, taken with value 0 where it is new. */
static Cell *cell_of(Table *t, uint64_t key, uint64_t more, int *fresh)
{
    Cell *c = place(t, key, more);
    *fresh = c->round != t->round;
    if (*fresh) {
        if (2 * (t->used + 1) > t->room) {
            table_double(t);
            c = place(t, key, more);
        }
        t->used++;
        c->key = key;
        c->more = more;
        c->value = 0;
        c->round = t->round;
    }
    return c;
}

static void add(Table *t, uint64_t key, uint64_t amount, uint64_t most)
{
    int fresh;
    Cell *c = cell_of(t, key, 0, &fresh);
    c->value = c->value + amount > most ? most : c->value + amount;
}

static int is_new(Table *t, uint64_t key, uint64_t more)
{
    int fresh;
    cell_of(t, key, more, &fresh);
    return fresh;
}

/* ---- packets ---- */

typedef struct {
    int ip, tcp;
    uint32_t source, target;
    uint16_t length, source_port;
    uint8_t flags;
} Packet;

static uint16_t two(const uint8_t *b) { return (uint16_t)(b[0] << 8 | b[1]); }
static uint32_t four(const uint8_t *b) { return (uint32_t)two(b) << 16 | two(b + 2); }

/* Reads Ethernet with at most two tags, IPv4 and TCP, each where its bytes were captured. */
static void read_packet(Packet *p, const uint8_t *b, uint32_t n)
{
    memset(p, 0, sizeof *p);
    if (n < 14)
        return;
    uint32_t at = 14;
    uint16_t type = two(b + 12);
    for (int tags = 0; tags < 2 && (type == 0x8100 || type == 0x88A8) && at + 4 <= n; tags++) {
        type = two(b + at + 2);
        at += 4;
    }
    if (type != 0x0800 || at + 20 > n)
        return;
    const uint8_t *ip = b + at;
    uint32_t header = (ip[0] & 15) * 4;
    if (ip[0] >> 4 != 4 || header < 20 || at + header > n)
        return;
    p->ip = 1;
    p->length = two(ip + 2);
    p->source = four(ip + 12);
    p->target = four(ip + 16);
    if ((two(ip + 6) & 0x1FFF) != 0 || ip[9] != 6 || at + header + 20 > n)
        return;
    const uint8_t *tcp = ip + header;
    p->tcp = 1;
    p->source_port = two(tcp);
    p->flags = tcp[13];
}

/* ---- rows ---- */

typedef struct {
    uint64_t key, value;
} Row;

static Row *rows;
static size_t row_count, row_room;

static void keep_row(uint64_t key, uint64_t value)
{
    if (row_count == row_room) {
        row_room = row_room ? row_room * 2 : 1024;
        rows = must(realloc(rows, row_room * sizeof *rows));
    }
    rows[row_count++] = (Row){key, value};
}

static int by_columns(const void *a, const void *b)
{
    const Row *x = a, *y = b;
    if (x->key != y->key)
        return x->key < y->key ? -1 : 1;
    return x->value < y->value ? -1 : x->value > y->value;
}

static void print_rows(const char *name)
{
    qsort(rows, row_count, sizeof *rows, by_columns);
    printf("query %s level 32 rows %zu\n", name, row_count);
    for (size_t i = 0; i < row_count; i++) {
        uint64_t k = rows[i].key;
        printf("%d.%d.%d.%d %llu\n", (int)(k >> 24 & 255), (int)(k >> 16 & 255), (int)(k >> 8 & 255), (int)(k & 255),
               (unsigned long long)rows[i].value);
    }
    row_count = 0;
}

/* ---- windows ---- */

/* What a program does with a packet, at the end of a window, and at the end of all. */
static void take(const Packet *p);
static void close_window(uint64_t number);
static void tell_total(uint64_t windows);

static int answer(pcap_t *capture)
{
    struct pcap_pkthdr *head;
    const u_char *data;
    uint64_t first = 0, number = 0, windows = 0;
    int more, begun = 0;
    while ((more = pcap_next_ex(capture, &head, &data)) == 1) {
        uint64_t time = (uint64_t)head->ts.tv_sec * 1000000000ull + (uint64_t)head->ts.tv_usec;
        if (!begun) {
            begun = 1;
            first = time;
            windows = 1;
        }
        uint64_t now = time < first ? 0 : (time - first) / WINDOW;
        if (now > number) {
            close_window(number);
            number = now;
            windows++;
        }
        Packet p;
        read_packet(&p, data, head->caplen);
        take(&p);
    }
    if (begun)
        close_window(number);
    tell_total(windows);
    return more == PCAP_ERROR_BREAK ? 0 : 1;
}

static pcap_t *opened(const char *name)
{
    char why[PCAP_ERRBUF_SIZE];
    pcap_t *capture = pcap_open_offline_with_tstamp_precision(name, PCAP_TSTAMP_PRECISION_NANO, why);
    if (!capture || pcap_datalink(capture) != DLT_EN10MB) {
        fprintf(stderr, "%s: %s\n", name, capture ? "not Ethernet" : why);
        exit(5);
    }
    return capture;
}
