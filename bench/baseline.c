/* Answers the three queries of three.query over a capture, written by hand over libpcap: the measure for `sonata plain`.
 *
 *     baseline CAPTURE
 *
 * It prints what `sonata plain three.query CAPTURE` prints. It reads packet by packet and keeps the tables of one window. */

#include "by_hand.h"

/* ---- the three queries ---- */

static Table syns, pairs, sources, connections, conns, bytes;

static void take(const Packet *p)
{
    uint64_t target = p->target, pair = (uint64_t)p->source << 32 | p->target;
    if (p->flags == 2)
        add(&syns, target, 1, UINT32_MAX);
    if (p->ip && is_new(&pairs, pair, 0))
        add(&sources, target, 1, UINT32_MAX);
    if (p->tcp) {
        if (is_new(&connections, pair, p->source_port))
            add(&conns, target, 1, UINT32_MAX);
        add(&bytes, target, p->length, (1ull << 48) - 1);
    }
}

static void above(const Table *t, uint64_t least)
{
    for (size_t i = 0; i < t->room; i++)
        if (t->cells[i].round == t->round && t->cells[i].value > least)
            keep_row(t->cells[i].key, t->cells[i].value);
}

static void ratios(void)
{
    for (size_t i = 0; i < conns.room; i++)
        if (conns.cells[i].round == conns.round) {
            Cell *sum = place(&bytes, conns.cells[i].key, 0);
            uint64_t ratio = sum->value ? conns.cells[i].value * 1000000 / sum->value : 0;
            if (ratio > 20000)
                keep_row(conns.cells[i].key, ratio);
        }
}

static void close_window(uint64_t number)
{
    printf("window %llu\n", (unsigned long long)number);
    above(&syns, 400);
    print_rows("newconn");
    above(&sources, 300);
    print_rows("spread");
    ratios();
    print_rows("slow");
    table_clear(&syns);
    table_clear(&pairs);
    table_clear(&sources);
    table_clear(&connections);
    table_clear(&conns);
    table_clear(&bytes);
}

static void tell_total(uint64_t windows) { printf("total windows %llu\n", (unsigned long long)windows); }

int main(int count, char **words)
{
    if (count != 2) {
        fputs("use: baseline CAPTURE\n", stderr);
        return 2;
    }
    pcap_t *capture = opened(words[1]);
    table_make(&syns, 1024);
    table_make(&pairs, 1024);
    table_make(&sources, 1024);
    table_make(&connections, 1024);
    table_make(&conns, 1024);
    table_make(&bytes, 1024);
    int bad = answer(capture);
    pcap_close(capture);
    return bad ? 5 : 0;
}
