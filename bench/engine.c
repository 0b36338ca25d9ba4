/* Answers the queries of a file over a capture, written by hand over libpcap as any engine for queries has to be: the file is read when the program runs, operators
 * go row by row, and tables hash from a number that is drawn at the start, so that keys can't be made to collide. It is the measure of what baseline.c, which has
 * its three queries compiled in, leaves out.
 *
 *     engine QUERIES CAPTURE
 *
 * It prints what `sonata plain QUERIES CAPTURE` prints, of queries that engine.h knows. */

#include "engine.h"

static void take(const Packet *p)
{
    uint64_t row[MOST];
    for (int q = 0; q < query_count; q++)
        for (int b = 0; b < queries[q].branch_count; b++) {
            Branch *branch = &queries[q].branches[b];
            for (int i = 0; i < branch->field_count; i++)
                row[i] = read_field(branch->fields[i], p);
            take_row(&branch->steps, 0, row);
        }
}

static void close_window(uint64_t number)
{
    printf("window %llu\n", (unsigned long long)number);
    answer_queries();
}

static void tell_total(uint64_t windows) { printf("total windows %llu\n", (unsigned long long)windows); }

int main(int count, char **words)
{
    if (count != 3) {
        fputs("use: engine QUERIES CAPTURE\n", stderr);
        return 2;
    }
    draw_seed();
    read_queries(words[1]);
    pcap_t *capture = opened(words[2]);
    int bad = answer(capture);
    pcap_close(capture);
    return bad ? 5 : 0;
}
