// Writes traffic like that of a backbone: flows of heavy-tailed length between popular clients and servers, over TCP, UDP and ICMP, with their
// handshakes and ends, and nine attacks hidden among them that go on the whole time.
//
//   backbone FILE [NAME NUMBER]..
//
// packets 1200000   how many packets
// rate 60000        packets a second
// seed 1            what the draws follow; another seed has other victims and attackers too
// attacks 1         0: without attacks
// ipv6 0            percent of the flows over IPv6
// snap 66           bytes that are captured of a packet, at least 66
// servers 200000    addresses of servers, and
// clients 400000    of clients
// skew 105          hundredths of the exponent by which few of them get most flows
// flows 30000       flows at one time
//
// The same words make the same bytes. The file is classic pcap, little-endian, microseconds, Ethernet. The addresses of the attacks go to standard error.
#include <math.h>
#include <stdint.h>
#include <stdio.h>
#include <stdlib.h>
#include <string.h>

enum { TCP = 6, UDP = 17, ICMP = 1, FIN = 1, SYN = 2, PSH = 8, ACK = 16, HEADERS = 128, FIRST_SECOND = 1700000000, ATTACKS = 9 };

// ---- draws

static uint64_t drawn;

static uint64_t mixed(uint64_t z) {
    z = (z ^ (z >> 30)) * 0xBF58476D1CE4E5B9u;
    z = (z ^ (z >> 27)) * 0x94D049BB133111EBu;
    return z ^ (z >> 31);
}

static uint64_t draw(void) {
    return mixed(drawn += 0x9E3779B97F4A7C15u);
}

static double draw_unit(void) {
    return (double)(draw() >> 11) * (1.0 / 9007199254740992.0);
}

static uint32_t below(uint32_t limit) {
    return (uint32_t)(((draw() >> 32) * limit) >> 32);
}

// ---- who speaks

// The share of all flows that the first ranks have together.
typedef struct {
    double *shares;
    uint32_t count;
} Popularity;

static Popularity popularity(uint32_t count, double exponent) {
    Popularity found = { malloc(sizeof(double) * count), count };
    double sum = 0;
    if (found.shares == NULL) {
        fprintf(stderr, "backbone: memory\n");
        exit(1);
    }
    for (uint32_t i = 0; i < count; i++)
        found.shares[i] = sum += pow(i + 1, -exponent);
    for (uint32_t i = 0; i < count; i++)
        found.shares[i] /= sum;
    return found;
}

static uint32_t draw_rank(const Popularity *of) {
    double share = draw_unit();
    uint32_t low = 0, high = of->count - 1;
    while (low < high) {
        uint32_t middle = (low + high) / 2;
        if (of->shares[middle] < share)
            low = middle + 1;
        else
            high = middle;
    }
    return low;
}

// The address of a rank: few networks have most addresses, in each of them few smaller ones.
static uint32_t address(uint64_t rank, uint64_t kind) {
    uint64_t bits = mixed(rank * 0x9E3779B97F4A7C15u + kind);
    double unit = (double)(bits >> 40) * (1.0 / 16777216.0);
    uint32_t first = 1 + (uint32_t)(200 * unit * unit);
    if (first == 10 || first == 127)
        first = 198;
    uint32_t second = mixed(first * 77 + ((bits >> 8) & 31) + kind) & 255;
    uint32_t third = mixed(second * 131 + first * 7 + ((bits >> 16) & 63)) & 255;
    return first << 24 | second << 16 | third << 8 | (uint32_t)(bits & 255);
}

// ---- packets

typedef struct {
    uint32_t source, target, time_to_live, payload;
    uint16_t source_port, target_port;
    uint8_t protocol, flags;
    int is_ipv6;
} Packet;

static FILE *file;
static uint32_t snap = 66;
static uint64_t now;

static void put16(uint8_t *at, uint32_t number) {
    at[0] = (uint8_t)(number >> 8);
    at[1] = (uint8_t)number;
}

static void put32(uint8_t *at, uint32_t number) {
    put16(at, number >> 16);
    put16(at + 2, number);
}

// An IPv6 address of an IPv4 one, whose networks have their counterparts.
static void put_long(uint8_t *at, uint32_t number) {
    put32(at, 0x20010db8);
    put16(at + 4, number >> 16);
    put16(at + 6, (number >> 8) & 255);
    put32(at + 12, number * 2654435761u);
}

// Puts an IP header that says so many bytes after it, and gives where they begin.
static uint8_t *put_ip(uint8_t *at, const Packet *p, uint32_t bytes) {
    if (p->is_ipv6) {
        at[0] = 0x60;
        put16(at + 4, bytes);
        at[6] = p->protocol == ICMP ? 58 : p->protocol;
        at[7] = (uint8_t)p->time_to_live;
        put_long(at + 8, p->source);
        put_long(at + 24, p->target);
        return at + 40;
    }
    at[0] = 0x45;
    put16(at + 2, 20 + bytes);
    put16(at + 4, (uint32_t)draw());
    at[6] = 0x40;
    at[8] = (uint8_t)p->time_to_live;
    at[9] = p->protocol;
    put32(at + 12, p->source);
    put32(at + 16, p->target);
    return at + 20;
}

static void put_transport(uint8_t *at, const Packet *p) {
    if (p->protocol == ICMP) {
        at[0] = p->flags;
        put16(at + 4, p->source_port);
        return;
    }
    put16(at, p->source_port);
    put16(at + 2, p->target_port);
    if (p->protocol == UDP) {
        put16(at + 4, 8 + p->payload);
        return;
    }
    put32(at + 4, (uint32_t)draw());
    put32(at + 8, (uint32_t)draw());
    at[12] = 0x50;
    at[13] = p->flags;
    put16(at + 14, 64240);
}

static void write_packet(const Packet *p) {
    static uint8_t frame[1 << 16];
    memset(frame, 0, HEADERS);
    frame[0] = frame[5] = frame[6] = 2;
    frame[11] = 1;
    put16(frame + 12, p->is_ipv6 ? 0x86dd : 0x0800);
    uint32_t rest = (p->protocol == TCP ? 20 : 8) + p->payload;
    uint8_t *transport = put_ip(frame + 14, p, rest);
    put_transport(transport, p);
    uint32_t whole = (uint32_t)(transport - frame) + rest;
    uint32_t captured = whole < snap ? whole : snap;
    uint32_t head[4] = { (uint32_t)(FIRST_SECOND + now / 1000000), (uint32_t)(now % 1000000), captured, whole < 60 ? 60 : whole };
    fwrite(head, sizeof head, 1, file);
    fwrite(frame, captured, 1, file);
}

// ---- flows

typedef struct {
    uint32_t client, server, left, passed;
    uint16_t client_port, server_port, segment;
    uint8_t protocol;
    int is_ipv6;
} Flow;

static Popularity servers, clients;
static uint32_t ipv6_percent;

static uint16_t tcp_port(void) {
    uint32_t k = below(100);
    return (uint16_t)(k < 62 ? 443 : k < 82 ? 80 : k < 84 ? 22 : k < 86 ? 25 : k < 88 ? 993 : k < 90 ? 8080 : 1024 + below(60000));
}

static uint16_t udp_port(void) {
    uint32_t k = below(100);
    return (uint16_t)(k < 45 ? 53 : k < 75 ? 443 : k < 80 ? 123 : 1024 + below(60000));
}

// How many packets a flow of this kind has, by a draw that now and then is very large.
static double packets_of(const Flow *f, double drawn_length) {
    if (f->protocol == TCP)
        return 3 + drawn_length * 5;
    if (f->protocol == ICMP)
        return 1 + drawn_length;
    return f->server_port == 53 ? 2 : 1 + drawn_length * 6;
}

static void begin(Flow *f) {
    f->client = address(draw_rank(&clients), 1001);
    f->server = address(draw_rank(&servers), 2002);
    uint32_t kind = below(1000);
    f->is_ipv6 = below(100) < ipv6_percent;
    f->client_port = (uint16_t)(1024 + below(64000));
    f->passed = 0;
    f->segment = (uint16_t)(below(4) ? 1448 : 536 + below(900));
    double unit = fmax(draw_unit(), 1e-9);
    f->protocol = kind < 820 ? TCP : kind < 985 ? UDP : ICMP;
    f->server_port = f->protocol == TCP ? tcp_port() : f->protocol == UDP ? udp_port() : (uint16_t)below(65536);
    double packets = fmin(packets_of(f, pow(unit, -1 / 1.25)), 20000);
    f->left = packets < 1 ? 1 : (uint32_t)packets;
}

// What the next segment of a connection is, and whether the client sends it.
static int tcp_step(Flow *f, uint32_t i, Packet *p) {
    static const uint8_t opening[] = { SYN, SYN | ACK, ACK, PSH | ACK };
    if (i < 4) {
        p->flags = opening[i];
        p->payload = i == 3 ? 80 + below(500) : 0;
        return i != 1;
    }
    if (f->left <= 2) {
        p->flags = FIN | ACK;
        return f->left & 1;
    }
    int from_client = below(100) < 38;
    p->flags = ACK;
    if (!from_client || below(100) < 15) {
        p->flags = below(4) ? ACK : PSH | ACK;
        p->payload = below(100) < 70 ? f->segment : below(f->segment);
    }
    return from_client;
}

static int udp_step(const Flow *f, uint32_t i, Packet *p) {
    if (f->server_port == 53) {
        p->payload = i == 0 ? 30 + below(30) : 60 + below(300);
        return i == 0;
    }
    int from_client = below(100) < 45;
    p->payload = below(100) < 60 ? 1200 : below(1200);
    return from_client;
}

static int icmp_step(uint32_t i, Packet *p) {
    int from_client = !(i & 1);
    p->flags = from_client ? 8 : 0;
    p->payload = 56;
    return from_client;
}

// Writes the next packet of a flow. One that ends gives its place to a new one.
static void step(Flow *f) {
    Packet p = { .time_to_live = f->client % 7 + 50, .protocol = f->protocol, .is_ipv6 = f->is_ipv6 };
    uint32_t i = f->passed++;
    int from_client = f->protocol == TCP ? tcp_step(f, i, &p) : f->protocol == UDP ? udp_step(f, i, &p) : icmp_step(i, &p);
    int is_echo = f->protocol == ICMP;
    p.source = from_client ? f->client : f->server;
    p.target = from_client ? f->server : f->client;
    p.source_port = from_client && !is_echo ? f->client_port : f->server_port;
    p.target_port = is_echo ? 0 : from_client ? f->server_port : f->client_port;
    write_packet(&p);
    if (--f->left == 0)
        begin(f);
}

// ---- attacks

static const char *const names[ATTACKS] = { "newly_opened", "ssh_brute", "superspreader", "port_scan", "ddos", "syn_flood", "incomplete", "slowloris", "dns_reflection" };
// how many of ten thousand packets each has
static const uint32_t shares[ATTACKS] = { 80, 30, 50, 40, 100, 80, 80, 40, 40 };
static uint32_t victims[ATTACKS], attackers[ATTACKS], sent[ATTACKS];

static void choose_parties(uint64_t seed) {
    for (uint32_t i = 0; i < ATTACKS; i++) {
        victims[i] = address(900000000 + i * 13 + seed * 101, 3003);
        attackers[i] = address(800000000 + i * 17 + seed * 103, 4004);
    }
}

static void print_parties(void) {
    for (int i = 0; i < ATTACKS; i++)
        fprintf(stderr, "%s victim %u.%u.%u.%u attacker %u.%u.%u.%u\n", names[i], victims[i] >> 24, victims[i] >> 16 & 255, victims[i] >> 8 & 255, victims[i] & 255,
            attackers[i] >> 24, attackers[i] >> 16 & 255, attackers[i] >> 8 & 255, attackers[i] & 255);
}

// Packet n of an attack.
static Packet attack(int which, uint32_t n) {
    uint16_t port = (uint16_t)(1024 + n % 60000);
    uint32_t victim = victims[which];
    switch (which) {
    case 0: // many connections, of 400 clients
        return (Packet){ .source = address(n % 400, 5005), .target = victim, .protocol = TCP, .source_port = port, .target_port = 443, .flags = SYN };
    case 1: // passwords tried from 600 sources, all packets of one size
        return (Packet){ .source = address(n % 600, 6006), .target = victim, .protocol = TCP, .source_port = port, .target_port = 22, .flags = PSH | ACK, .payload = 36 };
    case 2: // one source, ever new destinations
        return (Packet){ .source = attackers[which], .target = address(n * 7919u, 7007), .protocol = UDP, .source_port = 4000, .target_port = 9, .payload = 20 };
    case 3: // one source, ever new ports
        return (Packet){ .source = attackers[which], .target = victim, .protocol = TCP, .source_port = 50000, .target_port = (uint16_t)(1 + n % 65000), .flags = SYN };
    case 4: // 3000 sources
        return (Packet){ .source = address(n % 3000, 8008), .target = victim, .protocol = UDP, .source_port = port, .target_port = 80, .payload = 400 };
    case 5: // spoofed sources
        return (Packet){ .source = address(draw() & 0xffffff, 9009), .target = victim, .protocol = TCP, .source_port = port, .target_port = 80, .flags = SYN };
    case 6: // opened and never ended
        return (Packet){ .source = address(n / 2 % 500, 1111), .target = victim, .protocol = TCP, .source_port = (uint16_t)(1024 + n / 2 % 60000), .target_port = 443, .flags = n & 1 ? ACK : SYN };
    case 7: // 300 connections that are held by a byte now and then
        return (Packet){ .source = address(n % 300, 1212), .target = victim, .protocol = TCP, .source_port = (uint16_t)(20000 + n % 300), .target_port = 80, .flags = PSH | ACK, .payload = 1 };
    default: // large answers of name servers that nobody asked
        return (Packet){ .source = address(n % 200, 1313), .target = victim, .protocol = UDP, .source_port = 53, .target_port = 40000, .payload = 1200 };
    }
}

// Which attack has the next packet, or -1.
static int drawn_attack(void) {
    uint32_t point = below(10000), sum = 0;
    for (int i = 0; i < ATTACKS; i++)
        if (point < (sum += shares[i]))
            return i;
    return -1;
}

// ---- the file

static uint32_t packets = 1200000, rate = 60000, seed = 1, attacks = 1, server_count = 200000, client_count = 400000, skew = 105, flow_count = 30000;

static const struct {
    const char *name;
    uint32_t *number, least, most;
} settings[] = {
    { "packets", &packets, 0, 1u << 31 }, { "rate", &rate, 1, 1000000 }, { "seed", &seed, 0, 1u << 31 }, { "attacks", &attacks, 0, 1 }, { "ipv6", &ipv6_percent, 0, 100 },
    { "snap", &snap, 66, 65000 }, { "servers", &server_count, 1, 1 << 24 }, { "clients", &client_count, 1, 1 << 24 }, { "skew", &skew, 0, 1000 }, { "flows", &flow_count, 1, 1 << 24 },
};

// Takes a setting by its name. Whether there is one, and the number is in its range.
static int take_setting(const char *name, const char *digits) {
    char *end;
    unsigned long number = strtoul(digits, &end, 10);
    for (size_t i = 0; i < sizeof settings / sizeof *settings; i++)
        if (strcmp(name, settings[i].name) == 0 && *digits >= '0' && *digits <= '9' && *end == 0 && number >= settings[i].least && number <= settings[i].most) {
            *settings[i].number = (uint32_t)number;
            return 1;
        }
    return 0;
}

static Flow *begin_flows(void) {
    Flow *flows = malloc(sizeof(Flow) * flow_count);
    if (flows == NULL) {
        fprintf(stderr, "backbone: memory\n");
        exit(1);
    }
    for (uint32_t i = 0; i < flow_count; i++) {
        begin(&flows[i]);
        if (below(10) < 7 && flows[i].left > 6)
            flows[i].passed = 4 + below(3);
    }
    return flows;
}

static void write_all(Flow *flows) {
    for (uint64_t i = 0; i < packets; i++) {
        now = i * 1000000 / rate;
        int which = attacks ? drawn_attack() : -1;
        if (which < 0) {
            step(&flows[below(flow_count)]);
            continue;
        }
        Packet p = attack(which, sent[which]++);
        p.time_to_live = 60;
        write_packet(&p);
    }
}

int main(int count, char **words) {
    int is_good = count >= 2 && count % 2 == 0;
    for (int i = 2; is_good && i + 1 < count; i += 2)
        is_good = take_setting(words[i], words[i + 1]);
    if (!is_good) {
        fprintf(stderr, "backbone: the words are FILE [NAME NUMBER]..\n");
        return 2;
    }
    if ((file = fopen(words[1], "wb")) == NULL) {
        perror(words[1]);
        return 1;
    }
    drawn = (uint64_t)seed * 7919;
    servers = popularity(server_count, skew / 100.0);
    clients = popularity(client_count, skew / 100.0);
    uint32_t head[6] = { 0xa1b2c3d4, 2 | 4 << 16, 0, 0, 262144, 1 };
    fwrite(head, sizeof head, 1, file);
    Flow *flows = begin_flows();
    choose_parties(seed);
    if (attacks)
        print_parties();
    write_all(flows);
    if (ferror(file) || fclose(file)) {
        perror(words[1]);
        return 1;
    }
    return 0;
}
