/* Writes a capture of COUNT packets within one second, whose keys collide in the tables of a program that hashes from a known number: crafted KIND COUNT > FILE

   hash      the two Ethernet addresses, as a row of two columns, have one and the same hash of 64 bits
   bits      destination, source and source port, as a row of three columns, agree in the low 17 bits of their hashes
   prefixes  the source addresses of IPv6, of which the last 32 bits are 0, have one and the same hash of 64 bits
   addresses as hash,
   ports     as bits, and
   hosts     as prefixes, with random keys, for comparison

   The hash is that of a table whose number is 0 (sn_base/src/seed.rt): a row is a number of 128 bits, of which the lower half is put to the state and then the
   upper one; each by an exclusive or, and the state is multiplied by a constant, both halves of the product put together by an exclusive or. It begins and ends
   with what is made of the table's number. */
#include <stdint.h>
#include <stdio.h>
#include <stdlib.h>
#include <string.h>

static const uint64_t start = 0x243f6a8885a308d3, factor = 0x9e3779b97f4a7c15;

static uint64_t put(uint64_t state, uint64_t column) {
    unsigned __int128 product = (unsigned __int128)(state ^ column) * factor;
    return (uint64_t)product ^ (uint64_t)(product >> 64);
}

/* What is made of the table's number, 0. */
static uint64_t first(void) {
    return put(start, 0);
}

static uint64_t drawn(void) {
    static uint64_t x = 88172645463325252;
    x ^= x << 13;
    x ^= x >> 7;
    x ^= x << 17;
    return x;
}

static void big(uint8_t *to, uint64_t number, int bytes) {
    for (int i = 0; i < bytes; i++)
        to[i] = (uint8_t)(number >> 8 * (bytes - 1 - i));
}

static void little(uint8_t *to, uint32_t number) {
    for (int i = 0; i < 4; i++)
        to[i] = (uint8_t)(number >> 8 * i);
}

/* The header of a record of 54 bytes; each is a microsecond after the one before, as far as a second goes. */
static void record(uint8_t *bytes, uint64_t at) {
    little(bytes, 1);
    little(bytes + 4, (uint32_t)(at < 999999 ? at : 999999));
    little(bytes + 8, 54);
    little(bytes + 12, 54);
}

/* A TCP SYN. */
static void packet(uint64_t at, uint64_t ether_source, uint64_t ether_destination, uint32_t source, uint32_t destination, uint16_t port) {
    uint8_t bytes[16 + 54] = {0};
    record(bytes, at);
    uint8_t *frame = bytes + 16;
    big(frame, ether_destination, 6);
    big(frame + 6, ether_source, 6);
    big(frame + 12, 0x0800, 2);
    frame[14] = 0x45;
    big(frame + 16, 40, 2);
    frame[22] = 64;
    frame[23] = 6;
    big(frame + 26, source, 4);
    big(frame + 30, destination, 4);
    big(frame + 34, port, 2);
    big(frame + 36, 80, 2);
    frame[46] = 0x50;
    frame[47] = 2;
    fwrite(bytes, 1, sizeof bytes, stdout);
}

/* A packet of IPv6 of 54 bytes with nothing after its header. */
static void packet6(uint64_t at, uint64_t upper, uint64_t lower) {
    uint8_t bytes[16 + 54] = {0};
    record(bytes, at);
    uint8_t *frame = bytes + 16;
    big(frame, 1, 6);
    big(frame + 6, 2, 6);
    big(frame + 12, 0x86dd, 2);
    frame[14] = 0x60;
    frame[20] = 59;
    frame[21] = 64;
    big(frame + 22, upper, 8);
    big(frame + 30, lower, 8);
    big(frame + 38, 1, 8);
    big(frame + 46, 2, 8);
    fwrite(bytes, 1, sizeof bytes, stdout);
}

static void equal_hashes(uint64_t count) {
    for (uint64_t a = 0, done = 0; done < count; a++) {
        uint64_t b = put(first(), a) ^ 0x123456789abcdef0;
        if (b >> 48 == 0)
            packet(done++, a, b, 0x0a000001, 0x0a000002, 1024);
    }
}

/* Three columns take 42 bits each, the first one lowest. */
static void equal_bits(uint64_t count) {
    const uint64_t destination = 0x0a000002;
    for (uint64_t source = 0, done = 0; done < count; source++) {
        uint64_t state = put(first(), destination | source << 42);
        for (uint64_t port = 0; port < 65536 && done < count; port++)
            if ((put(put(state, source >> 22 | port << 20), first()) & 0x1ffff) == 0)
                packet(done++, 1, 2, (uint32_t)source, destination, (uint16_t)port);
    }
}

static void equal_prefixes(uint64_t count) {
    for (uint64_t done = 0; done < count; done++) {
        uint64_t lower = done << 32;
        packet6(done, put(first(), lower) ^ 0x123456789abcdef0, lower);
    }
}

int main(int words, char **word) {
    uint64_t count = words == 3 ? strtoull(word[2], NULL, 10) : 0;
    uint8_t head[24] = {0xd4, 0xc3, 0xb2, 0xa1, 2, 0, 4, 0, [16] = 0xff, 0xff, 0, 0, 1};
    if (count == 0) {
        fputs("usage: crafted hash|bits|prefixes|addresses|ports|hosts COUNT > FILE\n", stderr);
        return 2;
    }
    fwrite(head, 1, sizeof head, stdout);
    if (strcmp(word[1], "hash") == 0)
        equal_hashes(count);
    else if (strcmp(word[1], "bits") == 0)
        equal_bits(count);
    else if (strcmp(word[1], "prefixes") == 0)
        equal_prefixes(count);
    else
        for (uint64_t done = 0; done < count; done++) {
            uint64_t one = drawn(), two = drawn();
            if (strcmp(word[1], "addresses") == 0)
                packet(done, one >> 16, two >> 16, 0x0a000001, 0x0a000002, 1024);
            else if (strcmp(word[1], "hosts") == 0)
                packet6(done, one, two << 32);
            else
                packet(done, 1, 2, (uint32_t)(one >> 32), 0x0a000002, (uint16_t)(two >> 48));
        }
    return fflush(stdout) == 0 ? 0 : 1;
}
