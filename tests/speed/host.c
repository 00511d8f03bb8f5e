/* host nfo|rtu|ascii ROUNDS < WORKLOAD: the rounds of the program `speed`, through the library, as firmware in C calls it. WORKLOAD has a message a line in
 * capital hex; what is printed is what `speed` prints. */
#include <stdio.h>
#include <stdlib.h>
#include <string.h>

#include "linecard.h"

enum { MESSAGES = 4096, SCRAP = 7 };
static uint8_t stream[MESSAGES * 64];
static size_t end_of[MESSAGES];

/* Reads the workload; the number of its messages. */
static size_t read_lines(void)
{
    char line[256];
    size_t messages = 0, total = 0;
    while (messages < MESSAGES && fgets(line, sizeof line, stdin)) {
        unsigned byte;
        for (size_t j = 0; sscanf(line + j, "%2X", &byte) == 1; j += 2)
            stream[total++] = (uint8_t)byte;
        end_of[messages++] = total;
    }
    return messages;
}

int main(int argc, char **argv)
{
    static const char *const names[] = { "nfo", "rtu", "ascii" };
    static const uint8_t identity[CARD_IDENTITY];
    uint8_t reply[CARD_ASCII_REPLY];
    uint32_t p = 0, h = 0;
    unsigned long taken = 0;
    size_t told[2];
    card c;

    if (argc != 3) return 2;
    while (p < 3 && strcmp(argv[1], names[p])) p++;
    if (p == 3) return 2;
    size_t messages = read_lines(), total = messages ? end_of[messages - 1] : 0;
    long rounds = strtol(argv[2], NULL, 10);
    card_start(&c, p, identity);
    for (long r = 0; r < rounds; r++) {
        size_t piece = 0;
        for (size_t at = 0, end = 0; at < total; at = end) {
            end = p == CARD_RTU ? end_of[piece++] : total - at < SCRAP ? total : at + SCRAP;
            const uint8_t *b = stream + at;
            size_t n = end - at;
            do {
                uint32_t o = card_receive(&c, b, n, reply, sizeof reply, told);
                h = h * 16777619u + o + 16 * (uint32_t)told[0] + 4096 * (uint32_t)told[1];
                taken += o < CARD_SHORT_BUFFER;
                b += told[0];
                n -= told[0];
            } while (n);
        }
    }
    printf("%s rounds %ld bytes/round %zu taken %lu checksum %08lX\n", argv[1], rounds, total, taken, (unsigned long)h);
    return 0;
}
