/* status nfo|rtu|drive FLAG ROUNDS: reads Inv St, on NFO serial or on Modbus RTU, or Drive Status, on Modbus RTU, 1000 times a round through the library, a whole message a
 * call, of a card with one fault flag, or with none for 0. Prints how many reads were done, and the word that the last of them told. */
#include <stdio.h>
#include <stdlib.h>
#include <string.h>

#include "linecard.h"

enum { READS = 1000 };

int main(int argc, char **argv)
{
    static const uint8_t enquiry[] = "\4!E00E9\5", frame[] = { 1, 3, 0x02, 0xA5, 0, 1, 0x95, 0x91 }, drive[] = { 1, 3, 0x02, 0x58, 0, 1, 0x04, 0x61 };
    static const uint8_t identity[CARD_IDENTITY];
    uint8_t reply[CARD_RTU_REPLY] = { 0 };
    unsigned long done = 0;
    unsigned word = 0;
    size_t told[2];
    card c;

    if (argc != 4) return 2;
    int kept = !strcmp(argv[1], "drive"), rtu = kept || !strcmp(argv[1], "rtu");
    uint32_t flag = (uint32_t)strtoul(argv[2], NULL, 10);
    long rounds = strtol(argv[3], NULL, 10);
    const uint8_t *message = kept ? drive : rtu ? frame : enquiry;
    size_t n = rtu ? sizeof frame : sizeof enquiry - 1;
    card_start(&c, rtu ? CARD_RTU : CARD_NFO, identity);
    if (flag && card_raise_fault(&c, flag)) return 2;
    for (long r = 0; r < rounds * READS; r++)
        done += card_receive(&c, message, n, reply, sizeof reply, told) == CARD_DONE;
    if (rtu)
        word = reply[3] * 256u + reply[4];
    else if (sscanf((const char *)reply + 8, "%4x", &word) != 1)
        return 2;
    printf("%s flag %lu done %lu told %u\n", argv[1], (unsigned long)flag, done, word);
    return 0;
}
