/* A card on a line: scraps of NFO serial come on standard input, replies go out; each message taken is a line, its outcome and its reply in hex.
 * On a real board `line_read` and `line_write` are the UART's, the tick comes from a timer, and the identity from where the maker put it. */
#include <stdio.h>

#include "linecard.h"

static size_t line_read(uint8_t *scrap, size_t room) { return fread(scrap, 1, room, stdin); }

static void line_write(uint32_t outcome, const uint8_t *reply, size_t n)
{
    printf("%u ", outcome);
    for (size_t i = 0; i < n; i++)
        printf("%02X", reply[i]);
    puts(n ? "" : "-");
}

int main(void)
{
    static card c;              /* the card's memory: 720 bytes of the host's */
    static const char identity[] = "Revision 02.03 C " "LineCard" "0000000000000001";
    uint8_t scrap[16], reply[CARD_REPLY_LEAST(CARD_NFO)];
    size_t n, told[2];

    card_start(&c, CARD_NFO, (const uint8_t *)identity);
    card_din1(&c, 1);
    while ((n = line_read(scrap, sizeof scrap)) > 0) {
        card_tick(&c, 1);       /* a tenth has passed */
        for (size_t at = 0; at < n; at += told[0]) {
            uint32_t outcome = card_receive(&c, scrap + at, n - at, reply, sizeof reply, told);
            if (outcome != CARD_NOTHING_TAKEN)
                line_write(outcome, reply, told[1]);
        }
    }
    fprintf(stderr, "MODE %u, SCMD %u, %zu bytes pending\n", c.plant[CARD_MODE], c.plant[CARD_SCMD], c.port.pending.len);
    return 0;
}
