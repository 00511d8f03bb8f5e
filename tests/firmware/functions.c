/* Every function of linecard.h, the library's own and the wrappers, held against documents 01 and 02. What does not hold is a line: where, what was seen, and
 * what should be. The memory is the host's: its fields are read and put through the header's structs.
 *
 * `run` puts other functions in the place of some, and this must tell. NFO serial's call is the one that is not lent an identity: with ALL_FOR_NFO the call for
 * all protocols stands in its place, with NFO_FOR_ALL it stands in that one's. */
#include <stdio.h>
#include <string.h>

#if defined ALL_FOR_NFO
#define card_receive_nfo_in exchanged_in
#elif defined NFO_FOR_ALL
#define card_receive_in exchanged_in
#endif
#include "linecard.h"

/* What the cards of this test are given: any bytes. */
#define REVISION "Rev 02.03\x00\x80\xFF:03AB"
#define MODEL "P\x00mp 7.5"
#define SERIAL "2024-0817\x00\xFF\x7FZ001"
static const uint8_t given[CARD_IDENTITY + 1] = REVISION MODEL SERIAL;
static_assert(sizeof REVISION == 17 + 1 && sizeof MODEL == 8 + 1 && sizeof SERIAL == 16 + 1, "an identity");

#if defined ALL_FOR_NFO
uint32_t exchanged_in(uint8_t held[512], size_t *len, uint32_t port[3], uint32_t plant[35],
                      const uint8_t *bytes, size_t n_bytes, uint8_t *reply, size_t n_reply, size_t told[2])
{
    return card_receive_in(held, len, port, plant, given, bytes, n_bytes, reply, n_reply, told);
}
#elif defined NFO_FOR_ALL
uint32_t exchanged_in(uint8_t held[512], size_t *len, uint32_t port[3], uint32_t plant[35], const uint8_t identity[41],
                      const uint8_t *bytes, size_t n_bytes, uint8_t *reply, size_t n_reply, size_t told[2])
{
    (void)identity;
    return card_receive_nfo_in(held, len, port, plant, bytes, n_bytes, reply, n_reply, told);
}
#endif

static const char *part = "";   /* what is looked at */
static unsigned long held, wrong;

static void same(const char *what, unsigned long long saw, unsigned long long right)
{
    held += saw == right;
    wrong += saw != right;
    if (saw != right && wrong <= 100)
        printf("functions: %s: %s: saw %llu, should be %llu\n", part, what, saw, right);
}

#define SAME(saw, right) same(#saw, (unsigned long long)(saw), (unsigned long long)(right))

static void same_at(const char *what, size_t at, unsigned long long saw, unsigned long long right)
{
    char place[80];
    snprintf(place, sizeof place, "%s[%zu]", what, at);
    same(place, saw, right);
}

static void same_bytes(const char *what, const uint8_t *saw, const uint8_t *right, size_t n)
{
    for (size_t i = 0; i < n; i++)
        same_at(what, i, saw[i], right[i]);
}

/* All of a card but its bytes pending. */
static void same_words(const card *saw, const card *right)
{
    for (size_t i = 0; i < CARD_NUMBERS; i++)
        same_at("port.numbers", i, saw->port.numbers[i], right->port.numbers[i]);
    for (size_t i = 0; i < CARD_WORDS; i++)
        same_at("plant", i, saw->plant[i], right->plant[i]);
    same_bytes("identity", saw->identity, right->identity, CARD_IDENTITY);
}

static void same_card(const card *saw, const card *right)
{
    SAME(saw->port.pending.len, right->port.pending.len);
    same_bytes("port.pending.bytes", saw->port.pending.bytes, right->port.pending.bytes, sizeof right->port.pending.bytes);
    same_words(saw, right);
}

/* A fresh card over memory that held other bytes. */
static card fresh(uint32_t protocol)
{
    card c;
    memset(&c, 0x5A, sizeof c);
    card_start(&c, protocol, given);
    return c;
}

/* Drive Status by document 02: "0 ready (MODE 3, DIN1 active, no flag), 1 running, 3 a fault flag stands, 6 DIN1 inactive, 9 MODE 3; the others 0". */
static uint32_t drive_status(const card *c)
{
    int bus = c->plant[CARD_MODE] == 3, active = c->plant[CARD_DIN1] != 0, flag = c->plant[CARD_FLAGS] != 0;
    int running = (c->plant[CARD_MODE] == 2 && active && !flag) || (bus && c->plant[CARD_SCMD] != 0);
    return (uint32_t)((bus && active && !flag) << 0 | running << 1 | flag << 3 | !active << 6 | bus << 9);
}

/* What a change of the drive leaves: "The word is stored". What changes nothing leaves it as it is, right or not. */
static void righted(card *c)
{
    c->plant[CARD_DRIVE_STATUS] = drive_status(c);
}

/* A card that runs at MODE 3, with something in every part of it. */
static card driving(void)
{
    card c = fresh(CARD_ASCII);
    c.plant[CARD_ACCEL] = 147;
    c.plant[CARD_MB_ADR] = 17;
    c.plant[CARD_SIO_TOT] = 10;
    c.plant[CARD_MODE] = 3;
    c.plant[CARD_SCMD] = 129;
    c.plant[CARD_DIN1] = 1;
    c.plant[CARD_FRQ_ACT] = 7;
    c.plant[CARD_I_RMS] = 8;
    c.plant[CARD_OP_TIME] = 9;
    righted(&c);
    c.port.numbers[CARD_SUM] = 4;
    c.port.pending.bytes[0] = ':';
    c.port.pending.len = 1;
    return c;
}

/* ---- start and restart */
/* The column Start; "At start DIN1 is inactive and no cause stands"; the identity is the one given, whatever its bytes are, and that one stays. */
static void start(void)
{
    static const uint32_t column[] = { 150, 400, 50, 1500, 80, 100, 1000, 50, 50, 0, 0, 500, 0, 1, 128, 0, 1, 50, 1, 1, 1, 0 };
    static const uint32_t protocols[][2] = { { CARD_NFO, CARD_NFO }, { CARD_RTU, CARD_RTU }, { CARD_ASCII, CARD_ASCII }, { 7, CARD_NFO } };
    uint8_t other[CARD_IDENTITY];

    part = "start";
    for (size_t k = 0; k < sizeof protocols / sizeof protocols[0]; k++) {
        card c = fresh(protocols[k][0]), d;
        SAME(c.port.pending.len, 0);
        SAME(c.port.numbers[CARD_PROTOCOL], protocols[k][1]);
        SAME(c.port.numbers[CARD_SUM], 0);
        SAME(c.port.numbers[CARD_SIOERR], 0);
        for (size_t i = 0; i < sizeof column / sizeof column[0]; i++)
            same_at("plant", i, c.plant[i], column[i]);
        SAME(c.plant[CARD_MODE], 1);
        SAME(c.plant[CARD_SCMD], 0);
        SAME(c.plant[CARD_FRQ_ACT], 0);
        SAME(c.plant[CARD_I_RMS], 0);
        SAME(c.plant[CARD_OP_TIME], 0);
        SAME(c.plant[CARD_DRIVE_STATUS], 0x0040);
        SAME(c.plant[CARD_DIN1], 0);
        SAME(c.plant[CARD_CAUSES], 0);
        SAME(c.plant[CARD_FLAGS], 0);
        SAME(c.plant[CARD_STATION], 1);
        same_bytes("identity", c.identity, given, CARD_IDENTITY);
        same_bytes("identity, the model", c.identity + CARD_MODEL, (const uint8_t *)MODEL, 8);
        same_bytes("identity, the serial number", c.identity + CARD_SERIAL, (const uint8_t *)SERIAL, 16);
        memset(&d, 0xA5, sizeof d);
        card_start_in(d.port.pending.bytes, &d.port.pending.len, d.port.numbers, d.plant, d.identity, protocols[k][0], given);
        same_card(&d, &c);
        for (size_t i = 0; i < CARD_IDENTITY; i++)
            c.identity[i] = other[i] = (uint8_t)(7 * i + k);
        card_start_in(d.port.pending.bytes, &d.port.pending.len, d.port.numbers, d.plant, d.identity, protocols[k][0], other);
        same_card(&d, &c);
        same_bytes("the identity given", other, c.identity, CARD_IDENTITY);
    }
}

/* "Restart keeps rows 301 to 322, DIN1, causes and measured numbers; flags become the standing causes; MODE 1, SCMD, SioErr and sum 0, nothing pending."
 * Our Modbus address "is what MbAdr held at the last start or restart". The identity stays. */
static void restart(void)
{
    card c = driving(), d, right;

    part = "restart";
    c.plant[CARD_CAUSES] = 1u << 3;
    c.plant[CARD_FLAGS] = 1u << 3 | 1u << 5 | 1u << 14;
    c.port.numbers[CARD_SIOERR] = 3;
    right = d = c;
    right.plant[CARD_FLAGS] = 1u << 3;
    right.plant[CARD_MODE] = 1;
    right.plant[CARD_SCMD] = 0;
    right.plant[CARD_STATION] = 17;
    righted(&right);
    right.port.numbers[CARD_SUM] = 0;
    right.port.numbers[CARD_SIOERR] = 0;
    right.port.pending.len = 0;
    card_restart(&c);
    same_card(&c, &right);
    card_restart_in(&d.port.pending.len, d.port.numbers, d.plant);
    same_card(&d, &right);
}

/* ---- host events */
/* "Faults 1 to 13 and 16 to 23 each have a cause and a flag. The host raises one (both set) or ends a cause (the flag stays)"; "SCMD becomes 0 when .. a
 * fault flag is raised". Any other number is 12, and nothing changes. */
static void fault(uint32_t n)
{
    int known = (1 <= n && n <= 13) || (16 <= n && n <= 23);
    uint32_t outcome = known ? CARD_DONE : CARD_NO_SUCH_EVENT, bit = known ? 1u << n : 0;
    card c = driving(), d = c, right = c;

    part = "raise fault";
    right.plant[CARD_CAUSES] |= bit;
    right.plant[CARD_FLAGS] |= bit;
    if (known) {
        right.plant[CARD_SCMD] = 0;
        righted(&right);
    }
    SAME(card_raise_fault(&c, n), outcome);
    same_card(&c, &right);
    SAME(card_raise_fault_in(d.plant, n), outcome);
    same_card(&d, &right);

    part = "end cause";
    right.plant[CARD_CAUSES] &= ~bit;
    SAME(card_end_cause(&c, n), outcome);
    same_card(&c, &right);
    SAME(card_end_cause_in(d.plant, n), outcome);
    same_card(&d, &right);
}

/* "SCMD becomes 0 when DIN1 goes inactive". */
static void din1(void)
{
    part = "DIN1";
    for (uint32_t active = 0; active <= 2; active++) {
        card c = driving(), d = c, right = c;
        if (active == 0) {
            right.plant[CARD_DIN1] = 0;
            right.plant[CARD_SCMD] = 0;
        }
        SAME(card_din1(&c, active), CARD_DONE);
        SAME(c.plant[CARD_DIN1] != 0, active != 0);
        right.plant[CARD_DIN1] = c.plant[CARD_DIN1];
        righted(&right);
        same_card(&c, &right);
        SAME(card_din1_in(d.plant, active), CARD_DONE);
        same_card(&d, &right);
    }
}

/* "The host sets FrqAct, I-rms and OpTime freely in their widths." */
static void measured(void)
{
    card c = driving(), d = c, right = c;

    part = "FrqAct";
    SAME(card_frq_act(&c, (uint32_t)-5), CARD_DONE);
    SAME((int16_t)c.plant[CARD_FRQ_ACT], (int16_t)-5);
    right.plant[CARD_FRQ_ACT] = c.plant[CARD_FRQ_ACT];
    same_card(&c, &right);
    SAME(card_frq_act_in(d.plant, (uint32_t)-5), CARD_DONE);
    same_card(&d, &right);

    part = "I-rms";
    right.plant[CARD_I_RMS] = (uint32_t)-100000;
    SAME(card_i_rms(&c, (uint32_t)-100000), CARD_DONE);
    same_card(&c, &right);
    SAME(card_i_rms_in(d.plant, (uint32_t)-100000), CARD_DONE);
    same_card(&d, &right);

    part = "OpTime";
    right.plant[CARD_OP_TIME] = 4000000000u;
    SAME(card_op_time(&c, 4000000000u), CARD_DONE);
    same_card(&c, &right);
    SAME(card_op_time_in(d.plant, 4000000000u), CARD_DONE);
    same_card(&d, &right);
}

/* "bit 1 parity fault told by the host. Either one at MODE 3 also raises flag 14." */
static void parity_fault(void)
{
    part = "parity fault";
    for (uint32_t mode = 1; mode <= 3; mode++) {
        card c = driving(), d, right;
        c.plant[CARD_MODE] = mode;
        right = d = c;
        right.port.numbers[CARD_SIOERR] = 2;
        if (mode == 3) {
            right.plant[CARD_FLAGS] = 1u << 14;
            right.plant[CARD_SCMD] = 0;
            righted(&right);
        }
        SAME(card_parity_fault(&c), CARD_DONE);
        same_card(&c, &right);
        SAME(card_parity_fault_in(d.port.numbers, d.plant), CARD_DONE);
        same_card(&d, &right);
    }
}

static void ticks(card *c, card *d, uint32_t tenths, uint32_t outcome, const card *right)
{
    SAME(card_tick(c, tenths), outcome);
    same_card(c, right);
    SAME(card_tick_in(d->port.numbers, d->plant, tenths), outcome);
    same_card(d, right);
}

/* A card at MODE 3, so many tenths before its sum is SioTot: up to there it counts, and one more is a time-out. */
static void last_tenths(card c, uint32_t tenths)
{
    card d = c, right = c;

    part = "tick up to SioTot";
    right.port.numbers[CARD_SUM] = c.plant[CARD_SIO_TOT];
    ticks(&c, &d, tenths, CARD_DONE, &right);
    part = "tick above SioTot at MODE 3";
    right.port.numbers[CARD_SUM] = 0;
    right.port.numbers[CARD_SIOERR] = 1;
    right.plant[CARD_FLAGS] = 1u << 14;
    right.plant[CARD_SCMD] = 0;
    righted(&right);
    ticks(&c, &d, 1, CARD_DONE, &right);
}

/* "The host ticks 1 to 250 tenths. If SioTot is not 0 and the sum .. goes above it, a time-out happens and the sum restarts at 0. While SioTot is 0 the
 * sum is 0." */
static void tick(void)
{
    card c = driving(), d = c, right = c;

    part = "tick";
    ticks(&c, &d, 0, CARD_NO_SUCH_EVENT, &right);
    ticks(&c, &d, 251, CARD_NO_SUCH_EVENT, &right);
    ticks(&c, &d, UINT32_MAX, CARD_NO_SUCH_EVENT, &right);
    last_tenths(c, 6);
    part = "tick above SioTot at MODE 1";
    c.plant[CARD_MODE] = 1;
    right = d = c;
    right.port.numbers[CARD_SUM] = 0;
    right.port.numbers[CARD_SIOERR] = 1;
    ticks(&c, &d, 250, CARD_DONE, &right);
    part = "tick while SioTot is 0";
    c = driving();
    c.plant[CARD_SIO_TOT] = 0;
    right = d = c;
    right.port.numbers[CARD_SUM] = 0;
    ticks(&c, &d, 250, CARD_DONE, &right);
}

/* "The start number becomes 50 (5 seconds)": a fresh card that runs at MODE 3 stops by itself once it was silent for longer, and not before. */
static void silence(void)
{
    card c = fresh(CARD_NFO);

    c.plant[CARD_MODE] = 3;
    c.plant[CARD_SCMD] = 129;
    c.plant[CARD_DIN1] = 1;
    last_tenths(c, 50);
}

/* ---- bytes from the line */
/* The functions for a protocol: those by the port's number, and its own. */
enum way { ALL, ALL_IN, OWN, OWN_IN, WAYS };

/* The library's own are lent the identity where it lies, here in memory that is never written; the wrappers lend the card's. */
static uint32_t receive(enum way way, uint32_t protocol, card *c, const uint8_t *bytes, size_t n, uint8_t *reply, size_t room, size_t told[2])
{
    struct card_pending *p = &c->port.pending;
    told[0] = told[1] = SIZE_MAX;
    if (way == ALL)
        return card_receive(c, bytes, n, reply, room, told);
    if (way == ALL_IN)
        return card_receive_in(p->bytes, &p->len, c->port.numbers, c->plant, given, bytes, n, reply, room, told);
    if (protocol == CARD_RTU)
        return way == OWN ? card_receive_rtu(c, bytes, n, reply, room, told)
                          : card_receive_rtu_in(p->bytes, &p->len, c->port.numbers, c->plant, given, bytes, n, reply, room, told);
    if (protocol == CARD_ASCII)
        return way == OWN ? card_receive_ascii(c, bytes, n, reply, room, told)
                          : card_receive_ascii_in(p->bytes, &p->len, c->port.numbers, c->plant, given, bytes, n, reply, room, told);
    return way == OWN ? card_receive_nfo(c, bytes, n, reply, room, told)
                      : card_receive_nfo_in(p->bytes, &p->len, c->port.numbers, c->plant, bytes, n, reply, room, told);
}

/* The port's number for a way: a protocol's own function does not look at it. */
static uint32_t number_for(enum way way, uint32_t protocol) { return way == ALL || way == ALL_IN ? protocol : (protocol + 1) % 3; }
static card port_for(enum way way, uint32_t protocol) { return fresh(number_for(way, protocol)); }

/* One call, and all that it leaves: the outcome, the bytes used, the reply and the bytes past it, the words. */
static void call(enum way way, uint32_t protocol, card *c, const uint8_t *bytes, size_t n, size_t room, uint32_t outcome, size_t used, const char *reply, size_t len, const card *right)
{
    uint8_t buffer[640], after[640];
    size_t told[2];

    memset(buffer, 0xA5, sizeof buffer);
    memset(after, 0xA5, sizeof after);
    memcpy(after, reply, len);
    SAME(receive(way, protocol, c, bytes, n, buffer, room, told), outcome);
    SAME(told[0], used);
    SAME(told[1], len);
    same_bytes("reply", buffer, after, sizeof after);
    same_words(c, right);
}

/* "Reply buffers now need 256 bytes for RTU and 513 for ASCII; NFO stays at 19", by the protocol's number; under that is 10. */
static const size_t least[] = { 19, 256, 513 };
static const size_t rooms[] = { 0, 18, 19, 255, 256, 512, 513, 600 };

static void limits(void)
{
    part = "limits";
    SAME(CARD_NFO_REPLY, least[CARD_NFO]);
    SAME(CARD_RTU_REPLY, least[CARD_RTU]);
    SAME(CARD_ASCII_REPLY, least[CARD_ASCII]);
    for (uint32_t protocol = 0; protocol < 9; protocol++)
        SAME(CARD_REPLY_LEAST(protocol), least[protocol < 3 ? protocol : CARD_NFO]);
}

/* A message to a fresh card, by each function and with buffers about the limits. 10 comes before all else, "with no byte used"; "A stream call uses bytes up to the
 * end of the first message taken": of two, those of the first. The message changes one word, or none where `word` is CARD_WORDS. */
static void message(const char *what, uint32_t protocol, const char *bytes, size_t n, uint32_t outcome, const char *reply, size_t len, size_t word, uint32_t value)
{
    uint8_t twice[64];
    size_t sent = protocol == CARD_RTU ? n : 2 * n;

    part = what;
    memcpy(twice, bytes, n);
    memcpy(twice + n, bytes, n);
    for (enum way way = 0; way < WAYS; way++) {
        const card before = port_for(way, protocol);
        card right = before;
        if (word < CARD_WORDS)
            right.plant[word] = value;
        for (size_t k = 0; k < sizeof rooms / sizeof rooms[0]; k++) {
            card c = before;
            if (rooms[k] < least[protocol]) {
                call(way, protocol, &c, twice, sent, rooms[k], CARD_SHORT_BUFFER, 0, "", 0, &before);
                same_card(&c, &before);
            } else {
                call(way, protocol, &c, twice, sent, rooms[k], outcome, n, reply, len, &right);
                SAME(c.port.pending.len, 0);
            }
        }
    }
}

/* A message of a stream in two scraps: the first is pending, the second ends it. No bytes at all are 15, but 10 where the buffer is too short. */
static void scraps(const char *what, uint32_t protocol, const char *bytes, size_t n, size_t cut, const char *reply, size_t len)
{
    const uint8_t *b = (const uint8_t *)bytes;

    part = what;
    for (enum way way = 0; way < WAYS; way++) {
        card c = port_for(way, protocol), right = c;
        call(way, protocol, &c, b, cut, least[protocol], CARD_NOTHING_TAKEN, cut, "", 0, &right);
        SAME(c.port.pending.len, cut);
        same_bytes("port.pending.bytes", c.port.pending.bytes, b, cut);
        call(way, protocol, &c, b, 0, least[protocol], CARD_NOTHING_TAKEN, 0, "", 0, &right);
        SAME(c.port.pending.len, cut);
        call(way, protocol, &c, b, 0, least[protocol] - 1, CARD_SHORT_BUFFER, 0, "", 0, &right);
        SAME(c.port.pending.len, cut);
        call(way, protocol, &c, b + cut, n - cut, least[protocol], CARD_DONE, n - cut, reply, len, &right);
        SAME(c.port.pending.len, 0);
    }
}

#define TEXT(s) s, sizeof s - 1

static void bytes_from_the_line(void)
{
    message("case 1, NFO", CARD_NFO, TEXT("\x04!\x02" "E0019=0064\x03" "q"), CARD_NO_ROW, TEXT("!\x15"), CARD_WORDS, 0);
    message("case 2, NFO", CARD_NFO, TEXT("\x04!E001D\x05"), CARD_DONE, TEXT("!\x02" "E001D=0032\x03\x0F"), CARD_WORDS, 0);
    message("case 3, NFO", CARD_NFO, TEXT("\x04!\x02" "E001D=0064\x03\x0C"), CARD_DONE, TEXT("!\x06"), CARD_ACCEL, 100);
    message("NFO, another address", CARD_NFO, TEXT("\x04\"E001D\x05"), CARD_NOT_OURS, TEXT(""), CARD_WORDS, 0);
    message("NFO, small letters, a question", CARD_NFO, TEXT("\x04!E001d\x05"), CARD_DONE, TEXT("!\x02" "E001D=0032\x03\x0F"), CARD_WORDS, 0);
    message("NFO, small letters, a write", CARD_NFO, TEXT("\x04!\x02" "E001d=00fa\x03\x29"), CARD_DONE, TEXT("!\x06"), CARD_ACCEL, 250);
    message("NFO, a small prefix", CARD_NFO, TEXT("\x04!e001D\x05"), CARD_NO_ROW, TEXT("!\x15"), CARD_WORDS, 0);
    message("NFO, a value that is not hex", CARD_NFO, TEXT("\x04!\x02" "E001D=00g4\x03\x5D"), CARD_MALFORMED, TEXT("!\x15"), CARD_WORDS, 0);
    message("NFO, SiAdr 94", CARD_NFO, TEXT("\x04!\x02" "E00A9=005E\x03s"), CARD_DONE, TEXT("!\x06"), CARD_SI_ADR, 94);
    message("NFO, SiAdr 95", CARD_NFO, TEXT("\x04!\x02" "E00A9=005F\x03p"), CARD_NOT_ALLOWED, TEXT("!\x15"), CARD_WORDS, 0);
    message("NFO, SiAdr 0", CARD_NFO, TEXT("\x04!\x02" "E00A9=0000\x03\x03"), CARD_NOT_ALLOWED, TEXT("!\x15"), CARD_WORDS, 0);
    message("NFO, SiAdr 95, to all", CARD_NFO, TEXT("\x04\x7F\x02" "E00A9=005F\x03p"), CARD_NOT_ALLOWED, TEXT(""), CARD_WORDS, 0);
    scraps("case 2, NFO, in scraps", CARD_NFO, TEXT("\x04!E001D\x05"), 3, TEXT("!\x02" "E001D=0032\x03\x0F"));
    scraps("NFO, small letters, in scraps", CARD_NFO, TEXT("\x04!E001d\x05"), 7, TEXT("!\x02" "E001D=0032\x03\x0F"));

    message("RTU, a read", CARD_RTU, TEXT("\x01\x03\x02\x94\x00\x01\xC4\x5E"), CARD_DONE, TEXT("\x01\x03\x02\x00\x01\x79\x84"), CARD_WORDS, 0);
    message("RTU, a write", CARD_RTU, TEXT("\x01\x06\x06\xDC\x00\x64\x49\x53"), CARD_DONE, TEXT("\x01\x06\x06\xDC\x00\x64\x49\x53"), CARD_ACCEL, 100);
    message("RTU, SiAdr 94", CARD_RTU, TEXT("\x01\x06\x07\x00\x00\x5E\x09\x46"), CARD_DONE, TEXT("\x01\x06\x07\x00\x00\x5E\x09\x46"), CARD_SI_ADR, 94);
    message("RTU, SiAdr 95", CARD_RTU, TEXT("\x01\x06\x07\x00\x00\x5F\xC8\x86"), CARD_NOT_ALLOWED, TEXT("\x01\x86\x03\x02\x61"), CARD_WORDS, 0);
    message("RTU, a wrong span", CARD_RTU, TEXT("\x01\x03\x07\x0C\x00\x01\x45\x7D"), CARD_NO_ROW, TEXT("\x01\x83\x02\xC0\xF1"), CARD_WORDS, 0);
    message("RTU, a wrong CRC", CARD_RTU, TEXT("\x01\x06\x06\xDC\x00\x64\x49\x54"), CARD_BAD_FRAME, TEXT(""), CARD_WORDS, 0);
    message("RTU, no bytes at all", CARD_RTU, TEXT(""), CARD_BAD_FRAME, TEXT(""), CARD_WORDS, 0);

    message("case 7, ASCII, a read", CARD_ASCII, TEXT(":01030294000165\r\n"), CARD_DONE, TEXT(":0103020001F9\r\n"), CARD_WORDS, 0);
    message("case 7, ASCII, a wrong span", CARD_ASCII, TEXT(":0103070C0001E8\r\n"), CARD_NO_ROW, TEXT(":0183027A\r\n"), CARD_WORDS, 0);
    message("case 7, ASCII, a broadcast read", CARD_ASCII, TEXT(":000302A4000156\r\n"), CARD_NOT_OURS, TEXT(""), CARD_WORDS, 0);
    message("ASCII, a write", CARD_ASCII, TEXT(":010606DC0064B3\r\n"), CARD_DONE, TEXT(":010606DC0064B3\r\n"), CARD_ACCEL, 100);
    message("ASCII, small letters", CARD_ASCII, TEXT(":010606dc0064b3\r\n"), CARD_DONE, TEXT(":010606DC0064B3\r\n"), CARD_ACCEL, 100);
    message("ASCII, small letters, a wrong span", CARD_ASCII, TEXT(":0103070c0001e8\r\n"), CARD_NO_ROW, TEXT(":0183027A\r\n"), CARD_WORDS, 0);
    message("ASCII, the LRC alone in small letters", CARD_ASCII, TEXT(":010307000001f4\r\n"), CARD_DONE, TEXT(":0103020001F9\r\n"), CARD_WORDS, 0);
    scraps("case 7, ASCII, in scraps", CARD_ASCII, TEXT(":01030294000165\r\n"), 6, TEXT(":0103020001F9\r\n"));
    scraps("ASCII, small letters, in scraps", CARD_ASCII, TEXT(":010307000001f4\r\n"), 14, TEXT(":0103020001F9\r\n"));
}

/* ---- Inv St */
/* A question to a card with nothing pending, by each function: what comes of it, and nothing changes. */
static void asked(uint32_t protocol, const card *c, const char *bytes, size_t n, uint32_t outcome, const char *reply, size_t len)
{
    for (enum way way = 0; way < WAYS; way++) {
        card d = *c, right;
        d.port.numbers[CARD_PROTOCOL] = number_for(way, protocol);
        right = d;
        call(way, protocol, &d, (const uint8_t *)bytes, n, least[protocol], outcome, n, reply, len, &right);
    }
}

/* The ENQUIRY of Inv St at an address, on NFO serial: the number is told, or it is not ours. */
static void asked_at(const card *c, uint8_t address, uint32_t number, int ours)
{
    const char enquiry[] = { 0x04, (char)(address + 32), 'E', '0', '0', 'E', '9', 0x05 };
    char reply[15];
    uint8_t bcc = 0;

    snprintf(reply, sizeof reply, "%c\x02" "E00E9=%04X\x03", address + 32, (unsigned)number);
    for (size_t i = 2; i < 13; i++)
        bcc ^= (uint8_t)reply[i];
    reply[13] = (char)bcc;
    asked(CARD_NFO, c, enquiry, sizeof enquiry, ours ? CARD_DONE : CARD_NOT_OURS, reply, ours ? 14 : 0);
}

/* Inv St tells that number, on NFO serial and on Modbus. */
static void status_told(const card *c, uint32_t number)
{
    char unit[16];

    asked_at(c, 1, number, 1);
    snprintf(unit, sizeof unit, ":010302%04X%02X\r\n", (unsigned)number, (unsigned)(0x100 - 0x01 - 0x03 - 0x02 - number));
    asked(CARD_ASCII, c, TEXT(":010302A5000154\r\n"), CARD_DONE, unit, 15);
}

/* "Inv St is the lowest flagged number, else 24 at MODE 1, 33/34 at MODE 2 and 37/38 at MODE 3, standing/running": no flag; and each of the 32 bits alone, with
 * another above it, and with all above it. */
static void statuses(void)
{
    card c = fresh(CARD_NFO);

    part = "Inv St, no flag";
    for (uint32_t runs = 0; runs <= 1; runs++)
        for (uint32_t mode = 1; mode <= 3; mode++) {
            c.plant[CARD_MODE] = mode;
            c.plant[CARD_DIN1] = runs;
            c.plant[CARD_SCMD] = runs ? 129 : 0;
            status_told(&c, mode == 1 ? 24 : mode == 2 ? 33 + runs : 37 + runs);
        }
    part = "Inv St, a flag";
    for (uint32_t n = 0; n < 32; n++) {
        for (uint32_t other = n; other < 32; other++) {
            c.plant[CARD_FLAGS] = 1u << n | 1u << other;
            status_told(&c, n);
        }
        c.plant[CARD_FLAGS] = UINT32_MAX << n;
        status_told(&c, n);
    }
}

/* ---- Drive Status */
/* The message of Modbus ASCII that these digits are, with `:`, LRC and CR LF around them. */
static void message_of(char *out, const char *digits)
{
    unsigned sum = 0, byte;

    for (const char *d = digits; sscanf(d, "%2X", &byte) == 1; d += 2)
        sum += byte;
    sprintf(out, ":%s%02X\r\n", digits, -sum & 0xFF);
}

/* A message on Modbus ASCII, and the one that answers it, each by its digits, by each function, and what it leaves. */
static void sent(const card *c, const char *request, uint32_t outcome, const char *answer, const card *right)
{
    char bytes[40], reply[40];

    message_of(bytes, request);
    message_of(reply, answer);
    for (enum way way = 0; way < WAYS; way++) {
        card d = *c, then = *right;
        d.port.numbers[CARD_PROTOCOL] = then.port.numbers[CARD_PROTOCOL] = number_for(way, CARD_ASCII);
        call(way, CARD_ASCII, &d, (const uint8_t *)bytes, strlen(bytes), CARD_ASCII_REPLY, outcome, strlen(bytes), reply, strlen(reply), &then);
    }
}

/* Register 0258h tells the word that is stored, whatever it is, and changes nothing; a write of it is 3, and changes nothing. */
static void word_told(const card *c)
{
    char answer[16];

    snprintf(answer, sizeof answer, "010302%04X", (unsigned)c->plant[CARD_DRIVE_STATUS]);
    sent(c, "010302580001", CARD_DONE, answer, c);
    answer[3] = '4';
    sent(c, "010402580001", CARD_DONE, answer, c);
    sent(c, "010602580040", CARD_READ_ONLY, "018602", c);
    sent(c, "011002580001020040", CARD_READ_ONLY, "019002", c);
}

/* A read of a row that clears flags: what it tells, and the flags and the word after it. Where it clears none, a word that the host put there stays. */
static void cleared(card c, const char *request, uint32_t number, uint32_t flags)
{
    char answer[16];
    card right = c;

    snprintf(answer, sizeof answer, "010302%04X", (unsigned)number);
    right.port.numbers[CARD_SIOERR] = strcmp(request, "010307180001") ? c.port.numbers[CARD_SIOERR] : 0;
    right.plant[CARD_FLAGS] = flags;
    if (flags != c.plant[CARD_FLAGS])
        righted(&right);
    sent(&c, request, CARD_DONE, answer, &right);
}

/* Each MODE, with a flag and without, SCMD 0 and 129, by DIN1 becoming active and then inactive. */
static void words_by_din1(void)
{
    part = "Drive Status, by DIN1";
    for (uint32_t n = 0; n < 12; n++) {
        card c = fresh(CARD_ASCII), right;
        c.plant[CARD_MODE] = 1 + n % 3;
        c.plant[CARD_FLAGS] = n / 3 % 2 ? 1u << 5 : 0;
        c.plant[CARD_SCMD] = n / 6 ? 129 : 0;
        right = c;
        right.plant[CARD_DIN1] = 1;
        righted(&right);
        SAME(card_din1(&c, 1), CARD_DONE);
        same_card(&c, &right);
        word_told(&c);
        right.plant[CARD_DIN1] = right.plant[CARD_SCMD] = 0;
        righted(&right);
        SAME(card_din1(&c, 0), CARD_DONE);
        same_card(&c, &right);
        word_told(&c);
    }
}

/* A card at MODE 3 that stands, with DIN1 active and nothing pending; its stored word is not right. */
static card standing(void)
{
    card c = driving();
    c.plant[CARD_SCMD] = 0;
    c.plant[CARD_DRIVE_STATUS] = 0x1234;
    c.port.numbers[CARD_SUM] = 0;
    c.port.pending.len = 0;
    return c;
}

/* Faults 3 and 5, of which 5's cause stands, and 14: by a read of Inv St, ack, and by one of SioErr. */
static void words_by_reads(void)
{
    part = "Drive Status, by a read that clears flags";
    for (uint32_t n = 0; n < 8; n++) {
        card c = standing();
        uint32_t three = n & 1, five = n >> 1 & 1, fourteen = n >> 2;
        c.plant[CARD_CAUSES] = 1u << 5;
        c.plant[CARD_FLAGS] = three << 3 | five << 5 | fourteen << 14;
        c.port.numbers[CARD_SIOERR] = 1;
        cleared(c, "010302A40001", three ? 3 : five ? 5 : fourteen ? 14 : 37, five << 5 | fourteen << 14);
        cleared(c, "010307180001", 1, three << 3 | five << 5);
    }
}

/* SCMD 257, MODE 2, Accel 100; and MODE 3 again, which changes nothing. */
static void words_by_writes(void)
{
    static const struct { const char *bytes; size_t word; uint32_t value; } writes[] = {
        { "010602980101", CARD_SCMD, 257 }, { "010602940002", CARD_MODE, 2 }, { "010606DC0064", CARD_ACCEL, 100 },
    };
    const card c = standing();

    part = "Drive Status, by a write";
    for (size_t k = 0; k < sizeof writes / sizeof writes[0]; k++) {
        card right = c;
        right.plant[writes[k].word] = writes[k].value;
        righted(&right);
        sent(&c, writes[k].bytes, CARD_DONE, writes[k].bytes, &right);
    }
    sent(&c, "010602940003", CARD_DONE, "010602940003", &c);
}

static void drive_statuses(void)
{
    card c = fresh(CARD_ASCII);

    part = "Drive Status, the word that is stored";
    word_told(&c);
    for (uint32_t word = 1; word < 0x10000; word <<= 1) {
        c.plant[CARD_DRIVE_STATUS] = word;
        word_told(&c);
    }
    words_by_din1();
    words_by_reads();
    words_by_writes();
}

/* ---- SiAdr kept from before */
/* "A restart that finds 0 or 95 kept from before puts 1 there", and any other number stays. The card answers to what is there then, and to 0; "95 is broadcast". */
static void address_kept(uint32_t kept, uint32_t then)
{
    card c = fresh(CARD_NFO), d, right;

    part = "SiAdr kept from before";
    c.plant[CARD_SI_ADR] = kept;
    d = c;
    for (uint8_t address = 1; address < 95; address++)
        asked_at(&c, address, 24, address == kept);
    asked_at(&c, 0, 24, 1);
    asked_at(&c, 95, 24, 0);
    right = c;
    right.plant[CARD_SI_ADR] = then;
    part = "SiAdr kept from before, after a restart";
    card_restart(&c);
    same_card(&c, &right);
    card_restart_in(&d.port.pending.len, d.port.numbers, d.plant);
    same_words(&d, &right);
    for (uint8_t address = 1; address < 95; address++)
        asked_at(&c, address, 24, address == then);
    asked_at(&c, 0, 24, 1);
    asked_at(&c, 95, 24, 0);
}

static void addresses_kept(void)
{
    address_kept(0, 1);
    address_kept(95, 1);
    address_kept(1, 1);
    address_kept(2, 2);
    address_kept(94, 94);
    address_kept(96, 96);
    address_kept(0x10000, 0x10000);
    address_kept(UINT32_MAX, UINT32_MAX);
}

/* ---- who the card is */
/* The objects of an answer, each its number, its length and its bytes, and the same in hex. */
#define OBJECT_0 "\x00\x11" "Valley Water Card"
#define OBJECT_1 "\x01\x00"
#define OBJECT_2 "\x02\x11" REVISION
#define OBJECT_3 "\x03\x00"
#define OBJECT_4 "\x04\x09" "Line card"
#define OBJECT_5 "\x05\x08" MODEL
#define OBJECT_6 "\x06\x00"
#define OBJECTS OBJECT_0 OBJECT_1 OBJECT_2 OBJECT_3 OBJECT_4 OBJECT_5 OBJECT_6
#define HEX_0 "0011" "56616C6C65792057617465722043617264"
#define HEX_1 "0100"
#define HEX_2 "0211" "5265762030322E30330080FF3A30334142"
#define HEX_3 "0300"
#define HEX_4 "0409" "4C696E652063617264"
#define HEX_5 "0508" "50006D7020372E35"
#define HEX_6 "0600"
#define HEXES HEX_0 HEX_1 HEX_2 HEX_3 HEX_4 HEX_5 HEX_6

/* A message that changes no word. */
#define ASKED(what, protocol, bytes, outcome, reply) message(what, protocol, TEXT(bytes), outcome, TEXT(reply), CARD_WORDS, 0)

/* "codes 01, 02 and 04, objects 00h to 06h, conformity 82h", "All objects asked for go in one reply: with 01 up to 02h, with 02 up to 06h, from the first object
 * named, or from 00h if that lies outside"; "function 17: byte count 16, then the 16-character serial number". */
static void identity_told(void)
{
    ASKED("RTU, code 01 from 00h", CARD_RTU, "\x01\x2B\x0E\x01\x00\x70\x77", CARD_DONE, "\x01\x2B\x0E\x01\x82\x00\x00\x03" OBJECT_0 OBJECT_1 OBJECT_2 "\x78\x5B");
    ASKED("RTU, code 01 from 02h", CARD_RTU, "\x01\x2B\x0E\x01\x02\xF1\xB6", CARD_DONE, "\x01\x2B\x0E\x01\x82\x00\x00\x01" OBJECT_2 "\x1E\xDD");
    ASKED("RTU, code 01 from 03h", CARD_RTU, "\x01\x2B\x0E\x01\x03\x30\x76", CARD_DONE, "\x01\x2B\x0E\x01\x82\x00\x00\x03" OBJECT_0 OBJECT_1 OBJECT_2 "\x78\x5B");
    ASKED("RTU, code 02 from 00h", CARD_RTU, "\x01\x2B\x0E\x02\x00\x70\x87", CARD_DONE, "\x01\x2B\x0E\x02\x82\x00\x00\x07" OBJECTS "\xA2\x66");
    ASKED("RTU, code 02 from 05h", CARD_RTU, "\x01\x2B\x0E\x02\x05\xB0\x84", CARD_DONE, "\x01\x2B\x0E\x02\x82\x00\x00\x02" OBJECT_5 OBJECT_6 "\x6B\x59");
    ASKED("RTU, code 02 from 07h", CARD_RTU, "\x01\x2B\x0E\x02\x07\x31\x45", CARD_DONE, "\x01\x2B\x0E\x02\x82\x00\x00\x07" OBJECTS "\xA2\x66");
    ASKED("RTU, code 04, 01h", CARD_RTU, "\x01\x2B\x0E\x04\x01\xB2\xE7", CARD_DONE, "\x01\x2B\x0E\x04\x82\x00\x00\x01" OBJECT_1 "\x41\x0D");
    ASKED("RTU, code 04, 02h", CARD_RTU, "\x01\x2B\x0E\x04\x02\xF2\xE6", CARD_DONE, "\x01\x2B\x0E\x04\x82\x00\x00\x01" OBJECT_2 "\x31\x9D");
    ASKED("RTU, code 04, 04h", CARD_RTU, "\x01\x2B\x0E\x04\x04\x72\xE4", CARD_DONE, "\x01\x2B\x0E\x04\x82\x00\x00\x01" OBJECT_4 "\xF3\x8D");
    ASKED("RTU, code 04, 05h", CARD_RTU, "\x01\x2B\x0E\x04\x05\xB3\x24", CARD_DONE, "\x01\x2B\x0E\x04\x82\x00\x00\x01" OBJECT_5 "\x14\xDA");
    ASKED("RTU, 17", CARD_RTU, "\x01\x11\xC0\x2C", CARD_DONE, "\x01\x11\x10" SERIAL "\x57\x1F");

    ASKED("ASCII, code 01 from 00h", CARD_ASCII, ":012B0E0100C5\r\n", CARD_DONE, ":012B0E0182000003" HEX_0 HEX_1 HEX_2 "12\r\n");
    ASKED("ASCII, code 01 from 02h", CARD_ASCII, ":012B0E0102C3\r\n", CARD_DONE, ":012B0E0182000001" HEX_2 "50\r\n");
    ASKED("ASCII, code 02 from 05h", CARD_ASCII, ":012B0E0205BF\r\n", CARD_DONE, ":012B0E0282000002" HEX_5 HEX_6 "46\r\n");
    ASKED("ASCII, code 02 from FFh", CARD_ASCII, ":012B0E02FFC5\r\n", CARD_DONE, ":012B0E0282000007" HEXES "C1\r\n");
    ASKED("ASCII, small letters", CARD_ASCII, ":012b0e0205bf\r\n", CARD_DONE, ":012B0E0282000002" HEX_5 HEX_6 "46\r\n");
    ASKED("ASCII, code 04, 00h", CARD_ASCII, ":012B0E0400C2\r\n", CARD_DONE, ":012B0E0482000001" HEX_0 "04\r\n");
    ASKED("ASCII, code 04, 04h", CARD_ASCII, ":012B0E0404BE\r\n", CARD_DONE, ":012B0E0482000001" HEX_4 "F0\r\n");
    ASKED("ASCII, code 04, 06h", CARD_ASCII, ":012B0E0406BC\r\n", CARD_DONE, ":012B0E0482000001" HEX_6 "39\r\n");
    ASKED("ASCII, 17", CARD_ASCII, ":0111EE\r\n", CARD_DONE, ":011110" "323032342D3038313700FF7F5A303031" "B0\r\n");
    scraps("ASCII, code 02, in scraps", CARD_ASCII, TEXT(":012B0E0200C4\r\n"), 9, TEXT(":012B0E0282000007" HEXES "C1\r\n"));
}

/* "a type other than 14 is 9; wrong length (no type byte too) or identification code is 8; unknown object with code 04 is 2"; "a broadcast of them is outcome 1". */
static void identity_refused(void)
{
    ASKED("RTU, code 04, 07h", CARD_RTU, "\x01\x2B\x0E\x04\x07\x32\xE5", CARD_NO_ROW, "\x01\xAB\x02\xDE\xF1");
    ASKED("RTU, code 03", CARD_RTU, "\x01\x2B\x0E\x03\x00\x71\x17", CARD_MALFORMED, "\x01\xAB\x03\x1F\x31");
    ASKED("RTU, code 00", CARD_RTU, "\x01\x2B\x0E\x00\x00\x71\xE7", CARD_MALFORMED, "\x01\xAB\x03\x1F\x31");
    ASKED("RTU, no type", CARD_RTU, "\x01\x2B\x40\x3F", CARD_MALFORMED, "\x01\xAB\x03\x1F\x31");
    ASKED("RTU, 43 too short", CARD_RTU, "\x01\x2B\x0E\x01\xB4\x70", CARD_MALFORMED, "\x01\xAB\x03\x1F\x31");
    ASKED("RTU, 43 too long", CARD_RTU, "\x01\x2B\x0E\x01\x00\x00\x76\xE4", CARD_MALFORMED, "\x01\xAB\x03\x1F\x31");
    ASKED("RTU, type 13", CARD_RTU, "\x01\x2B\x0D\x01\x00\x80\x77", CARD_UNKNOWN, "\x01\xAB\x01\x9E\xF0");
    ASKED("RTU, type 13 and no more", CARD_RTU, "\x01\x2B\x0D\xFF\x35", CARD_UNKNOWN, "\x01\xAB\x01\x9E\xF0");
    ASKED("RTU, 17 too long", CARD_RTU, "\x01\x11\x00\x2C\x50", CARD_MALFORMED, "\x01\x91\x03\x0D\x91");
    ASKED("RTU, 43 to all", CARD_RTU, "\x00\x2B\x0E\x01\x00\x4D\xB7", CARD_NOT_OURS, "");
    ASKED("RTU, code 03 to all", CARD_RTU, "\x00\x2B\x0E\x03\x00\x4C\xD7", CARD_NOT_OURS, "");
    ASKED("RTU, code 04, 07h to all", CARD_RTU, "\x00\x2B\x0E\x04\x07\x0F\x25", CARD_NOT_OURS, "");
    ASKED("RTU, no type, to all", CARD_RTU, "\x00\x2B\x41\xAF", CARD_NOT_OURS, "");
    ASKED("RTU, type 13 to all", CARD_RTU, "\x00\x2B\x0D\x01\x00\xBD\xB7", CARD_UNKNOWN, "");
    ASKED("RTU, 17 to all", CARD_RTU, "\x00\x11\xC1\xBC", CARD_NOT_OURS, "");
    ASKED("RTU, 17 too long, to all", CARD_RTU, "\x00\x11\x00\x7D\x90", CARD_NOT_OURS, "");
    ASKED("RTU, 43 to another address", CARD_RTU, "\x02\x2B\x0E\x01\x00\x34\x77", CARD_NOT_OURS, "");
    ASKED("RTU, 17 to another address", CARD_RTU, "\x02\x11\xC0\xDC", CARD_NOT_OURS, "");

    ASKED("ASCII, code 04, 07h", CARD_ASCII, ":012B0E0407BB\r\n", CARD_NO_ROW, ":01AB0252\r\n");
    ASKED("ASCII, code 03", CARD_ASCII, ":012B0E0300C3\r\n", CARD_MALFORMED, ":01AB0351\r\n");
    ASKED("ASCII, no type", CARD_ASCII, ":012BD4\r\n", CARD_MALFORMED, ":01AB0351\r\n");
    ASKED("ASCII, type 13", CARD_ASCII, ":012B0D0100C6\r\n", CARD_UNKNOWN, ":01AB0153\r\n");
    ASKED("ASCII, 17 too long", CARD_ASCII, ":011100EE\r\n", CARD_MALFORMED, ":0191036B\r\n");
    ASKED("ASCII, 43 to all", CARD_ASCII, ":002B0E0100C6\r\n", CARD_NOT_OURS, "");
    ASKED("ASCII, no type, to all", CARD_ASCII, ":002BD5\r\n", CARD_NOT_OURS, "");
    ASKED("ASCII, type 13 to all", CARD_ASCII, ":002B0D0100C7\r\n", CARD_UNKNOWN, "");
    ASKED("ASCII, 17 to all", CARD_ASCII, ":0011EF\r\n", CARD_NOT_OURS, "");
}

/* After a write, a fault, time and a restart the card is who it was. */
static void identity_kept(void)
{
    card c = fresh(CARD_RTU), right = c;

    part = "RTU, 17 after a restart";
    right.plant[CARD_ACCEL] = 100;
    call(ALL, CARD_RTU, &c, (const uint8_t *)"\x01\x06\x06\xDC\x00\x64\x49\x53", 8, 256, CARD_DONE, 8, TEXT("\x01\x06\x06\xDC\x00\x64\x49\x53"), &right);
    SAME(card_raise_fault(&c, 3), CARD_DONE);
    SAME(card_end_cause(&c, 3), CARD_DONE);
    SAME(card_tick(&c, 51), CARD_DONE);
    card_restart(&c);
    call(ALL, CARD_RTU, &c, (const uint8_t *)"\x01\x11\xC0\x2C", 4, 256, CARD_DONE, 4, TEXT("\x01\x11\x10" SERIAL "\x57\x1F"), &right);
}

/* ---- register data */
/* "The register data of a well-made 06 or 16 (CRC, length and count right, any address) is handed back as a part of the caller's frame; for other bytes, an
 * empty part." */
static void data_at(const char *frame, size_t n, size_t from, size_t len)
{
    size_t place[2] = { SIZE_MAX, SIZE_MAX };
    card_register_data((const uint8_t *)frame, n, place);
    SAME(place[0], from);
    SAME(place[1], len);
}

static void register_data(void)
{
    part = "register data of a 06";
    data_at(TEXT("\x01\x06\x06\xDC\x00\x64\x49\x53"), 4, 2);
    part = "register data of a 06 to another address";
    data_at(TEXT("\x02\x06\x06\xDC\x00\x64\x49\x60"), 4, 2);
    part = "register data of a 16";
    data_at(TEXT("\x01\x10\x07\x0C\x00\x02\x04\x00\x05\x00\x00\xC5\xCB"), 7, 4);
    part = "register data of a 03";
    data_at(TEXT("\x01\x03\x02\x94\x00\x01\xC4\x5E"), 0, 0);
    part = "register data where the CRC is wrong";
    data_at(TEXT("\x01\x06\x06\xDC\x00\x64\x49\x54"), 0, 0);
    part = "register data of no bytes";
    data_at(TEXT(""), 0, 0);
}

int main(void)
{
    start();
    restart();
    for (uint32_t n = 0; n <= 33; n++)
        fault(n);
    fault(UINT32_MAX);
    din1();
    measured();
    parity_fault();
    tick();
    silence();
    limits();
    bytes_from_the_line();
    statuses();
    drive_statuses();
    addresses_kept();
    identity_told();
    identity_refused();
    identity_kept();
    register_data();
    printf("functions: %lu numbers and bytes are as the documents say, %lu are not\n", held, wrong);
    return wrong != 0;
}
