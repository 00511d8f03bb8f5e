/* The line card for firmware in C: target/staticlib/liblinecard.a, which ./library writes, for x86-64. See docs/FIRMWARE.md.
 *
 * The host owns the card's memory; a card is plain data, and any bytes are a card. What the host sees to: no pointer is NULL, not even for 0 bytes;
 * each points to as much memory as it says, aligned for its type; no two of one call overlap; no other thread touches them while a call runs.
 *
 * The library is handed the parts of a card that a call touches, where they lie (`card_.._in`), and copies none of them. The functions that take a whole card are
 * wrappers in this header. */
#ifndef LINECARD_H
#define LINECARD_H

#include <assert.h>
#include <stddef.h>
#include <stdint.h>

/* The protocol of the port, chosen at start. Any other number is read as NFO serial. */
enum card_protocol { CARD_NFO = 0, CARD_RTU = 1, CARD_ASCII = 2 };

/* The outcome of a call, by document 01's number. (13 and 14 are the master's.) */
enum card_outcome {
    CARD_DONE = 0,
    CARD_NOT_OURS = 1,        /* other address, or broadcast read */
    CARD_NO_ROW = 2,          /* no such row, register span or object */
    CARD_READ_ONLY = 3,
    CARD_NOT_ALLOWED = 4,     /* value not allowed */
    CARD_FLAG_STANDS = 5,     /* a write while a fault flag stands */
    CARD_RUNNING = 6,         /* Init row, running */
    CARD_NOT_PERMITTED = 7,   /* SCMD not permitted */
    CARD_MALFORMED = 8,       /* value not hex; bad length, count or identification code */
    CARD_UNKNOWN = 9,         /* unknown function, or 43 with a type that is not 14 */
    CARD_SHORT_BUFFER = 10,   /* reply buffer under the protocol's CARD_REPLY_LEAST: no byte used, nothing changed */
    CARD_BAD_FRAME = 11,      /* RTU length or CRC wrong */
    CARD_NO_SUCH_EVENT = 12,  /* host event number not allowed: nothing changed */
    CARD_NOTHING_TAKEN = 15   /* bytes pending or dropped */
};

/* A reply buffer has so many bytes at least, by the protocol; no reply is longer. */
#define CARD_NFO_REPLY 19
#define CARD_RTU_REPLY 256
#define CARD_ASCII_REPLY 513
#define CARD_REPLY_LEAST(protocol) ((protocol) == CARD_RTU ? CARD_RTU_REPLY : (protocol) == CARD_ASCII ? CARD_ASCII_REPLY : CARD_NFO_REPLY)

/* The words of a plant: each row of the table at its line, two's complement, and behind the rows the numbers that are no rows. The paper's Mode and MODE are
 * CARD_MODE_SETTING and CARD_MODE. The words at Inv St, which is worked out, and at SioErr, which is the port's, hold nothing. Drive Status is kept: each call that changes the
 * drive leaves it right, by the bits of enum card_status. */
enum card_word {
    CARD_P_NOM, CARD_U_NOM, CARD_F_NOM, CARD_N_NOM, CARD_COS_PHI, CARD_I_MAGN, CARD_I_LIMT, CARD_ACCEL,
    CARD_RETARD, CARD_MODE_SETTING, CARD_FR_MIN, CARD_FR_MAX, CARD_R_FIX1, CARD_REG_AMP, CARD_SI_BAUD, CARD_SI_PROT,
    CARD_SI_ADR, CARD_SIO_TOT, CARD_MB_ADR, CARD_SPD_SCL_NUM, CARD_SPD_SCL_DEN, CARD_SETPOINT, CARD_MODE, CARD_SCMD,
    CARD_INV_ST_ACK, CARD_INV_ST, CARD_SIO_ERR, CARD_FRQ_ACT, CARD_I_RMS, CARD_OP_TIME, CARD_DRIVE_STATUS,
    CARD_DIN1,    /* 0 is inactive */
    CARD_CAUSES,  /* bit n is fault n */
    CARD_FLAGS,   /* bit n is fault n */
    CARD_STATION, /* our Modbus address: what MbAdr held at the last start or restart */
    CARD_WORDS
};

/* The bits of Drive Status; the others are 0. */
enum card_status {
    CARD_READY = 0x0001,    /* MODE 3, DIN1 active, no flag */
    CARD_RUNS = 0x0002,
    CARD_FAULT = 0x0008,    /* a fault flag stands */
    CARD_INACTIVE = 0x0040, /* DIN1 */
    CARD_BUS = 0x0200       /* MODE 3 */
};

/* The numbers of a port: its protocol, its time sum in tenths, its SioErr. */
enum card_number { CARD_PROTOCOL, CARD_SUM, CARD_SIOERR, CARD_NUMBERS };

/* The bytes pending: the first `len`. */
struct card_pending { uint8_t bytes[512]; size_t len; };

/* What belongs to the line. */
struct card_port {
    struct card_pending pending;
    uint32_t numbers[CARD_NUMBERS];
};

/* Who a card is, any bytes, and where each part of them begins: the revision's 17, the model's 8, the serial number's 16. */
enum card_part { CARD_REVISION = 0, CARD_MODEL = 17, CARD_SERIAL = 25, CARD_IDENTITY = 41 };

/* The whole state: a plant behind a port, and the identity that it was given at start. */
typedef struct card {
    struct card_port port;
    uint32_t plant[CARD_WORDS];
    uint8_t identity[CARD_IDENTITY];
} card;

static_assert(sizeof(size_t) == 8, "x86-64");
static_assert(CARD_WORDS == 35 && CARD_NUMBERS == 3 && CARD_IDENTITY == 41, "the arrays that the library is lent");

#ifdef __cplusplus
extern "C" {
#endif

/* ---- what the library has: each is lent the parts of a card that it touches */
void card_start_in(uint8_t held[512], size_t *len, uint32_t port[3], uint32_t plant[35], uint8_t identity[41], uint32_t protocol, const uint8_t given[41]);
void card_restart_in(size_t *len, uint32_t port[3], uint32_t plant[35]);
uint32_t card_raise_fault_in(uint32_t plant[35], uint32_t n);
uint32_t card_end_cause_in(uint32_t plant[35], uint32_t n);
uint32_t card_din1_in(uint32_t plant[35], uint32_t active);
uint32_t card_frq_act_in(uint32_t plant[35], uint32_t word);
uint32_t card_i_rms_in(uint32_t plant[35], uint32_t word);
uint32_t card_op_time_in(uint32_t plant[35], uint32_t word);
uint32_t card_parity_fault_in(uint32_t port[3], uint32_t plant[35]);
uint32_t card_tick_in(uint32_t port[3], uint32_t plant[35], uint32_t tenths);
uint32_t card_receive_in(uint8_t held[512], size_t *len, uint32_t port[3], uint32_t plant[35], const uint8_t identity[41],
                         const uint8_t *bytes, size_t n_bytes, uint8_t *reply, size_t n_reply, size_t told[2]);
uint32_t card_receive_nfo_in(uint8_t held[512], size_t *len, uint32_t port[3], uint32_t plant[35],
                             const uint8_t *bytes, size_t n_bytes, uint8_t *reply, size_t n_reply, size_t told[2]);
uint32_t card_receive_rtu_in(uint8_t held[512], size_t *len, uint32_t port[3], uint32_t plant[35], const uint8_t identity[41],
                             const uint8_t *bytes, size_t n_bytes, uint8_t *reply, size_t n_reply, size_t told[2]);
uint32_t card_receive_ascii_in(uint8_t held[512], size_t *len, uint32_t port[3], uint32_t plant[35], const uint8_t identity[41],
                               const uint8_t *bytes, size_t n_bytes, uint8_t *reply, size_t n_reply, size_t told[2]);

/* Where the register data of a well-made RTU 06 or 16 lies in its frame, whatever its address: place[0] its first place, place[1] its length; for other
 * bytes 0 and 0. */
void card_register_data(const uint8_t *frame, size_t n_frame, size_t place[2]);

#ifdef __cplusplus
}
#endif

/* ---- what a host calls */
/* A fresh card, with the table's start words: SioTot is 50, 5 seconds. The identity given, which lies outside the card, is copied into it. Whatever the memory
 * held before will do. */
static inline void card_start(card *c, uint32_t protocol, const uint8_t identity[CARD_IDENTITY])
{
    card_start_in(c->port.pending.bytes, &c->port.pending.len, c->port.numbers, c->plant, c->identity, protocol, identity);
}

/* Restart: the settings, SioTot among them, DIN1, causes, measured numbers and the identity stay; nothing is pending; MbAdr counts from now on. A SiAdr of 0 or
 * 95, kept from before these were refused, becomes 1. */
static inline void card_restart(card *c) { card_restart_in(&c->port.pending.len, c->port.numbers, c->plant); }

/* Fault n is raised, or its cause has ended: 0, or 12 where n is none of 1 to 13 and 16 to 23. */
static inline uint32_t card_raise_fault(card *c, uint32_t n) { return card_raise_fault_in(c->plant, n); }
static inline uint32_t card_end_cause(card *c, uint32_t n) { return card_end_cause_in(c->plant, n); }

/* DIN1 becomes inactive, by 0, or active, by any other number: 0. */
static inline uint32_t card_din1(card *c, uint32_t active) { return card_din1_in(c->plant, active); }

/* A number is measured: 0. FrqAct is the low 16 bits of the word; FrqAct and I-rms are two's complement. */
static inline uint32_t card_frq_act(card *c, uint32_t word) { return card_frq_act_in(c->plant, word); }
static inline uint32_t card_i_rms(card *c, uint32_t word) { return card_i_rms_in(c->plant, word); }
static inline uint32_t card_op_time(card *c, uint32_t word) { return card_op_time_in(c->plant, word); }

/* The port tells a parity fault: 0. */
static inline uint32_t card_parity_fault(card *c) { return card_parity_fault_in(c->port.numbers, c->plant); }

/* So many tenths of a second pass: 0, or 12 outside 1 to 250. Where those since the last message of ours come to more than SioTot, a time-out happens: bit 0 of SioErr,
 * and at MODE 3 SCMD is 0 and flag 14 stands. SioTot 0 is no time-out. */
static inline uint32_t card_tick(card *c, uint32_t tenths) { return card_tick_in(c->port.numbers, c->plant, tenths); }

/* Bytes from the line: a scrap of the stream, or for RTU one frame. Serves the first message taken and puts its reply at the start of `reply`, whose
 * other bytes stay. told[0] gets the bytes used: hand the rest again first. told[1] gets the reply's length, 0 for none. The outcome is 0 to 11 or 15. */
static inline uint32_t card_receive(card *c, const uint8_t *bytes, size_t n_bytes, uint8_t *reply, size_t n_reply, size_t told[2])
{
    return card_receive_in(c->port.pending.bytes, &c->port.pending.len, c->port.numbers, c->plant, c->identity, bytes, n_bytes, reply, n_reply, told);
}

/* The same by one protocol, whatever the port's number says: firmware that speaks one protocol links that one alone. No message of NFO serial asks who the card
 * is, so that call is not lent the identity. */
static inline uint32_t card_receive_nfo(card *c, const uint8_t *bytes, size_t n_bytes, uint8_t *reply, size_t n_reply, size_t told[2])
{
    return card_receive_nfo_in(c->port.pending.bytes, &c->port.pending.len, c->port.numbers, c->plant, bytes, n_bytes, reply, n_reply, told);
}
static inline uint32_t card_receive_rtu(card *c, const uint8_t *bytes, size_t n_bytes, uint8_t *reply, size_t n_reply, size_t told[2])
{
    return card_receive_rtu_in(c->port.pending.bytes, &c->port.pending.len, c->port.numbers, c->plant, c->identity, bytes, n_bytes, reply, n_reply, told);
}
static inline uint32_t card_receive_ascii(card *c, const uint8_t *bytes, size_t n_bytes, uint8_t *reply, size_t n_reply, size_t told[2])
{
    return card_receive_ascii_in(c->port.pending.bytes, &c->port.pending.len, c->port.numbers, c->plant, c->identity, bytes, n_bytes, reply, n_reply, told);
}

#endif
