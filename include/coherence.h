/*
 * The coherence engine of a rack management chassis.
 *
 * Up to eight cards share up to 32 blocks and cache them; home orders their requests. How the calls follow each other:
 *
 *     coherence_start      once, for the words that the caller lends
 *     coherence_ask        a card wants a block: its request joins the line
 *     coherence_order      the request at the head of the line has its turn. Granted: a message is at the pool's tail
 *     coherence_counts     how many messages there are; the last of them is the one that the order made
 *     coherence_message    to whom it goes, and with what. The firmware sends it
 *     coherence_deliver    it has arrived, at this position of the pool: the card has the block, or the message is stale
 *     coherence_load       the card reads the block; coherence_store writes it
 *     coherence_copy       the wire has repeated a message: there are two of it now
 *     coherence_rejoin     a card starts anew, whatever it was at
 *
 * The state is COHERENCE_WORDS words. There is no other: no heap, no global variable, no lock, and nothing is needed from outside but
 * memcpy, memmove and memset. So a call may run in an interrupt, and any number at a time on different states; on one state the caller
 * sees to it that no call begins while another has not ended, but for those that take the state as const. Each call on a state reads
 * every word of it once, to see that it is well formed; then an order or a delivery reads at most some hundreds more, as the line or the
 * pool closes up, and a rejoin, which may close the line up 64 times, at most some 20,000. No call waits.
 *
 * Every function takes any input, ends, and answers one number: the refusal's number, or 0, in the upper 32 bits, and the value in the
 * lower 32 (COHERENCE_REFUSAL, COHERENCE_VALUE); the value is 0 where nothing else is said. A refusal changes nothing of what is lent;
 * Start alone makes the state of no chassis where it refuses. Start takes any words; every other event and every look refuses words that
 * are not those of a well formed chassis with COHERENCE_REFUSED_ILL_FORMED, before all else. Each function is proved to do just this
 * (crates/firmware); what is left to the caller is that the pointers are valid for the sizes given here and that no two of them overlap.
 *
 * The archive is for x86-64 Linux and uses SSE registers: the toolchain makes no other.
 */
#ifndef COHERENCE_H
#define COHERENCE_H

#include <stddef.h>
#include <stdint.h>

#ifdef __cplusplus
extern "C" {
#endif

/* The version of this header, and of the archive: major * 65536 + minor * 256 + patch. */
#define COHERENCE_VERSION 131072
uint32_t coherence_version(void);

/* The words of a chassis. */
#define COHERENCE_WORDS 1510

/* The two halves of an answer. */
#define COHERENCE_REFUSAL(answer) ((uint32_t)((answer) >> 32))
#define COHERENCE_VALUE(answer) ((uint32_t)(answer))

/* Refusals. */
enum coherence_refusal {
    COHERENCE_DONE = 0,
    COHERENCE_REFUSED_NO_SUCH_CARD = 1,
    COHERENCE_REFUSED_NO_SUCH_BLOCK = 2,
    COHERENCE_REFUSED_NO_RIGHT = 3,         /* the card's state gives no right to this load, store or drop */
    COHERENCE_REFUSED_ASK_NOT_ALLOWED = 4,  /* the card's state allows no such ask */
    COHERENCE_REFUSED_NO_SUCH_KIND = 5,
    COHERENCE_REFUSED_STRANGER_IN_MASK = 6, /* the mask names a card that is not there */
    COHERENCE_REFUSED_LINE_FULL = 7,
    COHERENCE_REFUSED_LINE_EMPTY = 8,
    COHERENCE_REFUSED_BLOCK_HELD = 9,       /* data of the head's block is still on its way to a card */
    COHERENCE_REFUSED_POOL_FULL = 10,
    COHERENCE_REFUSED_NO_SUCH_MESSAGE = 11,
    COHERENCE_REFUSED_NUMBERS_SPENT = 12,   /* no order number is left */
    COHERENCE_REFUSED_IMPOSSIBLE = 13,      /* never from a chassis that Start made: proved */
    COHERENCE_REFUSED_NO_SUCH_SIZE = 14,    /* outside 1 to 8 cards or 1 to 32 blocks, or no edition */
    COHERENCE_REFUSED_ILL_FORMED = 15,
    COHERENCE_REFUSED_CUT_SHORT = 20,       /* a record that ends too early */
    COHERENCE_REFUSED_UNKNOWN_TAG = 21,
    COHERENCE_REFUSED_WRONG_LENGTH = 22,
    COHERENCE_REFUSED_WRONG_OPENING = 23,
    COHERENCE_REFUSED_NO_ROOM = 24          /* the buffer's rest is too short for the record */
};

/* The edition of a chassis, chosen at its start. */
enum coherence_edition {
    COHERENCE_EDITION_MSI = 0,
    COHERENCE_EDITION_MOSI = 1 /* an owner that is asked for a copy keeps the block, and loads it beside the others */
};

/* What a request asks for. */
enum coherence_kind {
    COHERENCE_KIND_GETS = 1, /* to load */
    COHERENCE_KIND_GETX = 2, /* to store */
    COHERENCE_KIND_PUTX = 3  /* to give the block back */
};

/* The value of an order that is done. */
enum coherence_outcome {
    COHERENCE_ORDER_GRANTED = 1,
    COHERENCE_ORDER_MASK_TOO_SMALL = 2, /* the request is at the line's tail again, with a mask that home made */
    COHERENCE_ORDER_PUT_TAKEN = 3,
    COHERENCE_ORDER_PUT_LAPSED = 4
};

/* The value of a delivery. */
enum coherence_delivery {
    COHERENCE_DELIVERY_TAKEN = 1,
    COHERENCE_DELIVERY_STALE = 2 /* its receiver does not await this message; it is gone */
};

/* Makes the state of a new chassis, in which every block is 0; of none, with COHERENCE_REFUSED_NO_SUCH_SIZE. */
uint64_t coherence_start(uint64_t state[COHERENCE_WORDS], uint8_t edition, uint8_t cards, uint8_t blocks);

/* A card reads a block: the value. Nothing changes. */
uint64_t coherence_load(const uint64_t state[COHERENCE_WORDS], uint8_t card, uint8_t block);

/* A card writes a block. */
uint64_t coherence_store(uint64_t state[COHERENCE_WORDS], uint8_t card, uint8_t block, uint32_t value);

/* A card in S drops its copy; home is not told. */
uint64_t coherence_drop(uint64_t state[COHERENCE_WORDS], uint8_t card, uint8_t block);

/* A card's request joins the line. Bit k of the mask names card k as one that is to see it. */
uint64_t coherence_ask(uint64_t state[COHERENCE_WORDS], uint8_t card, uint8_t block, uint8_t kind, uint8_t mask);

/* The request at the head of the line has its turn: the outcome. */
uint64_t coherence_order(uint64_t state[COHERENCE_WORDS]);

/* A message of the pool, by its position from 0, reaches its receiver: taken or stale. */
uint64_t coherence_deliver(uint64_t state[COHERENCE_WORDS], uint8_t position);

/* A message of the pool is there once more, at the tail. */
uint64_t coherence_copy(uint64_t state[COHERENCE_WORDS], uint8_t position);

/* A card starts anew: its requests leave the line, its blocks go to home, its copies are gone. */
uint64_t coherence_rejoin(uint64_t state[COHERENCE_WORDS], uint8_t card);

/* Looking: nothing changes. What is seen comes out as COHERENCE_SEEN numbers; those that have no name are 0, and a refusal keeps them. */
#define COHERENCE_SEEN 6

/* The edition, how much there is, and the last order number. */
enum coherence_seen_counts {
    COHERENCE_COUNT_EDITION, /* one of coherence_edition */
    COHERENCE_COUNT_CARDS,
    COHERENCE_COUNT_BLOCKS,
    COHERENCE_COUNT_WAITING, /* requests in the line */
    COHERENCE_COUNT_POOLED,  /* messages in the pool */
    COHERENCE_COUNT_LAST     /* the last order number that was given, or 0 */
};
uint64_t coherence_counts(const uint64_t state[COHERENCE_WORDS], uint64_t seen[COHERENCE_SEEN]);

/* A message of the pool, by its position from 0. The sender is a card, or COHERENCE_HOME. */
enum coherence_seen_message {
    COHERENCE_MESSAGE_SENDER,
    COHERENCE_MESSAGE_RECEIVER,
    COHERENCE_MESSAGE_BLOCK,
    COHERENCE_MESSAGE_VALUE,
    COHERENCE_MESSAGE_NUMBER
};
uint64_t coherence_message(const uint64_t state[COHERENCE_WORDS], uint8_t position, uint64_t seen[COHERENCE_SEEN]);

/* A request of the line, by its position from 0, the head; a position that is not there is COHERENCE_REFUSED_NO_SUCH_MESSAGE too. */
enum coherence_seen_request {
    COHERENCE_REQUEST_CARD,
    COHERENCE_REQUEST_BLOCK,
    COHERENCE_REQUEST_KIND,
    COHERENCE_REQUEST_MASK,
    COHERENCE_REQUEST_RETRY
};
uint64_t coherence_request(const uint64_t state[COHERENCE_WORDS], uint8_t position, uint64_t seen[COHERENCE_SEEN]);

/* What a card has for a block. */
enum coherence_seen_cell {
    COHERENCE_CELL_STATE, /* one of coherence_state */
    COHERENCE_CELL_VALUE,
    COHERENCE_CELL_AWAITS /* the order number whose data it waits for, or 0 */
};
uint64_t coherence_cell(const uint64_t state[COHERENCE_WORDS], uint8_t card, uint8_t block, uint64_t seen[COHERENCE_SEEN]);

/* What home has for a block. The owner is a card, or COHERENCE_HOME. */
enum coherence_seen_home {
    COHERENCE_HOME_MEMORY,
    COHERENCE_HOME_OWNER,
    COHERENCE_HOME_SHARERS
};
uint64_t coherence_home(const uint64_t state[COHERENCE_WORDS], uint8_t block, uint64_t seen[COHERENCE_SEEN]);

/* Home, where a card's number would stand. */
#define COHERENCE_HOME 255

/* The states of a cell. */
enum coherence_state {
    COHERENCE_STATE_I,     /* no copy */
    COHERENCE_STATE_S,     /* may load */
    COHERENCE_STATE_M,     /* may load and store */
    COHERENCE_STATE_IS_AD, /* a request of it waits in the line */
    COHERENCE_STATE_IM_AD,
    COHERENCE_STATE_SM_AD,
    COHERENCE_STATE_IS_D, /* its request is granted, and data is on its way */
    COHERENCE_STATE_IM_D,
    COHERENCE_STATE_SM_D,
    COHERENCE_STATE_MI_A, /* its put waits in the line */
    COHERENCE_STATE_II_A, /* its put waits, and has lapsed */
    COHERENCE_STATE_O,    /* MOSI alone, as the two behind it: owns the block, and may load; others may load too */
    COHERENCE_STATE_OM_AD, /* an owner's request to store waits in the line */
    COHERENCE_STATE_OI_A   /* an owner's put waits in the line */
};

/* A journal's record as numbers; what a record has not is 0. An opening has its edition, cards and blocks in the places
 * of a kind, a card and a block. */
enum coherence_field {
    COHERENCE_FIELD_TAG,
    COHERENCE_FIELD_CARD,
    COHERENCE_FIELD_BLOCK,
    COHERENCE_FIELD_KIND,
    COHERENCE_FIELD_MASK,
    COHERENCE_FIELD_VALUE,
    COHERENCE_FIELD_POSITION,
    COHERENCE_FIELDS
};

enum coherence_tag {
    COHERENCE_TAG_OPENING = 0x01,
    COHERENCE_TAG_LOAD = 0x10,
    COHERENCE_TAG_STORE = 0x11,
    COHERENCE_TAG_ASK = 0x12,
    COHERENCE_TAG_DROP = 0x13,
    COHERENCE_TAG_ORDER = 0x14,
    COHERENCE_TAG_DELIVER = 0x15,
    COHERENCE_TAG_COPY = 0x16,
    COHERENCE_TAG_REJOIN = 0x17
};

/*
 * Reads the record at a place of a journal. Value 1: a record, its fields are set and the place is behind it. Value 0: the end. The end
 * and a refusal (20 to 23) keep the place and the fields.
 */
uint64_t coherence_read(const uint8_t *journal, size_t size, size_t *place, uint64_t fields[COHERENCE_FIELDS]);

/*
 * Writes the record of a tag and of the fields that such a record has at a place of a buffer, and moves the place behind it. A refusal
 * (COHERENCE_REFUSED_UNKNOWN_TAG; COHERENCE_REFUSED_WRONG_OPENING for an opening of no edition; COHERENCE_REFUSED_NO_ROOM) keeps the place
 * and every byte.
 */
uint64_t coherence_write(uint8_t *buffer, size_t size, size_t *place, uint8_t tag, uint8_t card, uint8_t block, uint8_t kind,
                         uint8_t mask, uint32_t value, uint8_t position);

/* Where a run over a journal stands. All are 0 before the first piece. */
enum coherence_standing {
    COHERENCE_STANDING_NUMBER,  /* of the next record, from 0, or of the one that ended the run */
    COHERENCE_STANDING_PLACE,   /* of the same record, in bytes */
    COHERENCE_STANDING_WRITTEN, /* bytes of text that the last piece wrote */
    COHERENCE_STANDING
};

/* The longest line of text; a text that is shorter than that takes no line. */
#define COHERENCE_LINE 46

/*
 * Runs over a journal from where a run stands, as long as a longest line fits into the text, one line a record: its number, the refusal or
 * 0, the value. Value 1: there may be more, call it again with the same state, journal and standing. Value 0: the run is over, at the
 * journal's end or at a record that ended it; a further call carries out no event a second time. The state may be any words before the
 * first piece; later, words that are not those of a well formed chassis are refused with COHERENCE_REFUSED_ILL_FORMED, and so is a standing whose
 * number is above its place.
 */
uint64_t coherence_run(uint64_t state[COHERENCE_WORDS], const uint8_t *journal, size_t size, uint64_t standing[COHERENCE_STANDING],
                       uint8_t *text, size_t text_size);

/* A refusal's number as text for a log; what is no number of the list is "unknown". */
static inline const char *coherence_refusal_text(uint32_t refusal)
{
    switch (refusal) {
    case COHERENCE_DONE: return "done";
    case COHERENCE_REFUSED_NO_SUCH_CARD: return "no such card";
    case COHERENCE_REFUSED_NO_SUCH_BLOCK: return "no such block";
    case COHERENCE_REFUSED_NO_RIGHT: return "no right";
    case COHERENCE_REFUSED_ASK_NOT_ALLOWED: return "ask not allowed";
    case COHERENCE_REFUSED_NO_SUCH_KIND: return "no such kind";
    case COHERENCE_REFUSED_STRANGER_IN_MASK: return "stranger in mask";
    case COHERENCE_REFUSED_LINE_FULL: return "line full";
    case COHERENCE_REFUSED_LINE_EMPTY: return "line empty";
    case COHERENCE_REFUSED_BLOCK_HELD: return "block held";
    case COHERENCE_REFUSED_POOL_FULL: return "pool full";
    case COHERENCE_REFUSED_NO_SUCH_MESSAGE: return "no such message";
    case COHERENCE_REFUSED_NUMBERS_SPENT: return "numbers spent";
    case COHERENCE_REFUSED_IMPOSSIBLE: return "impossible";
    case COHERENCE_REFUSED_NO_SUCH_SIZE: return "no such size";
    case COHERENCE_REFUSED_ILL_FORMED: return "ill formed";
    case COHERENCE_REFUSED_CUT_SHORT: return "cut short";
    case COHERENCE_REFUSED_UNKNOWN_TAG: return "unknown tag";
    case COHERENCE_REFUSED_WRONG_LENGTH: return "wrong length";
    case COHERENCE_REFUSED_WRONG_OPENING: return "wrong opening";
    case COHERENCE_REFUSED_NO_ROOM: return "no room";
    default: return "unknown";
    }
}

/* An order's outcome, and a delivery's, as text for a log. */
static inline const char *coherence_order_text(uint32_t outcome)
{
    switch (outcome) {
    case COHERENCE_ORDER_GRANTED: return "granted";
    case COHERENCE_ORDER_MASK_TOO_SMALL: return "mask too small";
    case COHERENCE_ORDER_PUT_TAKEN: return "put taken";
    case COHERENCE_ORDER_PUT_LAPSED: return "put lapsed";
    default: return "unknown";
    }
}

static inline const char *coherence_delivery_text(uint32_t outcome)
{
    switch (outcome) {
    case COHERENCE_DELIVERY_TAKEN: return "taken";
    case COHERENCE_DELIVERY_STALE: return "stale";
    default: return "unknown";
    }
}

#ifdef __cplusplus
}
#endif

#endif
