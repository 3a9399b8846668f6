/*
 * A station: what firmware does with the engine. Its cards share one block, a power limit in watts. Requests are put in order by home;
 * what home grants is looked up in the engine and sent over the station's own wire, which may be late and may repeat a frame; what
 * arrives is delivered by its place in the pool.
 */
#include <inttypes.h>
#include <stdio.h>
#include <stdlib.h>

#include "coherence.h"

enum { CARDS = 3, LIMIT = 0, FRAMES = 16 };

/* A frame on the wire: the data message that home made. */
struct frame {
    uint64_t seen[COHERENCE_SEEN];
};

static uint64_t state[COHERENCE_WORDS];
static struct frame wire[FRAMES];
static size_t on_wire;

/* Ends the program where the engine refuses what this station never gets refused. */
static uint32_t must(const char *what, uint64_t answer)
{
    if (COHERENCE_REFUSAL(answer) != COHERENCE_DONE) {
        fprintf(stderr, "station: %s: %s\n", what, coherence_refusal_text(COHERENCE_REFUSAL(answer)));
        exit(EXIT_FAILURE);
    }
    return COHERENCE_VALUE(answer);
}

static const char *sender_name(uint64_t sender)
{
    static char name[16];
    if (sender == COHERENCE_HOME)
        return "home";
    snprintf(name, sizeof name, "card %" PRIu64, sender);
    return name;
}

/* A card asks for the block; the mask is its guess of the cards that have to see the request. */
static void ask(uint8_t card, uint8_t kind, uint8_t mask)
{
    must("ask", coherence_ask(state, card, LIMIT, kind, mask));
    printf("card %d asks to %s\n", card, kind == COHERENCE_KIND_GETS ? "load" : "store");
}

/* The message at the pool's tail, which the last order made, goes on the wire. */
static void send_granted(void)
{
    uint64_t counts[COHERENCE_SEEN];
    struct frame *frame = &wire[on_wire++];
    must("counts", coherence_counts(state, counts));
    must("message", coherence_message(state, (uint8_t)(counts[COHERENCE_COUNT_POOLED] - 1), frame->seen));
    printf("  from %s to card %" PRIu64 ": %" PRIu64 " W, order number %" PRIu64 "\n", sender_name(frame->seen[COHERENCE_MESSAGE_SENDER]),
           frame->seen[COHERENCE_MESSAGE_RECEIVER], frame->seen[COHERENCE_MESSAGE_VALUE], frame->seen[COHERENCE_MESSAGE_NUMBER]);
}

/* Home orders what waits, until nothing does or a block is held. */
static void order_all(void)
{
    uint64_t head[COHERENCE_SEEN];
    while (coherence_request(state, 0, head) == COHERENCE_DONE) {
        uint64_t answer = coherence_order(state);
        uint32_t outcome = COHERENCE_VALUE(answer);
        if (COHERENCE_REFUSAL(answer) != COHERENCE_DONE) {
            printf("home waits: %s\n", coherence_refusal_text(COHERENCE_REFUSAL(answer)));
            return;
        }
        printf("home orders the request of card %" PRIu64 ", retry %" PRIu64 ": %s\n", head[COHERENCE_REQUEST_CARD], head[COHERENCE_REQUEST_RETRY],
               coherence_order_text(outcome));
        if (outcome == COHERENCE_ORDER_GRANTED)
            send_granted();
    }
}

/* Where in the pool the message of a frame is. */
static uint8_t position_of(const struct frame *frame)
{
    uint64_t seen[COHERENCE_SEEN];
    for (uint8_t position = 0; coherence_message(state, position, seen) == COHERENCE_DONE; position++)
        if (seen[COHERENCE_MESSAGE_RECEIVER] == frame->seen[COHERENCE_MESSAGE_RECEIVER] &&
            seen[COHERENCE_MESSAGE_NUMBER] == frame->seen[COHERENCE_MESSAGE_NUMBER])
            return position;
    fprintf(stderr, "station: a frame that the engine does not know\n");
    exit(EXIT_FAILURE);
}

/* The wire repeats its oldest frame. */
static void wire_repeats(void)
{
    must("copy", coherence_copy(state, position_of(&wire[0])));
    wire[on_wire++] = wire[0];
    puts("the wire repeats the frame");
}

/* The oldest frame of the wire arrives. */
static void wire_arrives(void)
{
    uint32_t outcome = must("deliver", coherence_deliver(state, position_of(&wire[0])));
    printf("a frame arrives at card %" PRIu64 ": %s\n", wire[0].seen[COHERENCE_MESSAGE_RECEIVER], coherence_delivery_text(outcome));
    on_wire--;
    for (size_t i = 0; i < on_wire; i++)
        wire[i] = wire[i + 1];
}

static void store(uint8_t card, uint32_t watts)
{
    must("store", coherence_store(state, card, LIMIT, watts));
    printf("card %d stores %" PRIu32 " W\n", card, watts);
}

/* What each card may read, and what home keeps. */
static void print_limit(void)
{
    uint64_t home[COHERENCE_SEEN];
    must("home", coherence_home(state, LIMIT, home));
    for (uint8_t card = 0; card < CARDS; card++) {
        uint64_t answer = coherence_load(state, card, LIMIT);
        if (COHERENCE_REFUSAL(answer) == COHERENCE_DONE)
            printf("  card %d: %" PRIu32 " W", card, COHERENCE_VALUE(answer));
        else
            printf("  card %d: -", card);
    }
    printf("  memory: %" PRIu64 " W\n", home[COHERENCE_HOME_MEMORY]);
}

int main(void)
{
    if (coherence_version() != COHERENCE_VERSION) {
        fprintf(stderr, "station: the archive is of another version than the header\n");
        return EXIT_FAILURE;
    }
    must("start", coherence_start(state, COHERENCE_EDITION_MSI, CARDS, 1));
    ask(0, COHERENCE_KIND_GETX, 0);
    order_all();
    wire_repeats();
    wire_arrives();
    store(0, 400);
    wire_arrives();
    print_limit();

    ask(1, COHERENCE_KIND_GETS, 0);
    ask(2, COHERENCE_KIND_GETS, 1);
    order_all();
    wire_arrives();
    order_all();
    must("rejoin", coherence_rejoin(state, 1));
    puts("card 1 rejoins");
    ask(1, COHERENCE_KIND_GETX, 0);
    order_all();
    wire_arrives();
    order_all();
    wire_arrives();
    store(1, 350);
    print_limit();
    return EXIT_SUCCESS;
}
