/*
 * The plant's accident, which this engine does not repeat: a card reconnects, an old reply arrives late, and a delete is not carried out
 * a second time. Block 0 holds a delete mark: the number of an operator account to delete, or 0.
 */
#include <inttypes.h>
#include <stdio.h>
#include <stdlib.h>

#include "coherence.h"

enum { CARDS = 2, BLOCK = 0, ACCOUNT = 7 };

static uint64_t state[COHERENCE_WORDS];

/* What each card sees of the block: a load changes nothing, so every card may be asked. */
static void print_cards(void)
{
    for (uint8_t card = 0; card < CARDS; card++) {
        uint64_t answer = coherence_load(state, card, BLOCK);
        if (COHERENCE_REFUSAL(answer) == COHERENCE_DONE)
            printf("  card %d: %" PRIu32, card, COHERENCE_VALUE(answer));
        else
            printf("  card %d: -", card);
    }
    putchar('\n');
}

/* Prints a step, its answer and what each card sees then; stops where the answer is not the one that is due. */
static void step(const char *words, uint64_t answer, uint32_t refusal, uint32_t value)
{
    printf("%-52s refusal %" PRIu32 " value %" PRIu32, words, COHERENCE_REFUSAL(answer), COHERENCE_VALUE(answer));
    print_cards();
    if (COHERENCE_REFUSAL(answer) != refusal || COHERENCE_VALUE(answer) != value) {
        fprintf(stderr, "refusal %" PRIu32 " and value %" PRIu32 " were due\n", refusal, value);
        exit(EXIT_FAILURE);
    }
}

int main(void)
{
    step("a chassis of two cards and one block", coherence_start(state, COHERENCE_EDITION_MSI, CARDS, 1), COHERENCE_DONE, 0);

    puts("\nThe reply to a request that is forgotten");
    step("card 0 asks to store", coherence_ask(state, 0, BLOCK, COHERENCE_KIND_GETX, 0), COHERENCE_DONE, 0);
    step("home grants it; the first reply is on its way", coherence_order(state), COHERENCE_DONE, COHERENCE_ORDER_GRANTED);
    step("the network copies the reply", coherence_copy(state, 0), COHERENCE_DONE, 0);
    step("card 0 reconnects", coherence_rejoin(state, 0), COHERENCE_DONE, 0);
    step("card 0 asks to store again", coherence_ask(state, 0, BLOCK, COHERENCE_KIND_GETX, 0), COHERENCE_DONE, 0);
    step("home grants it; the second reply is on its way", coherence_order(state), COHERENCE_DONE, COHERENCE_ORDER_GRANTED);
    step("the first reply arrives late: stale", coherence_deliver(state, 0), COHERENCE_DONE, COHERENCE_DELIVERY_STALE);
    step("card 0 may not store yet", coherence_store(state, 0, BLOCK, ACCOUNT), COHERENCE_REFUSED_NO_RIGHT, 0);
    step("so does its copy: stale", coherence_deliver(state, 0), COHERENCE_DONE, COHERENCE_DELIVERY_STALE);
    step("the second reply arrives: taken", coherence_deliver(state, 0), COHERENCE_DONE, COHERENCE_DELIVERY_TAKEN);

    puts("\nThe delete that is not carried out twice");
    step("card 0 marks account 7 for deletion", coherence_store(state, 0, BLOCK, ACCOUNT), COHERENCE_DONE, 0);
    step("card 0 carries it out and clears the mark", coherence_store(state, 0, BLOCK, 0), COHERENCE_DONE, 0);
    step("it marks account 7 once more, by mistake", coherence_store(state, 0, BLOCK, ACCOUNT), COHERENCE_DONE, 0);
    step("card 0 reconnects before home has settled a store", coherence_rejoin(state, 0), COHERENCE_DONE, 0);
    step("card 1 asks to load", coherence_ask(state, 1, BLOCK, COHERENCE_KIND_GETS, 0), COHERENCE_DONE, 0);
    step("home grants it", coherence_order(state), COHERENCE_DONE, COHERENCE_ORDER_GRANTED);
    step("the reply arrives: card 1 sees no mark to carry out", coherence_deliver(state, 0), COHERENCE_DONE, COHERENCE_DELIVERY_TAKEN);
    return EXIT_SUCCESS;
}
