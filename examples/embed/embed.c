/* Runs a card by the library, on the flat net and subnet by subnet: embed [CARD]. Without a file it runs bench card A. */
#include <stdio.h>
#include <string.h>

#include "net_runner.h"

static const uint8_t bench_card[] = {0x10, 0x82, 0x00, 0x00, 0x40, 0x40, 0x10, 0x10, 0x04, 0x00, 0x00, 0x0c, 0x20, 0x00, 0x20,
                                     0x00, 0x10, 0x0a, 0x02, 0x00, 0x01, 0x00, 0x02, 0x20, 0x40, 0x00, 0x61, 0x01, 0x01};

/* Room for the state of any card; a call is lent as many entries as its card has. */
struct state {
    uint32_t markings[NET_PLACES];
    uint16_t transfers[NET_TRANSITIONS];
    uint16_t degrees[NET_SIGNALS];
};

/* What *value is for each refusal, where it is anything. */
static const char *value_name(uint64_t number)
{
    if (number <= 17 || number == 26)
        return "bit";
    if (number == 21)
        return "signal";
    if (number == 22)
        return "place";
    return number == 24 ? "bytes needed" : NULL;
}

static const char *const reasons[] = {
    [1] = "the card ends inside a field", [2] = "version", [3] = "number of subnets or signals", [4] = "parent", [5] = "type of subnet 0",
    [6] = "number of places or transitions", [7] = "kind, capacity or tokens of a place", [8] = "signal or number of arcs of a transition",
    [9] = "something behind the card", [10] = "an arc's place is not seen or not there", [11] = "an arc's direction", [12] = "an arc's weight",
    [13] = "a repeated arc", [14] = "a transition without a place of capacity 1", [15] = "a subnet without an interface place",
    [16] = "unlike subnets of one type", [17] = "a table's number or size", [20] = "the row's length", [21] = "a degree above 1000",
    [22] = "a conflict", [23] = "the visiting order", [24] = "the buffer is too short", [25] = "the state",
    [26] = "a loop above the capacity of its place",
};

static void print_refusal(uint64_t number, size_t value)
{
    printf(" refused, %d: %s", (int)number, reasons[number]);
    if (value_name(number) != NULL)
        printf(", %s %zu", value_name(number), value);
    putchar('\n');
}

/* Markings in thousandths of a token, and after the bar how far each transition is. */
static void print_state(const struct state *s, size_t places, size_t transitions)
{
    for (size_t p = 0; p < places; p++)
        printf(" %u", (unsigned)s->markings[p]);
    printf(" |");
    for (size_t t = 0; t < transitions; t++) {
        if (s->transfers[t] == NET_IDLE)
            printf(" -");
        else
            printf(" %u", (unsigned)s->transfers[t]);
    }
    putchar('\n');
}

int main(int argc, char **argv)
{
    /* One byte more than a card has at most, so that a longer file is refused and not cut. */
    uint8_t card[NET_CARD_BYTES + 1];
    size_t length = sizeof bench_card;
    memcpy(card, bench_card, length);
    if (argc > 1) {
        FILE *file = fopen(argv[1], "rb");
        if (file == NULL) {
            perror(argv[1]);
            return 2;
        }
        length = fread(card, 1, sizeof card, file);
        fclose(file);
    }

    size_t counts[4], value;
    uint64_t number = net_check(card, length, counts, &value);
    if (number != 0) {
        printf("the card:");
        print_refusal(number, value);
        return 1;
    }
    size_t subnets = counts[0], places = counts[1], transitions = counts[2], signals = counts[3];
    printf("the card: %zu subnets, %zu places, %zu transitions, %zu signals\n", subnets, places, transitions, signals);

    /* A state for each runner. Nothing is left that could be refused: the card is accepted, and the sizes are its own. */
    struct state states[2];
    net_fresh(card, length, states[0].markings, places, states[0].transfers, transitions, states[0].degrees, signals, &value);
    states[1] = states[0];
    printf("fresh:");
    print_state(&states[0], places, transitions);

    /* Any order that names each subnet once gives the same. */
    uint16_t order[NET_SUBNETS];
    for (size_t s = 0; s < subnets; s++)
        order[s] = (uint16_t)(subnets - 1 - s);

    /* Rows with one degree for all signals. The fifth is refused, and the sixth goes on from the state that the fourth left. */
    static const uint16_t degrees[] = {400, 1000, 0, 700, 1001, 1000};
    for (size_t i = 0; i < sizeof degrees / sizeof degrees[0]; i++) {
        uint16_t row[NET_SIGNALS];
        for (size_t g = 0; g < signals; g++)
            row[g] = degrees[i];
        for (int runner = 0; runner < 2; runner++) {
            struct state *s = &states[runner];
            if (runner == 0)
                number = net_flat_row(card, length, s->markings, places, s->transfers, transitions, s->degrees, signals, row, signals, &value);
            else
                number = net_subnet_row(card, length, s->markings, places, s->transfers, transitions, s->degrees, signals, order, subnets, row,
                                        signals, &value);
            printf("all signals at %u, %s:", (unsigned)degrees[i], runner == 0 ? "flat net" : "by subnets");
            if (number == 0)
                print_state(s, places, transitions);
            else
                print_refusal(number, value);
        }
    }
    return 0;
}
