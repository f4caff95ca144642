/* Compares include/discgauze.h with the library: every size and every offset.

   Three ways, each over all structs. The library writes a struct into memory that was filled with zeros and then into memory that was filled with ones: a byte that stays as it was filled was not
   written, so every byte of a field must be written, and none behind the struct. Then calls set distinctive values, and each field, read by the header, must have its own. And tables that C hands
   over must be read as C meant them. The first thing that differs is told, and the program ends with 1. */
#include "discgauze.h"

#include <stdio.h>
#include <stdlib.h>
#include <stddef.h>
#include <string.h>

#define SIZE(T, n) _Static_assert(sizeof(struct discgauze_##T) == (n), "the size of struct discgauze_" #T)
SIZE(Options, DISCGAUZE_SIZEOF_OPTIONS);
SIZE(Hand, DISCGAUZE_SIZEOF_HAND);
SIZE(SeatHand, DISCGAUZE_SIZEOF_SEAT_HAND);
SIZE(SeatHands, DISCGAUZE_SIZEOF_SEAT_HANDS);
SIZE(Money, DISCGAUZE_SIZEOF_MONEY);
SIZE(Seat, DISCGAUZE_SIZEOF_SEAT);
SIZE(Shoe, DISCGAUZE_SIZEOF_SHOE);
SIZE(Table, DISCGAUZE_SIZEOF_TABLE);
SIZE(HandScore, DISCGAUZE_SIZEOF_HAND_SCORE);
SIZE(Scores, DISCGAUZE_SIZEOF_SCORES);
SIZE(Answer, DISCGAUZE_SIZEOF_ANSWER);
SIZE(Outcome, DISCGAUZE_SIZEOF_OUTCOME);
SIZE(Reply, DISCGAUZE_SIZEOF_REPLY);
SIZE(TableShown, DISCGAUZE_SIZEOF_TABLE_SHOWN);
SIZE(TurnShown, DISCGAUZE_SIZEOF_TURN_SHOWN);
SIZE(SeatShown, DISCGAUZE_SIZEOF_SEAT_SHOWN);
SIZE(HandShown, DISCGAUZE_SIZEOF_HAND_SHOWN);
SIZE(Lights, DISCGAUZE_SIZEOF_LIGHTS);
SIZE(SeatLights, DISCGAUZE_SIZEOF_SEAT_LIGHTS);
SIZE(Row, DISCGAUZE_SIZEOF_ROW);
SIZE(Screen, DISCGAUZE_SIZEOF_SCREEN);
SIZE(FileCall, DISCGAUZE_SIZEOF_FILE_CALL);
SIZE(Writer, DISCGAUZE_SIZEOF_WRITER);
SIZE(Written, DISCGAUZE_SIZEOF_WRITTEN);
SIZE(Last, DISCGAUZE_SIZEOF_LAST);
SIZE(BankChances, DISCGAUZE_SIZEOF_BANK_CHANCES);
SIZE(FacesLeft, DISCGAUZE_SIZEOF_FACES_LEFT);
SIZE(WaysCount, DISCGAUZE_SIZEOF_WAYS_COUNT);
SIZE(Way, DISCGAUZE_SIZEOF_WAY);
_Static_assert(sizeof(bool) == 1, "a bool is a byte");

static unsigned fields, values;

/* What a field must be; the line says what differs. */
static void same(int line, const char *what, long long found, long long wanted)
{
    values++;
    if (found == wanted)
        return;
    printf("layout: FAILED at line %d: %s is %lld and must be %lld\n", line, what, found, wanted);
    exit(1);
}
#define IS(expression, wanted) same(__LINE__, #expression, (long long)(expression), (long long)(wanted))

/* ---- Which bytes of a struct belong to a field, by the header. ---- */
#define AT(T, f) (base + offsetof(struct discgauze_##T, f))
#define LEAF(T, f, bytes) mark(map, AT(T, f), bytes, sizeof(((struct discgauze_##T *)0)->f), #T "." #f)
#define PART(T, f, P) mark_##P(map, AT(T, f))
#define PARTS(T, f, P, n) \
    for (size_t i = 0; i < (n); i++) \
    mark_##P(map, AT(T, f) + i * sizeof(struct discgauze_##P))
#define MARKS(T) static void mark_##T(uint8_t *map, size_t base)

static void mark(uint8_t *map, size_t from, size_t many, size_t wide, const char *name)
{
    fields++;
    if (wide != many) {
        printf("layout: FAILED: %s has %zu bytes in the header and %zu in the library\n", name, wide, many);
        exit(1);
    }
    for (size_t i = 0; i < many; i++) {
        if (map[from + i]) {
            printf("layout: FAILED: two fields of the header share the byte at %zu\n", from + i);
            exit(1);
        }
        map[from + i] = 1;
    }
}

MARKS(Options)
{
    LEAF(Options, seats, 1), LEAF(Options, decks, 1), LEAF(Options, first, 1), LEAF(Options, later, 1), LEAF(Options, hands, 1), LEAF(Options, aces, 1);
    LEAF(Options, doubling, 1), LEAF(Options, limit, 1), LEAF(Options, insurance, 1), LEAF(Options, five, 1), LEAF(Options, prize, 1), LEAF(Options, device, 1);
    LEAF(Options, decider, 1), LEAF(Options, cut, 2), LEAF(Options, smallest, 4), LEAF(Options, largest, 4);
}
MARKS(Hand) { LEAF(Hand, cards, 20), LEAF(Hand, count, 1); }
MARKS(SeatHand) { PART(SeatHand, hand, Hand), LEAF(SeatHand, origin, 1), LEAF(SeatHand, ended, 1); }
MARKS(SeatHands)
{
    PARTS(SeatHands, places, SeatHand, DISCGAUZE_HANDS);
    LEAF(SeatHands, many, 1);
}
MARKS(Money) { LEAF(Money, purse, 8), LEAF(Money, stake, 4), LEAF(Money, insurance, 4), LEAF(Money, sides, 16); }
MARKS(Seat)
{
    PART(Seat, money, Money);
    PARTS(Seat, others, Money, 2);
    PART(Seat, hands, SeatHands), LEAF(Seat, first, 3);
}
MARKS(Shoe) { LEAF(Shoe, order, 416), LEAF(Shoe, drawn, 8), LEAF(Shoe, discards, 416), LEAF(Shoe, discarded, 8), LEAF(Shoe, begun, 1); }
MARKS(Table)
{
    PART(Table, options, Options), LEAF(Table, tray, 8);
    PARTS(Table, seats, Seat, DISCGAUZE_SEATS);
    PART(Table, bank, Hand), PART(Table, shoe, Shoe);
}
MARKS(HandScore) { LEAF(HandScore, total, 1), LEAF(HandScore, soft, 1); }
MARKS(Scores)
{
    PARTS(Scores, each, HandScore, DISCGAUZE_SEATS);
    LEAF(Scores, count, 8);
}
MARKS(Answer) { LEAF(Answer, number, 1), PART(Answer, bank, Hand), LEAF(Answer, lines, 8), PART(Answer, scores, Scores); }
MARKS(Outcome) { LEAF(Outcome, number, 1), PART(Outcome, table, Table); }
MARKS(Reply) { PART(Reply, answer, Answer), PART(Reply, table, Table); }
MARKS(TableShown)
{
    PART(TableShown, options, Options), LEAF(TableShown, tray, 8), LEAF(TableShown, layout, 8), LEAF(TableShown, purses, 8);
    LEAF(TableShown, left, 8), LEAF(TableShown, discards, 8), PART(TableShown, bank, Hand);
}
MARKS(TurnShown) { LEAF(TurnShown, somebody, 1), LEAF(TurnShown, seat, 8), LEAF(TurnShown, place, 8), LEAF(TurnShown, position, 1); }
MARKS(SeatShown)
{
    LEAF(SeatShown, purse, 8), LEAF(SeatShown, stake, 4), LEAF(SeatShown, insurance, 4), LEAF(SeatShown, sides, 16);
    LEAF(SeatShown, layout, 8), LEAF(SeatShown, prizes, 8), LEAF(SeatShown, hands, 8);
}
MARKS(HandShown)
{
    PART(HandShown, hand, Hand), LEAF(HandShown, total, 1), LEAF(HandShown, soft, 1), LEAF(HandShown, wager, 8);
    LEAF(HandShown, origin, 1), LEAF(HandShown, ended, 1);
}
MARKS(Lights)
{
    LEAF(Lights, buy, 1), LEAF(Lights, cash, 1), LEAF(Lights, stake, 1), LEAF(Lights, insure, 1), LEAF(Lights, stand, 1), LEAF(Lights, draw, 1);
    LEAF(Lights, doubling, 1), LEAF(Lights, split, 1), LEAF(Lights, surrender, 1), LEAF(Lights, even, 1), LEAF(Lights, five, 1), LEAF(Lights, pair, 1);
    LEAF(Lights, sevens, 1), LEAF(Lights, more, 1), LEAF(Lights, less, 1);
}
MARKS(SeatLights) { PARTS(SeatLights, guests, Lights, DISCGAUZE_POSITIONS); }
MARKS(Row) { LEAF(Row, seat, 8), LEAF(Row, place, 8), PART(Row, hand, Hand), LEAF(Row, total, 1); }
MARKS(Screen)
{
    PARTS(Screen, seats, SeatLights, DISCGAUZE_SEATS);
    PARTS(Screen, rows, Row, DISCGAUZE_ROWS);
    LEAF(Screen, shown, 8), LEAF(Screen, beyond, 8);
}
MARKS(FileCall)
{
    LEAF(FileCall, found, 1), LEAF(FileCall, kind, 1), LEAF(FileCall, seat, 1), LEAF(FileCall, position, 1), LEAF(FileCall, amount, 8);
    LEAF(FileCall, order, 8), LEAF(FileCall, cards, 8), LEAF(FileCall, behind, 8);
}
MARKS(Writer) { PART(Writer, options, Options), LEAF(Writer, many, 1), LEAF(Writer, bytes, 500); }
MARKS(Written) { LEAF(Written, number, 1), LEAF(Written, blocks, 1), LEAF(Written, first, 512), LEAF(Written, second, 512), PART(Written, writer, Writer); }
MARKS(Last) { LEAF(Last, blocks, 1), LEAF(Last, block, 512); }
MARKS(BankChances) { LEAF(BankChances, number, 1), LEAF(BankChances, all, 8), LEAF(BankChances, counts, 64); }
MARKS(FacesLeft) { LEAF(FacesLeft, number, 1), LEAF(FacesLeft, up, 1), LEAF(FacesLeft, left, 52); }
/* 16 bytes come back in registers, so that nothing is written: fields that do not overlap, and their values. */
MARKS(WaysCount) { LEAF(WaysCount, number, 1), LEAF(WaysCount, count, 8); }
MARKS(Way) { LEAF(Way, number, 1), LEAF(Way, found, 1), LEAF(Way, length, 8), LEAF(Way, decisions, 8), LEAF(Way, sum, 8); }

/* ---- The memory that the library writes a struct into. x86-64 hands a function that returns more than 16 bytes the place for them as a first argument, so the same symbol, declared so,
   writes where we say. ---- */
#define RAW(name, ...) void *raw_##name(void *, __VA_ARGS__) __asm__("discgauze_" #name)
typedef struct discgauze_Table Table;
typedef struct discgauze_Options Options;
RAW(opened, Options, const uint8_t *, discgauze_size);
RAW(stepped, Table, uint8_t, uint8_t, uint8_t, uint64_t, const uint8_t *, discgauze_size, uint32_t *, int64_t *);
RAW(shown_table, Table);
RAW(shown_turn, Table);
RAW(shown_seat, Table, uint8_t, uint8_t);
RAW(shown_hand, Table, uint8_t, uint8_t, discgauze_size);
RAW(shown_screen, Table);
RAW(file_options, const uint8_t *, discgauze_size);
RAW(file_opened, const uint8_t *, discgauze_size);
RAW(file_call, const uint8_t *, discgauze_size, discgauze_size);
RAW(file_begin, Options, const uint8_t *, discgauze_size);
RAW(file_add, struct discgauze_Writer, uint8_t, uint8_t, uint8_t, uint64_t, const uint8_t *, discgauze_size);
RAW(file_end, struct discgauze_Writer);
RAW(chances, uint8_t, const uint8_t *, discgauze_size, uint8_t);
RAW(faces_left, Table);
RAW(way_at, Table, discgauze_size);

#define BEHIND 64
#define ROOM (4096 + BEHIND)
static uint8_t memory[2][ROOM] __attribute__((aligned(16)));

/* Both fillings were written over where the header has a field, and nowhere behind the struct. */
static void written(const char *name, size_t size, void (*marks)(uint8_t *, size_t))
{
    static uint8_t map[ROOM];
    memset(map, 0, ROOM);
    marks(map, 0);
    for (size_t i = 0; i < size + BEHIND; i++) {
        int was = !(memory[0][i] == 0 && memory[1][i] == 1);
        if (map[i] && !was) {
            printf("layout: FAILED: byte %zu of struct discgauze_%s is a field's, and the library did not write it\n", i, name);
            exit(1);
        }
        if (i >= size && was) {
            printf("layout: FAILED: struct discgauze_%s has %zu bytes, and the library wrote byte %zu\n", name, size, i);
            exit(1);
        }
    }
}
#define WRITTEN(T, call) \
    do { \
        for (int k = 0; k < 2; k++) { \
            uint8_t *out = memory[k]; \
            memset(out, k, ROOM); \
            void *back = (call); \
            if (back != out) { \
                printf("layout: FAILED: discgauze_%s came back elsewhere\n", #T); \
                exit(1); \
            } \
        } \
        written(#T, sizeof(struct discgauze_##T), mark_##T); \
    } while (0)

/* ---- A session with distinctive values. ---- */
static uint8_t order[DISCGAUZE_CARDS];
static Table table;
static struct discgauze_Answer answer;
static uint32_t names[DISCGAUZE_LINES];
static int64_t nets[DISCGAUZE_LINES];

/* The order of so many decks that begins with these cards; the other faces follow, rising. */
static discgauze_size begun(unsigned decks, const uint8_t *first, size_t many)
{
    unsigned used[DISCGAUZE_FACES] = {0};
    size_t n = 0;
    for (; n < many; n++) {
        order[n] = first[n];
        used[first[n]]++;
    }
    for (unsigned face = 0; face < DISCGAUZE_FACES; face++)
        while (used[face]++ < decks)
            order[n++] = (uint8_t)face;
    return n;
}

static const struct {
    const char *name;
    size_t at;
    uint8_t kind;
} lights[15] = {
#define LIGHT(f, k) {#f, offsetof(struct discgauze_Lights, f), k}
    LIGHT(buy, DISCGAUZE_BUY), LIGHT(cash, DISCGAUZE_CASH), LIGHT(stake, DISCGAUZE_STAKE), LIGHT(insure, DISCGAUZE_INSURE), LIGHT(stand, DISCGAUZE_STAND),
    LIGHT(draw, DISCGAUZE_DRAW), LIGHT(doubling, DISCGAUZE_DOUBLE), LIGHT(split, DISCGAUZE_SPLIT), LIGHT(surrender, DISCGAUZE_SURRENDER),
    LIGHT(even, DISCGAUZE_EVEN), LIGHT(five, DISCGAUZE_FIVE), LIGHT(pair, DISCGAUZE_PAIR), LIGHT(sevens, DISCGAUZE_SEVENS), LIGHT(more, DISCGAUZE_MORE),
    LIGHT(less, DISCGAUZE_LESS)};
/* For each field, where it was lit, as a number that differs where they do. */
static uint64_t lit[15];

/* Every touch field is as the step says. */
static void fields_lit(void)
{
    struct discgauze_Screen screen = discgauze_shown_screen(table);
    for (uint8_t seat = 0; seat < DISCGAUZE_SEATS; seat++)
        for (uint8_t position = 0; position < DISCGAUZE_POSITIONS; position++)
            for (int f = 0; f < 15; f++) {
                struct discgauze_Money *m = position ? &table.seats[seat].others[position - 1] : &table.seats[seat].money;
                uint64_t least = lights[f].kind == DISCGAUZE_STAKE ? table.options.smallest : lights[f].kind == DISCGAUZE_INSURE ? m->stake / 2 : 1;
                struct discgauze_Reply reply = discgauze_stepped(table, lights[f].kind, seat, position, least, order, 0, names, nets);
                const uint8_t *guest = (const uint8_t *)&screen.seats[seat].guests[position];
                unsigned accepted = reply.answer.number == 0;
                same(__LINE__, lights[f].name, guest[lights[f].at], accepted);
                lit[f] = (lit[f] * 31 + accepted) * 2654435761u + (lit[f] >> 40);
            }
}

static uint8_t step(uint8_t kind, uint8_t seat, uint8_t position, uint64_t amount)
{
    return discgauze_step(&table, kind, seat, position, amount, order, 0, &answer, names, nets);
}

/* The money of the 27 guests: each amount is its own. */
static unsigned guest(unsigned seat, unsigned position) { return 3 * seat + position; }
static uint64_t bought(unsigned seat, unsigned position) { return 1000000000000 + 7 * guest(seat, position); }
static uint64_t stake(unsigned seat, unsigned position) { return 2 + 2 * guest(seat, position); }
static uint64_t side(unsigned seat, unsigned position, unsigned kind) { return 200 + 4 * guest(seat, position) + kind; }
static uint64_t sides(unsigned seat, unsigned position)
{
    return side(seat, position, 0) + side(seat, position, 1) + side(seat, position, 2) + side(seat, position, 3);
}
static uint64_t prize(unsigned seat, unsigned position) { return seat == 0 ? 3 * stake(seat, position) : 0; }
/* Stake, insurance and side stakes; seat 3 splits and doubles. */
static uint64_t laid(unsigned seat, unsigned position)
{
    return stake(seat, position) * (seat == 3 ? 3 : 1) + stake(seat, position) / 2 + sides(seat, position);
}

#define EACH_GUEST \
    for (uint8_t s = 0; s < 9; s++) \
        for (uint8_t p = 0; p < 3; p++)

/* Eight burnt cards, nine first cards, the up card, nine second cards, then what is drawn. */
static const uint8_t cards[] = {51, 50, 49, 48, 47, 46, 45, 44, 5, 12, 13, 20, 8, 9, 36, 32, 16, 26, 6, 24, 18, 33, 17, 14, 3, 30, 21, 7, 2, 40, 34, 23};

static Options house(void)
{
    return (Options){.seats = 9, .decks = 8, .first = 2, .later = 1, .hands = 4, .aces = 1, .doubling = 1, .limit = 1, .insurance = 1,
                     .five = 1, .prize = 1, .device = 1, .decider = 2, .cut = 200, .smallest = 2, .largest = 1000};
}

/* 27 guests buy, stake and lay side stakes; a deal against an ace; 27 insurances; a prize, a split and a double. */
static void play(void)
{
    discgauze_size many = begun(8, cards, sizeof cards);
    IS(discgauze_open(&table, house(), order, many), 0);
    fields_lit();
    IS(step(DISCGAUZE_FILL, 0, 0, 100000000000000), 0);
    EACH_GUEST IS(step(DISCGAUZE_BUY, s, p, bought(s, p)), 0);
    fields_lit();
    EACH_GUEST IS(step(DISCGAUZE_STAKE, s, p, stake(s, p)), 0);
    for (uint8_t kind = 0; kind < 4; kind++) {
        fields_lit();
        EACH_GUEST IS(step(DISCGAUZE_PAIR + kind, s, p, side(s, p, kind)), 0);
    }
    IS(step(DISCGAUZE_DEAL, 0, 0, 0), 0);
    fields_lit();
    EACH_GUEST IS(step(DISCGAUZE_INSURE, s, p, stake(s, p) / 2), 0);
    IS(step(DISCGAUZE_DRAW, 0, 2, 0), 0);
    IS(step(DISCGAUZE_STAND, 1, 2, 0), 0);
    IS(step(DISCGAUZE_STAND, 2, 2, 0), 0);
    fields_lit();
    IS(step(DISCGAUZE_SPLIT, 3, 2, 0), 0);
    IS(step(DISCGAUZE_DOUBLE, 3, 2, 0), 0);
    fields_lit();
}

/* ---- Struct by struct. ---- */

static void hand_is(int line, struct discgauze_Hand h, unsigned count, int a, int b, int c)
{
    same(line, "the count of a hand", h.count, count);
    same(line, "a hand's first card", h.cards[0], a);
    same(line, "a hand's second card", h.cards[1], b);
    same(line, "a hand's third card", h.cards[2], c);
}
#define HAND(h, count, a, b, c) hand_is(__LINE__, h, count, a, b, c)

/* Any bytes are options of a file: here each byte is another. */
static void options(void)
{
    static uint8_t file[DISCGAUZE_BLOCK];
    for (int i = 0; i < DISCGAUZE_BLOCK; i++)
        file[i] = (uint8_t)(100 + i);
    Options o = discgauze_file_options(file, DISCGAUZE_BLOCK);
    IS(o.seats, 100), IS(o.decks, 101), IS(o.first, 102), IS(o.later, 103), IS(o.hands, 104), IS(o.aces, 105), IS(o.doubling, 106), IS(o.limit, 107);
    IS(o.insurance, 108), IS(o.five, 109), IS(o.prize, 110), IS(o.device, 111), IS(o.decider, 112), IS(o.cut, 113 + 256 * 114);
    IS(o.smallest, 0x76757473), IS(o.largest, 0x7a797877);
    WRITTEN(Options, raw_file_options(out, file, DISCGAUZE_BLOCK));
}

static void the_table(void)
{
    WRITTEN(Outcome, raw_opened(out, house(), order, DISCGAUZE_CARDS));
    WRITTEN(Reply, raw_stepped(out, table, DISCGAUZE_STAND, 3, 2, 0, order, 0, names, nets));
    struct discgauze_Outcome refused = discgauze_opened(house(), order, 415), wrong = discgauze_opened((Options){0}, order, 416);
    IS(refused.number, 3), IS(wrong.number, 2), IS(refused.table.shoe.order[0], 0), IS(discgauze_broken(refused.table), true), IS(discgauze_broken(table), false);
    IS(memcmp(&table.options, &(Options){.seats = 9}, 1), 0), IS(table.options.cut, 200), IS(table.options.smallest, 2), IS(table.options.largest, 1000);
    IS(table.options.decider, 2), IS(table.options.device, 1);
    /* the three guests of seat 0 have their prizes */
    IS(table.tray, 100000000000000 - prize(0, 0) - prize(0, 1) - prize(0, 2));
    EACH_GUEST {
        struct discgauze_Money m = p ? table.seats[s].others[p - 1] : table.seats[s].money;
        IS(m.purse, bought(s, p) - laid(s, p) + prize(s, p)), IS(m.stake, stake(s, p)), IS(m.insurance, stake(s, p) / 2);
        for (int k = 0; k < 4; k++)
            IS(m.sides[k], side(s, p, k));
    }
    for (int s = 0; s < 9; s++) {
        IS(table.seats[s].hands.many, s == 3 ? 2 : 1);
        IS(table.seats[s].hands.places[0].origin, s == 3 ? DISCGAUZE_FROM_SPLIT : DISCGAUZE_DEALT);
        IS(table.seats[s].hands.places[0].ended, s == 3 ? DISCGAUZE_BY_DOUBLE : s == 1 || s == 2 ? DISCGAUZE_BY_STAND : DISCGAUZE_NOT_ENDED);
        IS(table.seats[s].first[0], cards[8 + s]), IS(table.seats[s].first[1], cards[18 + s]), IS(table.seats[s].first[2], s == 3 ? 2 : 0);
    }
    HAND(table.seats[0].hands.places[0].hand, 3, 5, 6, 7);
    HAND(table.seats[1].hands.places[0].hand, 2, 12, 24, 0);
    HAND(table.seats[3].hands.places[0].hand, 3, 20, 2, 34);
    HAND(table.seats[3].hands.places[1].hand, 2, 33, 40, 0);
    IS(table.seats[3].hands.places[1].origin, DISCGAUZE_FROM_SPLIT), IS(table.seats[3].hands.places[1].ended, DISCGAUZE_NOT_ENDED);
    HAND(table.seats[8].hands.places[0].hand, 2, 16, 21, 0);
    HAND(table.bank, 1, 26, 0, 0);
    IS(memcmp(table.shoe.order, order, DISCGAUZE_CARDS), 0), IS(table.shoe.drawn, 31), IS(memcmp(table.shoe.discards, cards, 8), 0);
    IS(table.shoe.discards[8], 0), IS(table.shoe.discarded, 8), IS(table.shoe.begun, 1);
}

/* A table of canaries stays so where the opening is refused, and an answer is written whole. */
static void in_place(void)
{
    for (int k = 0; k < 2; k++) {
        memset(memory[k], k, ROOM);
        IS(discgauze_open((Table *)memory[k], house(), order, 415), 3);
        for (int i = 0; i < ROOM; i++)
            IS(memory[k][i], k);
        IS(discgauze_open((Table *)memory[k], house(), order, 416), 0);
    }
    written("Table", sizeof(Table), mark_Table);
    for (int k = 0; k < 2; k++) {
        Table t = table;
        memset(memory[k], k, ROOM);
        IS(discgauze_step(&t, 0, 0, 0, 0, order, 0, (struct discgauze_Answer *)memory[k], names, nets), DISCGAUZE_UNKNOWN_KIND);
        IS(memcmp(&t, &table, sizeof t), 0), IS(memory[k][0], 255);
    }
    written("Answer", sizeof(struct discgauze_Answer), mark_Answer);
}

static void displays(void)
{
    WRITTEN(TableShown, raw_shown_table(out, table));
    WRITTEN(TurnShown, raw_shown_turn(out, table));
    WRITTEN(SeatShown, raw_shown_seat(out, table, 3, 1));
    WRITTEN(HandShown, raw_shown_hand(out, table, 3, 1, 0));
    WRITTEN(Screen, raw_shown_screen(out, table));
    uint64_t layout = 0, purses = 0;
    EACH_GUEST {
        struct discgauze_SeatShown g = discgauze_shown_seat(table, s, p);
        IS(g.purse, bought(s, p) - laid(s, p) + prize(s, p)), IS(g.stake, stake(s, p)), IS(g.insurance, stake(s, p) / 2);
        for (int k = 0; k < 4; k++)
            IS(g.sides[k], side(s, p, k));
        IS(g.layout, laid(s, p)), IS(g.prizes, prize(s, p)), IS(g.hands, s == 3 ? 2 : 1);
        layout += g.layout, purses += g.purse;
    }
    struct discgauze_TableShown t = discgauze_shown_table(table);
    IS(memcmp(&t.options, &table.options, sizeof t.options), 0), IS(t.tray, table.tray), IS(t.layout, layout), IS(t.purses, purses);
    IS(t.left, 416 - 31), IS(t.discards, 8);
    HAND(t.bank, 1, 26, 0, 0);
    struct discgauze_TurnShown turn = discgauze_shown_turn(table);
    IS(turn.somebody, true), IS(turn.seat, 3), IS(turn.place, 1), IS(turn.position, 2);
    struct discgauze_HandShown h = discgauze_shown_hand(table, 3, 1, 0), soft = discgauze_shown_hand(table, 2, 0, 0);
    HAND(h.hand, 3, 20, 2, 34);
    IS(h.total, 20), IS(h.soft, false), IS(h.wager, 2 * stake(3, 1)), IS(h.origin, DISCGAUZE_FROM_SPLIT), IS(h.ended, DISCGAUZE_BY_DOUBLE);
    IS(soft.total, 17), IS(soft.soft, true), IS(soft.wager, stake(2, 0)), IS(soft.origin, DISCGAUZE_DEALT), IS(soft.ended, DISCGAUZE_BY_STAND);
    struct discgauze_Screen screen = discgauze_shown_screen(table);
    IS(screen.shown, 6), IS(screen.beyond, 4);
    IS(screen.rows[0].seat, 3), IS(screen.rows[0].place, 1), IS(screen.rows[0].total, 10);
    HAND(screen.rows[0].hand, 2, 33, 40, 0);
    IS(screen.rows[5].seat, 8), IS(screen.rows[5].place, 0), IS(screen.rows[5].total, 13);
    HAND(screen.rows[5].hand, 2, 16, 21, 0);
}

/* The scores of a deal, and all that a close answers: its lines from the left, in a seat by position. */
static void answers(void)
{
    IS(step(DISCGAUZE_STAND, 3, 2, 0), 0);
    for (uint8_t s = 4; s < 9; s++)
        IS(step(DISCGAUZE_STAND, s, 2, 0), 0);
    IS(step(DISCGAUZE_CLOSE, 0, 0, 0), 0);
    HAND(answer.bank, 2, 26, 23, 0);
    IS(answer.number, 0), IS(answer.lines, 27 * 6 + 3), IS(answer.scores.count, 1), IS(answer.scores.each[0].total, 21), IS(answer.scores.each[0].soft, true);
    unsigned n = 0;
    EACH_GUEST {
        for (unsigned kind = DISCGAUZE_LINE_INSURANCE; kind <= DISCGAUZE_LINE_LESS; kind++, n++)
            IS(discgauze_line_seat(names[n]), s), IS(discgauze_line_position(names[n]), p), IS(discgauze_line_kind(names[n]), kind), IS(discgauze_line_place(names[n]), 0);
        IS(nets[n - 5], stake(s, p)); /* the bank has a natural: twice the insurance */
        for (unsigned place = 0; place < (s == 3 ? 2 : 1); place++, n++)
            IS(discgauze_line_seat(names[n]), s), IS(discgauze_line_position(names[n]), p), IS(discgauze_line_kind(names[n]), 0), IS(discgauze_line_place(names[n]), place);
        IS(nets[n - 1], -(int64_t)stake(s, p));
    }
    IS(n, answer.lines);
    IS(step(DISCGAUZE_STAND, 0, 0, 0), DISCGAUZE_NO_ROUND), IS(answer.number, 5), IS(answer.lines, 0), IS(answer.scores.count, 0);
    static const uint8_t totals[] = {13, 20, 17, 16, 14, 12, 14, 12, 13};
    Table now = table;
    discgauze_size many = begun(8, cards, sizeof cards);
    IS(discgauze_open(&table, house(), order, many), 0), IS(step(DISCGAUZE_FILL, 0, 0, 1000000), 0);
    for (uint8_t s = 0; s < 9; s++)
        IS(step(DISCGAUZE_BUY, s, 0, 2), 0), IS(step(DISCGAUZE_STAKE, s, 0, 2), 0);
    IS(step(DISCGAUZE_DEAL, 0, 0, 0), 0), IS(answer.scores.count, 9);
    for (int s = 0; s < 9; s++)
        IS(answer.scores.each[s].total, totals[s]), IS(answer.scores.each[s].soft, s == 2);
    table = now;
}

/* A table on which the fields are lit that the other session leaves dark: a natural against a ten, then five cards. */
static void other_fields(void)
{
    static const uint8_t natural[] = {51, 0, 1, 9, 25, 15, 2, 3, 4}; /* a burnt card; an ace and a two, a ten up, a king and a three, then a three, a four and a five */
    Options o = house();
    o.decks = 1, o.first = 1, o.cut = 0;
    discgauze_size many = begun(1, natural, sizeof natural);
    IS(discgauze_open(&table, o, order, many), 0), IS(step(DISCGAUZE_FILL, 0, 0, 1000000), 0);
    for (uint8_t s = 0; s < 2; s++)
        IS(step(DISCGAUZE_BUY, s, 0, 100), 0), IS(step(DISCGAUZE_STAKE, s, 0, 10), 0);
    IS(step(DISCGAUZE_DEAL, 0, 0, 0), 0);
    fields_lit();
    IS(step(DISCGAUZE_EVEN, 0, 0, 0), 0);
    for (int i = 0; i < 3; i++)
        IS(step(DISCGAUZE_DRAW, 1, 0, 0), 0);
    fields_lit();
    for (int a = 0; a < 15; a++)
        for (int b = 0; b < a; b++)
            if (lit[a] == lit[b]) {
                printf("layout: FAILED: the fields %s and %s are never told apart\n", lights[a].name, lights[b].name);
                exit(1);
            }
}

static void files(void)
{
    static uint8_t file[4 * DISCGAUZE_BLOCK];
    /* ten bytes of a block at 512 whose first byte says that there are two calls: seat 5, position 2 */
    static const uint8_t code[] = {3, 5 + 16 * 2, 0x88, 0x77, 0x66, 0x55, 0x44, 0x33, 0x22, 0x11};
    file[512] = 2;
    memcpy(file + 513, code, 10);
    file[523] = DISCGAUZE_LOAD;
    file[1024 + 1] = 7;
    WRITTEN(FileCall, raw_file_call(out, file, sizeof file, 513));
    struct discgauze_FileCall buy = discgauze_file_call(file, sizeof file, 513), load = discgauze_file_call(file, sizeof file, 523);
    IS(buy.found, true), IS(buy.kind, 3), IS(buy.seat, 5), IS(buy.position, 2), IS(buy.amount, 0x1122334455667788), IS(buy.order, 0), IS(buy.cards, 0), IS(buy.behind, 523);
    IS(load.found, true), IS(load.kind, DISCGAUZE_LOAD), IS(load.seat, 0), IS(load.order, 1024 + 32), IS(load.cards, 7 * 52), IS(load.behind, 1536 + 1);
    IS(discgauze_file_call(file, sizeof file, sizeof file - 9).found, false);

    discgauze_size many = begun(8, cards, sizeof cards);
    WRITTEN(Written, raw_file_begin(out, house(), order, many));
    struct discgauze_Written begin = discgauze_file_begin(house(), order, many);
    IS(begin.number, 0), IS(begin.blocks, 1), IS(begin.first[0], 9), IS(begin.first[32], 51), IS(begin.first[32 + 415], 51), IS(begin.writer.many, 0);
    IS(memcmp(&begin.writer.options, &(Options){.seats = 9}, 1), 0), IS(begin.writer.options.largest, 1000);
    struct discgauze_Written added = discgauze_file_add(begin.writer, 3, 5, 2, 0x1122334455667788, order, 0);
    IS(added.number, 0), IS(added.blocks, 0), IS(added.writer.many, 1), IS(memcmp(added.writer.bytes, code, 10), 0);
    struct discgauze_Written loaded = discgauze_file_add(added.writer, DISCGAUZE_LOAD, 0, 0, 0, order, many);
    IS(loaded.blocks, 2), IS(loaded.first[0], 2), IS(memcmp(loaded.first + 1, code, 10), 0), IS(loaded.second[0], 9), IS(loaded.second[32], 51), IS(loaded.writer.many, 0);
    WRITTEN(Written, raw_file_add(out, added.writer, DISCGAUZE_LOAD, 0, 0, 0, order, many));
    struct discgauze_Written refused = discgauze_file_add(added.writer, 22, 0, 0, 0, order, 0);
    IS(refused.number, 26), IS(refused.blocks, 0), IS(refused.writer.many, 1), IS(memcmp(refused.writer.bytes, code, 10), 0);
    WRITTEN(Last, raw_file_end(out, added.writer));
    struct discgauze_Last last = discgauze_file_end(added.writer);
    IS(last.blocks, 1), IS(last.block[0], 1), IS(memcmp(last.block + 1, code, 10), 0), IS(discgauze_file_end(begin.writer).blocks, 0);

    memcpy(file, begin.first, DISCGAUZE_BLOCK), memcpy(file + 512, loaded.first, DISCGAUZE_BLOCK), memcpy(file + 1024, loaded.second, DISCGAUZE_BLOCK);
    IS(discgauze_file_number(file, 1536), 0), IS(discgauze_file_number(file, 1535), 24), IS(discgauze_file_number(file, 0), 24), IS(discgauze_file_first(file, 1536), 513);
    WRITTEN(Outcome, raw_file_opened(out, file, 1536));
    struct discgauze_Outcome opened = discgauze_file_opened(file, 1536);
    IS(opened.number, 0), IS(opened.table.options.cut, 200), IS(memcmp(opened.table.shoe.order, order, DISCGAUZE_CARDS), 0);
    file[1024]++;
    IS(discgauze_file_number(file, 1536), 25);
}

/* Where the bank's rule ends in a row of cards: the eight endings of struct discgauze_BankChances. */
static int ending(const int *ranks, int many)
{
    int low = 0, ace = 0, n = 0;
    for (;;) {
        int total = ace && low + 10 <= 21 ? low + 10 : low;
        if (total > 16)
            return total > 21 ? 6 : n == 2 && total == 21 ? 0 : total - 16;
        if (n == many)
            return 7;
        low += ranks[n] < 9 ? ranks[n] + 1 : 10;
        ace |= ranks[n++] == 0;
    }
}

/* All draws of three of 51 cards behind an ace, one after the other. */
static void chances(void)
{
    uint8_t left[DISCGAUZE_FACES];
    uint64_t counts[DISCGAUZE_ENDINGS] = {0};
    for (int i = 0; i < 52; i++)
        left[i] = i != 0;
    for (int a = 1; a < 52; a++)
        for (int b = 1; b < 52; b++)
            for (int c = 1; c < 52; c++)
                if (a != b && b != c && a != c)
                    counts[ending((int[]){0, a % 13, b % 13, c % 13}, 4)]++;
    WRITTEN(BankChances, raw_chances(out, 0, left, 52, 3));
    struct discgauze_BankChances found = discgauze_chances(0, left, 52, 3);
    IS(found.number, 0), IS(found.all, 51 * 50 * 49);
    for (int i = 0; i < DISCGAUZE_ENDINGS; i++)
        IS(found.counts[i], counts[i]);
    IS(discgauze_chances(0, left, 51, 3).number, 3), IS(discgauze_chances(0, left, 52, 7).number, 27), IS(discgauze_chances(52, left, 52, 7).number, 3);
}

/* The two staked seats bar the ways; with one they are counted, and each is what playing it brings. */
static void ways(void)
{
    static const uint8_t sevens[] = {51, 6, 5, 19, 32, 9, 45, 22, 3};
    Options o = house();
    o.decks = 1, o.first = 1, o.cut = 0;
    memset(memory, 0, sizeof memory);
    mark_WaysCount(memory[0], 0);
    IS(discgauze_ways_count(table).number, 13), IS(discgauze_ways_count(table).count, 0), IS(discgauze_way_at(table, 0).number, 13), IS(discgauze_way_at(table, 0).found, false);
    discgauze_size many = begun(1, sevens, sizeof sevens);
    IS(discgauze_open(&table, o, order, many), 0), IS(discgauze_ways_count(table).number, 5), IS(discgauze_faces_left(table).number, 5);
    IS(step(DISCGAUZE_FILL, 0, 0, 1000000), 0), IS(step(DISCGAUZE_BUY, 2, 0, 100), 0), IS(step(DISCGAUZE_STAKE, 2, 0, 20), 0), IS(step(DISCGAUZE_DEAL, 0, 0, 0), 0);
    WRITTEN(FacesLeft, raw_faces_left(out, table));
    struct discgauze_FacesLeft faces = discgauze_faces_left(table);
    IS(faces.number, 0), IS(faces.up, 5);
    for (int i = 0; i < 52; i++)
        IS(faces.left[i], i != 51 && i != 6 && i != 5 && i != 19);
    struct discgauze_WaysCount count = discgauze_ways_count(table);
    IS(count.number, 0), IS(count.count > 100, true), IS(discgauze_way_at(table, count.count).found, false), IS(discgauze_way_at(table, count.count - 1).found, true);
    WRITTEN(Way, raw_way_at(out, table, count.count - 1));
    uint64_t before = table.seats[2].money.purse + 20;
    for (discgauze_size place = 0; place < count.count; place++) {
        struct discgauze_Way way = discgauze_way_at(table, place);
        Table t = table;
        IS(way.number, 0), IS(way.found, true), IS(way.length >= 1 && way.length <= 8, true);
        for (discgauze_size i = 0; i < way.length; i++)
            IS(discgauze_step(&t, way.decisions[i], 2, 0, 0, order, 0, &answer, names, nets), 0);
        IS(discgauze_step(&t, DISCGAUZE_CLOSE, 0, 0, 0, order, 0, &answer, names, nets), 0);
        IS(way.sum, (int64_t)t.seats[2].money.purse - (int64_t)before);
    }
}

int main(void)
{
    options();
    play();
    the_table();
    in_place();
    displays();
    answers();
    other_fields();
    files();
    chances();
    ways();
    printf("layout: 29 structs are as the library writes them (%u fields of bytes, %u values)\n", fields, values);
    return 0;
}
