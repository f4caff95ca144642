// The native half of the comparison with WebAssembly: plays seeded random calls over libdiscgauze.a and writes what comes back, every struct as it lies in memory.
// web/test/agree.js plays the same calls over WebAssembly and compares byte for byte; the two files choose the calls in the same way.
//   agree SEED CALLS
#include <stddef.h>
#include <stdio.h>
#include <stdlib.h>
#include <string.h>

#include "../../include/discgauze.h"

#define S(name) struct discgauze_##name
#define LINES DISCGAUZE_LINES
#define PUT(value) fwrite(&(value), sizeof(value), 1, stdout)

static uint32_t seed;

// A number below n.
static uint32_t below(uint32_t n) {
    seed ^= seed << 13;
    seed ^= seed >> 17;
    seed ^= seed << 5;
    return seed % n;
}

static bool one_in(uint32_t n) { return below(n) == 0; }

static void size(size_t n) {
    uint32_t four = (uint32_t)n;
    PUT(four);
}

// Every size and every offset, in the order of web/engine.js.
#define AT(name, field) size(offsetof(S(name), field))
static void layouts(void) {
    size(sizeof(S(Options)));
    AT(Options, seats), AT(Options, decks), AT(Options, first), AT(Options, later), AT(Options, hands), AT(Options, aces), AT(Options, doubling), AT(Options, limit);
    AT(Options, insurance), AT(Options, five), AT(Options, prize), AT(Options, device), AT(Options, decider), AT(Options, cut), AT(Options, smallest), AT(Options, largest);
    size(sizeof(S(Hand))), AT(Hand, cards), AT(Hand, count);
    size(sizeof(S(HandScore))), AT(HandScore, total), AT(HandScore, soft);
    size(sizeof(S(Scores))), AT(Scores, each), AT(Scores, count);
    size(sizeof(S(Money))), AT(Money, purse), AT(Money, stake), AT(Money, insurance), AT(Money, sides);
    size(sizeof(S(SeatHand))), AT(SeatHand, hand), AT(SeatHand, origin), AT(SeatHand, ended);
    size(sizeof(S(SeatHands))), AT(SeatHands, places), AT(SeatHands, many);
    size(sizeof(S(Seat))), AT(Seat, money), AT(Seat, others), AT(Seat, hands), AT(Seat, first);
    size(sizeof(S(Shoe))), AT(Shoe, order), AT(Shoe, drawn), AT(Shoe, discards), AT(Shoe, discarded), AT(Shoe, begun);
    size(sizeof(S(Table))), AT(Table, options), AT(Table, tray), AT(Table, seats), AT(Table, bank), AT(Table, shoe);
    size(sizeof(S(Outcome))), AT(Outcome, number), AT(Outcome, table);
    size(sizeof(S(Answer))), AT(Answer, number), AT(Answer, bank), AT(Answer, lines), AT(Answer, scores);
    size(sizeof(S(Reply))), AT(Reply, answer), AT(Reply, table);
    size(sizeof(S(TableShown))), AT(TableShown, options), AT(TableShown, tray), AT(TableShown, layout), AT(TableShown, purses), AT(TableShown, left);
    AT(TableShown, discards), AT(TableShown, bank);
    size(sizeof(S(TurnShown))), AT(TurnShown, somebody), AT(TurnShown, seat), AT(TurnShown, place), AT(TurnShown, position);
    size(sizeof(S(SeatShown))), AT(SeatShown, purse), AT(SeatShown, stake), AT(SeatShown, insurance), AT(SeatShown, sides), AT(SeatShown, layout);
    AT(SeatShown, prizes), AT(SeatShown, hands);
    size(sizeof(S(HandShown))), AT(HandShown, hand), AT(HandShown, total), AT(HandShown, soft), AT(HandShown, wager), AT(HandShown, origin), AT(HandShown, ended);
    size(sizeof(S(Lights)));
    AT(Lights, buy), AT(Lights, cash), AT(Lights, stake), AT(Lights, insure), AT(Lights, stand), AT(Lights, draw), AT(Lights, doubling), AT(Lights, split);
    AT(Lights, surrender), AT(Lights, even), AT(Lights, five), AT(Lights, pair), AT(Lights, sevens), AT(Lights, more), AT(Lights, less);
    size(sizeof(S(SeatLights))), AT(SeatLights, guests);
    size(sizeof(S(Row))), AT(Row, seat), AT(Row, place), AT(Row, hand), AT(Row, total);
    size(sizeof(S(Screen))), AT(Screen, seats), AT(Screen, rows), AT(Screen, shown), AT(Screen, beyond);
    size(sizeof(S(FileCall)));
    AT(FileCall, found), AT(FileCall, kind), AT(FileCall, seat), AT(FileCall, position), AT(FileCall, amount), AT(FileCall, order), AT(FileCall, cards), AT(FileCall, behind);
    size(sizeof(S(Writer))), AT(Writer, options), AT(Writer, many), AT(Writer, bytes);
    size(sizeof(S(Written))), AT(Written, number), AT(Written, blocks), AT(Written, first), AT(Written, second), AT(Written, writer);
    size(sizeof(S(Last))), AT(Last, blocks), AT(Last, block);
    size(sizeof(S(BankChances))), AT(BankChances, number), AT(BankChances, all), AT(BankChances, counts);
    size(sizeof(S(FacesLeft))), AT(FacesLeft, number), AT(FacesLeft, up), AT(FacesLeft, left);
    size(sizeof(S(WaysCount))), AT(WaysCount, number), AT(WaysCount, count);
    size(sizeof(S(Way))), AT(Way, number), AT(Way, found), AT(Way, length), AT(Way, decisions), AT(Way, sum);
}

// ---- what is asked: the same in agree.js

static uint8_t order[416];
static size_t cards;
static S(Options) options;

static void exchange(size_t i, size_t k) {
    uint8_t card = order[i];
    order[i] = order[k];
    order[k] = card;
}

// An order of the decks: shuffled, or by rank from some card on with a few exchanged, which deals pairs, aces and sevens together. Now and then one card short, or
// with a wrong card.
static void shuffle(void) {
    cards = 52u * options.decks;
    if (cards > 416) cards = 416;
    if (cards > 0 && one_in(2)) {
        size_t from = below((uint32_t)cards);
        for (size_t i = 0; i < cards; i++) {
            size_t place = (i + from) % cards;
            order[i] = (uint8_t)(place / (cards / 13) + 13 * (place % 4));
        }
        for (uint32_t n = below(80); n > 0; n--) {
            size_t k = below((uint32_t)cards);
            exchange(k, below((uint32_t)cards));
        }
    } else {
        for (size_t i = 0; i < cards; i++) order[i] = i % 52;
        for (size_t i = cards; i-- > 1;) exchange(i, below((uint32_t)i + 1));
    }
    if (one_in(16) && cards > 0) cards--;
    if (one_in(16)) order[0] = below(60);
}

// A house, mostly within the ranges.
static void house(void) {
    memset(&options, 0, sizeof options);
    options.device = 1 + below(3);
    options.seats = 6 + below(4);
    options.decks = options.device == 2 ? 1 : 1 + below(8);
    options.first = 1 + below(2);
    options.later = options.device == 2 ? 0 : below(3);
    options.hands = 2 + below(3);
    options.aces = below(2);
    options.doubling = 1 + below(2);
    options.limit = below(2);
    options.insurance = 1 + below(2);
    options.five = below(2);
    options.prize = below(2);
    options.decider = 1 + below(2);
    options.cut = options.device == 1 && options.decks > 1 ? 30 + below(26 * options.decks - 29) : 0;
    options.smallest = 2 * (1 + below(10));
    options.largest = options.smallest + 2 * below(500);
    if (one_in(16)) options.cut = below(300);
    if (one_in(16)) options.seats = below(256);
    if (one_in(16)) options.decks = below(12);
}

static struct {
    uint8_t kind, seat, position;
    uint64_t amount;
} asked;

// The guest who staked last.
static uint8_t staked_seat, staked_position;

// A decision for the hand whose turn it is, by what it is.
static uint8_t decision(const S(HandShown) *hand) {
    static const uint8_t kinds[20] = {8, 8, 8, 8, 9, 9, 9, 9, 9, 9, 9, 10, 10, 10, 11, 11, 12, 12, 13, 14};
    uint32_t dice = below(20);
    uint8_t count = hand->hand.count;
    if (count == 2 && hand->total == 21 && dice < 12) return 13;
    if (count == 5 && dice < 12) return 14;
    if (count == 2 && hand->hand.cards[0] % 13 == hand->hand.cards[1] % 13 && dice < 14) return 11;
    if (hand->total < 12 && dice < 14) return 9;
    return kinds[dice];
}

static void between_rounds(const S(Options) *o, uint32_t dice) {
    if (dice < 10) asked.kind = 1, asked.amount = 100000 + below(3000000);
    else if (dice < 12) asked.kind = 2;
    else if (dice < 28) asked.kind = 3, asked.amount = 1 + below(3000);
    else if (dice < 30) asked.kind = 4;
    else if (dice < 60) asked.kind = 5, asked.amount = o->smallest + 2 * below(1 + (o->largest - o->smallest) / 16);
    else if (dice < 74) asked.kind = 18 + below(4), asked.amount = 1 + below(20), asked.seat = staked_seat, asked.position = staked_position;
    else if (dice < 93) asked.kind = 6;
    else if (dice < 98) asked.kind = 17;
    else asked.kind = 16;
}

// A call that fits the table's phase, mostly; sometimes any call at all.
static void choose(S(Table) *table) {
    S(TableShown) shown = discgauze_shown_table(*table);
    S(TurnShown) turn = discgauze_shown_turn(*table);
    uint32_t dice = below(100);
    asked.seat = below(shown.options.seats + 1);
    asked.position = one_in(2) ? 0 : below(3);
    asked.amount = 1 + below(400);
    if (dice < 5) {
        asked.kind = below(24);
        asked.seat = below(11);
        asked.position = below(5);
        asked.amount = below(4294967295u);
        asked.amount <<= below(33);
    } else if (shown.bank.count == 0) {
        between_rounds(&shown.options, dice);
    } else if (dice < (shown.bank.cards[0] % 13 == 0 ? 50u : 8u)) {
        asked.kind = 7;
        if (one_in(2)) asked.seat = staked_seat, asked.position = staked_position;
        asked.amount = discgauze_shown_seat(*table, asked.seat, asked.position).stake / 2;
    } else if (dice < 51) {
        asked.kind = dice == 50 ? 16 : 15;
    } else if (turn.somebody) {
        S(HandShown) hand = discgauze_shown_hand(*table, (uint8_t)turn.seat, turn.position, turn.place);
        asked.kind = decision(&hand);
        asked.seat = (uint8_t)turn.seat;
        asked.position = one_in(8) ? (uint8_t)below(3) : turn.position;
    } else {
        asked.kind = 15;
    }
}

// ---- what is written

static uint32_t names[LINES];
static int64_t nets[LINES];
static uint8_t *file;
static size_t length, room;

static void keep(const uint8_t *block) {
    if (length + 512 > room) {
        room = 2 * room + 4096;
        file = realloc(file, room);
        if (!file) exit(1);
    }
    memcpy(file + length, block, 512);
    length += 512;
}

static void written(S(Written) *w) {
    PUT(*w);
    if (w->blocks > 0) keep(w->first);
    if (w->blocks > 1) keep(w->second);
}

// The file of the session so far, whole and with one byte altered: its number, its first table and all its calls.
static void read_back(S(Writer) writer) {
    S(Last) last = discgauze_file_end(writer);
    PUT(last);
    if (last.blocks) keep(last.block);
    for (int turn = 0; turn < 2; turn++) {
        uint8_t number = discgauze_file_number(file, length);
        S(Options) of = discgauze_file_options(file, length);
        S(Outcome) opened = discgauze_file_opened(file, length);
        PUT(number);
        PUT(of);
        PUT(opened);
        size_t at = discgauze_file_first(file, length);
        for (;;) {
            S(FileCall) call = discgauze_file_call(file, length, at);
            PUT(call);
            if (!call.found) break;
            at = call.behind;
        }
        file[below((uint32_t)length)] += 1;
    }
    length = 0;
}

static void readings(S(Table) *table, uint32_t turn) {
    bool broken = discgauze_broken(*table);
    S(TableShown) shown = discgauze_shown_table(*table);
    S(TurnShown) whose = discgauze_shown_turn(*table);
    uint8_t seat = below(10);
    uint8_t position = below(4);
    S(SeatShown) guest = discgauze_shown_seat(*table, seat, position);
    S(HandShown) hand = discgauze_shown_hand(*table, seat, position, below(5));
    PUT(broken);
    PUT(shown);
    PUT(whose);
    PUT(guest);
    PUT(hand);
    if (turn % 32 == 0) {
        S(Screen) screen = discgauze_shown_screen(*table);
        S(FacesLeft) faces = discgauze_faces_left(*table);
        size_t many = one_in(8) ? 51 : 52;
        S(BankChances) chances = discgauze_chances(faces.up, faces.left, many, below(6));
        PUT(screen);
        PUT(faces);
        PUT(chances);
    }
    if (turn % 256 == 0) {
        S(WaysCount) count = discgauze_ways_count(*table);
        S(Way) way = discgauze_way_at(*table, below(20));
        PUT(count);
        PUT(way);
    }
}

// By pointer the next table comes about in its place, and that is the one that goes on; by value it is written beside it.
static void step(S(Table) *table) {
    uint32_t other_names[LINES];
    int64_t other_nets[LINES];
    S(Answer) answer;
    S(Table) other = *table;
    memset(&answer, 0, sizeof answer);
    memcpy(other_names, names, sizeof names);
    memcpy(other_nets, nets, sizeof nets);
    S(Reply) reply = discgauze_stepped(*table, asked.kind, asked.seat, asked.position, asked.amount, order, cards, names, nets);
    uint8_t number = discgauze_step(&other, asked.kind, asked.seat, asked.position, asked.amount, order, cards, &answer, other_names, other_nets);
    if (number != reply.answer.number || memcmp(names, other_names, sizeof names) || memcmp(nets, other_nets, sizeof nets)) {
        fprintf(stderr, "agree: by pointer and by value differ\n");
        exit(1);
    }
    PUT(reply);
    PUT(other);
    PUT(answer);
    PUT(names);
    PUT(nets);
    for (size_t i = 0; i < reply.answer.lines; i++) {
        uint8_t parts[4] = {discgauze_line_seat(names[i]), discgauze_line_position(names[i]), discgauze_line_place(names[i]), discgauze_line_kind(names[i])};
        PUT(parts);
    }
    if (number == 0 && asked.kind == 5) staked_seat = asked.seat, staked_position = asked.position;
    *table = other;
}

int main(int many, char **words) {
    if (many != 3) return 2;
    seed = (uint32_t)strtoul(words[1], NULL, 10);
    uint32_t calls = (uint32_t)strtoul(words[2], NULL, 10);
    layouts();
    S(Table) table;
    S(Writer) writer;
    uint32_t left = 0;
    bool begun = false;
    for (uint32_t i = 0; i < calls; i++) {
        if (left == 0) {
            if (begun) read_back(writer);
            left = 1 + below(600);
            house();
            shuffle();
            S(Outcome) opened = discgauze_opened(options, order, cards);
            S(Table) other = opened.table;
            uint8_t number = discgauze_open(&other, options, order, cards);
            S(Written) w = discgauze_file_begin(options, order, cards);
            PUT(opened);
            PUT(number);
            written(&w);
            table = number == 0 ? other : opened.table;
            writer = w.writer;
            begun = opened.number == 0;
            if (!begun) left = 1 + below(8), length = 0;
        }
        left--;
        choose(&table);
        if (asked.kind == 17) shuffle();
        step(&table);
        if (begun) {
            // The writer is told refused calls too: what no file can hold it refuses, and a file may have calls that no table accepts.
            S(Written) w = discgauze_file_add(writer, asked.kind, asked.seat, asked.position, asked.amount, order, cards);
            written(&w);
            writer = w.writer;
        }
        readings(&table, i);
    }
    return fflush(stdout) == 0 ? 0 : 1;
}
