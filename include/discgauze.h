/* Discgauze: the engine of a blackjack table, for C (and C++).

   Link libdiscgauze.a (make library). Nothing is kept between calls, nothing is allocated, no file is touched: a table is a plain struct of the caller's. Copy it, store it, send it; a table that was
   damaged on the way is answered by DISCGAUZE_BROKEN and never played.

   What is proved and what not. Each function's contract says in definitions what it gives for every argument, and is proved (crates/discgauze). The compiler's back end, C's calling convention and
   this header stand outside that proof. The header is written by hand; examples/c/layout.c compares every size and offset in it with what the library writes.

   What a caller sees to, as in Rust: a pointer is not null (also beside a length of 0), points to memory of the type that lives through the call, is aligned, and what is written to is not
   reached by another pointer of the same call. A bool byte is 0 or 1. */
#ifndef DISCGAUZE_H
#define DISCGAUZE_H

#include <stdbool.h>
#include <stdint.h>

#ifdef __cplusplus
extern "C" {
#endif

/* Counts and places: 64 bits, as size_t on x86-64. */
typedef uint64_t discgauze_size;

/* ---- Numbers: what an answer says. 0 is accepted; every other number leaves the table as it was. ---- */
enum discgauze_number {
    DISCGAUZE_ACCEPTED = 0,
    DISCGAUZE_BROKEN = 1,          /* the table is broken */
    DISCGAUZE_WRONG_OPTIONS = 2,   /* an option outside its range (opening) */
    DISCGAUZE_WRONG_ORDER = 3,     /* wrong length, card or count (opening, load; chances) */
    DISCGAUZE_ROUND_DEALT = 4,     /* a round is dealt */
    DISCGAUZE_NO_ROUND = 5,        /* no round is dealt */
    DISCGAUZE_NOTHING_STAKED = 6,  /* nothing staked (deal, void) */
    DISCGAUZE_HAND_WAITS = 7,      /* a hand waits (close) */
    DISCGAUZE_NO_SEAT = 8,         /* no such seat */
    DISCGAUZE_LAID_ALREADY = 9,    /* staked, insured or that side stake laid already */
    DISCGAUZE_NO_STAKE = 10,       /* no stake in this round; the seated guest has not staked yet */
    DISCGAUZE_NOT_IN_TURN = 11,    /* not that seat's turn */
    DISCGAUZE_TOO_LATE = 12,       /* too late (insure, surrender), or the hand does not wait (surrender) */
    DISCGAUZE_BARRED = 13,         /* the rules do not allow it */
    DISCGAUZE_WRONG_AMOUNT = 14,   /* amount 0, outside its option, odd stake, or money past 10^15 */
    DISCGAUZE_SHORT_PURSE = 15,    /* purse below what is asked */
    DISCGAUZE_SHORT_TRAY = 16,     /* tray below a credit, or below the cover at deal */
    DISCGAUZE_SHORT_SHOE = 17,     /* too few cards for a deal, or a load is due */
    DISCGAUZE_NO_CARDS = 18,       /* fewer cards left than the call draws */
    DISCGAUZE_NO_PAIR = 19,        /* split: no pair */
    DISCGAUZE_HANDS_USED_UP = 20,  /* split: the seat has all its hands */
    DISCGAUZE_NO_SIDE_KIND = 21,   /* unknown kind of side stake */
    DISCGAUZE_NO_POSITION = 22,    /* no such position */
    DISCGAUZE_NOT_DECIDING = 23,   /* not the deciding guest */
    DISCGAUZE_FILE_LENGTH = 24,    /* file: length no multiple of 512, or empty */
    DISCGAUZE_FILE_CHECK = 25,     /* file: the check of a block is wrong */
    DISCGAUZE_FILE_CONTENT = 26,   /* file: content against the rules; writer: nothing that a file can hold */
    DISCGAUZE_WRONG_DEPTH = 27,    /* chances: depth over 6 or over the cards left */
    DISCGAUZE_TAKEN = 28,          /* guests: position or card taken already */
    DISCGAUZE_NOT_HERE = 29,       /* guests: card not here */
    DISCGAUZE_UNKNOWN_KIND = 255   /* a kind of call that there is not */
};

/* ---- Kinds of calls, as the session file numbers them. ---- */
enum discgauze_kind {
    DISCGAUZE_FILL = 1,       /* amount */
    DISCGAUZE_CREDIT = 2,     /* amount */
    DISCGAUZE_BUY = 3,        /* seat, position, amount */
    DISCGAUZE_CASH = 4,       /* seat, position, amount */
    DISCGAUZE_STAKE = 5,      /* seat, position, amount */
    DISCGAUZE_DEAL = 6,
    DISCGAUZE_INSURE = 7,     /* seat, position, amount */
    DISCGAUZE_STAND = 8,      /* seat, position */
    DISCGAUZE_DRAW = 9,       /* seat, position */
    DISCGAUZE_DOUBLE = 10,    /* seat, position */
    DISCGAUZE_SPLIT = 11,     /* seat, position */
    DISCGAUZE_SURRENDER = 12, /* seat, position */
    DISCGAUZE_EVEN = 13,      /* seat, position */
    DISCGAUZE_FIVE = 14,      /* seat, position */
    DISCGAUZE_CLOSE = 15,
    DISCGAUZE_VOID = 16,
    DISCGAUZE_LOAD = 17,      /* the lent order */
    DISCGAUZE_PAIR = 18,      /* side stakes: seat, position, amount */
    DISCGAUZE_SEVENS = 19,
    DISCGAUZE_MORE = 20,
    DISCGAUZE_LESS = 21
};

/* What a pay line is for: a hand, an insurance, or the side stakes in their order. */
enum discgauze_line {
    DISCGAUZE_LINE_HAND = 0,
    DISCGAUZE_LINE_INSURANCE = 1,
    DISCGAUZE_LINE_PAIR = 2,
    DISCGAUZE_LINE_SEVENS = 3,
    DISCGAUZE_LINE_MORE = 4,
    DISCGAUZE_LINE_LESS = 5
};

/* Where a hand comes from, and how it ended. */
enum discgauze_origin { DISCGAUZE_DEALT = 0, DISCGAUZE_FROM_SPLIT = 1, DISCGAUZE_FROM_SPLIT_ACES = 2 };
enum discgauze_ended {
    DISCGAUZE_NOT_ENDED = 0,
    DISCGAUZE_BY_STAND = 1,
    DISCGAUZE_BY_DOUBLE = 2,
    DISCGAUZE_BY_SURRENDER = 3,
    DISCGAUZE_BY_EVEN = 4,
    DISCGAUZE_BY_FIVE = 5
};

/* ---- Sizes. ---- */
#define DISCGAUZE_SEATS 9       /* seats of a table; the option says how many are in use */
#define DISCGAUZE_POSITIONS 3   /* guests at a seat: 0 the seated guest, 1 and 2 the others */
#define DISCGAUZE_HANDS 4       /* hands of a seat */
#define DISCGAUZE_HAND_CARDS 20 /* cards of a hand */
#define DISCGAUZE_CARDS 416     /* cards of eight decks */
#define DISCGAUZE_FACES 52      /* suit x 13 + rank, 0 to 51; rank 0 the ace, 9 to 12 the ten-values */
#define DISCGAUZE_LINES 243     /* pay lines that a close can have */
#define DISCGAUZE_ROWS 6        /* rows of the dealer's screen */
#define DISCGAUZE_BLOCK 512     /* bytes of a block of a session file */
#define DISCGAUZE_BLOCK_CALLS 50
#define DISCGAUZE_DECISIONS 8   /* decisions that a way can have */
#define DISCGAUZE_ENDINGS 8     /* ways in which the bank's rule can end */

#define DISCGAUZE_SIZEOF_OPTIONS 24
#define DISCGAUZE_SIZEOF_HAND 21
#define DISCGAUZE_SIZEOF_SEAT_HAND 23
#define DISCGAUZE_SIZEOF_SEAT_HANDS 93
#define DISCGAUZE_SIZEOF_MONEY 32
#define DISCGAUZE_SIZEOF_SEAT 192
#define DISCGAUZE_SIZEOF_SHOE 856
#define DISCGAUZE_SIZEOF_TABLE 2640
#define DISCGAUZE_SIZEOF_HAND_SCORE 2
#define DISCGAUZE_SIZEOF_SCORES 32
#define DISCGAUZE_SIZEOF_ANSWER 64
#define DISCGAUZE_SIZEOF_OUTCOME 2648
#define DISCGAUZE_SIZEOF_REPLY 2704
#define DISCGAUZE_SIZEOF_TABLE_SHOWN 88
#define DISCGAUZE_SIZEOF_TURN_SHOWN 32
#define DISCGAUZE_SIZEOF_SEAT_SHOWN 56
#define DISCGAUZE_SIZEOF_HAND_SHOWN 40
#define DISCGAUZE_SIZEOF_LIGHTS 15
#define DISCGAUZE_SIZEOF_SEAT_LIGHTS 45
#define DISCGAUZE_SIZEOF_ROW 40
#define DISCGAUZE_SIZEOF_SCREEN 664
#define DISCGAUZE_SIZEOF_FILE_CALL 40
#define DISCGAUZE_SIZEOF_WRITER 528
#define DISCGAUZE_SIZEOF_WRITTEN 1556
#define DISCGAUZE_SIZEOF_LAST 513
#define DISCGAUZE_SIZEOF_BANK_CHANCES 80
#define DISCGAUZE_SIZEOF_FACES_LEFT 54
#define DISCGAUZE_SIZEOF_WAYS_COUNT 16
#define DISCGAUZE_SIZEOF_WAY 32

/* ---- The table. ---- */

/* House options, given at opening. */
struct discgauze_Options {
    uint8_t seats;     /* 6 to 9 */
    uint8_t decks;     /* 1 to 8; a box has 1 */
    uint8_t first;     /* first burn: 1 one card, 2 one per deck */
    uint8_t later;     /* later burn: 0 none, 1 one card at each later deal, 2 also one before the bank's second card; a box has 0 */
    uint8_t hands;     /* hands per seat, 2 to 4 */
    uint8_t aces;      /* aces split again: 0 or 1 */
    uint8_t doubling;  /* double: 1 any two cards, 2 only a total of 11 (the engine's `double`, a word that C keeps for itself) */
    uint8_t limit;     /* loss limited on a bank natural: 0 or 1 */
    uint8_t insurance; /* 1 exactly half the stake, 2 half to whole */
    uint8_t five;      /* five cards: 0 or 1 */
    uint8_t prize;     /* special prize: 0 or 1 */
    uint8_t device;    /* 1 shoe, 2 box, 3 machine */
    uint8_t decider;   /* 1 the seated guest, 2 the largest stake */
    uint16_t cut;      /* cards behind the cut: 0 with one deck, a box or a machine, else 30 to 26 x decks */
    uint32_t smallest; /* smallest stake, even, at least 2 */
    uint32_t largest;  /* largest stake, even, at most 1,000,000 */
};

/* The first `count` of the cards. */
struct discgauze_Hand {
    uint8_t cards[DISCGAUZE_HAND_CARDS];
    uint8_t count;
};

/* A seat's hand: enum discgauze_origin, enum discgauze_ended. */
struct discgauze_SeatHand {
    struct discgauze_Hand hand;
    uint8_t origin;
    uint8_t ended;
};

/* The first `many` of the places. */
struct discgauze_SeatHands {
    struct discgauze_SeatHand places[DISCGAUZE_HANDS];
    uint8_t many;
};

/* A guest's money: the purse, and on the layout stake, insurance and side stakes by kind. */
struct discgauze_Money {
    uint64_t purse;
    uint32_t stake;
    uint32_t insurance;
    uint32_t sides[4];
};

/* The seated guest's money and that of positions 1 and 2; the hands; copies of the first two cards and of the first card that the first split drew. */
struct discgauze_Seat {
    struct discgauze_Money money;
    struct discgauze_Money others[2];
    struct discgauze_SeatHands hands;
    uint8_t first[3];
};

/* The loaded order and how much of it is drawn; the discards; 1 once a deal was accepted since the opening. */
struct discgauze_Shoe {
    uint8_t order[DISCGAUZE_CARDS];
    discgauze_size drawn;
    uint8_t discards[DISCGAUZE_CARDS];
    discgauze_size discarded;
    uint8_t begun;
};

/* The whole state of a table. A program that reads these fields itself can see the box's hidden card; the shown_ functions do not tell it. */
struct discgauze_Table {
    struct discgauze_Options options;
    uint64_t tray;
    struct discgauze_Seat seats[DISCGAUZE_SEATS];
    struct discgauze_Hand bank;
    struct discgauze_Shoe shoe;
};

/* ---- Answers. ---- */

/* A total, and whether an ace counts eleven in it. */
struct discgauze_HandScore {
    uint8_t total;
    bool soft;
};

/* What the dealer calls aloud: the first `count`. */
struct discgauze_Scores {
    struct discgauze_HandScore each[DISCGAUZE_SEATS];
    discgauze_size count;
};

/* A call's number; of an accepted close the bank's cards and how many pay lines it wrote; the scores of deal, draw, double, split and close. */
struct discgauze_Answer {
    uint8_t number;
    struct discgauze_Hand bank;
    discgauze_size lines;
    struct discgauze_Scores scores;
};

/* A number, and the table after it. */
struct discgauze_Outcome {
    uint8_t number;
    struct discgauze_Table table;
};

/* An answer, and the table after it. */
struct discgauze_Reply {
    struct discgauze_Answer answer;
    struct discgauze_Table table;
};

/* ---- What displays read. ---- */

/* The options; tray, all layout, all purses; cards left and discards; of the bank the up card alone. */
struct discgauze_TableShown {
    struct discgauze_Options options;
    uint64_t tray;
    uint64_t layout;
    uint64_t purses;
    discgauze_size left;
    discgauze_size discards;
    struct discgauze_Hand bank;
};

/* Whose turn it is, and the position of the guest who decides; all 0 where it is nobody's. */
struct discgauze_TurnShown {
    bool somebody;
    discgauze_size seat;
    discgauze_size place;
    uint8_t position;
};

/* A guest at a seat: money, what lies on the layout, the prizes of this round, how many hands the seat has. */
struct discgauze_SeatShown {
    uint64_t purse;
    uint32_t stake;
    uint32_t insurance;
    uint32_t sides[4];
    uint64_t layout;
    uint64_t prizes;
    discgauze_size hands;
};

/* A hand with a guest's wager. */
struct discgauze_HandShown {
    struct discgauze_Hand hand;
    uint8_t total;
    bool soft;
    uint64_t wager;
    uint8_t origin;
    uint8_t ended;
};

/* The touch fields of a guest: lit where that call, with its smallest permitted amount, would be accepted now. */
struct discgauze_Lights {
    bool buy;
    bool cash;
    bool stake;
    bool insure;
    bool stand;
    bool draw;
    bool doubling; /* the engine's `double` */
    bool split;
    bool surrender;
    bool even;
    bool five;
    bool pair;
    bool sevens;
    bool more;
    bool less;
};

struct discgauze_SeatLights {
    struct discgauze_Lights guests[DISCGAUZE_POSITIONS];
};

/* A row of the screen: a hand in its place. */
struct discgauze_Row {
    discgauze_size seat;
    discgauze_size place;
    struct discgauze_Hand hand;
    uint8_t total;
};

/* The dealer's screen: the fields, the first `shown` of the rows, and how many hands there are beyond them. */
struct discgauze_Screen {
    struct discgauze_SeatLights seats[DISCGAUZE_SEATS];
    struct discgauze_Row rows[DISCGAUZE_ROWS];
    discgauze_size shown;
    discgauze_size beyond;
};

/* ---- The session file. ---- */

/* A call that a file hands out. kind is 0 where none is found; order and cards are the place and the length of the order that a load reads, in the same file; behind is the place of the next call. */
struct discgauze_FileCall {
    bool found;
    uint8_t kind;
    uint8_t seat;
    uint8_t position;
    uint64_t amount;
    discgauze_size order;
    discgauze_size cards;
    discgauze_size behind;
};

/* A writer: the options, and the calls of the block that is still open. */
struct discgauze_Writer {
    struct discgauze_Options options;
    uint8_t many;
    uint8_t bytes[500];
};

/* What the writer gives: a number, 0 or 26; how many blocks are complete now, 0, 1 or 2, and these; the writer to go on with. */
struct discgauze_Written {
    uint8_t number;
    uint8_t blocks;
    uint8_t first[DISCGAUZE_BLOCK];
    uint8_t second[DISCGAUZE_BLOCK];
    struct discgauze_Writer writer;
};

/* What it gives at the end: one block or none. */
struct discgauze_Last {
    uint8_t blocks;
    uint8_t block[DISCGAUZE_BLOCK];
};

/* ---- Chances and ways. ---- */

/* The number, 0, 3 or 27; how many ordered draws there are; of them those in which the bank ends with a natural, 17, 18, 19, 20, 21 otherwise, bust, unfinished. */
struct discgauze_BankChances {
    uint8_t number;
    uint64_t all;
    uint64_t counts[DISCGAUZE_ENDINGS];
};

/* The number, 0, 1 or 5; the up card; how often each face is left, by what is seen. */
struct discgauze_FacesLeft {
    uint8_t number;
    uint8_t up;
    uint8_t left[DISCGAUZE_FACES];
};

/* The number, 0, 1, 5 or 13, and how many ways there are. */
struct discgauze_WaysCount {
    uint8_t number;
    discgauze_size count;
};

/* The number, whether there is a way at that place, its first `length` decisions by kind of call, and what the guest gains or loses by it. */
struct discgauze_Way {
    uint8_t number;
    bool found;
    discgauze_size length;
    uint8_t decisions[DISCGAUZE_DECISIONS];
    int64_t sum;
};

/* ---- Opening and stepping a table in place. ---- */

/* Opens a table with these options and this order of 52 x decks cards. 0, 2 or 3; where it is not 0 the table stays as it was. */
uint8_t discgauze_open(struct discgauze_Table *table, struct discgauze_Options options, const uint8_t *order, discgauze_size cards);

/* One call. The number, which stands in the answer too; where it is not 0 the table stays as it was. order is read by a load alone. An accepted close writes a name and a net for each of
   answer->lines pay lines to the front of the two arrays, which have DISCGAUZE_LINES places each; every other call leaves them alone. */
uint8_t discgauze_step(struct discgauze_Table *table, uint8_t kind, uint8_t seat, uint8_t position, uint64_t amount, const uint8_t *order, discgauze_size cards,
                       struct discgauze_Answer *answer, uint32_t *names, int64_t *nets);

/* ---- The same by value. ---- */

/* The table of an opening; with 2 or 3 the empty table, which is broken. */
struct discgauze_Outcome discgauze_opened(struct discgauze_Options options, const uint8_t *order, discgauze_size cards);

/* The answer of one call and the table after it. */
struct discgauze_Reply discgauze_stepped(struct discgauze_Table table, uint8_t kind, uint8_t seat, uint8_t position, uint64_t amount, const uint8_t *order, discgauze_size cards,
                                         uint32_t *names, int64_t *nets);

/* Whether the table is broken: every call would answer 1. */
bool discgauze_broken(struct discgauze_Table table);

/* ---- The names of pay lines. ---- */

uint8_t discgauze_line_seat(uint32_t name);
uint8_t discgauze_line_position(uint32_t name);
/* The place of the hand; 0 where the line is for none. */
uint8_t discgauze_line_place(uint32_t name);
/* enum discgauze_line */
uint8_t discgauze_line_kind(uint32_t name);

/* ---- Displays. A broken table, and a seat, position or place that there is not, show nothing. ---- */

struct discgauze_TableShown discgauze_shown_table(struct discgauze_Table table);
struct discgauze_TurnShown discgauze_shown_turn(struct discgauze_Table table);
struct discgauze_SeatShown discgauze_shown_seat(struct discgauze_Table table, uint8_t seat, uint8_t position);
/* The hand in that place of the seat, with the wager of the guest in that position. */
struct discgauze_HandShown discgauze_shown_hand(struct discgauze_Table table, uint8_t seat, uint8_t position, discgauze_size place);
struct discgauze_Screen discgauze_shown_screen(struct discgauze_Table table);

/* ---- The session file: any bytes may be asked. ---- */

/* 0, 24, 25 or 26. */
uint8_t discgauze_file_number(const uint8_t *file, discgauze_size bytes);
/* The options of its first block; all 0 where the file is shorter than a block. */
struct discgauze_Options discgauze_file_options(const uint8_t *file, discgauze_size bytes);
/* The file's number, and the table that its session opens with. */
struct discgauze_Outcome discgauze_file_opened(const uint8_t *file, discgauze_size bytes);
/* The place of the first call; the file's end where it is refused or has none. */
discgauze_size discgauze_file_first(const uint8_t *file, discgauze_size bytes);
/* The call at a place. */
struct discgauze_FileCall discgauze_file_call(const uint8_t *file, discgauze_size bytes, discgauze_size at);

/* The writer's beginning: one block, or 26 where options or order are wrong. */
struct discgauze_Written discgauze_file_begin(struct discgauze_Options options, const uint8_t *order, discgauze_size cards);
/* One more accepted call, with the order that a load read; 26 where no file can hold it, and the writer as it was. */
struct discgauze_Written discgauze_file_add(struct discgauze_Writer writer, uint8_t kind, uint8_t seat, uint8_t position, uint64_t amount, const uint8_t *order, discgauze_size cards);
/* The block that is still open, where it has a call. */
struct discgauze_Last discgauze_file_end(struct discgauze_Writer writer);

/* ---- Chances and ways. ---- */

/* What the bank makes of an up card: left says how often each of the 52 faces is left, depth how many cards are drawn, 0 to 6. faces is 52; any other length is 3. */
struct discgauze_BankChances discgauze_chances(uint8_t up, const uint8_t *left, discgauze_size faces, uint8_t depth);
/* The faces left of a table in a dealt round, as discgauze_chances takes them. */
struct discgauze_FacesLeft discgauze_faces_left(struct discgauze_Table table);
/* How many ways there are to play the one staked seat of a just dealt table. */
struct discgauze_WaysCount discgauze_ways_count(struct discgauze_Table table);
/* The way at a place, from 0. */
struct discgauze_Way discgauze_way_at(struct discgauze_Table table, discgauze_size place);

#ifdef __cplusplus
}
#endif

#endif
