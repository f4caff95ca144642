/* The marked session of document 01, played in place: prints its table, and with an argument writes its session file to that name. */
#include "discgauze.h"

#include <stdio.h>
#include <stdlib.h>

static struct discgauze_Table table;
static struct discgauze_Writer writer;
static FILE *file;

static void row(const char *call, unsigned number)
{
    struct discgauze_TableShown shown = discgauze_shown_table(table);
    printf("%s %u %llu %llu %llu %llu\n", call, number, (unsigned long long)shown.tray, (unsigned long long)shown.layout,
           (unsigned long long)shown.purses, (unsigned long long)shown.left);
}

/* Writes the blocks that are complete, and keeps the writer. */
static void keep(struct discgauze_Written written)
{
    if (written.number != DISCGAUZE_ACCEPTED) {
        fprintf(stderr, "session: the writer refused a call by %u\n", written.number);
        exit(1);
    }
    writer = written.writer;
    if (!file)
        return;
    if (written.blocks > 0)
        fwrite(written.first, 1, DISCGAUZE_BLOCK, file);
    if (written.blocks > 1)
        fwrite(written.second, 1, DISCGAUZE_BLOCK, file);
}

/* One call; an accepted one is told to the writer. */
static void call(const char *name, uint8_t kind, uint8_t seat, uint64_t amount)
{
    static const uint8_t none[1];
    static uint32_t names[DISCGAUZE_LINES];
    static int64_t nets[DISCGAUZE_LINES];
    struct discgauze_Answer answer;
    uint8_t number = discgauze_step(&table, kind, seat, 0, amount, none, 0, &answer, names, nets);
    row(name, number);
    if (number == DISCGAUZE_ACCEPTED)
        keep(discgauze_file_add(writer, kind, seat, 0, amount, none, 0));
}

/* The order begins 51 6 5 19 32 9 45 22 3; the other faces follow, rising. */
static void marked_order(uint8_t order[DISCGAUZE_FACES])
{
    static const uint8_t begins[] = {51, 6, 5, 19, 32, 9, 45, 22, 3};
    int used[DISCGAUZE_FACES] = {0}, n = 0;
    for (; n < 9; n++) {
        order[n] = begins[n];
        used[begins[n]] = 1;
    }
    for (int face = 0; face < DISCGAUZE_FACES; face++)
        if (!used[face])
            order[n++] = (uint8_t)face;
}

int main(int argc, char **argv)
{
    struct discgauze_Options options = {.seats = 6, .decks = 1, .first = 1, .later = 0, .hands = 4, .aces = 0, .doubling = 1, .limit = 0, .insurance = 1,
                                        .five = 0, .prize = 1, .device = 1, .decider = 1, .cut = 0, .smallest = 2, .largest = 100};
    uint8_t order[DISCGAUZE_FACES];
    marked_order(order);
    if (argc > 1 && !(file = fopen(argv[1], "wb"))) {
        perror(argv[1]);
        return 1;
    }
    printf("call no tray layout purses left\n");
    row("open", discgauze_open(&table, options, order, DISCGAUZE_FACES));
    keep(discgauze_file_begin(options, order, DISCGAUZE_FACES));
    call("fill", DISCGAUZE_FILL, 0, 1000);
    call("buy", DISCGAUZE_BUY, 2, 100);
    call("stake", DISCGAUZE_STAKE, 2, 20);
    call("deal", DISCGAUZE_DEAL, 0, 0);
    call("insure", DISCGAUZE_INSURE, 2, 10);
    call("split", DISCGAUZE_SPLIT, 2, 0);
    call("double", DISCGAUZE_DOUBLE, 2, 0);
    call("stand", DISCGAUZE_STAND, 2, 0);
    call("close", DISCGAUZE_CLOSE, 0, 0);
    call("stand", DISCGAUZE_STAND, 2, 0);
    struct discgauze_Last last = discgauze_file_end(writer);
    if (file && last.blocks)
        fwrite(last.block, 1, DISCGAUZE_BLOCK, file);
    if (file && fclose(file)) {
        perror(argv[1]);
        return 1;
    }
    return 0;
}
