/* The books of a session file: checks it, plays it by value, and prints what each call leaves; at the end the tray and every purse. */
#include "discgauze.h"

#include <stdio.h>
#include <stdlib.h>

static const char *const calls[] = {"?", "fill", "credit", "buy", "cash", "stake", "deal", "insure", "stand", "draw", "double", "split",
                                    "surrender", "even", "five", "close", "void", "load", "pair", "sevens", "more", "less"};

/* The whole file, or nothing and a line that says why. */
static uint8_t *contents(const char *name, size_t *bytes)
{
    FILE *file = fopen(name, "rb");
    uint8_t *all = NULL;
    size_t room = 0, n = 0, got = 1;
    if (!file) {
        perror(name);
        return NULL;
    }
    while (got) {
        if (n == room) {
            uint8_t *more = realloc(all, room = 2 * room + DISCGAUZE_BLOCK);
            if (!more) {
                perror(name);
                free(all);
                fclose(file);
                return NULL;
            }
            all = more;
        }
        got = fread(all + n, 1, room - n, file);
        n += got;
    }
    fclose(file);
    *bytes = n;
    return all;
}

static void books(const char *call, unsigned number, struct discgauze_Table table)
{
    struct discgauze_TableShown shown = discgauze_shown_table(table);
    printf("%s: number %u, tray %llu, layout %llu, purses %llu, cards left %llu\n", call, number, (unsigned long long)shown.tray,
           (unsigned long long)shown.layout, (unsigned long long)shown.purses, (unsigned long long)shown.left);
}

/* The pay lines of a close. */
static void lines(discgauze_size many, const uint32_t *names, const int64_t *nets)
{
    static const char *const purposes[] = {"hand", "insurance", "pair", "sevens", "more", "less"};
    for (discgauze_size i = 0; i < many; i++) {
        uint8_t kind = discgauze_line_kind(names[i]);
        printf("  seat %u guest %u %s", discgauze_line_seat(names[i]), discgauze_line_position(names[i]), purposes[kind % 6]);
        if (kind == DISCGAUZE_LINE_HAND)
            printf(" %u", discgauze_line_place(names[i]));
        printf(": %+lld\n", (long long)nets[i]);
    }
}

static void purses(struct discgauze_Table table)
{
    for (uint8_t seat = 0; seat < DISCGAUZE_SEATS; seat++)
        for (uint8_t position = 0; position < DISCGAUZE_POSITIONS; position++) {
            struct discgauze_SeatShown guest = discgauze_shown_seat(table, seat, position);
            if (guest.purse || guest.layout)
                printf("  seat %u guest %u: purse %llu, layout %llu\n", seat, position, (unsigned long long)guest.purse, (unsigned long long)guest.layout);
        }
}

int main(int argc, char **argv)
{
    static uint32_t names[DISCGAUZE_LINES];
    static int64_t nets[DISCGAUZE_LINES];
    size_t bytes = 0;
    if (argc != 2) {
        fprintf(stderr, "usage: books FILE\n");
        return 2;
    }
    uint8_t *file = contents(argv[1], &bytes);
    if (!file)
        return 2;
    struct discgauze_Outcome opened = discgauze_file_opened(file, bytes);
    if (opened.number != DISCGAUZE_ACCEPTED) {
        printf("%s is refused by %u\n", argv[1], opened.number);
        free(file);
        return 1;
    }
    struct discgauze_Table table = opened.table;
    books("open", opened.number, table);
    for (discgauze_size at = discgauze_file_first(file, bytes); at < bytes;) {
        struct discgauze_FileCall call = discgauze_file_call(file, bytes, at);
        if (!call.found)
            break;
        struct discgauze_Reply reply =
            discgauze_stepped(table, call.kind, call.seat, call.position, call.amount, file + call.order, call.cards, names, nets);
        table = reply.table;
        books(calls[call.kind], reply.answer.number, table);
        lines(reply.answer.lines, names, nets);
        at = call.behind;
    }
    books("the end", 0, table);
    purses(table);
    free(file);
    return 0;
}
