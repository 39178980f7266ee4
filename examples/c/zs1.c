/*
 * Document 01's worked shipment ZS1, run through libbuntingraft.a from C. A line for each call, with its reply; the number
 * before a call is its line in document 01's table, and 0 is what comes before it: the intake, and the two report files on it.
 * Fails where a reply is not the table's, or a report is not as it must be.
 */
#include <inttypes.h>
#include <stdio.h>
#include <stdlib.h>
#include <string.h>

#include "buntingraft.h"

#define NAME "EPEZZS1-201007-A-0"

/* The bytes of a literal and their number. */
#define BYTES(literal) (const uint8_t *)(literal), sizeof(literal) - 1

#define BOOK book, book_length
#define ID BYTES("ZS1")

/* The byte mark with which the insurer's files begin. */
#define MARK "\xEF\xBB\xBF"

static int replies_wrong = 0;

/* Prints the reply of a call, and holds it to the table's. */
static void expect(const char *call, uint64_t status, uint64_t first, uint64_t second, struct buntingraft_reply reply) {
    static const char *const words[] = {"done", "short", "refused"};
    const char *word = reply.status <= BUNTINGRAFT_REFUSED ? words[reply.status] : "no status";
    int right = reply.status == status && reply.first == first && reply.second == second;
    printf("%-24s %-7s %6" PRIu64 " %6" PRIu64 "%s\n", call, word, reply.first, reply.second, right ? "" : "   not the table's");
    replies_wrong += !right;
}

/* Holds the file that a call wrote to the one that it must be. */
static void hold(const uint8_t *written, struct buntingraft_reply reply, const uint8_t *file, size_t length) {
    int right = reply.status == BUNTINGRAFT_DONE && reply.first == length && memcmp(written, file, length) == 0;
    if (!right) {
        printf("%-24s the next file is not as it must be\n", "");
    }
    replies_wrong += !right;
}

/* Writes the report on ZS1's order file, which was accepted. */
static struct buntingraft_reply rkf(void) {
    uint8_t output[83]; /* no RKF is longer */
    struct buntingraft_reply reply =
        buntingraft_write_rkf(BYTES("PP0000000001"), 20201007130000, ID, 0, output, sizeof output);
    hold(output, reply, BYTES(MARK "1|PP|RKF|1.0|PP0000000001|20201007130000|EPE|ZS1|1"));
    return reply;
}

/* Writes the report on ZS1's faulty orders, with a code for each fault. */
static struct buntingraft_reply ope(const uint8_t *book, size_t book_length) {
    static const uint64_t codes[10] = {308, 309, 310, 311, 312, 313, 314, 315, 316, 317};
    static uint8_t output[32677]; /* no OPE is longer */
    struct buntingraft_reply reply =
        buntingraft_write_ope(BOOK, ID, BYTES("PP0000000003"), 20201007131500, codes, 10, output, sizeof output);
    hold(output, reply, BYTES(MARK "1|PP|OPE|1.0|PP0000000003|20201007131500|EPE|ZS1|1\r\n2|1|2|308"));
    return reply;
}

/* Grosze in zlote, spelled as in the insurer's files. */
static const char *zlote(uint64_t grosze, char text[22]) {
    struct buntingraft_reply reply = buntingraft_write_money(grosze, (uint8_t *)text, 21);
    text[reply.first] = '\0';
    return text;
}

/* Prints the four sums of a money. */
static void print_sums(char money, uint64_t accepted, uint64_t held, uint64_t free, uint64_t left) {
    char text[4][22]; /* no number of grosze takes more than 21 bytes */
    printf("%-24s %c accepted %s, held %s, free %s, left %s\n", "", money, zlote(accepted, text[0]), zlote(held, text[1]),
           zlote(free, text[2]), zlote(left, text[3]));
}

/* Prints the balance sheet of a book with one shipment, and holds it to the table: all has left, nothing is held or free. */
static struct buntingraft_reply sheet(const uint8_t *book, size_t book_length) {
    struct buntingraft_row row = {.id_len = 0};
    struct buntingraft_totals totals = {.k_accepted = 0};
    struct buntingraft_reply reply = buntingraft_sheet(book, book_length, &row, 1, &totals);
    print_sums('K', row.k_accepted, row.k_held, row.k_free, row.k_left);
    print_sums('O', row.o_accepted, row.o_held, row.o_free, row.o_left);
    int right = row.k_accepted == 17650 && row.k_held == 0 && row.k_free == 0 && row.k_left == 17650 && row.o_accepted == 1050 &&
                row.o_held == 0 && row.o_free == 0 && row.o_left == 1050 && totals.k_left == 17650 && totals.o_left == 1050;
    replies_wrong += !right;
    return reply;
}

/* Runs the shipment in a book that is made empty first. */
static void run(uint8_t *book, size_t book_length, const uint8_t *file, size_t file_length) {
    const struct buntingraft_profile profile = {
        .today = 20201007, .flat = {350, 350, 350, 350, 350}, .fields = 19, .rates = {0, 0, 0, 0, 0}};
    const uint64_t done = BUNTINGRAFT_DONE, is_short = BUNTINGRAFT_SHORT, refused = BUNTINGRAFT_REFUSED;

    expect("0. empty book", done, 0, 0, buntingraft_make_empty(BOOK));
    expect("0. intake", done, 3, 1, buntingraft_intake(BOOK, profile, BYTES(NAME), file, file_length));
    expect("0. RKF", done, 53, 0, rkf());
    expect("0. OPE", done, 64, 0, ope(BOOK));

    expect("1. transfer of K 17549", done, 0, 0, buntingraft_transfer(BOOK, BYTES(NAME "-K"), 17549));
    expect("1. transfer of O 1050", done, 0, 0, buntingraft_transfer(BOOK, BYTES(NAME "-O"), 1050));
    expect("1. pair", refused, 18, 0, buntingraft_pair(BOOK, ID));

    expect("2. go-ahead", done, 0, 0, buntingraft_go_ahead(BOOK, ID));
    expect("2. pair", is_short, 1, 0, buntingraft_pair(BOOK, ID));

    expect("3. transfer of K 101", done, 0, 0, buntingraft_transfer(BOOK, BYTES(NAME "-K"), 101));
    expect("3. pair", done, 0, 0, buntingraft_pair(BOOK, ID));

    expect("4. ZWR K", done, 100, 0, buntingraft_return(BOOK, ID, BUNTINGRAFT_ZWR, BUNTINGRAFT_K));
    expect("4. ZWR K again", refused, 23, 0, buntingraft_return(BOOK, ID, BUNTINGRAFT_ZWR, BUNTINGRAFT_K));

    expect("5. OPR K", done, 5000, 1, buntingraft_return(BOOK, ID, BUNTINGRAFT_OPR, BUNTINGRAFT_K));
    expect("5. OPR O", done, 350, 1, buntingraft_return(BOOK, ID, BUNTINGRAFT_OPR, BUNTINGRAFT_O));

    expect("6. post 1", done, 350, 0, buntingraft_post(BOOK, ID, 1));
    expect("6. pay 1", done, 10000, 0, buntingraft_pay(BOOK, ID, 1));

    expect("7. withdraw 3", done, 0, 0, buntingraft_withdraw(BOOK, ID, 3));
    expect("7. ZZR K", done, 2550, 1, buntingraft_return(BOOK, ID, BUNTINGRAFT_ZZR, BUNTINGRAFT_K));
    expect("7. ZZR O", done, 350, 1, buntingraft_return(BOOK, ID, BUNTINGRAFT_ZZR, BUNTINGRAFT_O));
    expect("8. sheet", done, 1, 0, sheet(BOOK));
}

int main(void) {
    static uint8_t file[4096];
    FILE *source = fopen("crates/demo/data/" NAME, "rb");
    if (source == NULL) {
        perror("crates/demo/data/" NAME);
        return EXIT_FAILURE;
    }
    size_t file_length = fread(file, 1, sizeof file, source);
    fclose(source);

    size_t book_length = buntingraft_book_bytes();
    uint8_t *book = malloc(book_length);
    if (book == NULL) {
        perror("book");
        return EXIT_FAILURE;
    }
    run(book, book_length, file, file_length);
    free(book);
    return replies_wrong == 0 ? EXIT_SUCCESS : EXIT_FAILURE;
}
