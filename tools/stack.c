/*
 * Holds libbuntingraft.a and libbuntingraft_replay.a to what include/buntingraft.h says of the stack: every call is made on a
 * stack of 32 KiB, behind which there is no memory. Prints how much of it each call took, and fails where one took it all or was
 * not answered as here asked.
 */
#define _GNU_SOURCE
#include <signal.h>
#include <stdio.h>
#include <stdlib.h>
#include <string.h>
#include <sys/mman.h>
#include <ucontext.h>

#include "buntingraft.h"

#define STACK (32 * 1024)
#define GUARD (1024 * 1024)
#define PAINT 0xA5

#define ORDERS 2048
#define SHIPMENTS 32
#define CALLS 4

/* The fee of an order of 1.00: a flat part alone, and with a rate of 2.5 % beside it. */
#define FLAT 350
#define RATE 250
#define FEE (FLAT + 100 * RATE / 10000)

/* The OPE of 204 faulty orders, every tenth: a header of 55 bytes, and records of 9 and the digits of both numbers. */
#define OPE_LENGTH (55 + 204 * 9 + (9 + 90 * 2 + 105 * 3) + (9 * 2 + 90 * 3 + 105 * 4))

/* The bytes of a literal and their number. */
#define BYTES(literal) (const uint8_t *)(literal), sizeof(literal) - 1

#define BOOK book, sizeof book
#define ID BYTES("ZS1")
#define NAME "EPEZZS1-201007-A-0"
#define RECORD BYTES("2|1|1.00|Żółć|Jan|Kraków|30-001|Kraków|Długa|5||")

static uint8_t *stack;
static ucontext_t outside, inside;
static volatile sig_atomic_t ran_out;

static uint8_t book[24704];
static char name[32];
static char file[256 * 1024];
static size_t file_length;
static struct buntingraft_row table[SHIPMENTS];
static struct buntingraft_totals totals;
static uint8_t journal[sizeof file + 1024];
static size_t journal_length;
static struct buntingraft_reply answers[CALLS];
static const uint64_t codes[10] = {308, 309, 310, 311, 312, 313, 314, 315, 316, 317};
static uint8_t output[32677];
static uint8_t stored[24898];
static size_t stored_length;

/* What the next call is given, and what it replied. */
static uint64_t flat = FLAT, rate, amount, order, route, money, bits;
static struct buntingraft_reply reply;

static int calls_wrong = 0;

/* Leaves a call that has touched what is behind its stack. A fault elsewhere is none of the stack's, and ends the program. */
static void at_fault(int number, siginfo_t *fault, void *context) {
    (void)context;
    uint8_t *place = fault->si_addr;
    if (place < stack - GUARD || place >= stack) {
        signal(number, SIG_DFL);
        return;
    }
    ran_out = 1;
    setcontext(&outside);
}

/* Lays out the stack and the guard behind it, and has a fault answered on a stack of its own. */
static void prepare(void) {
    static uint8_t for_faults[64 * 1024];
    uint8_t *memory = mmap(NULL, GUARD + STACK, PROT_NONE, MAP_PRIVATE | MAP_ANONYMOUS, -1, 0);
    if (memory == MAP_FAILED || mprotect(memory + GUARD, STACK, PROT_READ | PROT_WRITE) != 0) {
        perror("stack");
        exit(EXIT_FAILURE);
    }
    stack = memory + GUARD;
    stack_t other = {.ss_sp = for_faults, .ss_size = sizeof for_faults};
    struct sigaction action = {.sa_sigaction = at_fault, .sa_flags = SA_SIGINFO | SA_ONSTACK};
    if (sigaltstack(&other, NULL) != 0 || sigaction(SIGSEGV, &action, NULL) != 0) {
        perror("stack");
        exit(EXIT_FAILURE);
    }
}

/* Makes a call on the small stack. Answers how many of its bytes the call wrote to, or more than there are where it ran out. */
static size_t stack_of(void (*call)(void)) {
    memset(stack, PAINT, STACK);
    ran_out = 0;
    getcontext(&inside);
    inside.uc_stack.ss_sp = stack;
    inside.uc_stack.ss_size = STACK;
    inside.uc_link = &outside;
    makecontext(&inside, call, 0);
    swapcontext(&outside, &inside);
    size_t unused = 0;
    while (unused < STACK && stack[unused] == PAINT) unused++;
    return ran_out ? STACK + 1 : STACK - unused;
}

/* Takes a byte more than there is. */
static void too_deep(void) {
    volatile uint8_t bytes[STACK + 1];
    bytes[0] = 0;
    (void)bytes[0];
}

static void make_empty(void) { reply = buntingraft_make_empty(BOOK); }
static void intake(void) {
    const struct buntingraft_profile profile = {
        .today = 20201007, .flat = {flat, flat, flat, flat, flat}, .fields = 19, .rates = {rate, rate, rate, rate, rate}};
    reply = buntingraft_intake(BOOK, profile, (const uint8_t *)name, strlen(name), (const uint8_t *)file, file_length);
}
static void transfer_amounts(void) { reply = buntingraft_transfer(BOOK, BYTES(NAME "-K"), amount); }
static void transfer_fees(void) { reply = buntingraft_transfer(BOOK, BYTES(NAME "-O"), amount); }
static void go_ahead(void) { reply = buntingraft_go_ahead(BOOK, ID); }
static void pair(void) { reply = buntingraft_pair(BOOK, ID); }
static void close_shipment(void) { reply = buntingraft_close(BOOK, ID); }
static void post(void) { reply = buntingraft_post(BOOK, ID, order); }
static void pay(void) { reply = buntingraft_pay(BOOK, ID, order); }
static void mark_undelivered(void) { reply = buntingraft_mark_undelivered(BOOK, ID, order); }
static void withdraw(void) { reply = buntingraft_withdraw(BOOK, ID, order); }
static void return_money(void) { reply = buntingraft_return(BOOK, ID, route, money); }
static void sheet(void) { reply = buntingraft_sheet(BOOK, table, SHIPMENTS, &totals); }
static void write_rkf(void) {
    reply = buntingraft_write_rkf(BYTES("PP0000000001"), 20201007130000, ID, 103, output, sizeof output);
}
static void write_ope(void) {
    reply = buntingraft_write_ope(BOOK, ID, BYTES("PP0000000003"), 20201007131500, codes, 10, output, sizeof output);
}
static void write_money(void) { reply = buntingraft_write_money(UINT64_MAX, output, sizeof output); }
static void amount_for(void) { reply = buntingraft_amount_for(0, 10000, 1999999998); }
static void judge_extra(void) { reply = buntingraft_judge_extra(BYTES("SP_12 ")); }
static void judge_around(void) { reply = buntingraft_judge_around(bits, RECORD, BYTES("||ZUS/1|09.2020||||")); }
static void judge_around_a_cut(void) { reply = buntingraft_judge_around(bits, RECORD, BYTES("||ZUS/1|09.2020|||")); }
static void stored_bytes(void) { reply.first = buntingraft_stored_bytes(); }
static void store(void) { reply = buntingraft_store(BOOK, stored, sizeof stored); }
static void load(void) { reply = buntingraft_load(BOOK, stored, stored_length); }
static void replay(void) { reply = buntingraft_replay(BOOK, journal, journal_length, answers, CALLS); }
static void book_bytes(void) { reply.first = buntingraft_book_bytes(); }

/* Makes a call, prints its stack, and holds it to its status and its first number. */
static void expect(const char *words, uint64_t status, uint64_t first, void (*call)(void)) {
    reply = (struct buntingraft_reply){.status = BUNTINGRAFT_DONE};
    size_t took = stack_of(call);
    int fits = took < STACK, right = reply.status == status && reply.first == first;
    printf("%-28s %6zu bytes%s%s\n", words, took, fits ? "" : ": not less than 32 KiB of stack",
           right ? "" : ": another reply than was asked for");
    calls_wrong += !fits || !right;
}

/* Names a shipment and writes its file: orders of 1.00 each, of which every tenth has no surname. */
static void write_file(const char *id, int orders) {
    sprintf(name, "EPEZ%s-201007-A-0", id);
    char *end = file;
    end += sprintf(end, "\xEF\xBB\xBF");
    end += sprintf(end, "1|ZUS|EPE|1.0|%s|ABC123|20201007120000|20201007|A|0|%d|%d.00", id, orders, orders);
    for (int i = 1; i <= orders; i++) {
        const char *surname = i % 10 == 0 ? "" : "Żółć";
        end += sprintf(end, "\r\n2|%d|1.00|%s|Jan|Kraków|30-001|Kraków|Długa|5||SP_12||ZUS/1|09.2020||||", i, surname);
    }
    file_length = (size_t)(end - file);
}

/* Puts a number of eight bytes behind the journal, least byte first. */
static void put_number(uint64_t number) {
    for (int i = 0; i < 8; i++) journal[journal_length++] = (uint8_t)(number >> (8 * i));
}

/* Puts an entry behind the journal: a call with its numbers, a text and, of an intake, the file. */
static void put_entry(uint8_t call, const uint64_t *numbers, uint8_t n, const char *text) {
    const size_t behind = call == 0 ? file_length : 0;
    journal[journal_length++] = call;
    journal[journal_length++] = n;
    journal[journal_length++] = call == 0 ? 2 : 1;
    for (int i = 0; i < n; i++) put_number(numbers[i]);
    put_number(strlen(text));
    if (call == 0) put_number(behind);
    memcpy(journal + journal_length, text, strlen(text));
    journal_length += strlen(text);
    memcpy(journal + journal_length, file, behind);
    journal_length += behind;
}

/* Writes a journal of the intake of a full book, with so many of its numbers, a transfer, a go-ahead and a pairing. */
static void write_journal(uint8_t numbers) {
    const uint64_t profile[] = {20201007, FLAT, FLAT, FLAT, FLAT, FLAT, 19, RATE, RATE, RATE, RATE, RATE};
    const uint64_t sum[] = {100 * ORDERS};
    write_file("ZS1", ORDERS);
    journal_length = 0;
    put_number(CALLS);
    put_entry(0, profile, numbers, name);
    put_entry(1, sum, 1, NAME "-K");
    put_entry(2, NULL, 0, "ZS1");
    put_entry(3, NULL, 0, "ZS1");
}

/* A book of one shipment, with a rate and of as many orders as there is room for, until it is paired. */
static void on_one_shipment(void) {
    write_file("ZS1", ORDERS);
    expect("book_bytes", BUNTINGRAFT_DONE, sizeof book, book_bytes);
    expect("make_empty", BUNTINGRAFT_DONE, 0, make_empty);
    rate = 10001;
    expect("intake, rates too high", BUNTINGRAFT_REFUSED, 907, intake);
    flat = 999999999, rate = RATE;
    expect("intake, fees too high", BUNTINGRAFT_REFUSED, 906, intake);
    flat = FLAT;
    expect("intake of 2,048 orders", BUNTINGRAFT_DONE, ORDERS, intake);
    expect("intake of them again", BUNTINGRAFT_REFUSED, 101, intake);
    expect("write_rkf", BUNTINGRAFT_DONE, 64, write_rkf);
    expect("write_money", BUNTINGRAFT_DONE, 21, write_money);
    expect("amount_for", BUNTINGRAFT_DONE, 999999999, amount_for);
    expect("judge_extra", BUNTINGRAFT_DONE, 6, judge_extra);
    bits = 6;
    expect("judge_around, fault 7", BUNTINGRAFT_DONE, 7, judge_around);
    bits = 1;
    expect("judge_around, no fault", BUNTINGRAFT_DONE, 0, judge_around);
    expect("judge_around, a field short", BUNTINGRAFT_REFUSED, 901, judge_around_a_cut);
    expect("write_ope of 204 orders", BUNTINGRAFT_DONE, OPE_LENGTH, write_ope);
    amount = 100 * ORDERS + 1;
    expect("transfer of K", BUNTINGRAFT_DONE, 0, transfer_amounts);
    expect("go_ahead", BUNTINGRAFT_DONE, 0, go_ahead);
    expect("pair, short", BUNTINGRAFT_SHORT, 0, pair);
    amount = FEE * ORDERS + 1;
    expect("transfer of O", BUNTINGRAFT_DONE, 0, transfer_fees);
    expect("pair", BUNTINGRAFT_DONE, 0, pair);
}

/* The calls on the paired shipment's orders. */
static void on_its_orders(void) {
    order = ORDERS;
    expect("post", BUNTINGRAFT_DONE, FEE, post);
    expect("pay", BUNTINGRAFT_DONE, 100, pay);
    order = ORDERS - 1;
    expect("post another", BUNTINGRAFT_DONE, FEE, post);
    expect("mark_undelivered", BUNTINGRAFT_DONE, 0, mark_undelivered);
    order = 1;
    expect("withdraw", BUNTINGRAFT_DONE, 0, withdraw);
}

/* Every return of the paired shipment: 204 of its orders are faulty, one is undelivered and one withdrawn. */
static void on_its_returns(void) {
    route = BUNTINGRAFT_ZWR, money = BUNTINGRAFT_K;
    expect("return by ZWR of K", BUNTINGRAFT_DONE, 1, return_money);
    route = BUNTINGRAFT_OPR;
    expect("return by OPR of K", BUNTINGRAFT_DONE, 204 * 100, return_money);
    route = BUNTINGRAFT_ZPR;
    expect("return by ZPR of K", BUNTINGRAFT_DONE, 100, return_money);
    route = BUNTINGRAFT_ZZR;
    expect("return by ZZR of K", BUNTINGRAFT_DONE, 100, return_money);
    route = BUNTINGRAFT_ZWR, money = BUNTINGRAFT_O;
    expect("return by ZWR of O", BUNTINGRAFT_DONE, 1, return_money);
    route = BUNTINGRAFT_OPR;
    expect("return by OPR of O", BUNTINGRAFT_DONE, 204 * FEE, return_money);
    route = BUNTINGRAFT_ZPR;
    expect("return by ZPR of O", BUNTINGRAFT_REFUSED, 22, return_money);
    route = BUNTINGRAFT_ZZR;
    expect("return by ZZR of O", BUNTINGRAFT_DONE, FEE, return_money);
    expect("sheet of one shipment", BUNTINGRAFT_DONE, 1, sheet);
}

/* A book of as many shipments as there is room for, every second with a rate. */
static void on_many_shipments(void) {
    char id[8], words[32];
    expect("make_empty again", BUNTINGRAFT_DONE, 0, make_empty);
    for (int i = 1; i <= SHIPMENTS; i++) {
        sprintf(id, "ZS%d", i);
        sprintf(words, "intake of shipment %d", i);
        write_file(id, ORDERS / SHIPMENTS);
        rate = i % 2 == 0 ? RATE : 0;
        expect(words, BUNTINGRAFT_DONE, ORDERS / SHIPMENTS, intake);
    }
    write_file("ZS0", ORDERS);
    expect("intake of one more", BUNTINGRAFT_REFUSED, 903, intake);
    expect("close", BUNTINGRAFT_DONE, 0, close_shipment);
    expect("sheet of 32 shipments", BUNTINGRAFT_DONE, SHIPMENTS, sheet);
}

/* The book of as many shipments stored, and loaded over itself. */
static void on_a_stored_book(void) {
    expect("stored_bytes", BUNTINGRAFT_DONE, sizeof stored, stored_bytes);
    expect("store of 32 shipments", BUNTINGRAFT_DONE, sizeof stored, store);
    stored_length = sizeof stored - 1;
    expect("load of all but a byte", BUNTINGRAFT_REFUSED, 32, load);
    stored_length = sizeof stored;
    expect("load of 32 shipments", BUNTINGRAFT_DONE, 0, load);
    expect("sheet of them again", BUNTINGRAFT_DONE, SHIPMENTS, sheet);
}

/* The replay of a journal whose intake has so many numbers, in an empty book: its fees are then these. */
static void on_numbers(const char *words, uint8_t numbers, uint64_t fee) {
    write_journal(numbers);
    expect("make_empty for a replay", BUNTINGRAFT_DONE, 0, make_empty);
    expect(words, BUNTINGRAFT_DONE, CALLS, replay);
    calls_wrong += answers[0].first != ORDERS || answers[3].status != BUNTINGRAFT_SHORT || answers[3].second != fee * ORDERS;
}

/* The replay of a journal, in a book that is not empty, and in ones that are, with rates and without. */
static void on_a_journal(void) {
    write_journal(12);
    expect("replay in a full book", BUNTINGRAFT_NOT_REPLAYED, 3, replay);
    on_numbers("replay", 12, FEE);
    on_numbers("replay without rates", 7, FLAT);
}

int main(void) {
    prepare();
    if (stack_of(too_deep) <= STACK) {
        printf("a call that takes more than 32 KiB is not found out: this program shows nothing\n");
        return EXIT_FAILURE;
    }
    on_one_shipment();
    on_its_orders();
    on_its_returns();
    on_many_shipments();
    on_a_stored_book();
    on_a_journal();
    return calls_wrong == 0 ? EXIT_SUCCESS : EXIT_FAILURE;
}
