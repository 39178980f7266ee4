/*
 * Buntingraft: the settlement book for EPE shipments, as C calls it. Link libbuntingraft.a, and libbuntingraft_replay.a beside
 * it where a journal is replayed (x86-64 Linux, System V ABI).
 *
 * The insurer sends an order file for a shipment and two bank transfers: one for the orders' amounts, called K, and one for
 * the contractor's fees, called O. The two are different moneys and are never added. All sums are whole grosze.
 *
 * A shipment begins Waiting. When both transfers cover what it needs it is Paired, and its orders can be posted, paid,
 * marked undelivered or withdrawn; or it is Closed instead, without ever being Paired. It needs, in K, the sum of all its
 * amounts, and in O, the sum of all its fees: faulty orders count like any other. What is not paid out goes back to the
 * insurer by a return.
 *
 * Fees are each order's own: a flat part, and the order's amount times a rate over 10,000, in whole grosze. What that division
 * leaves is kept beside the fee in the book and is no money. Both parts are set at intake, by the shipment's benefit kind, and
 * stay: a later profile changes no fee that is in the book.
 *
 * An order begins Open, or Faulty where its record has a fault (see intake). Open becomes Posted or Withdrawn, and Posted
 * becomes Paid or Undelivered. What a return can give back of an order is said to wait: both its amount and its fee where it
 * is Faulty or Withdrawn, its amount alone where it is Undelivered, since the fee was earned when it was posted.
 *
 *
 * What a caller lends
 *
 *   book   At least buntingraft_book_bytes() bytes. The whole state of a book is in them: they need no alignment, hold no
 *          pointer, and may be copied and lent again elsewhere. Bytes behind that length stay as they are. A fresh book is
 *          made by buntingraft_make_empty. Such memory is of one version of the library: another may lay a book out
 *          otherwise. Only stored bytes (buntingraft_store) travel between versions, and only they are to be kept in files:
 *          a version that has another form of them refuses them with 32.
 *   name, file, title, id, own, source, extra, before, after, stored, journal
 *          Bytes that are only read, with no terminating zero.
 *   output Bytes that a report, money or a stored book is written into.
 *   codes  Numbers of 64 bits that are only read.
 *
 * Each is a pointer and a number of bytes, or of codes. The pointer is not null, even where the number is 0, and all of it can
 * be read; book and output can be written too. The buffers of one call do not overlap, and nothing else writes to them while
 * it runs. Nothing is kept when a call returns.
 *
 * That is all a caller owes. Every call answers, whatever the bytes and numbers are. The library allocates nothing, has no
 * state of its own, so calls on different books may run at the same time, and takes less than 32 KiB of stack: the project's
 * tests make every call on a stack of that size.
 *
 *
 * What a call answers
 *
 * A reply has a status and two numbers. Refused: first is the number of the first question that was answered no, second is 0,
 * and the book is as it was, byte for byte. Short comes from buntingraft_pair alone, and leaves every byte of the book too.
 * Not replayed comes from buntingraft_replay alone.
 *
 * Questions are asked in the order in which they stand below. The numbers of an intake and those of the other calls are two
 * sets: 10, 11, 13, 14, 16, 17, 19, 20, 22, 23 and 901 are in both, and mean different things. 905 and 907 are in both too, and
 * ask both times whether flat parts and rates are within their ranges.
 */
#ifndef BUNTINGRAFT_H
#define BUNTINGRAFT_H

#include <stddef.h>
#include <stdint.h>

#ifdef __cplusplus
extern "C" {
#endif

/* A reply's status. */
enum {
    BUNTINGRAFT_DONE = 0,
    BUNTINGRAFT_SHORT = 1,
    BUNTINGRAFT_REFUSED = 2,
    BUNTINGRAFT_NOT_REPLAYED = 3
};

struct buntingraft_reply {
    uint64_t status;
    uint64_t first;
    uint64_t second;
};

/* What an intake goes by. */
struct buntingraft_profile {
    uint64_t today;    /* a real date of 2000 to 2099, as the number yyyymmdd: 20201007 */
    uint64_t flat[5];  /* the flat part of an order's fee, by the shipment's benefit kind 0 to 4: each 0 to 999,999,999 */
    uint64_t fields;   /* R, the number of fields in a record line: 19 to 32 */
    uint64_t rates[5]; /* the rate of an order's fee, in ten-thousandths of its amount, by the same kinds: each 0 to 10,000 */
};

/* The routes of a return. */
enum {
    BUNTINGRAFT_ZWR = 0, /* free money: the shipment's transfers, less its need where it is Paired, less what ZWR returned */
    BUNTINGRAFT_OPR = 1, /* what waits in Faulty orders */
    BUNTINGRAFT_ZPR = 2, /* what waits in Undelivered orders: amounts alone */
    BUNTINGRAFT_ZZR = 3  /* what waits in Withdrawn orders */
};

/* The moneys of a return. */
enum {
    BUNTINGRAFT_K = 0, /* amounts */
    BUNTINGRAFT_O = 1  /* fees */
};

/* How many bytes a book takes: 24,704. */
uint64_t buntingraft_book_bytes(void);

/*
 * Makes an empty book, whatever the memory held.
 *
 * Done: 0, 0.
 *
 *    10  Is the memory long enough?
 */
struct buntingraft_reply buntingraft_make_empty(uint8_t *book, size_t book_length);

/*
 * Takes in an order file: its shipment is added to the book as Waiting, without money or go-ahead.
 *
 * `name` is the file's name without a folder: EPEZ and the shipment's identifier, then the benefit date yymmdd, the payment
 * kind A or B, and the benefit kind 0 to 4, joined by hyphens, as EPEZZS1-201007-A-0. An identifier is two letters (A-Z, a-z)
 * and then 1 to 15 letters or digits; case counts. `file` is the whole file: the bytes EF BB BF, then lines of UTF-8 parted by
 * CR LF, the header first and then one record line to an order, each of fields parted by `|`.
 *
 * Done: the number of orders, and how many of them are faulty. At most 32 shipments and 2,048 orders fit in a book.
 *
 *   905  Are the profile's date, its five flat parts and its number of fields within their ranges?
 *   907  Is each of the profile's five rates at most 10,000?
 *   900  Is the book's memory long enough, and a sound book?
 *     1  Is the file longer than 0 bytes?
 *    34  Is the byte mark EF BB BF there, and the rest well-formed UTF-8?
 *     3  Has the name exactly three hyphens?
 *     7  Does the name start with EPE?
 *    10  Then Z?
 *    13  Is the rest of its first part an identifier?
 *    16  Is its second part six digits, and 20yymmdd a real date?
 *    19  Is its third part A or B?
 *    22  Is its fourth part one digit 0 to 4?
 *     4  Has the header 12 fields, and no stray CR or LF?
 *     5  Is header field 1 (mark) `1`?
 *    11  Is header field 2 (sender) `ZUS`?
 *     8  Is header field 3 (file code) `EPE`?
 *    99  Is header field 4 (edition) `1.0`?
 *    14  Is header field 5 (identifier) the name's?
 *    17  Is header field 8 (benefit date, yyyymmdd) `20` and the name's date?
 *    20  Is header field 9 (payment kind) the name's?
 *    23  Is header field 10 (benefit kind) the name's?
 *   101  Is the identifier not yet in the book?
 *   102  Is header field 7 (created, yyyymmddhhmmss) not empty?
 *   103  Is it a real date and time of day, from 60 days before today to 10 days after?
 *   120  Is header field 6 (unit) not empty?
 *   121  Is it six letters or digits?
 *   125  Is header field 8 (benefit date) within 30 days of today on either side?
 *   126  Is header field 11 (order count) 1 to 6 digits?
 *   127  Is it at least 1?
 *   130  Does header field 12 (sum) read as a sum: 1 to 11 digits without a leading zero, a point, 2 digits?
 *   131  Is it above zero?
 *   901  Has every record line R fields and no stray CR or LF, its first field `2`, its second 1 to 6 digits counting 1, 2, 3 ..?
 *   902  Does every record's field 3 read as an amount, 1 to 7 digits without a leading zero, a point, 2 digits, and above
 *        zero?
 *   129  Are there as many record lines as header field 11 says?
 *   132  Do the amounts add up to header field 12?
 *   906  Is every order's fee at most 999,999,999?
 *   903  Are there fewer than 32 shipments in the book?
 *   904  Do the orders fit, with those present, in 2,048 rows?
 *
 * All five flat parts and all five rates are judged, whichever the shipment's kind is. 906 goes by those of its kind, and asks
 * faulty orders too.
 *
 * A single zero before the point is no leading zero: 0.50 reads as 50 grosze, 00.50 and 007.50 do not read.
 *
 * A faulty order is no refusal: it is taken in as Faulty, by the first of these that its record has. Lengths are in code points.
 *
 *     1  Surname (record field 4) not 1 to 31 long.
 *     2  First name (5) not 1 to 22 long.
 *     3  Post town (6) not 1 to 35 long.
 *     4  Postcode (7) not two digits, a hyphen, three digits.
 *     5  Town (8) or street (9) above 35 long, or town, street and extra (12) all empty.
 *     6  House number (10) above 11 long, or empty while extra is empty.
 *     7  Extra not empty, and neither `PR` nor `SP_` or `PP_` with 1 to 5 digits.
 *     8  Benefit identifier (14) not 1 to 20 long.
 *     9  Period (15) not 1 to 35 long.
 *    10  One of fields 4 to 19 starts or ends with a space.
 */
struct buntingraft_reply buntingraft_intake(uint8_t *book, size_t book_length, struct buntingraft_profile profile,
                                            const uint8_t *name, size_t name_length, const uint8_t *file, size_t file_length);

/*
 * Takes a bank transfer of `amount` grosze, for the shipment and the money that its title says, in any stage.
 *
 * `title` is the shipment's whole name, as at intake, and then `-K` or `-O`, as EPEZZS1-201007-A-0-K. Its date may have eight
 * digits, `20` and the name's six: EPEZZS1-20201007-A-0-K says the same.
 *
 * Done: 0, 0.
 *
 *    10  Is the book's memory long enough, and a sound book?
 *    11  Is the title a shipment name, with a date of six digits or of `20` and six, and then `-K` or `-O`?
 *    12  Is the amount 1 to 9,999,999,999,999?
 *    13  Is a shipment of that whole name in the book?
 *    14  Would the shipment's transfers of that money, with this one, still be at most 9,999,999,999,999 in all?
 */
struct buntingraft_reply buntingraft_transfer(uint8_t *book, size_t book_length, const uint8_t *title, size_t title_length,
                                              uint64_t amount);

/*
 * The calls below are for the shipment whose identifier is `id`, as ZS1. Bytes that are no identifier are one that is not in
 * the book. Each first asks:
 *
 *    10  Is the book's memory long enough, and a sound book?
 *    13  Is the identifier in the book?
 */

/*
 * Takes the insurer's go-ahead (OBS), with which a shipment may be paired though it has faulty orders.
 *
 * Done: 0, 0.
 *
 *    15  Is the shipment Waiting?
 *    16  Has it a faulty order?
 *    17  Has no go-ahead come before?
 */
struct buntingraft_reply buntingraft_go_ahead(uint8_t *book, size_t book_length, const uint8_t *id, size_t id_length);

/*
 * Pairs the shipment with its transfers, where they cover what it needs in both moneys.
 *
 * Done: 0, 0, and it is Paired.
 * Short: the grosze missing of K, and those missing of O.
 *
 *    15  Is the shipment Waiting?
 *    18  Has it no faulty order, or a go-ahead?
 */
struct buntingraft_reply buntingraft_pair(uint8_t *book, size_t book_length, const uint8_t *id, size_t id_length);

/*
 * Closes the shipment (WYC or ODR): it will not be paired, and its transfers can go back by ZWR.
 *
 * Done: 0, 0.
 *
 *    15  Is the shipment Waiting?
 */
struct buntingraft_reply buntingraft_close(uint8_t *book, size_t book_length, const uint8_t *id, size_t id_length);

/*
 * The four calls on an order. Orders are counted from 1, as in the file. Each asks, after 10 and 13:
 *
 *    19  Is the shipment Paired?
 *    20  Is the order's number 1 to the number of orders?
 *    21  Is the order in the state that the call takes?
 */

/* Posts an Open order: its fee is earned. Done: its fee, 0. */
struct buntingraft_reply buntingraft_post(uint8_t *book, size_t book_length, const uint8_t *id, size_t id_length,
                                          uint64_t order);

/* Pays a Posted order out. Done: its amount, 0. */
struct buntingraft_reply buntingraft_pay(uint8_t *book, size_t book_length, const uint8_t *id, size_t id_length,
                                         uint64_t order);

/* Marks a Posted order Undelivered: its amount waits. Done: 0, 0. */
struct buntingraft_reply buntingraft_mark_undelivered(uint8_t *book, size_t book_length, const uint8_t *id, size_t id_length,
                                                      uint64_t order);

/* Withdraws an Open order: its amount and its fee wait. Done: 0, 0. */
struct buntingraft_reply buntingraft_withdraw(uint8_t *book, size_t book_length, const uint8_t *id, size_t id_length,
                                              uint64_t order);

/*
 * Returns to the insurer all that there is of a money on a route, and nothing of it is there after.
 *
 * Done: the sum in grosze, and the number of orders that it is of (0 for ZWR). Orders with a fee of 0 go back with others of
 * their route, and count; where all fees that wait there are 0, the answer is 23, and they wait on.
 *
 * By ZWR, after 10 and 13:
 *
 *    24  Is the shipment not Waiting?
 *    23  Is there anything above zero to return?
 *
 * By OPR, ZPR and ZZR, after 10 and 13:
 *
 *    19  Is the shipment Paired?
 *    22  Is it not ZPR with O?
 *    23  Is there anything above zero to return?
 *
 * A route above 3 or a money above 1 is no return: it is asked 10, 13 and 19, and then refused with 22.
 */
struct buntingraft_reply buntingraft_return(uint8_t *book, size_t book_length, const uint8_t *id, size_t id_length,
                                            uint64_t route, uint64_t money);

/*
 * A row of the balance sheet: where a shipment's money is, in K and in O. Accepted is always held, free and left together. A
 * row is 96 bytes, of which those between the identifier and its length mean nothing.
 */
struct buntingraft_row {
    uint8_t id[17];      /* the shipment's identifier, zeros behind it */
    uint64_t id_len;     /* the identifier's length: 3 to 17 */
    uint64_t k_accepted; /* all transfers accepted */
    uint64_t k_held;     /* the amounts of Open and Posted orders and those that wait; 0 where the shipment is not Paired */
    uint64_t k_free;     /* transfers accepted, less the need where the shipment is Paired, less what ZWR returned */
    uint64_t k_left;     /* the amounts paid out, and what all routes returned */
    uint64_t o_accepted; /* all transfers accepted */
    uint64_t o_held;     /* the fees of Open orders and those that wait; 0 where the shipment is not Paired */
    uint64_t o_free;     /* transfers accepted, less the need where the shipment is Paired, less what ZWR returned */
    uint64_t o_left;     /* the fees earned, and what all routes returned */
};

/* The same eight sums, added up over the rows of one sheet or of several. */
struct buntingraft_totals {
    uint64_t k_accepted, k_held, k_free, k_left;
    uint64_t o_accepted, o_held, o_free, o_left;
};

/*
 * Fills the balance sheet: a row of the table for each shipment, in order of intake, and adds each row's eight sums to the
 * totals. Rows behind the last shipment's stay as they are. The totals go on from what they hold, so that several books can be
 * added up; set them to zero first for those of one book. The book is only read, so sheets of the same one may be filled at
 * the same time, each into a table and totals of its own.
 *
 * `table` is `rows` rows and `totals` one record, both lent as the book is (the pointers not null, even where `rows` is 0) and
 * aligned as their types ask. A table of 32 rows is enough for any book.
 *
 * Done: the number of shipments, and so of rows filled; 0.
 *
 *    10  Is the book's memory long enough, and a sound book?
 *    25  Has the table a row for each shipment?
 *    26  Is no total above 999,999,999,999,999 after adding?
 *
 * A refusal leaves the table and the totals as they were, too.
 */
struct buntingraft_reply buntingraft_sheet(const uint8_t *book, size_t book_length, struct buntingraft_row *table, size_t rows,
                                           struct buntingraft_totals *totals);

/*
 * The two report files that the insurer takes. Each is written whole into `output`: byte mark, header, records, and no CR LF
 * after the last line. Done: the number of bytes written, 0. The bytes of the output behind them stay as they are, and after a
 * refusal all of them do. `own` is the report's identifier, `created` when it was created, as the number yyyymmddhhmmss.
 */

/*
 * Writes RKF, the report on an order file: `source` is that file's identifier, `refusal` the number with which an intake
 * refused it, or 0 where it was accepted. It takes at most 83 bytes.
 *
 *    31  Are both identifiers in form, is the creation time a real date and time, and is the refusal 0 or 100 to 307?
 *    30  Is the output long enough?
 */
struct buntingraft_reply buntingraft_write_rkf(const uint8_t *own, size_t own_length, uint64_t created,
                                               const uint8_t *source, size_t source_length, uint64_t refusal,
                                               uint8_t *output, size_t output_length);

/*
 * Writes OPE, the report on the faulty orders of the shipment `id`, in any stage: a record to an order, rising. `codes` are the
 * published codes of the ten faults, fault 1's first; an entry that no order needs may be anything, or missing at the end. It
 * takes at most 32,677 bytes. The book is only read.
 *
 *    10  Is the book's memory long enough, and a sound book?
 *    13  Is the identifier in the book?
 *    31  Is the own identifier in form, is the creation time a real date and time, and has each fault of the shipment a code
 *        of 308 to 336?
 *    30  Is the output long enough?
 */
struct buntingraft_reply buntingraft_write_ope(const uint8_t *book, size_t book_length, const uint8_t *id, size_t id_length,
                                               const uint8_t *own, size_t own_length, uint64_t created,
                                               const uint64_t *codes, size_t codes_count, uint8_t *output, size_t output_length);

/*
 * Writes money at the start of `output` in its one spelling, that in which order files are read: zlote without a leading zero, a
 * point, two digits of grosze, as 175.50, 0.05 and 0.00. It takes any number of grosze, and at most 21 bytes. No zero byte is
 * put behind it. Done: the number of bytes written, 0. The bytes of the output behind them stay as they are, and after a refusal
 * all of them do.
 *
 *    30  Is the output long enough?
 */
struct buntingraft_reply buntingraft_write_money(uint64_t grosze, uint8_t *output, size_t output_length);

/*
 * Finds the order amount that makes a total: `total` is the amount and its fee together, in grosze, where a fee has the flat
 * part `flat` and the rate `rate`. Amounts are 1 to 999,999,999, and one whose fee is above 999,999,999 makes no total. No
 * second amount makes the total that one makes. A total is what a payer spends in all: it is of neither money, and may be any
 * number. No book has a part in this.
 *
 * Done: the amount, or 0 where no amount makes the total, which is no refusal; 0.
 *
 *   907  Is the rate at most 10,000?
 *   905  Is the flat part at most 999,999,999?
 */
struct buntingraft_reply buntingraft_amount_for(uint64_t flat, uint64_t rate, uint64_t total);

/*
 * Judges the extra address field of a record (field 12) alone, for the call below, which is then not given the field. `extra`
 * is its bytes, whatever they are. No question is asked, and no book has a part in this.
 *
 * Done: what is said of the field, these numbers added up; 0.
 *
 *     1  It is empty.
 *     2  It has fault 7 (see intake): it is not empty, and neither `PR` nor `SP_` or `PP_` with 1 to 5 digits.
 *     4  It starts or ends with a space.
 */
struct buntingraft_reply buntingraft_judge_extra(const uint8_t *extra, size_t extra_length);

/*
 * Finds the fault of a record without its extra address field: `bits` is what buntingraft_judge_extra said of the field,
 * `before` the record's bytes before it and `after` those behind it, each with the bar next to the field. The fault is the one
 * by which an intake takes such an order in as Faulty. Each number in `bits` stands for its own part in the faults 5 to 7 and
 * in 10, also where no field has them together, and bits above 4 say nothing. What fields 1 to 3 are is not asked, and no book
 * has a part in this.
 *
 * Done: the fault, 1 to 10, or 0 where there is none; 0.
 *
 *   901  Is `before` eleven fields, each ended by `|`, and `after` 7 to 20, each begun by one, all well-formed UTF-8 without CR
 *        or LF?
 */
struct buntingraft_reply buntingraft_judge_around(uint64_t bits, const uint8_t *before, size_t before_length,
                                                  const uint8_t *after, size_t after_length);

/* The most bytes that a stored book takes: 24,898. */
uint64_t buntingraft_stored_bytes(void);

/*
 * Stores the book at the start of `output`, as bytes to be kept in a file: its shipments and their orders, and no byte of the
 * memory that is free, so that equal books have equal bytes. docs/LAYOUT.md lays them out. The book is only read.
 *
 * Done: the number of bytes written, 0. These bytes are the stored book; those of the output behind them stay as they are, and
 * after a refusal all of them do.
 *
 *    10  Is the book's memory long enough, and a sound book?
 *    30  Is the output long enough?
 */
struct buntingraft_reply buntingraft_store(const uint8_t *book, size_t book_length, uint8_t *output, size_t output_length);

/*
 * Loads a stored book into the book's memory, whatever the memory held: a load never asks 10. `stored` is just the bytes that
 * were written when the book was stored. A byte that is missing, or one more behind them, is 32, and so is a form other than
 * the newest.
 *
 * Done: 0, 0, and the memory holds the book that was stored. Bytes behind the book's stay as they were. A refusal leaves every
 * byte.
 *
 *    32  Are the bytes a whole stored book of the newest form, and a sound one?
 *    30  Is the book's memory long enough?
 */
struct buntingraft_reply buntingraft_load(uint8_t *book, size_t book_length, const uint8_t *stored, size_t stored_length);

/*
 * Makes every call of a journal in an empty book, one after the other, and tells every reply: the calls do what the same calls
 * made one by one would do, and reply the same. So a site's journal shows from the first call on what its book holds and why.
 * It is an auditor's, and in an archive of its own, libbuntingraft_replay.a: a program that only makes calls does without it.
 *
 * `journal` is the number of its entries in eight bytes, then the entries one behind the other, and nothing behind the last.
 * Numbers are stored least byte first. An entry is
 *
 *     one byte: the call
 *     one byte: how many numbers it has
 *     one byte: how many texts it has
 *     its numbers, eight bytes each
 *     the lengths of its texts, eight bytes each
 *     its texts, one behind the other
 *
 * and a call takes its numbers and texts by place:
 *
 *     0  intake            today, five flat parts, fields, five rates; name, file
 *     1  transfer          amount; title
 *     2  go-ahead          id
 *     3  pair              id
 *     4  close             id
 *     5  post              order; id
 *     6  pay               order; id
 *     7  mark undelivered  order; id
 *     8  withdraw          order; id
 *     9  return            route, money; id
 *
 * A number that an entry does not have is 0, and a text that it does not have is empty: an intake of seven numbers, as it had
 * before there were rates, has rates of 0. An entry has no more than its call takes, so that every journal of this edition
 * means the same in one that takes more.
 *
 * `answers` is `places` replies, lent as the book is (the pointer not null, even where `places` is 0) and aligned as their
 * type asks. Its first are the replies of the journal's calls, refused ones included; those behind them stay as they are.
 *
 * Done: the number of calls made, 0.
 * Not replayed: why, 0; no call was made, and every byte of the book and of the table is as it was:
 *
 *     1  the journal is not whole entries: one is cut off, there are more or fewer than it says, one has a call that there is
 *        not or more than its call takes, or a return has such a route or money
 *     2  the table has fewer places than the journal has entries
 *     3  the book's memory is not long enough, or no sound book without shipments
 */
struct buntingraft_reply buntingraft_replay(uint8_t *book, size_t book_length, const uint8_t *journal, size_t journal_length,
                                            struct buntingraft_reply *answers, size_t places);

#ifdef __cplusplus
}
#endif

#endif
