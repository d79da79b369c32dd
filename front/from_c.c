/* Calls the C face by its header, every function of it, and holds the answers to the paper's: from_c MESSAGE RECORD, the paper's
 * example and its record. Ends with 0 when all are as they must be. */
#include "bulk.h"
#include <stdio.h>
#include <string.h>

typedef void checker(const uint8_t *value, size_t length, uint64_t answer[BULK_ANSWER]);
typedef void recorder(const uint8_t *message, size_t length, uint8_t *area, size_t area_length, uint32_t *index, size_t index_length,
                      uint64_t answer[BULK_ANSWER]);

static int wrong = 0;

/* Holds an answer to the three words that it must be. */
static void hold(const char *what, const uint64_t answer[BULK_ANSWER], uint64_t first, uint64_t second, uint64_t third)
{
    if (answer[0] != first || answer[1] != second || answer[2] != third) {
        printf("%s: %llu %llu %llu, and not %llu %llu %llu\n", what, (unsigned long long)answer[0], (unsigned long long)answer[1],
               (unsigned long long)answer[2], (unsigned long long)first, (unsigned long long)second, (unsigned long long)third);
        wrong++;
    }
}

/* The index of most calls, between numbers that are not lent: it has rubbish in it before each call, and zeros behind it. */
#define BESIDE 3
static uint32_t slots[BESIDE + BULK_INDEX + BESIDE];
static uint32_t *const lent = slots + BESIDE;

/* Fills the index and what stands beside it. */
static void fill(uint32_t rubbish)
{
    for (size_t i = 0; i < BESIDE + BULK_INDEX + BESIDE; i++) {
        slots[i] = rubbish + (uint32_t)i;
    }
}

/* Holds so many numbers of the index, and those beside it, to what they must be after a call: zeros, or as they were filled. */
static void hold_index(const char *what, uint32_t rubbish, size_t many, int is_cleared)
{
    for (size_t i = 0; i < BESIDE + BULK_INDEX + BESIDE; i++) {
        int is_lent = i >= BESIDE && i < BESIDE + many;
        uint32_t must = is_lent && is_cleared ? 0 : rubbish + (uint32_t)i;
        if (slots[i] != must) {
            printf("%s: number %d beside or of the index is %u, and not %u\n", what, (int)i, (unsigned)slots[i], (unsigned)must);
            wrong++;
            return;
        }
    }
}

/* The judge by either engine with rubbish in the index, and the judge without one: all answer the same. */
static void judge(const char *what, const uint8_t *message, size_t length, uint64_t first, uint64_t second, uint64_t third)
{
    uint64_t answer[BULK_ANSWER], plainly[BULK_ANSWER];
    fill(1);
    bulk_judge(message, length, lent, BULK_INDEX, answer);
    hold_index(what, 1, BULK_INDEX, 1);
    hold(what, answer, first, second, third);
    fill(2);
    bulk_judge_by_table(message, length, lent, BULK_INDEX, answer);
    hold_index(what, 2, BULK_INDEX, 1);
    hold(what, answer, first, second, third);
    bulk_judge_plainly(message, length, plainly);
    hold(what, plainly, first, second, third);
}

/* Asks a single checker for a value. */
static void check(checker *of, const char *value, uint64_t number, uint64_t worth)
{
    uint64_t answer[BULK_ANSWER] = {99, 99, 99};
    of((const uint8_t *)value, strlen(value), answer);
    hold(value, answer, number, worth, 0);
}

/* Every single checker, either side of a line. */
static void check_values(void)
{
    check(bulk_iban, "DE87200500001234567890", 0, 0);
    check(bulk_iban, "DE87200500001234567891", 8, 0);
    check(bulk_iban, "DE342005000012345678901", 19, 0);
    check(bulk_creditor_id, "DE98ZZZ09999999999", 0, 0);
    check(bulk_creditor_id, "DE00ZZZ09999999999", 8, 0);
    check(bulk_bic, "BANKDEFFXXX", 0, 0);
    check(bulk_bic, "BANKDEFFXX", 7, 0);
    check(bulk_bic, "1BNKDEFF", 7, 0);
    check(bulk_bicfi, "1BNKDEFF", 0, 0);
    check(bulk_bicfi, "BANKDEFFXXX", 0, 0);
    check(bulk_bicfi, "BANK1EFF", 7, 0);
    check(bulk_date, "2000-02-29", 0, 0);
    check(bulk_date, "1900-02-29", 7, 0);
    check(bulk_time, "2010-12-01T09:30:00+14:00", 0, 0);
    check(bulk_time, "2010-12-01T09:30:00+14:01", 7, 0);
    check(bulk_reference, "A/B", 0, 0);
    check(bulk_reference, "A//B", 7, 0);
    check(bulk_reference, "RENT 2023 04", 7, 0);
    check(bulk_end_to_end, "RENT 2023 04", 0, 0);
    check(bulk_end_to_end, "\tRENT \r\n2023  04 ", 0, 0);
    check(bulk_end_to_end, "RENT 2023/\n", 7, 0);
    check(bulk_text70, "Erika Mustermann", 0, 0);
    check(bulk_text70, " Erika\t", 0, 0);
    check(bulk_text70, " \t\r\n", 7, 0);
    check(bulk_text140, "Invoice\n1", 0, 0);
    check(bulk_text140, "", 7, 0);
    check(bulk_count, "007", 0, 7);
    check(bulk_count, "7.", 7, 0);
    check(bulk_item_amount, "5.3", 0, 530);
    check(bulk_item_amount, "1000000000", 9, 0);
    check(bulk_header_amount, "1000000000", 0, 100000000000);
    check(bulk_header_amount, "0.00", 9, 0);
}

/* Reads a file of less than `room` bytes into zeros. Answers how many they are, 0 where it cannot be read. */
static size_t contents(const char *file, uint8_t *bytes, size_t room)
{
    FILE *opened = fopen(file, "rb");
    size_t length = 0;
    if (opened) {
        length = fread(bytes, 1, room, opened);
        fclose(opened);
    }
    return length < room ? length : 0;
}

/* The place behind a tag that stands in a message. */
static uint64_t behind(const uint8_t *message, const char *tag)
{
    const char *text = (const char *)message;
    const char *found = strstr(text, tag);
    return found ? (uint64_t)(found - text) + strlen(tag) : 0;
}

/* Indexes of several lengths: too short is 25, and longer is cleared to its end. */
static void check_index(const uint8_t *message, size_t length)
{
    static const size_t short_ones[] = {0, 1, BULK_INDEX / 2, BULK_INDEX - 1};
    static uint32_t longer[4 * BULK_INDEX];
    uint64_t answer[BULK_ANSWER];
    for (size_t i = 0; i < sizeof short_ones / sizeof *short_ones; i++) {
        fill(11);
        bulk_judge(message, length, lent, short_ones[i], answer);
        hold("judge, an index too short", answer, 25, 0, 0);
        bulk_item(message, length, 0, lent, short_ones[i], answer);
        hold("item, an index too short", answer, 25, 0, 0);
        bulk_judge(message, 0, lent, short_ones[i], answer);
        hold("judge, nothing and an index too short", answer, 25, 0, 0);
        hold_index("an index too short", 11, short_ones[i], 0);
    }
    memset(longer, 0xff, sizeof longer);
    bulk_judge(message, length - 1, longer, 4 * BULK_INDEX, answer);
    hold("judge, cut, a longer index", answer, 3, length - 1, 0);
    for (size_t i = 0; i < 4 * BULK_INDEX; i++) {
        if (longer[i] != 0) {
            printf("a longer index: number %d is not 0\n", (int)i);
            wrong++;
            return;
        }
    }
}

/* The example with its item so often, each with a TxId of its own, `A1`, `B1` and so on, in a message of any count and total.
 * Answers its length. */
static size_t repeated(const uint8_t *message, size_t length, uint8_t *other, size_t items)
{
    size_t start = behind(message, "</GrpHdr>"), end = behind(message, "</DrctDbtTxInf>");
    size_t id = behind(message, "<TxId>") - start, written = start;
    memcpy(other, message, start);
    for (size_t i = 0; i < items; i++) {
        memcpy(other + written, message + start, end - start);
        other[written + id] = (uint8_t)('A' + i);
        written += end - start;
    }
    memcpy(other + written, message + end, length - end);
    other[behind(message, "<NbOfTxs>")] = (uint8_t)('0' + items);
    return written + length - end;
}

/* Three items of 12.34 euros: with three TxIds the total is wrong, 15; with one of them twice it is 24 at the second one, before its
 * end tag and all that follows it. */
static void check_twice(const uint8_t *message, size_t length)
{
    static uint8_t three[8192];
    size_t all = repeated(message, length, three, 3);
    size_t item = behind(message, "</DrctDbtTxInf>") - behind(message, "</GrpHdr>");
    size_t first = behind(message, "<TxId>"), total = behind(message, "<TtlIntrBkSttlmAmt Ccy=\"EUR\">");
    judge("three TxIds", three, all, 15, total, 0);
    three[first + 2 * item] = 'A';
    judge("the third TxId is the first", three, all, 24, first + 2 * item, 0);
    three[first + item] = 'A';
    judge("three times the same TxId", three, all, 24, first + item, 0);
    three[first + item + 3] = 'x';
    judge("the same TxId, and a wrong end tag", three, all, 24, first + item, 0);
    judge("the same TxId, cut behind its `<`", three, first + item + 3, 24, first + item, 0);
    judge("the same TxId, cut before its `<`", three, first + item + 2, 3, first + item + 2, 0);
    three[first + item] = '_';
    judge("no reference", three, all, 7, first + item, 0);
}

/* The judge and the item of the example, whole and without its last byte. */
static void check_message(const uint8_t *message, size_t length)
{
    uint64_t answer[BULK_ANSWER];
    judge("judge", message, length, 0, 1, 1234);
    judge("judge, cut", message, length - 1, 3, length - 1, 0);
    fill(0xfffffff0);
    bulk_item(message, length, 0, lent, BULK_INDEX, answer);
    hold("item", answer, 0, behind(message, "</GrpHdr>"), behind(message, "</DrctDbtTxInf>"));
    hold_index("item", 0xfffffff0, BULK_INDEX, 1);
    fill(7);
    bulk_item(message, length, 1, lent, BULK_INDEX, answer);
    hold("item, not there", answer, 18, 0, 0);
    hold_index("item, not there", 7, BULK_INDEX, 1);
}

/* The example in version 001.08: another root, and each BIC is BICFI. Answers its length. */
static size_t in_08(const uint8_t *message, size_t length, uint8_t *other)
{
    size_t at, written = 0;
    for (at = 0; at < length; at++) {
        if (message[at] == '>' && at >= 3 && memcmp(message + at - 3, "BIC", 3) == 0) {
            other[written++] = 'F';
            other[written++] = 'I';
        }
        other[written++] = message[at];
    }
    other[behind(other, "pacs.003.001.0")] = '8';
    return written;
}

/* Both versions: each under its own root, one under the other's, and under a root of neither. */
static void check_versions(const uint8_t *message, size_t length)
{
    static uint8_t other[4096];
    size_t number = (size_t)behind(message, "pacs.003.001.0");
    size_t other_length = in_08(message, length, other);
    judge("judge, version 001.08", other, other_length, 0, 1, 1234);
    other[number] = '2';
    judge("judge, BICFI in version 001.02", other, other_length, 4, behind(other, "<FinInstnId>"), 0);
    other[number] = '9';
    judge("judge, neither version", other, other_length, 2, 0, 0);
    memcpy(other, message, length);
    other[number] = '8';
    judge("judge, BIC in version 001.08", other, length, 4, behind(message, "<FinInstnId>"), 0);
}

/* A book with two places more than it must have: as entries, and as the bytes that the header names. */
#define ENTRY 72
#define PLACES (BULK_BOOK + 2)
typedef union book {
    bulk_entry entries[PLACES];
    uint8_t bytes[PLACES * ENTRY];
} book;

static book open_bulks, due;
static bulk_numbers numbers;

/* The layout by which this file is compiled is the one that the header names. */
static void check_layout(void)
{
    if (sizeof(bulk_entry) != ENTRY || sizeof(book) != PLACES * ENTRY || offsetof(bulk_entry, key) != 0 ||
        offsetof(bulk_entry, unused) != 60 || offsetof(bulk_entry, cents) != 64 || sizeof(bulk_numbers) != 16 ||
        offsetof(bulk_numbers, open) != 0 || offsetof(bulk_numbers, total) != 8) {
        printf("bulk_entry, bulk_numbers: not the layout of the header\n");
        wrong++;
    }
}

/* Holds every place to what is due there: the key at 0, the cents at 64; and the two numbers. */
static void hold_book(const char *what, uint64_t opened, uint64_t total)
{
    if (numbers.open != opened || numbers.total != total) {
        printf("%s: the number open or the total is not as it must be\n", what);
        wrong++;
    }
    for (size_t i = 0; i < PLACES; i++) {
        const uint8_t *is = open_bulks.bytes + ENTRY * i, *must = due.bytes + ENTRY * i;
        if (memcmp(is, must, BULK_KEY) != 0 || memcmp(is + 64, must + 64, 8) != 0) {
            printf("%s: place %d of the book is not as it must be\n", what, (int)i);
            wrong++;
        }
    }
}

/* The example's key, byte by byte, with number i in its MsgId, `MSG/1`: `MSG00`, `MSG01` and so on. */
static void make_key(uint8_t key[BULK_KEY], size_t i)
{
    memset(key, ' ', BULK_KEY);
    memcpy(key, "CORE", 4);
    memcpy(key + 4, "MSG", 3);
    key[7] = (uint8_t)('0' + i / 10);
    key[8] = (uint8_t)('0' + i % 10);
    memcpy(key + 39, "BANKDEFF", 8);
    memcpy(key + 50, "2010-12-03", 10);
}

/* An entry by the offsets of the header, without its struct. */
static void make_entry(book *of, size_t place, size_t i, uint64_t cents)
{
    make_key(of->bytes + ENTRY * place, i);
    memcpy(of->bytes + ENTRY * place + 64, &cents, 8);
}

/* Enters the example with number i in its MsgId. */
static void enter(const uint8_t *message, size_t length, size_t i, uint64_t answer[BULK_ANSWER])
{
    static uint8_t numbered[65536];
    uint8_t *id = numbered + behind(message, "<MsgId>");
    memcpy(numbered, message, length);
    id[3] = (uint8_t)('0' + i / 10);
    id[4] = (uint8_t)('0' + i % 10);
    fill((uint32_t)i);
    bulk_book_enter(open_bulks.entries, PLACES, &numbers, numbered, length, lent, BULK_INDEX, answer);
    hold_index("enter", (uint32_t)i, BULK_INDEX, 1);
}

/* 64 bulks are entered, each behind the one before; no second with the same key, and no 65th. */
static void check_enter(const uint8_t *message, size_t length)
{
    uint64_t answer[BULK_ANSWER];
    memset(open_bulks.bytes, 7, sizeof open_bulks);
    memset(due.bytes, 7, sizeof due);
    numbers.open = numbers.total = 0;
    for (size_t i = 0; i < BULK_BOOK; i++) {
        enter(message, length, i, answer);
        hold("enter", answer, 0, i + 1, 1234);
        make_entry(&due, i, i, 1234);
        hold_book("enter", i + 1, 1234 * (i + 1));
        enter(message, length, i, answer);
        hold("enter, open already", answer, 20, 0, 0);
    }
    enter(message, length, 99, answer);
    hold("enter, 64 open", answer, 21, 0, 0);
    enter(message, length - 1, 99, answer);
    hold("enter, refused by the judge", answer, 3, length - 1, 0);
    hold_book("enter, refused", BULK_BOOK, 64 * 1234);
    fill(9);
    bulk_book_enter(open_bulks.entries, PLACES, &numbers, message, length, lent, BULK_INDEX - 1, answer);
    hold("enter, an index too short", answer, 25, 0, 0);
    bulk_book_enter(open_bulks.entries, BULK_BOOK - 1, &numbers, message, length, lent, BULK_INDEX - 1, answer);
    hold("enter, no book and an index too short", answer, 29, 0, 0);
    hold_index("enter, an index too short", 9, BULK_INDEX - 1, 0);
    hold_book("enter, an index too short", BULK_BOOK, 64 * 1234);
    bulk_book_enter(open_bulks.entries, BULK_BOOK - 1, &numbers, message, length, lent, BULK_INDEX, answer);
    hold("enter, no book", answer, 29, 0, 0);
    hold_index("enter, no book", 9, BULK_INDEX, 1);
}

/* In that book: a key is found, withdrawn from the middle, and entered again as the last. */
static void check_withdraw(const uint8_t *message, size_t length)
{
    uint64_t answer[BULK_ANSWER];
    uint8_t key[BULK_KEY];
    make_key(key, 99);
    bulk_book_find(open_bulks.entries, PLACES, &numbers, key, answer);
    hold("find, none", answer, 0, 0, 0);
    bulk_book_withdraw(open_bulks.entries, PLACES, &numbers, key, answer);
    hold("withdraw, not open", answer, 22, 0, 0);
    hold_book("withdraw, not open", BULK_BOOK, 64 * 1234);
    make_key(key, 10);
    bulk_book_find(open_bulks.entries, PLACES, &numbers, key, answer);
    hold("find", answer, 0, 1, 10);
    bulk_book_withdraw(open_bulks.entries, PLACES, &numbers, key, answer);
    hold("withdraw", answer, 0, BULK_BOOK - 1, 1234);
    memmove(due.bytes + ENTRY * 10, due.bytes + ENTRY * 11, ENTRY * (BULK_BOOK - 11));
    hold_book("withdraw", BULK_BOOK - 1, 63 * 1234);
    enter(message, length, 10, answer);
    hold("enter again", answer, 0, BULK_BOOK, 1234);
    make_entry(&due, BULK_BOOK - 1, 10, 1234);
    hold_book("enter again", BULK_BOOK, 64 * 1234);
}

/* Whether so many entries, with so much stored, are a book; and that asking answers what is stored, whatever they are. */
static void check_stored(const char *what, size_t places, uint64_t opened, uint64_t total, uint64_t number)
{
    uint64_t answer[BULK_ANSWER];
    numbers.open = opened;
    numbers.total = total;
    bulk_book_total(&numbers, answer);
    hold(what, answer, 0, opened, total);
    bulk_book_check(open_bulks.entries, places, &numbers, answer);
    hold(what, answer, number, 0, 0);
}

/* A book made by hand, by offsets alone: what is none, and the highest sum. */
static void check_handmade(void)
{
    static const uint64_t most = 99999999999999999;
    check_stored("64 open", PLACES, BULK_BOOK, 64 * 1234, 0);
    check_stored("no open", BULK_BOOK, 0, 0, 0);
    check_stored("63 places", BULK_BOOK - 1, 0, 0, 29);
    make_entry(&open_bulks, BULK_BOOK, 99, 1);
    check_stored("65 open", PLACES, BULK_BOOK + 1, 64 * 1234 + 1, 29);
    make_entry(&open_bulks, 0, 1, 1);
    make_entry(&open_bulks, 1, 2, most - 3);
    make_entry(&open_bulks, 2, 3, 2);
    check_stored("the highest sum", PLACES, 3, most, 0);
    make_entry(&open_bulks, 2, 3, 3);
    check_stored("a sum above", PLACES, 3, most + 1, 29);
    check_stored("a sum above, but not of the open ones", PLACES, 2, most - 2, 0);
    make_entry(&open_bulks, 2, 3, UINT64_MAX - (most - 3));
    check_stored("a sum that would wrap", PLACES, 3, 0, 29);
    make_entry(&open_bulks, 2, 1, 1);
    check_stored("two keys equal", PLACES, 3, most - 1, 29);
    check_stored("two keys equal, one of them not open", PLACES, 2, most - 2, 0);
    check_stored("another total than summing gives", PLACES, 2, most - 3, 29);
}

/* With a cent too little stored: 29 for an entry and a withdrawal, and all stays; the key is still found. */
static void check_wrong_total(const uint8_t *message, size_t length)
{
    uint64_t answer[BULK_ANSWER];
    uint8_t key[BULK_KEY];
    make_entry(&open_bulks, 0, 1, 5);
    memcpy(due.bytes, open_bulks.bytes, sizeof due);
    numbers.open = 1;
    numbers.total = 4;
    enter(message, length, 99, answer);
    hold("enter, another total", answer, 29, 0, 0);
    make_key(key, 1);
    bulk_book_withdraw(open_bulks.entries, PLACES, &numbers, key, answer);
    hold("withdraw, another total", answer, 29, 0, 0);
    hold_book("another total", 1, 4);
    bulk_book_find(open_bulks.entries, PLACES, &numbers, key, answer);
    hold("find, another total", answer, 0, 1, 0);
}

/* The record of the example, in an area too small and in one that is larger, by either engine. */
static void check_records(recorder *of, const uint8_t *message, size_t length, const uint8_t record[BULK_RECORD])
{
    uint64_t answer[BULK_ANSWER];
    uint8_t area[BULK_RECORD + 1];
    memset(area, 7, sizeof area);
    fill(3);
    of(message, length, area, sizeof area, lent, BULK_INDEX - 1, answer);
    hold("records, an index too short", answer, 25, 0, 0);
    hold_index("records, an index too short", 3, BULK_INDEX - 1, 0);
    of(message, length, area, BULK_RECORD - 1, lent, BULK_INDEX, answer);
    hold("records, an area too small", answer, 17, 0, 0);
    hold_index("records, an area too small", 3, BULK_INDEX, 1);
    if (area[0] != 7 || memcmp(area, area + 1, BULK_RECORD) != 0) {
        printf("records, an area too small: the area is not as lent\n");
        wrong++;
    }
    of(message, length, area, sizeof area, lent, BULK_INDEX, answer);
    hold("records", answer, 0, 1, 1234);
    if (memcmp(area, record, BULK_RECORD) != 0 || area[BULK_RECORD] != 7) {
        printf("records: not the record, or more than it\n");
        wrong++;
    }
}

/* The example without its InstrId: its record has spaces there, and all else is as before. */
static void check_no_instruction(const uint8_t *message, size_t length, const uint8_t record[BULK_RECORD])
{
    static uint8_t shorter[65536];
    size_t start = behind(message, "<PmtId>"), end = behind(message, "</InstrId>");
    uint64_t answer[BULK_ANSWER];
    uint8_t area[BULK_RECORD], due[BULK_RECORD];
    memcpy(shorter, message, start);
    memcpy(shorter + start, message + end, length - end);
    bulk_records(shorter, length - (end - start), area, sizeof area, lent, BULK_INDEX, answer);
    hold("records, no InstrId", answer, 0, 1, 1234);
    memcpy(due, record, BULK_RECORD);
    memset(due + 255, ' ', 35);
    if (memcmp(area, due, BULK_RECORD) != 0 || memcmp(due, record, BULK_RECORD) == 0) {
        printf("records, no InstrId: not spaces in its place, or not the rest of the record\n");
        wrong++;
    }
}

/* The plain form of the example, which lacks but the declaration: in an area too small and in one that is larger. */
static void check_plain(const uint8_t *message, size_t length)
{
    static const char declaration[] = "<?xml version=\"1.0\" encoding=\"UTF-8\"?>";
    static uint8_t area[65536 + sizeof declaration];
    size_t before = sizeof declaration - 1, whole = before + length;
    uint64_t answer[BULK_ANSWER];
    memset(area, 7, sizeof area);
    fill(5);
    bulk_plain(message, length, area, whole + 1, lent, BULK_INDEX - 1, answer);
    hold("plain, an index too short", answer, 25, 0, 0);
    hold_index("plain, an index too short", 5, BULK_INDEX - 1, 0);
    bulk_plain(message, length, area, whole - 1, lent, BULK_INDEX, answer);
    hold("plain, an area too small", answer, 17, 0, 0);
    hold_index("plain, an area too small", 5, BULK_INDEX, 1);
    if (area[0] != 7 || memcmp(area, area + 1, sizeof area - 1) != 0) {
        printf("plain, an area too small: the area is not as lent\n");
        wrong++;
    }
    bulk_plain(message, length, area, whole + 1, lent, BULK_INDEX, answer);
    hold("plain", answer, 0, whole, 0);
    if (memcmp(area, declaration, before) != 0 || memcmp(area + before, message, length) != 0 || area[whole] != 7) {
        printf("plain: not the plain form, or more than it\n");
        wrong++;
    }
}

/* The example with white space beside its EndToEndId: record and plain form hold the collapsed value, so both are the example's. */
static void check_collapsed(const uint8_t *message, size_t length, const uint8_t record[BULK_RECORD])
{
    static uint8_t spelled[65536 + 2], form[65536 + 38], other[65536 + 38];
    size_t start = behind(message, "<EndToEndId>"), end = behind(message, "</EndToEndId>") - strlen("</EndToEndId>");
    uint64_t answer[BULK_ANSWER];
    uint8_t area[BULK_RECORD];
    memcpy(spelled, message, start);
    spelled[start] = '\t';
    memcpy(spelled + start + 1, message + start, end - start);
    spelled[end + 1] = '\n';
    memcpy(spelled + end + 2, message + end, length - end);
    bulk_records(spelled, length + 2, area, sizeof area, lent, BULK_INDEX, answer);
    hold("records, collapsed", answer, 0, 1, 1234);
    bulk_plain(message, length, form, sizeof form, lent, BULK_INDEX, answer);
    bulk_plain(spelled, length + 2, other, sizeof other, lent, BULK_INDEX, answer);
    hold("plain, collapsed", answer, 0, length + 38, 0);
    if (memcmp(area, record, BULK_RECORD) != 0 || memcmp(form, other, sizeof form) != 0) {
        printf("collapsed: not the record, or not the plain form\n");
        wrong++;
    }
}

/* A day of the example, under the MsgIds `MSG00` and so on: its messages one after another, and where each ends. */
#define MESSAGES 3
static uint8_t buffer[MESSAGES * 65536];
static uint64_t ends[MESSAGES];

/* Three messages of the day, the second one of B2B. */
static void make_messages(const uint8_t *message, size_t length)
{
    size_t at, i, written = 0;
    for (i = 0; i < MESSAGES; i++) {
        uint8_t *one = buffer + written;
        memcpy(one, message, length);
        at = behind(message, "<MsgId>");
        one[at + 3] = '0';
        one[at + 4] = (uint8_t)('0' + i);
        written += length;
        if (i == 1) {
            at = behind(message, "<LclInstrm><Cd>");
            memmove(one + at + 3, one + at + 4, length - at - 4);
            memcpy(one + at, "B2B", 3);
            written--;
        }
        ends[i] = written;
    }
}

/* A record by the offsets of the header. */
static void make_record(uint8_t *record, const char *time, char call, const char *service, size_t i)
{
    memset(record, ' ', BULK_PLAYED_RECORD);
    memcpy(record, time, 25);
    record[25] = (uint8_t)call;
    memcpy(record + 26, service, strlen(service));
    memcpy(record + 30, "BANKDEFF", 8);
    memcpy(record + 41, "2010-12-03", 10);
    memcpy(record + 51, "MSG00", 5);
    record[55] = (uint8_t)('0' + i);
    record[63] = '\n';
}

/* Plays so many bytes of a recording, and holds the answer: CORE RCUR and B2B RCUR are the only cents that may be open. */
static void play(const char *what, const uint8_t *recording, size_t length, uint64_t number, uint64_t record, uint64_t core,
                 uint64_t b2b)
{
    const uint64_t must[BULK_PLAYED] = {number, record, 0, core, 0, 0, 0, b2b, 0, 0};
    uint64_t answer[BULK_PLAYED];
    memset(answer, 7, sizeof answer);
    fill(13);
    bulk_play(recording, length, buffer, sizeof buffer, ends, MESSAGES, open_bulks.entries, PLACES, &numbers, lent, BULK_INDEX,
              answer);
    hold_index(what, 13, BULK_INDEX, 1);
    if (memcmp(answer, must, sizeof must) != 0) {
        printf("%s: %llu %llu, or its table, is not as it must be\n", what, (unsigned long long)answer[0],
               (unsigned long long)answer[1]);
        wrong++;
    }
}

/* A book with something in it, as it is lent to playback. */
static void lend_book(void)
{
    memset(open_bulks.bytes, 7, sizeof open_bulks);
    memset(due.bytes, 7, sizeof due);
    numbers.open = numbers.total = 7;
}

/* The hour that October has twice: three bulks are entered, and the first one goes, which stays behind the open ones. */
static void check_play(const uint8_t *message, size_t length)
{
    static const char *const times[] = {"2026-10-25T02:30:00+02:00", "2026-10-25T02:30:00+01:00"};
    static uint8_t records[4 * BULK_PLAYED_RECORD];
    make_messages(message, length);
    make_record(records, times[0], 'E', "CORE", 0);
    make_record(records + 64, times[0], 'E', "B2B", 1);
    make_record(records + 128, times[1], 'E', "CORE", 2);
    make_record(records + 192, times[1], 'W', "CORE", 0);
    lend_book();
    play("play", records, sizeof records, 0, 4, 1234, 1234);
    make_entry(&due, 0, 1, 1234);
    memset(due.bytes, ' ', 4);
    memcpy(due.bytes, "B2B", 3);
    make_entry(&due, 1, 2, 1234);
    make_entry(&due, 2, 2, 1234);
    hold_book("play", 2, 2468);
    lend_book();
    play("play, a short last record", records, 65, 26, 1, 0, 0);
    make_entry(&due, 0, 0, 1234);
    hold_book("play, a short last record", 1, 1234);
    play("play, messages left over", records, 64, 28, 1, 0, 0);
    hold_book("play, messages left over", 1, 1234);
    memcpy(records + 64, times[1], 25);
    memcpy(records + 128, times[0], 25);
    play("play, the hour backwards", records, sizeof records, 27, 2, 0, 0);
    records[26] = 'B';
    play("play, no service", records, sizeof records, 26, 0, 0, 0);
    memcpy(records + 26, "B2B ", 4);
    play("play, another key", records, sizeof records, 28, 0, 0, 0);
    ends[0]--;
    play("play, a message cut", records, sizeof records, 3, 0, 0, 0);
    ends[0] = UINT64_MAX;
    play("play, an end past the buffer", records, sizeof records, 28, 0, 0, 0);
}

/* 25 before 29, and both leave the book as lent. */
static void check_play_lent(void)
{
    uint64_t answer[BULK_PLAYED];
    lend_book();
    fill(17);
    bulk_play(buffer, 0, buffer, 0, ends, 0, open_bulks.entries, BULK_BOOK - 1, &numbers, lent, BULK_INDEX - 1, answer);
    hold("play, an index too short", answer, 25, 0, 0);
    hold_index("play, an index too short", 17, BULK_INDEX - 1, 0);
    bulk_play(buffer, 0, buffer, 0, ends, 0, open_bulks.entries, BULK_BOOK - 1, &numbers, lent, BULK_INDEX, answer);
    hold("play, 63 places", answer, 29, 0, 0);
    hold_book("play, as lent", 7, 7);
    bulk_play(buffer, 0, buffer, 0, ends, 0, open_bulks.entries, BULK_BOOK, &numbers, lent, BULK_INDEX, answer);
    hold("play, nothing", answer, 0, 0, 0);
    hold_book("play, nothing", 0, 0);
}

int main(int words, char **word)
{
    static uint8_t message[65536], record[BULK_RECORD + 1];
    size_t length = words == 3 ? contents(word[1], message, sizeof message) : 0;
    if (length == 0 || contents(word[2], record, sizeof record) != BULK_RECORD) {
        printf("from_c MESSAGE RECORD: the paper's example and its record\n");
        return 2;
    }
    check_values();
    check_message(message, length);
    check_index(message, length);
    check_twice(message, length);
    check_versions(message, length);
    check_layout();
    check_enter(message, length);
    check_withdraw(message, length);
    check_handmade();
    check_wrong_total(message, length);
    check_records(bulk_records, message, length, record);
    check_records(bulk_records_by_table, message, length, record);
    check_no_instruction(message, length, record);
    check_plain(message, length);
    check_collapsed(message, length, record);
    check_play(message, length);
    check_play_lent();
    return wrong ? 1 : 0;
}
