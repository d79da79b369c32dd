/*
 * The C face of the proved library libbulk.a, which judges one SEPA direct-debit bulk (a pacs.003 message of version 001.02 or 001.08;
 * it is read as the version that its root names).
 * docs/FACE.md tells how to link it, docs/REFUSALS.md what each refusal number means, docs/PROMISES.md what is proved.
 *
 * Each function takes any bytes, always ends, and writes all three words of the answer (bulk_play, at the end, ten):
 *
 *     0, and two values          it holds
 *     number, place, 0           it is refused
 *
 * The caller lends the bytes, the area, the index and the answer for the call. No pointer is null, also where its length is 0, and
 * what is written overlaps nothing else that is lent. The library keeps nothing, allocates nothing and has no state, so that calls
 * may run beside each other, each with an index of its own. Of other libraries it needs memcpy and memset alone. What judges a message
 * keeps a list of 40,004 bytes on the stack.
 *
 * An index is a lent list of BULK_INDEX numbers or more, which may hold anything; index_length is how many they are, and not their
 * bytes. By it no TxId twice in a bulk is found quickly. When the call returns every number of it is 0, however many they are,
 * accepted or refused. With fewer numbers than BULK_INDEX the answer is 25, 0, 0, before all others of the judge, and index and area
 * are as lent.
 */
#ifndef BULK_H
#define BULK_H

#include <stddef.h>
#include <stdint.h>

#ifdef __cplusplus
extern "C" {
#endif

/* The words of an answer. */
#define BULK_ANSWER 3

/* The bytes of one posting record; docs/PROFILE.md has its fields. */
#define BULK_RECORD 320

/* The fewest numbers of an index. */
#define BULK_INDEX 16384

/* A message: 0, its count, its cents; or number, place, 0. */
void bulk_judge(const uint8_t *message, size_t length, uint32_t *index, size_t index_length, uint64_t answer[BULK_ANSWER]);

/* The same by the table-led engine; all other calls take the straight one. On every input both answer the same. */
void bulk_judge_by_table(const uint8_t *message, size_t length, uint32_t *index, size_t index_length,
                         uint64_t answer[BULK_ANSWER]);

/* bulk_judge without an index, never 25: each TxId is compared with all before it, so its time grows with the square of the items. */
void bulk_judge_plainly(const uint8_t *message, size_t length, uint64_t answer[BULK_ANSWER]);

/* Where item i lies, from 0: 0, the place of its `<`, the place behind its `>`; or number, place, 0. It judges the whole message. */
void bulk_item(const uint8_t *message, size_t length, uint64_t i, uint32_t *index, size_t index_length,
               uint64_t answer[BULK_ANSWER]);

/* The posting records: 0, count, cents, and the area begins with the records, one for each item in order; or number, place, 0, and
 * the area is as lent. Bytes behind the last record are as lent. */
void bulk_records(const uint8_t *message, size_t length, uint8_t *area, size_t area_length, uint32_t *index, size_t index_length,
                  uint64_t answer[BULK_ANSWER]);

/* The same by the table-led engine: on every input the same answer and the same area. */
void bulk_records_by_table(const uint8_t *message, size_t length, uint8_t *area, size_t area_length, uint32_t *index,
                           size_t index_length, uint64_t answer[BULK_ANSWER]);

/* The plain form, which two messages share exactly when they say the same in one version: 0, its length, 0, and the area begins with
 * it; or number, place, 0, and the area is as lent. Bytes behind the form are as lent. It is at most 38 bytes, and 3 for the total and
 * for each item, longer than the message. */
void bulk_plain(const uint8_t *message, size_t length, uint8_t *area, size_t area_length, uint32_t *index, size_t index_length,
                uint64_t answer[BULK_ANSWER]);

/* One value: 0, 0, 0; or number, 0, 0. The number is 7; of an IBAN 7, 19 or 8, of a creditor identifier 7 or 8. An EndToEndId and the
 * two texts are judged with their white space collapsed: tab, CR and LF count as space, runs become one, ends are stripped. bulk_bic
 * judges the BIC of pacs.003.001.02, bulk_bicfi the wider one of pacs.003.001.08. */
void bulk_iban(const uint8_t *value, size_t length, uint64_t answer[BULK_ANSWER]);
void bulk_creditor_id(const uint8_t *value, size_t length, uint64_t answer[BULK_ANSWER]);
void bulk_bic(const uint8_t *value, size_t length, uint64_t answer[BULK_ANSWER]);
void bulk_bicfi(const uint8_t *value, size_t length, uint64_t answer[BULK_ANSWER]);
void bulk_date(const uint8_t *value, size_t length, uint64_t answer[BULK_ANSWER]);
void bulk_time(const uint8_t *value, size_t length, uint64_t answer[BULK_ANSWER]);
void bulk_reference(const uint8_t *value, size_t length, uint64_t answer[BULK_ANSWER]);
void bulk_end_to_end(const uint8_t *value, size_t length, uint64_t answer[BULK_ANSWER]);
void bulk_text70(const uint8_t *value, size_t length, uint64_t answer[BULK_ANSWER]);
void bulk_text140(const uint8_t *value, size_t length, uint64_t answer[BULK_ANSWER]);

/* One value: 0, the number or the cents, 0; or number, 0, 0. The number is 7; of an amount 7 or 9. */
void bulk_count(const uint8_t *value, size_t length, uint64_t answer[BULK_ANSWER]);
void bulk_item_amount(const uint8_t *value, size_t length, uint64_t answer[BULK_ANSWER]);
void bulk_header_amount(const uint8_t *value, size_t length, uint64_t answer[BULK_ANSWER]);

/* ---- The day book.
 *
 * The open bulks are a lent list of entries, the open ones first in order of entry, and beside it two numbers: the number open and
 * the open total. An empty book is 64 places or more, whatever they hold, and the numbers 0 and 0. An entry and a withdrawal that hold
 * change the list and both numbers; a refusal leaves every entry and both numbers as lent. An entry, a withdrawal and a search first
 * look whether what is lent is a book: at least 64 places, at most 64 open, no two open keys equal, the open sums together at most
 * 99,999,999,999,999,999 cents; an entry and a withdrawal also whether the stored total is what summing gives. If not, the answer is
 * 29, 0, 0. */

/* The bytes of a key. */
#define BULK_KEY 60

/* The most bulks that are open, and the fewest places that a book has. */
#define BULK_BOOK 64

/* One place of a book: 72 bytes, aligned to 8.
 *
 *     from  bytes
 *        0      4  key: service, LclInstrm of the bulk's header or of its items
 *        4     35       MsgId
 *       39     11       BIC of the instructing agent
 *       50     10       settlement date
 *       60      4  unused: never read, and no call promises what they hold afterwards
 *       64      8  cents, in the machine's order
 *
 * Each of the four has spaces behind it, up to its length. Keys are equal when all their 60 bytes are. */
typedef struct bulk_entry {
    uint8_t key[BULK_KEY];
    uint8_t unused[4];
    uint64_t cents;
} bulk_entry;

/* What stands beside the entries: two words, 16 bytes, aligned to 8. Whoever makes a book by hand stores the sum of its open ones. */
typedef struct bulk_numbers {
    uint64_t open;
    uint64_t total;
} bulk_numbers;

/* A message is entered: 0, the number open afterwards, the bulk's cents, and its entry stands behind the open ones, every other place
 * as lent; or number, place, 0: 29; 25; the judge's own with its place; 20, its key is open already; 21, 64 are open. */
void bulk_book_enter(bulk_entry *entries, size_t places, bulk_numbers *numbers, const uint8_t *message, size_t length, uint32_t *index,
                     size_t index_length, uint64_t answer[BULK_ANSWER]);

/* A key is withdrawn: 0, the number open afterwards, the bulk's cents, and the open ones behind it stand one place further down;
 * places past those that are still open keep what they held, also the one that has become free. Or number, 0, 0: 29; 22, the key is
 * not open. The key lies apart from the entries: one of an entry is copied first. */
void bulk_book_withdraw(bulk_entry *entries, size_t places, bulk_numbers *numbers, const uint8_t key[BULK_KEY],
                        uint64_t answer[BULK_ANSWER]);

/* The first open entry with the key: 0, 1, its place from 0; 0, 0, 0 where there is none; or 29, 0, 0. The stored total is not looked
 * at. */
void bulk_book_find(const bulk_entry *entries, size_t places, const bulk_numbers *numbers, const uint8_t key[BULK_KEY],
                    uint64_t answer[BULK_ANSWER]);

/* The open total as it is stored: 0, the number open, the cents. No entry is looked at, and 29 never comes. */
void bulk_book_total(const bulk_numbers *numbers, uint64_t answer[BULK_ANSWER]);

/* Whether an entry and a withdrawal take what is lent for a book: 0, 0, 0; or 29, 0, 0. */
void bulk_book_check(const bulk_entry *entries, size_t places, const bulk_numbers *numbers, uint64_t answer[BULK_ANSWER]);

/* ---- Playback: a day is rerun from its recording.
 *
 * The messages lie one after another in one buffer; ends[i] is where message i ends in it, and the next one begins. Bytes past the
 * last end are not read. Each record that enters is matched with the next message, whose key must be the record's. */

/* The bytes of one record of a recording, which has no header.
 *
 *     from  bytes
 *        0     25  time: YYYY-MM-DDThh:mm:ss, then + or - and hh:mm, at most 14:00; no fraction, no Z
 *       25      1  E, a bulk is entered, or W, a bulk is withdrawn
 *       26      4  key: service, CORE or B2B
 *       30     11       BIC of the instructing agent, in the wider form of pacs.003.001.08
 *       41     10       settlement date
 *       51     12       MsgId, at most 12 bytes
 *       63      1  LF
 *
 * Service, BIC and MsgId have spaces behind them, up to their length. */
#define BULK_PLAYED_RECORD 64

/* The words of the answer. */
#define BULK_PLAYED 10

/* The book is emptied first, whatever it is: both numbers become 0, the places keep what they held. Then each record in order makes
 * the call that it names. The answer: 0, the number of records, then the open cents by service and sequence type: CORE FRST, CORE
 * RCUR, CORE FNAL, CORE OOFF, B2B FRST, B2B RCUR, B2B FNAL, B2B OOFF, together the open total; the book is as after these calls made
 * one by one.
 *
 * Or number, the record's number from 0, eight zeros, and the book is as before that record. First 25, then 29 for under 64 places,
 * both with 0 as the record and entries and numbers as lent. Then of each record: 26, a field not of its kind, or a last record of
 * under 64 bytes; 27, its time is before that of the record before, as instants; of an entry 28, no message is left, or its end is
 * below the end before it or past the buffer; the judge's own; 28, its key is not the record's; 20, 21; of a withdrawal 22. After
 * the last record 28 with the number of records, where messages are left over. The index is as after every call. */
void bulk_play(const uint8_t *recording, size_t recording_length, const uint8_t *buffer, size_t buffer_length, const uint64_t *ends,
               size_t messages, bulk_entry *entries, size_t places, bulk_numbers *numbers, uint32_t *index, size_t index_length,
               uint64_t answer[BULK_PLAYED]);

#ifdef __cplusplus
}
#endif

#endif
