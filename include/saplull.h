/* The functions of the static library libhost.a, for hosts in C11 and C++. `./library.sh` writes the library.
 *
 * A book is SAPLULL_BOOK_WORDS words that the host owns and lends for the time of a call. The library keeps nothing
 * between calls: calls on different books may run at the same time, and so may calls that take one book as const; a
 * call that writes a book is the only one on it. Only these functions write the words.
 *
 * A seat calls, then saves durably, and only then sends the reply. A seat that sends first and loses its power forgets
 * that it has acked a slip, and may ack another one with the same number. For the same reason it goes on with the last
 * book that it saved, and never with an earlier one or with a new one.
 *
 * Of every function: no pointer is NULL, also where its length is 0; a buffer that is not const overlaps no other; a
 * buffer is at least as long as stated; `length` is how many bytes the pointer before it leads to. A buffer that is
 * const is left as it was. All bytes and numbers are allowed, and every call returns. Numbers in bytes are
 * little-endian.
 *
 * What is no message or no page, handed over by itself, to ledger_call or ledger_open: a body or a page of the wrong
 * length gets 15; a kind that is no message gets 14; and a seat other than 0 where the kind has none gets 14. There 14
 * is tried before 15, and both before all else. bundle_write has an order of its own, and says it. */
#ifndef SAPLULL_H
#define SAPLULL_H

#include <stdbool.h>
#include <stddef.h>
#include <stdint.h>

#ifdef __cplusplus
extern "C" {
#endif

/* The version of this header, of the package saplull and of the tools. */
#define SAPLULL_VERSION "0.7.0"

/* Sizes. A host asks ledger_words() and ledger_saved_size() once, at its start: where they differ from the sizes here,
 * header and library are of different versions. */
#define SAPLULL_BOOK_WORDS 1380       /* words of a book */
#define SAPLULL_HELD_WORDS 1252       /* words of a book held from before request 5 of document 02 */
#define SAPLULL_REPLY_WORDS 5         /* words of a reply */
#define SAPLULL_EVIDENCE_WORDS 11     /* words of what bundle_evidence replies */
#define SAPLULL_SAVED_SIZE 5532       /* bytes of a saved book */
#define SAPLULL_PAGE_SIZE 131         /* bytes of an opening page: n, f, k (1 each), 32 balances (4 each) */
#define SAPLULL_TRANSFER_SIZE 10      /* bytes of a slip: account (1), number, value (4 each), recipient (1) */
#define SAPLULL_QUESTION_SIZE 1       /* bytes of a question: account */
#define SAPLULL_RECORD_SIZE 12        /* bytes of a message for bundle_write: kind (1), seat (1), ten bytes of a body */
#define SAPLULL_LIST_SIZE 32          /* bytes that every waiting list fits */
#define SAPLULL_TEXT_SIZE 36828       /* bytes that every text of daybook fits */
#define SAPLULL_LONGEST_BUNDLE 18123  /* bytes that every bundle fits */

/* Kinds of messages. The body of kinds 1 to 4 is a slip, that of kind 5 a question. */
#define SAPLULL_KIND_REQUEST 1        /* a home's new slip */
#define SAPLULL_KIND_SLIP 2           /* a circulated slip */
#define SAPLULL_KIND_ACK 3            /* a seat's ack of a slip; the one kind that has a seat */
#define SAPLULL_KIND_RULING 4         /* the council's slip */
#define SAPLULL_KIND_QUESTION 5       /* an account, whose balance is asked */

/* Codes of refusals, as documents 01 and 02 number them. */
#define SAPLULL_CODE_BAD_GROUP 1 /* n outside 1 to 16, or 5 * f >= n */
#define SAPLULL_CODE_BAD_ACCOUNTS 2 /* k outside 1 to 32, or a balance behind the k-th that is not 0 */
#define SAPLULL_CODE_SUM_TOO_LARGE 3 /* opening sum above the limit */
#define SAPLULL_CODE_UNKNOWN_SEAT 4 /* an ack's seat is n or more */
#define SAPLULL_CODE_OUT_OF_RANGE 5 /* account or recipient is k or more, number 0, value 0, or value above the opening
                                       sum; for a balance question: account is k or more */
#define SAPLULL_CODE_PAST_NUMBER 6 /* number at or below current */
#define SAPLULL_CODE_FUTURE_NUMBER 7 /* number above current + 1 */
#define SAPLULL_CODE_ALREADY_ACCEPTED 8 /* a slip with this account and number is accepted and waits */
#define SAPLULL_CODE_ACK_REPEATED 9 /* an ack from the ack's seat is recorded for this number and its slip is equal */
#define SAPLULL_CODE_ACK_CONFLICTING 10 /* an ack from the ack's seat is recorded for this number and its slip
                                           conflicts */
#define SAPLULL_CODE_INSUFFICIENT_FUNDS 11 /* request or slip with a value above the balance */
#define SAPLULL_CODE_ALREADY_ACKED 12 /* slip for a number that this seat has acked */
#define SAPLULL_CODE_BAD_HEADER 13 /* fewer than 2 bytes, m outside 1 to 1,000, or fewer than 2 + 8m bytes */
#define SAPLULL_CODE_BAD_CONTENTS 14 /* a wrong contents entry; handed over by itself: a kind that is no message, or a
                                        seat where the kind has none */
#define SAPLULL_CODE_BAD_END 15 /* the bundle does not end with its last body; handed over by itself: a body or page of
                                   another length */
#define SAPLULL_CODE_BAD_SUM 16 /* a wrong sum */
#define SAPLULL_CODE_SHORT_BUFFER 17 /* waiting-list buffer under 32 bytes */
#define SAPLULL_CODE_TOO_MANY_MESSAGES 18 /* more than 999 messages */
#define SAPLULL_CODE_NO_ROOM 19 /* the buffer is shorter than the bundle */
#define SAPLULL_CODE_SELF_PAYMENT 20 /* request or slip whose recipient is the payer */
#define SAPLULL_CODE_PAGES_DIFFER 21 /* the two bundles' opening pages differ */

/* Why a saved book is not loaded; above all codes of the documents. */
#define SAPLULL_LOAD_WRONG_MARK 101 /* it does not begin with the mark of a saved book */
#define SAPLULL_LOAD_UNKNOWN_FORMAT 102 /* the number of its format is unknown */
#define SAPLULL_LOAD_WRONG_LENGTH 103 /* it is shorter or longer than its format */
#define SAPLULL_LOAD_WRONG_SUM 104 /* its sum is wrong: bytes of it have changed */

/* How many words a book has, and how many bytes a saved one. */
uint32_t ledger_words(void);
uint32_t ledger_saved_size(void);

/* Opens the book from a page, whatever the words were. Returns 0; or the code, and each word is as it was: 15 where
 * `length` is not SAPLULL_PAGE_SIZE, then 1, 2, 3. Words that are all 0 are a book that refuses every message. */
uint8_t ledger_open(uint32_t words[SAPLULL_BOOK_WORDS], const uint8_t *page, size_t length);

/* Plays one message on the book. The seat is an ack's sender, else 0. Writes all five words of `reply`: the letter in
 * ASCII, what it carries, and zeros.
 *     C  circulate the slip               A  ack the slip
 *     K  accepted; how many were booked   P  put forward; account, number, value, recipient
 *     N  noted                            B  the balance
 *     R  refused; the code, 4 to 12, 14, 15 or 20, and each word of the book is as it was */
void ledger_call(uint32_t words[SAPLULL_BOOK_WORDS], uint8_t kind, uint8_t seat, const uint8_t *body, size_t length,
                 uint32_t reply[SAPLULL_REPLY_WORDS]);

/* Writes the accounts with a waiting slip, lowest first, into the front of `list`; the bytes behind them are left as
 * they were. Returns how many; or 256 times 17 where `length` is under SAPLULL_LIST_SIZE, and the list is as it was. */
uint32_t ledger_waiting(const uint32_t words[SAPLULL_BOOK_WORDS], uint8_t *list, size_t length);

/* Takes over a book held from before request 5 of document 02, which stays as it was; `words` is the book from then on,
 * whatever it was. */
void ledger_switch(const uint32_t held[SAPLULL_HELD_WORDS], uint32_t words[SAPLULL_BOOK_WORDS]);

/* Writes all bytes of `saved`: the letters SAPL, the number of the format (4 bytes: 1), the words (4 bytes each), and
 * bundle_sum of all bytes before it (4 bytes). */
void ledger_save(const uint32_t words[SAPLULL_BOOK_WORDS], uint8_t saved[SAPLULL_SAVED_SIZE]);

/* Loads a saved book, whatever the words were. Returns 0, and the words are exactly those that were saved; or one of
 * SAPLULL_LOAD_.., tried in the order of their numbers, and each word is as it was. */
uint8_t ledger_load(uint32_t words[SAPLULL_BOOK_WORDS], const uint8_t *saved, size_t length);

/* How many equal acks accept a slip in a group of so many seats, of which so many may misbehave. */
uint16_t ledger_acks_needed(uint8_t seats, uint8_t faults);

/* Whether so many equal acks accept a slip. */
bool ledger_is_enough(uint8_t seats, uint8_t faults, uint8_t acks);

/* Writes the text that the program `daybook` writes for these bytes into the front of `text`; the bytes behind it are
 * left as they were. Returns its length. */
size_t daybook_text(const uint8_t *bytes, size_t length, uint8_t text[SAPLULL_TEXT_SIZE]);

/* Writes the waiting list behind the bundle's last message, as ledger_waiting does. Returns how many; or 256 times the
 * code, and the list is as it was: 13 to 16 of the bundle, 1 to 3 of its opening page, then 17. */
uint32_t daybook_waiting(const uint8_t *bytes, size_t length, uint8_t *list, size_t list_length);

/* Returns how many entries a sound bundle has, 1 to 1,000; or 65,536 times the code, 13 to 16, and the entry (0 where
 * the code is 13 or 15). */
uint32_t bundle_check(const uint8_t *bytes, size_t length);

/* The sum of a body, as a bundle's contents entry has it. */
uint32_t bundle_sum(const uint8_t *body, size_t length);

/* Writes the bundle of an opening page and of messages, SAPLULL_RECORD_SIZE bytes each (of a question's body only the
 * account is read), into the front of `out`; the bytes behind it are left as they were. Returns its length; or 65,536
 * times the code and the entry (0 where the code is not 14), and `out` is as it was. Tried in this order: 18; 14 for
 * the lowest record that is no message; 15 where the last record is not whole; 19. SAPLULL_LONGEST_BUNDLE bytes of
 * `out` are always enough. */
uint32_t bundle_write(const uint8_t page[SAPLULL_PAGE_SIZE], const uint8_t *records, size_t length, uint8_t *out,
                      size_t out_length);

/* Looks for a seat that acked two slips: an ack in the first bundle and one in the second, from one seat below n, whose
 * slips have equal accounts and numbers, and values or recipients that differ. Of all such pairs it takes that with the
 * lowest entry in the first bundle, and of these that with the lowest in the second. An ack counts as it stands in its
 * bundle, also where a book would refuse it; n is the page's, also where it opens no book. `ruled` is a slip as a body
 * has it; where none was ruled, one with number 0 will do, which no book takes. Of the two bodies the first bundle's is
 * shown, or the second's where the slip of the first is the ruled one. Writes all eleven words of `reply`:
 *     found    0, 1, the seat, the entry in the first bundle, the entry in the second, the bundle of the body that is
 *              shown (1 the first, 2 the second), where in it that body starts (it has SAPLULL_TRANSFER_SIZE bytes),
 *              and the slip that it says: account, number, value, recipient
 *     none     zeros
 *     refused  the code, the bundle (1 or 2; 0 with 21), the entry (0 with 13, 15 and 21), and zeros
 * Tried in this order: 13 to 16 of the first bundle, 13 to 16 of the second, 21. Both may be the same bytes. */
void bundle_evidence(const uint8_t *first, size_t first_length, const uint8_t *second, size_t second_length,
                     const uint8_t ruled[SAPLULL_TRANSFER_SIZE], uint32_t reply[SAPLULL_EVIDENCE_WORDS]);

#ifdef __cplusplus
}
#endif

#endif
