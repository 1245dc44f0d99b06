/* The host of one seat, in C; hosts/seat.rs is the same in Rust. One process at a time runs it on a file:
 * `seat open FILE` opens a book, plays seven messages and keeps it in FILE; `seat go-on FILE` plays five more on it.
 * For each message: call, save durably, then send. A seat that sends first and loses its power forgets that it has
 * acked a slip, and may ack another one with the same number. A reply that is saved and not sent is no worse than one
 * that the network loses. */
#define _POSIX_C_SOURCE 200809L
#include "saplull.h"
#include <errno.h>
#include <fcntl.h>
#include <libgen.h>
#include <stdio.h>
#include <stdlib.h>
#include <string.h>
#include <unistd.h>

/* What comes in: kind, seat and body. A host gets these from its network, and checks their signatures first. */
#define FIRST 0, 1, 0, 0, 0, 4, 0, 0, 0, 1 /* a slip: account 0, number 1, value 4, recipient 1 */
#define NEXT 0, 2, 0, 0, 0, 6, 0, 0, 0, 1
enum { SLIP = SAPLULL_KIND_SLIP, ACK = SAPLULL_KIND_ACK, QUESTION = SAPLULL_KIND_QUESTION };
static const uint8_t MESSAGES[][SAPLULL_RECORD_SIZE] = {
    {SLIP, 0, FIRST}, {ACK, 0, FIRST}, {ACK, 1, FIRST}, {ACK, 2, FIRST}, {ACK, 3, FIRST}, {ACK, 4, FIRST},
    {QUESTION, 0, 1}, {QUESTION, 0, 1}, {SLIP, 0, FIRST}, {SLIP, 0, NEXT}, {SLIP, 0, NEXT}, {ACK, 0, NEXT},
};
static const char START_AGAIN[] = "not sent; see to the disk and start again";
static const char BRING_BACK[] = "bring back the last book that this seat saved, never an earlier or a new one";

/* Ends the host unless all is well. It tells the file, what is wrong with it (NULL: what errno says), what to do. */
static void check(bool well, const char *file, const char *what, const char *to_do) {
    if (!well) {
        fprintf(stderr, "%s: %s; %s\n", file, what == NULL ? strerror(errno) : what, to_do);
        exit(EXIT_FAILURE);
    }
}

/* The new bytes are durable before they take the old ones' place: whenever the power fails, a whole book is there. */
static void save(const uint32_t book[SAPLULL_BOOK_WORDS], const char *file) {
    uint8_t saved[SAPLULL_SAVED_SIZE];
    char fresh[FILENAME_MAX];
    check(snprintf(fresh, sizeof fresh, "%s.new", file) < FILENAME_MAX, file, "its name is too long", "shorten it");
    ledger_save(book, saved);
    FILE *out = fopen(fresh, "wb");
    check(out != NULL && fwrite(saved, sizeof saved, 1, out) == 1 && fflush(out) == 0 && fsync(fileno(out)) == 0 &&
          fclose(out) == 0 && rename(fresh, file) == 0, fresh, NULL, START_AGAIN);
    int folder = open(dirname(fresh), O_RDONLY); /* the new name is durable once its folder is */
    check(folder >= 0 && fsync(folder) == 0 && close(folder) == 0, file, NULL, START_AGAIN);
}

static void send_reply(int line, const uint32_t reply[SAPLULL_REPLY_WORDS]) {
    int values = reply[0] == 'P' ? 4 : reply[0] == 'K' || reply[0] == 'B' || reply[0] == 'R' ? 1 : 0;
    bool sent = printf("%d %c", line, (int)reply[0]) > 0;
    for (int i = 1; i <= values; i++) {
        sent = sent && printf(" %u", (unsigned)reply[i]) > 0;
    }
    check(sent && printf("\n") > 0 && fflush(stdout) == 0, "standard output", NULL, "saved and not sent; go on");
}

/* A seat opens its book once: another opening would forget all that the seat has acked. */
static uint8_t open_book(uint32_t book[SAPLULL_BOOK_WORDS], const char *file) {
    const uint8_t page[SAPLULL_PAGE_SIZE] = {6, 1, 2, 10, 0, 0, 0, 3}; /* n, f, k, then four bytes for each balance */
    check(access(file, F_OK) != 0, file, "it is there already", "if it is this seat's book, go on with it");
    check(errno == ENOENT, file, NULL, "take a file in a folder that is there");
    return ledger_open(book, page, sizeof page);
}

static uint8_t load_book(uint32_t book[SAPLULL_BOOK_WORDS], const char *file) {
    uint8_t saved[SAPLULL_SAVED_SIZE + 1] = {0}; /* one more, so that a longer file is seen to be longer */
    FILE *in = fopen(file, "rb");
    size_t length = in == NULL ? 0 : fread(saved, 1, sizeof saved, in);
    check(in != NULL && !ferror(in) && fclose(in) == 0, file, NULL, BRING_BACK);
    return ledger_load(book, saved, length);
}

int main(int count, char **arguments) {
    uint32_t book[SAPLULL_BOOK_WORDS], reply[SAPLULL_REPLY_WORDS];
    char refused[80];
    bool opens = count == 3 && strcmp(arguments[1], "open") == 0;
    check(opens || (count == 3 && strcmp(arguments[1], "go-on") == 0), "usage", "seat open FILE", "seat go-on FILE");
    check(ledger_words() == SAPLULL_BOOK_WORDS && ledger_saved_size() == SAPLULL_SAVED_SIZE, "saplull.h",
          "the library is of another version", "take both from one source");
    uint8_t code = opens ? open_book(book, arguments[2]) : load_book(book, arguments[2]);
    snprintf(refused, sizeof refused, "refused with code %u: include/saplull.h says what it means", code);
    check(code == 0, arguments[2], refused, opens ? "write another opening page" : BRING_BACK);
    for (int line = opens ? 1 : 8; line <= (opens ? 7 : 12); line++) {
        const uint8_t *message = MESSAGES[line - 1];
        size_t length = message[0] == QUESTION ? SAPLULL_QUESTION_SIZE : SAPLULL_TRANSFER_SIZE;
        ledger_call(book, message[0], message[1], message + 2, length, reply);
        save(book, arguments[2]);
        send_reply(line, reply);
    }
    return EXIT_SUCCESS;
}
