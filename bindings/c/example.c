/* Reads what a server sent from standard input, by pieces, and prints a line for each response as soon as it is there: its
 * kind and how many bytes it has, as imap_cat does, or with the word `json` all that it says, as imap_jsonl does. The last
 * line tells what is left: `end`, `waiting N` or `denied N`, or the same in JSON. The exit status is 0, 2 or 3 by that, and 1
 * after a fault. A number as an argument says how many bytes a piece has (4096). */
#include "imap.h"

#include <stdio.h>
#include <stdlib.h>
#include <string.h>

static const char *const kind_names[] = {
    [IMAP_CAPABILITIES] = "capabilities", [IMAP_CONTINUE] = "continue",       [IMAP_DONE] = "done",
    [IMAP_DATA] = "data",                 [IMAP_EXPUNGE] = "expunge",         [IMAP_VANISHED] = "vanished",
    [IMAP_FETCH] = "fetch",               [IMAP_MAILBOX_DATA] = "mailboxdata", [IMAP_QUOTA] = "quota",
    [IMAP_QUOTA_ROOT] = "quotaroot",      [IMAP_ID] = "id",                   [IMAP_ACL] = "acl",
    [IMAP_LIST_RIGHTS] = "listrights",    [IMAP_MY_RIGHTS] = "myrights",
};

/* A buffer of `length` bytes with room for `room`. */
struct buffer {
    uint8_t *bytes;
    size_t length, room;
};

/* What was read and is not yet told, and a text of JSON, if that is asked for. */
struct held {
    struct buffer sent, text;
    struct imap_cursor cursor;
    bool as_json;
};

static bool make_room(struct buffer *buffer, size_t more) {
    if (buffer->room - buffer->length >= more) return true;
    size_t room = 2 * buffer->length + more;
    uint8_t *bytes = realloc(buffer->bytes, room);
    if (bytes == NULL) return false;
    buffer->bytes = bytes;
    buffer->room = room;
    return true;
}

/* Drops what was told, and makes room for a piece behind what is held. */
static bool make_room_for_piece(struct held *held, size_t piece) {
    struct buffer *sent = &held->sent;
    size_t start = held->cursor.start;
    if (start > 0 && start >= sent->length - start) {
        memmove(sent->bytes, sent->bytes + start, sent->length - start);
        sent->length -= start;
        held->cursor.start = 0;
    }
    return make_room(sent, piece);
}

/* Prints the response that stands at a place of what is held. */
static uint32_t tell_json(struct held *held, size_t start) {
    struct buffer *text = &held->text;
    const uint8_t *bytes = held->sent.bytes + start;
    size_t length = held->sent.length - start;
    struct imap_text_answer answer = imap_json(bytes, length, text->bytes, text->room);
    if (answer.outcome == IMAP_FOUND && answer.size > text->room) {
        if (!make_room(text, answer.size)) return IMAP_OUT_OF_MEMORY;
        answer = imap_json(bytes, length, text->bytes, text->room);
    }
    if (answer.outcome != IMAP_FOUND) return answer.outcome;
    fwrite(text->bytes, 1, answer.size, stdout);
    putchar('\n');
    return IMAP_FOUND;
}

/* Prints all responses that are held, and answers why there are no more. */
static uint32_t tell_all(struct held *held) {
    for (;;) {
        size_t start = held->cursor.start;
        struct imap_answer answer = imap_next(held->sent.bytes, held->sent.length, &held->cursor);
        if (answer.outcome != IMAP_FOUND) return answer.outcome;
        if (!held->as_json) {
            printf("%s %zu\n", kind_names[answer.kind], answer.consumed);
        } else if (tell_json(held, start) != IMAP_FOUND) {
            return IMAP_OUT_OF_MEMORY;
        }
    }
}

/* Prints the last line, and answers the exit status. */
static int tell_end(const struct held *held, const char *name, size_t left, int status) {
    int printed;
    if (held->as_json) {
        printed = printf("{\"end\":\"%s\",\"left\":%zu}\n", name, left);
    } else if (status == 0) {
        printed = printf("end\n");
    } else {
        printed = printf("%s %zu\n", name, left);
    }
    return printed < 0 ? 1 : status;
}

/* Reads to the end, and answers how many bytes there were. */
static size_t count_on(void) {
    uint8_t bytes[4096];
    size_t count = 0, n;
    while ((n = fread(bytes, 1, sizeof bytes, stdin)) > 0) count += n;
    return count;
}

/* Reads standard input, and answers the exit status. */
static int run(size_t piece, struct held *held) {
    uint32_t outcome = IMAP_WAITS;
    while (outcome == IMAP_WAITS) {
        if (!make_room_for_piece(held, piece)) return 1;
        size_t n = fread(held->sent.bytes + held->sent.length, 1, piece, stdin);
        if (n == 0) break;
        held->sent.length += n;
        outcome = tell_all(held);
        if (fflush(stdout) == EOF) return 1;
    }
    size_t left = held->sent.length - held->cursor.start;
    if (outcome == IMAP_DENIED) left += count_on();
    if (ferror(stdin) || (outcome != IMAP_WAITS && outcome != IMAP_DENIED)) return 1;
    if (outcome == IMAP_DENIED) return tell_end(held, "denied", left, 3);
    if (left == 0) return tell_end(held, "end", 0, 0);
    return tell_end(held, held->as_json ? "waits" : "waiting", left, 2);
}

int main(int count, char **arguments) {
    struct held held = {0};
    size_t piece = 4096;
    for (int k = 1; k < count; k++) {
        if (strcmp(arguments[k], "json") == 0) {
            held.as_json = true;
        } else {
            piece = strtoul(arguments[k], NULL, 10);
        }
    }
    int status = piece == 0 ? 1 : run(piece, &held);
    free(held.sent.bytes);
    free(held.text.bytes);
    if (fflush(stdout) == EOF) status = 1;
    if (status == 1) fprintf(stderr, "fault\n");
    return status;
}
