/* Each call of imap.h once and more, with what it has to answer. It prints what fails, and `ok` where nothing does. */
#include "imap.h"

#include <stdio.h>
#include <string.h>

static int failures;

#define EXPECT(condition)                                                                     \
    do {                                                                                      \
        if (!(condition)) {                                                                   \
            printf("%s:%d: %s\n", __FILE__, __LINE__, #condition);                            \
            failures++;                                                                       \
        }                                                                                     \
    } while (0)

/* A text as the bytes that a call reads. */
#define BYTES(text) ((const uint8_t *)(text)), (sizeof(text) - 1)

static bool is_answer(struct imap_answer a, uint32_t outcome, uint32_t kind, uint32_t status, uint32_t number,
                      size_t consumed, size_t missing) {
    return a.outcome == outcome && a.kind == kind && a.status == status && a.number == number &&
           a.consumed == consumed && a.missing == missing;
}

static void parses(void) {
    EXPECT(is_answer(imap_parse(BYTES("* 18 EXISTS\r\n* ")), IMAP_FOUND, IMAP_MAILBOX_DATA, 0, 18, 13, 0));
    EXPECT(is_answer(imap_parse(BYTES("* 7 EXPUNGE\r\n")), IMAP_FOUND, IMAP_EXPUNGE, 0, 7, 13, 0));
    EXPECT(is_answer(imap_parse(BYTES("* 12 FETCH (UID 4)\r\n")), IMAP_FOUND, IMAP_FETCH, 0, 12, 20, 0));
    EXPECT(is_answer(imap_parse(BYTES("a1 NO no\r\n")), IMAP_FOUND, IMAP_DONE, IMAP_STATUS_NO, 0, 10, 0));
    EXPECT(is_answer(imap_parse(BYTES("* PREAUTH hi\r\n")), IMAP_FOUND, IMAP_DATA, IMAP_STATUS_PREAUTH, 0, 14, 0));
    EXPECT(is_answer(imap_parse(BYTES("* ID NIL\r\n")), IMAP_FOUND, IMAP_ID, 0, 0, 10, 0));
    EXPECT(is_answer(imap_parse(BYTES("* 1 FETCH (BODY[] {9}\r\nab")), IMAP_WAITS, 0, 0, 0, 0, 7));
    EXPECT(is_answer(imap_parse(BYTES("* 18 EX")), IMAP_WAITS, 0, 0, 0, 0, 0));
    EXPECT(is_answer(imap_parse(BYTES("* NAMESPACE")), IMAP_DENIED, 0, 0, 0, 0, 0));
    EXPECT(is_answer(imap_parse(NULL, 0), IMAP_WAITS, 0, 0, 0, 0, 0));
}

/* A message whose literal comes in pieces, behind another response; then a line that is skipped. */
static void goes_on(void) {
    static const char sent[] = "* OK hi\r\n* 1 FETCH (BODY[] {9}\r\n012345678)\r\n* NAMESPACE\r\na1 OK done\r\n";
    const uint8_t *bytes = (const uint8_t *)sent;
    struct imap_cursor cursor = {0, 0};
    EXPECT(is_answer(imap_next(bytes, 34, &cursor), IMAP_FOUND, IMAP_DATA, IMAP_STATUS_OK, 0, 9, 0));
    EXPECT(cursor.start == 9 && cursor.wanted == 0);
    EXPECT(is_answer(imap_next(bytes, 34, &cursor), IMAP_WAITS, 0, 0, 0, 0, 7));
    EXPECT(cursor.start == 9 && cursor.wanted == 32);
    EXPECT(is_answer(imap_next(bytes, 36, &cursor), IMAP_WAITS, 0, 0, 0, 0, 5));
    EXPECT(cursor.start == 9 && cursor.wanted == 32);
    /* the nine bytes in front are dropped */
    cursor.start = 0;
    EXPECT(is_answer(imap_next(bytes + 9, 35, &cursor), IMAP_FOUND, IMAP_FETCH, 0, 1, 35, 0));
    EXPECT(cursor.start == 35 && cursor.wanted == 0);
    size_t length = sizeof sent - 1 - 9;
    EXPECT(is_answer(imap_next(bytes + 9, length, &cursor), IMAP_DENIED, 0, 0, 0, 0, 0));
    struct imap_line_answer line = imap_logical_line(bytes + 9 + cursor.start, length - cursor.start);
    EXPECT(line.consumed == 13 && line.missing == 0);
    cursor.start += line.consumed;
    EXPECT(is_answer(imap_next(bytes + 9, length, &cursor), IMAP_FOUND, IMAP_DONE, IMAP_STATUS_OK, 0, 12, 0));
    EXPECT(cursor.start == length);
    EXPECT(is_answer(imap_next(bytes + 9, length, &cursor), IMAP_WAITS, 0, 0, 0, 0, 0));
    cursor.start = length + 1;
    EXPECT(is_answer(imap_next(bytes + 9, length, &cursor), IMAP_STRANGE_CURSOR, 0, 0, 0, 0, 0));
    EXPECT(cursor.start == length + 1);
    cursor = (struct imap_cursor){0, 0};
    EXPECT(is_answer(imap_next(NULL, 0, &cursor), IMAP_WAITS, 0, 0, 0, 0, 0));
    /* a cursor that no call left: it waits for what it wants */
    cursor = (struct imap_cursor){0, SIZE_MAX};
    EXPECT(is_answer(imap_next(bytes, 9, &cursor), IMAP_WAITS, 0, 0, 0, 0, SIZE_MAX - 9));
}

static void finds_lines(void) {
    struct imap_line_answer line = imap_logical_line(BYTES("* X {3}\r\n\r\na b\r\nrest"));
    EXPECT(line.consumed == 16 && line.missing == 0);
    line = imap_logical_line(BYTES("* X {3}\r\n\r"));
    EXPECT(line.consumed == 0 && line.missing == 2);
    line = imap_logical_line(BYTES("* X"));
    EXPECT(line.consumed == 0 && line.missing == 0);
    line = imap_logical_line(NULL, 0);
    EXPECT(line.consumed == 0 && line.missing == 0);
}

/* A call that puts out a text, with room for all of it, with less, and with none. */
#define EXPECT_TEXT(text, call)                                                                                   \
    do {                                                                                                          \
        uint8_t out[256];                                                                                         \
        size_t size = sizeof(text) - 1, room = sizeof out;                                                        \
        memset(out, '#', room);                                                                                   \
        struct imap_text_answer a = call;                                                                         \
        EXPECT(a.outcome == IMAP_FOUND && a.size == size && memcmp(out, text, size) == 0 && out[size] == '#');    \
        memset(out, '#', sizeof out);                                                                             \
        room = size - 1;                                                                                          \
        a = call;                                                                                                 \
        EXPECT(a.outcome == IMAP_FOUND && a.size == size && memcmp(out, text, room) == 0 && out[room] == '#');    \
        room = 0;                                                                                                 \
        memset(out, '#', sizeof out);                                                                             \
        a = call;                                                                                                 \
        EXPECT(a.outcome == IMAP_FOUND && a.size == size && out[0] == '#');                                       \
    } while (0)

#define EXPECT_REFUSED(why, call)                                      \
    do {                                                               \
        uint8_t out[2] = {'#', '#'};                                   \
        size_t room = sizeof out;                                      \
        struct imap_text_answer a = call;                              \
        EXPECT(a.outcome == (why) && a.size == 0 && out[0] == '#');    \
    } while (0)

static void tells_json(void) {
    EXPECT_TEXT("{\"kind\":\"mailboxdata\",\"datum\":{\"Exists\":18}}", imap_json(BYTES("* 18 EXISTS\r\n* "), out, room));
    EXPECT_TEXT("{\"kind\":\"expunge\",\"number\":3}", imap_json(BYTES("* 3 EXPUNGE\r\n"), out, room));
    EXPECT_REFUSED(IMAP_WAITS, imap_json(BYTES("* 18 EX"), out, room));
    EXPECT_REFUSED(IMAP_WAITS, imap_json(NULL, 0, out, room));
    EXPECT_REFUSED(IMAP_DENIED, imap_json(BYTES("* NAMESPACE"), out, room));
    EXPECT(imap_json(BYTES("* 3 EXPUNGE\r\n"), NULL, 0).size == 29);
}

static void writes(void) {
    EXPECT_TEXT("\"a\\\\b\\\"c\"", imap_quote(BYTES("a\\b\"c"), out, room));
    EXPECT_TEXT("\"\"", imap_quote(NULL, 0, out, room));
    EXPECT_TEXT("SELECT \"INBOX\"", imap_select(BYTES("INBOX"), out, room));
    EXPECT_TEXT("LOGIN \"fred\" \"wom bat\"", imap_login(BYTES("fred"), BYTES("wom bat"), out, room));
    EXPECT_TEXT("LIST \"\" \"*\"", imap_list(NULL, 0, BYTES("*"), out, room));
    static const uint32_t flags[] = {IMAP_FLAGS}, all[] = {IMAP_UID, IMAP_RFC822_SIZE, IMAP_GMAIL_THR_ID, IMAP_BODY};
    EXPECT_TEXT("FETCH 1:5 (FLAGS)", imap_fetch(false, 1, 5, flags, 1, out, room));
    EXPECT_TEXT("UID FETCH 7:* (UID RFC822.SIZE X-GM-THRID BODY)", imap_fetch(true, 7, 0, all, 4, out, room));
    EXPECT(imap_select(BYTES("INBOX"), NULL, 0).size == 14);
}

static void refuses(void) {
    EXPECT_REFUSED(IMAP_LINE_FEED, imap_quote(BYTES("a\nb\r"), out, room));
    EXPECT_REFUSED(IMAP_CARRIAGE_RETURN, imap_select(BYTES("\r\n"), out, room));
    EXPECT_REFUSED(IMAP_NUL, imap_login(BYTES("a"), BYTES("b\0"), out, room));
    EXPECT_REFUSED(IMAP_NOT_UTF8, imap_list(BYTES("\r"), BYTES("\xff"), out, room));
    EXPECT_REFUSED(IMAP_NO_ATTRIBUTE, imap_fetch(false, 1, 5, NULL, 0, out, room));
    static const uint32_t none[] = {IMAP_FLAGS, 13};
    EXPECT_REFUSED(IMAP_NO_ATTRIBUTE, imap_fetch(false, 1, 5, none, 2, out, room));
}

int main(void) {
    parses();
    goes_on();
    finds_lines();
    tells_json();
    writes();
    refuses();
    if (failures == 0) printf("ok\n");
    return failures != 0;
}
