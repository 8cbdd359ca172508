/* IMAP: what a server sent is read, and commands are written, by the proved library imap_c.
 *
 * The caller holds the bytes and hands them out to read. A call keeps nothing of them, hands out no memory, and frees
 * none of the caller's: what it takes of the heap (by malloc, realloc and free of the program) it gives back before it
 * returns. So there is nothing to set up, nothing to free, and no state but the caller's own bytes and cursors. Calls may
 * run in any number of threads at once, as long as no other thread writes the buffer or the cursor that a call was handed.
 * No call may be made from a signal handler.
 *
 * Bytes are a pointer and a length. The pointer is to as many bytes as the length says, which may have any values; for
 * length 0 it may be NULL. A buffer for a text likewise; it must not overlap the bytes that the call reads.
 *
 * A text goes into a buffer as by snprintf, but with no zero byte behind it: as much of it as there is room for is put at
 * the buffer's front, what stands behind that in the buffer stays, and the answer says how many bytes the whole text has.
 * So a text is whole where `size` is at most the room. Where it is not, ask again with a buffer of `size` bytes.
 *
 * Each call takes time in proportion to what it reads, save hostile bytes (docs/CALLING.md, "Limits, and hostile bytes"):
 * a program limits how many bytes it holds. The deepest bodies take some 400 KB of stack.
 */
#ifndef IMAP_H
#define IMAP_H

#include <stdbool.h>
#include <stddef.h>
#include <stdint.h>

#ifdef __cplusplus
extern "C" {
#endif

/* How a call went: `outcome` of an answer. */
enum imap_outcome {
    IMAP_FOUND = 0,           /* there is a response, or a text */
    IMAP_WAITS = 1,           /* more bytes are needed to tell */
    IMAP_DENIED = 2,          /* no response begins so, whatever bytes follow */
    IMAP_OUT_OF_MEMORY = 3,   /* the call may be made again: it has changed nothing, save that of imap_next below */
    IMAP_STRANGE_CURSOR = 4,  /* the cursor starts behind the bytes */
    IMAP_CARRIAGE_RETURN = 5, /* an argument has byte 13, which a quoted string can't have */
    IMAP_LINE_FEED = 6,       /* byte 10 */
    IMAP_NUL = 7,             /* byte 0 */
    /* 8, 9 and 12 are answered by no call below */
    IMAP_NOT_UTF8 = 10,       /* an argument is not UTF-8 */
    IMAP_NO_ATTRIBUTE = 11    /* no attribute is asked for, or a number is none of enum imap_attribute */
};

/* The kind of a response (RFC 3501, section 7, if not said otherwise). */
enum imap_kind {
    IMAP_NO_KIND = 0,
    IMAP_CAPABILITIES = 1, /* CAPABILITY, and ENABLED (RFC 5161) */
    IMAP_CONTINUE = 2,     /* `+`: the server waits for the rest of a command */
    IMAP_DONE = 3,         /* a tagged line: a command is done */
    IMAP_DATA = 4,         /* an untagged status line */
    IMAP_EXPUNGE = 5,
    IMAP_VANISHED = 6,     /* RFC 7162 */
    IMAP_FETCH = 7,
    IMAP_MAILBOX_DATA = 8, /* FLAGS, LIST, LSUB, SEARCH, SORT, STATUS, EXISTS, RECENT, METADATA, Gmail's items */
    IMAP_QUOTA = 9,        /* RFC 2087, as the next */
    IMAP_QUOTA_ROOT = 10,
    IMAP_ID = 11,          /* RFC 2971 */
    IMAP_ACL = 12,         /* RFC 4314, as the next two */
    IMAP_LIST_RIGHTS = 13,
    IMAP_MY_RIGHTS = 14
};

/* The status of a status line. */
enum imap_status {
    IMAP_NO_STATUS = 0,
    IMAP_STATUS_OK = 1,
    IMAP_STATUS_NO = 2,
    IMAP_STATUS_BAD = 3,
    IMAP_STATUS_PREAUTH = 4,
    IMAP_STATUS_BYE = 5
};

/* What stands at the front of some bytes. */
struct imap_answer {
    uint32_t outcome; /* IMAP_FOUND, IMAP_WAITS, IMAP_DENIED, IMAP_OUT_OF_MEMORY or IMAP_STRANGE_CURSOR */
    uint32_t kind;    /* enum imap_kind; 0 where there is no response */
    uint32_t status;  /* enum imap_status of IMAP_DONE and IMAP_DATA; else 0 */
    uint32_t number;  /* of FETCH and EXPUNGE the message's number, of EXISTS and RECENT how many messages; else 0 */
    size_t consumed;  /* how many bytes the response has, at least 1; 0 where there is no response */
    size_t missing;   /* where more bytes are needed: how many a literal lacks; 0 where that isn't known. Else 0 */
};

/* What stands at the front of the bytes: a response, and how many bytes it has, or why there is none. What stands behind
 * the response may be the next one. Bytes that are put behind never change a response that was found, nor that bytes were
 * denied. */
struct imap_answer imap_parse(const uint8_t *bytes, size_t length);

/* How far a buffer is read. A new one is { 0, 0 }. */
struct imap_cursor {
    size_t start;  /* where the next response begins */
    size_t wanted; /* how many bytes have to stand from there on before they are read again */
};

/* The next response in a buffer of `length` bytes: what imap_parse answers of those from the cursor's start on. Behind a
 * response the cursor's start moves to what follows. Where a literal lacks bytes, nothing is read again before as many
 * were put behind: so call it after each piece, however small.
 *
 * The cursor goes with the buffer: make it anew for other bytes. Between two calls the caller may put bytes behind those
 * that the buffer holds, move the buffer, and drop bytes in front of the cursor's start, if as many are taken from the
 * start. To skip bytes, add as many to the start and make `wanted` 0. Any other change may be answered by IMAP_WAITS where
 * a response stands, or by IMAP_STRANGE_CURSOR where the start lies behind the bytes; it does no further harm.
 *
 * Behind IMAP_OUT_OF_MEMORY the start is as it was; where that or IMAP_DENIED is answered, `wanted` becomes 0. */
struct imap_answer imap_next(const uint8_t *bytes, size_t length, struct imap_cursor *cursor);

/* The logical line at the front of some bytes. */
struct imap_line_answer {
    size_t consumed; /* how many bytes it has, with its CRLF; 0 where it isn't whole */
    size_t missing;  /* where it isn't whole, how many bytes its last literal lacks; 0 where that isn't known. Else 0 */
};

/* The logical line at the front (RFC 3501, sections 2.2 and 4.3): any literals and any other bytes, up to the first CRLF
 * that belongs to no literal. It is for skipping a line that was denied: add `consumed` to the cursor's start and make
 * its `wanted` 0. It takes no memory. */
struct imap_line_answer imap_logical_line(const uint8_t *bytes, size_t length);

/* What a call answers that puts out a text. */
struct imap_text_answer {
    uint32_t outcome; /* IMAP_FOUND where there is a text; else why there is none, and the buffer is as it was */
    size_t size;      /* how many bytes the text has, whether there is room for them or not; 0 where there is none */
};

/* The response at the front of the bytes as a line of JSON, without a line end, in the form that docs/JSON.md says. Where
 * there is none, the outcome is that of imap_parse. The bytes are read once more for it, so call it only where the text is
 * wanted.
 *
 * Behind imap_next, hand it all bytes from where the cursor's start was before, and not only those of the response: these
 * alone may be waited for, since what stands behind a line can tell whether it goes on. */
struct imap_text_answer imap_json(const uint8_t *bytes, size_t length, uint8_t *out, size_t room);

/* Below: commands and arguments of them. A command has neither tag nor line end: send a tag, a space, the text and CRLF.
 * Arguments are UTF-8, and go out in quotes with a backslash before each `\` and `"`, and with no other change: a mailbox
 * name beyond ASCII has to be in modified UTF-7 already (RFC 3501, section 5.1.3). IMAP_CARRIAGE_RETURN, IMAP_LINE_FEED,
 * IMAP_NUL name the first such byte of the arguments; IMAP_NOT_UTF8 goes before these. Apart from imap_fetch, what is
 * refused is refused before memory is taken. */

/* An argument as a quoted string. */
struct imap_text_answer imap_quote(const uint8_t *argument, size_t length, uint8_t *out, size_t room);

/* SELECT of a mailbox. */
struct imap_text_answer imap_select(const uint8_t *mailbox, size_t length, uint8_t *out, size_t room);

/* LOGIN. The text has the password in clear, and the memory that the call gives back is not wiped. */
struct imap_text_answer imap_login(const uint8_t *user_name, size_t user_name_length, const uint8_t *password,
                                   size_t password_length, uint8_t *out, size_t room);

/* LIST of the mailboxes that a pattern fits. */
struct imap_text_answer imap_list(const uint8_t *reference, size_t reference_length, const uint8_t *pattern,
                                  size_t pattern_length, uint8_t *out, size_t room);

/* What a FETCH asks for (RFC 3501, section 6.4.5; IMAP_MOD_SEQ of RFC 4551; the last three are Gmail's). IMAP_BODY is the
 * structure of the body without its extensions, most answers to which are denied. */
enum imap_attribute {
    IMAP_BODY = 1,
    IMAP_ENVELOPE = 2,
    IMAP_FLAGS = 3,
    IMAP_INTERNAL_DATE = 4,
    IMAP_MOD_SEQ = 5,
    IMAP_RFC822 = 6,
    IMAP_RFC822_SIZE = 7,
    IMAP_RFC822_TEXT = 8,
    IMAP_UID = 9,
    IMAP_GMAIL_LABELS = 10,
    IMAP_GMAIL_MSG_ID = 11,
    IMAP_GMAIL_THR_ID = 12
};

/* FETCH, or UID FETCH where `by_uid` is true, of the messages from `first` to `last`, or from `first` on where `last` is
 * 0. It asks for the `count` attributes at `attributes`, in their order: at least one, each of enum imap_attribute. */
struct imap_text_answer imap_fetch(bool by_uid, uint32_t first, uint32_t last, const uint32_t *attributes, size_t count,
                                   uint8_t *out, size_t room);

#ifdef __cplusplus
}
#endif

#endif
