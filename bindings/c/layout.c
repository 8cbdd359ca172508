/* The layout of what crosses: where this compiles, the structs of imap.h lie as the library has them (x86-64, as the
 * system's C interface for it lays them out). */
#include "imap.h"

_Static_assert(sizeof(struct imap_answer) == 32 && _Alignof(struct imap_answer) == 8, "imap_answer");
_Static_assert(offsetof(struct imap_answer, outcome) == 0, "imap_answer.outcome");
_Static_assert(offsetof(struct imap_answer, kind) == 4, "imap_answer.kind");
_Static_assert(offsetof(struct imap_answer, status) == 8, "imap_answer.status");
_Static_assert(offsetof(struct imap_answer, number) == 12, "imap_answer.number");
_Static_assert(offsetof(struct imap_answer, consumed) == 16, "imap_answer.consumed");
_Static_assert(offsetof(struct imap_answer, missing) == 24, "imap_answer.missing");

_Static_assert(sizeof(struct imap_cursor) == 16 && _Alignof(struct imap_cursor) == 8, "imap_cursor");
_Static_assert(offsetof(struct imap_cursor, start) == 0, "imap_cursor.start");
_Static_assert(offsetof(struct imap_cursor, wanted) == 8, "imap_cursor.wanted");

_Static_assert(sizeof(struct imap_line_answer) == 16 && _Alignof(struct imap_line_answer) == 8, "imap_line_answer");
_Static_assert(offsetof(struct imap_line_answer, consumed) == 0, "imap_line_answer.consumed");
_Static_assert(offsetof(struct imap_line_answer, missing) == 8, "imap_line_answer.missing");

_Static_assert(sizeof(struct imap_text_answer) == 16 && _Alignof(struct imap_text_answer) == 8, "imap_text_answer");
_Static_assert(offsetof(struct imap_text_answer, outcome) == 0, "imap_text_answer.outcome");
_Static_assert(offsetof(struct imap_text_answer, size) == 8, "imap_text_answer.size");

_Static_assert(sizeof(bool) == 1 && sizeof(size_t) == 8, "x86-64");
