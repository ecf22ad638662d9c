/* SPDX-License-Identifier: Apache-2.0 */
/* Mahjonglarch: Windows key messages to key events.
 *
 * The keyboard part of the Rust crate tao 0.37.2 (its Windows side), written again in Rattle and proved. It calls nothing of Windows: the
 * host brings each message, what PeekMessageW showed, the key state, a prepared keyboard layout and Unicode's break table, as numbers and
 * bytes, and gets events.
 *
 *     tools/hosts                            builds the archive and tries both hosts of this repository
 *     tools/staticlib                        builds target/staticlib/libexport.a alone: x86-64, ELF, System V calling convention
 *     cc -Iinclude host.c libexport.a        links it: it needs memcpy, memmove and memset of the C library
 *
 * Message kinds, virtual keys, scan codes and characters are written in hexadecimal; sizes, counts and refusals in decimal.
 *
 *
 * The host's duties
 *
 *  1. Before the first call, compare mahjonglarch_interface() with MAHJONGLARCH_INTERFACE.
 *  2. Test both answers. Another number than 0 is a refusal: nothing was changed, and `answers` still has the events of an earlier call.
 *  3. Take the events of each answered call, and only of those, before the answer area is lent again. An event is handed out once.
 *  4. Read the key state anew for each half of a message (for kind 7 the asynchronous one, below), and bring the block of the layout in force
 *     and the break table.
 *  5. Finish the latest message first, with what PeekMessageW showed behind it, whatever it is; where it showed nothing, `peeked` is 0. A peeked
 *     WM_QUIT counts as nothing.
 *  6. Take no text of a synthetic press: it was typed before, and it can come out before the typed one.
 *  7. Do with the message result what `result` says.
 *  8. Call TranslateMessage in the message loop, or no character ever comes.
 *  9. Overwrite both areas in the end.
 *
 *
 * A message, from its arrival to its events. examples/c/window/window.c is a window procedure whole
 *
 *     uint32_t token, result, no;
 *     no = mahjonglarch_open(session, 65536, answers, 65536, state, 256, block, block_len, table, table_len, kind, wparam, lparam, &token,
 *                            &result);
 *     if (no != 0) ..                     refused: the message took no part in the session
 *     ..                                  take the events of `answers`
 *     if (token != MAHJONGLARCH_NONE) {   the message is open until it is finished
 *         peeked = PeekMessageW(&next, window, WM_KEYFIRST, WM_KEYLAST, PM_NOREMOVE);     this can enter the window procedure again
 *         no = mahjonglarch_finish(session, 65536, answers, 65536, state, 256, block, block_len, table, table_len, token, peeked != 0,
 *                                  peeked ? next.message : 0, peeked ? next.wParam : 0, peeked ? next.lParam : 0);
 *                                         with the key state and layout as they are by now
 *         if (no != 0) ..                 refused: the message is still open. Bring the finish again with the same token
 *         ..                              take the events of `answers`
 *     }
 *     ..                                  do with the message result what `result` says
 *
 * Nesting. While a host peeks, Windows can send it further messages. Each is brought to `open` with the same session area, peeks and is
 * finished before the peek around it returns, so the message opened last is finished first; another order is refusal 10. Give a nested call
 * an answer area of its own, or one whose events have been taken. A message's events wait until all that arrived before it are finished, so
 * events come out in the order of arrival, and a finish can hand out those of nested messages too.
 *
 *
 * Memory
 *
 * A slice is a pointer and a number of elements. The pointer is never NULL and is aligned for its elements, also where the number is 0 (any
 * aligned address that is not NULL will do then), and that many elements are there. Memory that a call may write (`session`,
 * `answers`, `token`, `result`, `fields`, `text`) overlaps nothing else that the same call is given; `state`, `block` and `table` are only
 * read.
 * These are the only conditions. Every length and every content has an answer: a length or content that is not in order is refused.
 *
 * Nothing is allocated, nothing is kept outside the memory that a call is given, and no call blocks, so calls on different areas may run on
 * different threads. Two calls on one session at the same time are the host's to prevent.
 *
 * Clearing. When nothing is open and no press is held the session area is zeros again, whatever was typed. The answer area keeps the events
 * of the last answered call, and a session that is given up may hold a press: overwrite both before the memory is given back, in a way that
 * the compiler does not leave out (SecureZeroMemory, explicit_bzero, a loop over a volatile pointer; memset before free can be left out).
 * What a call leaves on the machine's stack, of which it takes about 1,500 bytes, is not cleared.
 */
#ifndef MAHJONGLARCH_H
#define MAHJONGLARCH_H

#include <stddef.h>
#include <stdint.h>

#ifdef __cplusplus
extern "C" {
#endif

/* The number of this interface. It rises with each change of a signature, of a number's meaning or of an area. */
#define MAHJONGLARCH_INTERFACE 2u

/* ---- Sizes and limits */

#define MAHJONGLARCH_AREA_SIZE 65536u     /* bytes of a session area, and of an answer area: exactly so many */
#define MAHJONGLARCH_KEY_STATE_SIZE 256u  /* bytes of a key state: exactly so many */
#define MAHJONGLARCH_BLOCK_MOST 65536u    /* bytes of a layout block, at most */
#define MAHJONGLARCH_TABLE_MOST 65536u    /* bytes of a break table, at most */
#define MAHJONGLARCH_OPEN_MOST 8u         /* messages open together */
#define MAHJONGLARCH_EVENTS_MOST 256u     /* entries of a session's queue (open messages and events that wait), and so events of one call */
#define MAHJONGLARCH_TOKENS_MOST 4096u    /* tokens handed out since the queue was empty; a token is below this number */
#define MAHJONGLARCH_UNITS_MOST 16u       /* UTF-16 units that one press carries */
#define MAHJONGLARCH_TEXT_MOST 48u        /* bytes of a text of an event, UTF-8: sixteen units take no more */
#define MAHJONGLARCH_FIELDS 17u           /* numbers of an event */

/* 4,294,967,295. As a token: none was opened. As a count or a length: there is none, because the bytes or the number are not in order. */
#define MAHJONGLARCH_NONE 0xFFFFFFFFu

/* The areas, the block and the table
 *
 * Session area: all that lives between the calls of one keyboard. Make it by mahjonglarch_fresh, hand it to each call as the one before left
 * it, and write nothing into it. A fresh one is 65,536 zeros.
 * Answer area: the events of the last answered call, zeros behind. Its content before a call does not matter. Read it by the functions below.
 * Key state: what GetKeyboardState writes: for the virtual keys 00 to FF a byte with bit 7 where the key is down, and bit 0 where a lock is
 * on. For the kind 7 tao brings what GetAsyncKeyState says (bit 7) with the locks of GetKeyState (bit 0).
 * Layout block: the maps of the keyboard layout, as docs/AREAS.md lays them out byte by byte. crates/station/data/us.block is one.
 * Break table: Unicode's break classes and pictographic marks, by ranges of scalar values, as docs/AREAS.md lays them out byte by byte. A typed
 * text of one piece (extended grapheme cluster, Unicode Annex 29) may become the logical key, one of several does not; the pieces are counted
 * with the table that the finish of its last character brings. tables/unicode-15.0.breaks is Unicode 15.0's, for all layouts and stations.
 */

/* ---- Refusals: what a call answers that fails a question, the number of the first it fails (docs/SCOPE.md, 6)
 *
 * A refused call changes no byte of either area. 1 to 3, 11 and 4, in this order, are put to `open` and `finish`, 5 to 9 to `open`, 10 to `finish`.
 * A message that is ignored (below) passes 5 to 9, and question 6 is put only to messages that open.
 *
 * A refused open took no part in the session: its message is not processed. A refused finish leaves its message open, and all that arrives
 * behind it waits. That of the latest open message is refused only with 1, 2, 3 or 11, as long as nothing but these calls wrote the area; the
 * same token, brought again with inputs in order, is then answered, and everything comes out in order.
 *
 *     number   bring the call again?                                          stop the station?
 *     1, 2     yes, with the right sizes                                      if it can't be done before the next message
 *     3        yes, with the layout read anew                                 if the block stays so
 *     11       yes, with the table read anew                                  if the table stays so
 *     4        no: something else wrote into the area                         at once: overwrite both areas, begin afresh, reject the card
 *     5        no: nothing typed is lost by it                                no
 *     6        yes, once a message has been finished                          if it can't be brought again: its digit is lost
 *     7, 8     yes, once the open messages are finished, the latest first     if it can't be brought again: its digit is lost
 *     9        no: the character is not added to the press                    reject the card: its text is not whole
 *     10       yes, once the later messages are finished                      if the host no longer knows its tokens
 */
enum mahjonglarch_refusal {
    MAHJONGLARCH_ANSWERED = 0,               /* no refusal */
    MAHJONGLARCH_REFUSED_AREA_SIZE = 1,      /* are both areas exactly 65,536 bytes? */
    MAHJONGLARCH_REFUSED_KEY_STATE_SIZE = 2, /* are there 256 key-state bytes? */
    MAHJONGLARCH_REFUSED_BLOCK = 3,          /* is the block at most 65,536 bytes and laid out as docs/AREAS.md says? */
    MAHJONGLARCH_REFUSED_SESSION = 4,        /* is the session area that of a session? Never, if only these calls wrote it */
    MAHJONGLARCH_REFUSED_NOTHING_HELD = 5,   /* for the kinds 103 and 107: is a press held? */
    MAHJONGLARCH_REFUSED_TOO_MANY_OPEN = 6,  /* to open: are fewer than 8 open? */
    MAHJONGLARCH_REFUSED_QUEUE_FULL = 7,     /* do the new entries fit within 256? */
    MAHJONGLARCH_REFUSED_TOKENS_USED = 8,    /* do the tokens since the queue was empty stay within 4,096? */
    MAHJONGLARCH_REFUSED_TOO_MANY_UNITS = 9, /* do the held units stay within 16? */
    MAHJONGLARCH_REFUSED_NOT_LATEST = 10,    /* to finish: is the token that of the latest open message? */
    MAHJONGLARCH_REFUSED_TABLE = 11          /* asked behind 3: is the table at most 65,536 bytes and laid out as docs/AREAS.md says? */
};

/* ---- Kinds of messages, Windows' numbers. All others are ignored: they open nothing, hand out nothing and keep the message result.
 *
 * Ignored too are 104 with the whole wParam 73 (Alt and F4), and 102 and 106 while no press is held. */
enum mahjonglarch_kind {
    MAHJONGLARCH_WM_SETFOCUS = 0x007,    /* answered whole: a press for each key that is down, synthetic; message result kept */
    MAHJONGLARCH_WM_KILLFOCUS = 0x008,   /* answered whole: a release for each key that is down, synthetic; message result kept */
    MAHJONGLARCH_WM_KEYDOWN = 0x100,     /* opens a press; message result 0 */
    MAHJONGLARCH_WM_KEYUP = 0x101,       /* opens a release; message result 0 */
    MAHJONGLARCH_WM_CHAR = 0x102,        /* opens a character of the held press; message result 0 */
    MAHJONGLARCH_WM_DEADCHAR = 0x103,    /* answered whole: completes the held press; message result 0 */
    MAHJONGLARCH_WM_SYSKEYDOWN = 0x104,  /* opens a press; message result of the default procedure */
    MAHJONGLARCH_WM_SYSKEYUP = 0x105,    /* as 101 */
    MAHJONGLARCH_WM_SYSCHAR = 0x106,     /* as 102 */
    MAHJONGLARCH_WM_SYSDEADCHAR = 0x107  /* as 103 */
};

/* ---- What becomes of the message result: what the window procedure returns for the message */
#define MAHJONGLARCH_RESULT_KEPT 0u    /* as the host had it */
#define MAHJONGLARCH_RESULT_DEFAULT 1u /* what DefWindowProcW returns, which is to be called */
#define MAHJONGLARCH_RESULT_ZERO 2u    /* 0 */

/* ---- The numbers of an event, by their place in `fields`
 *
 * tao's KeyEvent, with KeyEventExtra's text with all modifiers and key without modifiers, and whether a focus change wrote it. */
enum mahjonglarch_field {
    MAHJONGLARCH_FIELD_PHYSICAL_KEY = 0,                  /* place in tao's KeyCode, 0 to 194; 0: unidentified */
    MAHJONGLARCH_FIELD_PHYSICAL_NATIVE_KIND = 1,          /* unidentified: kind of its native code; else 0 */
    MAHJONGLARCH_FIELD_PHYSICAL_NATIVE_VALUE = 2,         /* unidentified: its native code; else 0 */
    MAHJONGLARCH_FIELD_LOGICAL_KEY = 3,                   /* place in tao's Key, 0 to 307, with two fields: `Keys` below */
    MAHJONGLARCH_FIELD_LOGICAL_SECOND = 4,
    MAHJONGLARCH_FIELD_LOGICAL_THIRD = 5,
    MAHJONGLARCH_FIELD_LOCATION = 6,                      /* enum mahjonglarch_location */
    MAHJONGLARCH_FIELD_STATE = 7,                         /* enum mahjonglarch_state */
    MAHJONGLARCH_FIELD_REPEAT = 8,                        /* 1 where bits 30 and 31 of lParam differ, else 0: for a press, that the key was down before */
    MAHJONGLARCH_FIELD_SYNTHETIC = 9,                     /* 1 where a focus change wrote the event, else 0: such a press was not typed now */
    MAHJONGLARCH_FIELD_KEY_WITHOUT_MODIFIERS = 10,        /* as the logical key */
    MAHJONGLARCH_FIELD_KEY_WITHOUT_MODIFIERS_SECOND = 11,
    MAHJONGLARCH_FIELD_KEY_WITHOUT_MODIFIERS_THIRD = 12,
    MAHJONGLARCH_FIELD_LENGTH_0 = 13,                     /* lengths of the texts 0 to 3 (enum mahjonglarch_text), 0 where there is none */
    MAHJONGLARCH_FIELD_LENGTH_1 = 14,
    MAHJONGLARCH_FIELD_LENGTH_2 = 15,
    MAHJONGLARCH_FIELD_LENGTH_3 = 16
};

/* Keys. mahjonglarch_keys.h has the numbers of KeyCode and Key with their names, which are tao's; crates/station/data/names lists the
 * same names, a line each: those of KeyCode from 0 on, then those of Key from 0 on.
 *
 *     number     key                                    second field               third field
 *     0          a character, whose text is beside it   0                          0
 *     1          unidentified                           kind of its native code    its native code
 *     2          dead, without a character              0                          0
 *     2          dead, with a character                 1                          the character, a Unicode scalar value
 *     3 to 307   a named key                            0                          0
 */
#define MAHJONGLARCH_KEY_CHARACTER 0u
#define MAHJONGLARCH_KEY_UNIDENTIFIED 1u
#define MAHJONGLARCH_KEY_DEAD 2u
#define MAHJONGLARCH_KEY_FIRST_NAMED 3u
#define MAHJONGLARCH_KEYS 308u      /* numbers of Key: 0 to 307 */
#define MAHJONGLARCH_KEY_CODES 195u /* numbers of KeyCode: 0 to 194 */

/* Kinds of native codes. On Windows it is the scan code, with E000 added where the key is extended. A layout block may hold the others. */
enum mahjonglarch_native {
    MAHJONGLARCH_NATIVE_UNIDENTIFIED = 0, /* value 0 */
    MAHJONGLARCH_NATIVE_WINDOWS = 1,      /* 16 bits */
    MAHJONGLARCH_NATIVE_MACOS = 2,        /* 16 bits */
    MAHJONGLARCH_NATIVE_GTK = 3,          /* 16 bits */
    MAHJONGLARCH_NATIVE_ANDROID = 4       /* 32 bits, a signed number in two's complement */
};

enum mahjonglarch_location {
    MAHJONGLARCH_LOCATION_STANDARD = 0,
    MAHJONGLARCH_LOCATION_LEFT = 1,
    MAHJONGLARCH_LOCATION_RIGHT = 2,
    MAHJONGLARCH_LOCATION_NUMPAD = 3
};

enum mahjonglarch_state { MAHJONGLARCH_STATE_PRESSED = 0, MAHJONGLARCH_STATE_RELEASED = 1 };

/* The texts of an event: UTF-8 of 1 to 48 bytes (text 3: to 24), or none. No byte 00 ends a text, and one may stand in its midst. */
enum mahjonglarch_text {
    MAHJONGLARCH_TEXT_OF_LOGICAL_KEY = 0,          /* the logical key's character; there is one exactly where its number is 0 */
    MAHJONGLARCH_TEXT_OF_EVENT = 1,                /* the text that the press types; none in a release */
    MAHJONGLARCH_TEXT_WITH_ALL_MODIFIERS = 2,      /* what the characters brought, Control heeded; in a synthetic event as text 1 */
    MAHJONGLARCH_TEXT_OF_KEY_WITHOUT_MODIFIERS = 3 /* its character; there is one exactly where its number is 0 */
};

/* ---- Functions. Each has an answer for every input; `_len` is a slice's number of elements. */

/* The number of the library's interface: MAHJONGLARCH_INTERFACE of the header that belongs to it. Compare the two before the first call. */
uint32_t mahjonglarch_interface(void);

/* Makes the area that of a fresh session: 0. An area of another size than 65,536 bytes is left as it is: 1. */
uint32_t mahjonglarch_fresh(uint8_t *session, size_t session_len);

/* Takes a message: 0, or the refusal's number. `token` becomes the token of the message that was opened, or MAHJONGLARCH_NONE where none was
 * (answered whole, ignored, or refused). `result` becomes what is to become of the message result (MAHJONGLARCH_RESULT_..; kept, where the
 * call is refused). Answered: `session` is the next session, and `answers` has the events that are handed out, often none. wparam and lparam
 * are Windows' 64 bits, unchanged. Tokens start at 0 again when the queue empties: two messages that are not open together may have the same. */
uint32_t mahjonglarch_open(uint8_t *session, size_t session_len, uint8_t *answers, size_t answers_len, const uint8_t *state, size_t state_len,
                           const uint8_t *block, size_t block_len, const uint8_t *table, size_t table_len, uint32_t kind, uint64_t wparam,
                           uint64_t lparam, uint32_t *token, uint32_t *result);

/* Finishes the latest open message, whose token is given, with the message that was peeked, or with none where `peeked` is 0 (kind, wparam and
 * lparam are not looked at then): 0, or the refusal's number. A peeked WM_QUIT (kind 12) counts as none. Answered: `session` is the next session,
 * and `answers` has the events. The message result is not touched. */
uint32_t mahjonglarch_finish(uint8_t *session, size_t session_len, uint8_t *answers, size_t answers_len, const uint8_t *state, size_t state_len,
                             const uint8_t *block, size_t block_len, const uint8_t *table, size_t table_len, uint32_t token, uint32_t peeked,
                             uint32_t kind, uint64_t wparam, uint64_t lparam);

/* How many events an answer area has, 0 to 256. MAHJONGLARCH_NONE where the bytes are no answer area's: another size, or a number above 256. */
uint32_t mahjonglarch_event_count(const uint8_t *answers, size_t answers_len);

/* Writes event i, counted from 0, as 17 numbers (enum mahjonglarch_field): 0. Where there is no such event, its bytes are not an event's, or
 * `fields` has another length than 17: 1, and `fields` is left as it is. */
uint32_t mahjonglarch_event(const uint8_t *answers, size_t answers_len, uint32_t i, uint32_t *fields, size_t fields_len);

/* Copies a text of event i (enum mahjonglarch_text) to the front of `text`: its length, 0 where there is none. Where there is no such event or
 * text, its bytes are not an event's, or `text` has less than 48 bytes: MAHJONGLARCH_NONE, and `text` is left as it is. */
uint32_t mahjonglarch_event_text(const uint8_t *answers, size_t answers_len, uint32_t i, uint32_t which, uint8_t *text, size_t text_len);

/* ---- The 17 numbers under their names, for hosts that would rather have a struct */

struct mahjonglarch_key {
    uint32_t number, second, third, length; /* `length`: of its character */
};

struct mahjonglarch_event_fields {
    uint32_t physical_key, physical_native_kind, physical_native_value;
    struct mahjonglarch_key logical_key, key_without_modifiers;
    uint32_t location, state, repeat, synthetic;
    uint32_t text_length, text_with_all_modifiers_length;
};

/* As mahjonglarch_event: 0, or 1 and `event` is left as it is. */
static inline uint32_t mahjonglarch_event_read(const uint8_t *answers, size_t answers_len, uint32_t i, struct mahjonglarch_event_fields *event) {
    uint32_t f[MAHJONGLARCH_FIELDS];
    if (mahjonglarch_event(answers, answers_len, i, f, MAHJONGLARCH_FIELDS) != 0) return 1;
    event->physical_key = f[MAHJONGLARCH_FIELD_PHYSICAL_KEY];
    event->physical_native_kind = f[MAHJONGLARCH_FIELD_PHYSICAL_NATIVE_KIND];
    event->physical_native_value = f[MAHJONGLARCH_FIELD_PHYSICAL_NATIVE_VALUE];
    event->logical_key.number = f[MAHJONGLARCH_FIELD_LOGICAL_KEY];
    event->logical_key.second = f[MAHJONGLARCH_FIELD_LOGICAL_SECOND];
    event->logical_key.third = f[MAHJONGLARCH_FIELD_LOGICAL_THIRD];
    event->logical_key.length = f[MAHJONGLARCH_FIELD_LENGTH_0];
    event->key_without_modifiers.number = f[MAHJONGLARCH_FIELD_KEY_WITHOUT_MODIFIERS];
    event->key_without_modifiers.second = f[MAHJONGLARCH_FIELD_KEY_WITHOUT_MODIFIERS_SECOND];
    event->key_without_modifiers.third = f[MAHJONGLARCH_FIELD_KEY_WITHOUT_MODIFIERS_THIRD];
    event->key_without_modifiers.length = f[MAHJONGLARCH_FIELD_LENGTH_3];
    event->location = f[MAHJONGLARCH_FIELD_LOCATION];
    event->state = f[MAHJONGLARCH_FIELD_STATE];
    event->repeat = f[MAHJONGLARCH_FIELD_REPEAT];
    event->synthetic = f[MAHJONGLARCH_FIELD_SYNTHETIC];
    event->text_length = f[MAHJONGLARCH_FIELD_LENGTH_1];
    event->text_with_all_modifiers_length = f[MAHJONGLARCH_FIELD_LENGTH_2];
    return 0;
}

#ifdef __cplusplus
}
#endif

#endif
