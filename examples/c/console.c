/* Key messages in, key events out: a host of Mahjonglarch in C.
 *
 *     console BLOCK TABLE <MESSAGES
 *
 * BLOCK is the file of a layout block, as crates/station/data/us.block, and TABLE that of a break table, as tables/unicode-15.0.breaks. Of the
 * messages each line is one of these, with hexadecimal numbers:
 *
 *     # ..           printed as it is
 *     key VK BYTE    sets a byte of the key state: 80 the key is down, 0 it is up, 1 its lock is on
 *     open K W L     a message: kind, wParam, lParam
 *     finish none    the latest open message is finished, and nothing was peeked
 *     finish K W L   the same, and this message was peeked
 *     card           prints what was typed since the last card
 *
 * Each call is printed with its answer, and each event that it hands out on a line of its own. `tools/hosts` builds this program and runs it on
 * the file `messages` beside it; `expected` has what it is to print, which is not this program's own word: tools/hosts says where it is from.
 * Exit status: 0, also where calls were refused; 1 where block or table can't be read or a card has no room; 2 at a line of another form. */
#include <stdio.h>
#include <stdlib.h>
#include <string.h>

#include "mahjonglarch.h"
#include "mahjonglarch_keys.h"

#define NAME(number, name) #name,
static const char *const CODE_NAMES[] = {MAHJONGLARCH_FOR_EACH_CODE(NAME)};
static const char *const KEY_NAMES[] = {MAHJONGLARCH_FOR_EACH_KEY(NAME)};
static const char *const LOCATIONS[] = {"standard", "left", "right", "numpad"};
static const char *const RESULTS[] = {"result kept", "default procedure", "result 0"};
static const char *const REFUSALS[] = {
    "answered",
    "an area is not of 65,536 bytes",
    "the key state is not of 256 bytes",
    "the layout block is not in order",
    "the session area is not that of a session",
    "a dead character, and no press is held",
    "eight messages are open",
    "more than 256 entries",
    "more than 4,096 tokens since the queue was empty",
    "more than sixteen units for a press",
    "not the token of the latest open message",
    "the break table is not in order",
};

/* What the host keeps. The areas are large, so nothing of this is on the stack. */
static uint8_t session[MAHJONGLARCH_AREA_SIZE];
static uint8_t answers[MAHJONGLARCH_AREA_SIZE];
static uint8_t state[MAHJONGLARCH_KEY_STATE_SIZE];
static uint8_t block[MAHJONGLARCH_BLOCK_MOST + 1]; /* one more, so that a file that is too long is refused and not cut */
static size_t block_len;
static uint8_t table[MAHJONGLARCH_TABLE_MOST + 1]; /* the same */
static size_t table_len;
static uint32_t tokens[MAHJONGLARCH_OPEN_MOST]; /* of the open messages, the latest last */
static size_t open_count;
static char card[256];
static size_t card_len;

struct message {
    uint32_t kind;
    uint64_t wparam, lparam;
};

/* Overwrites what may hold typed text; volatile, so that no write is left out. */
static void clear(void *memory, size_t len) {
    volatile uint8_t *p = memory;
    while (len-- > 0) *p++ = 0;
}

/* ---- events */

static void show_text(const uint8_t *text, uint32_t len) {
    if (len == 0) {
        printf("none");
        return;
    }
    putchar('"');
    for (uint32_t i = 0; i < len; i++) {
        if (text[i] < 0x20 || text[i] == 0x7f) printf("\\x%02x", text[i]);
        else putchar(text[i]);
    }
    putchar('"');
}

/* What can't be, or can't be kept: nothing more is taken, so that no digit goes missing unseen. */
static void stop(const char *why, uint32_t event) {
    fprintf(stderr, "event %u: %s\n", (unsigned)event, why);
    clear(session, sizeof session);
    clear(answers, sizeof answers);
    clear(card, sizeof card);
    exit(1);
}

/* A text of an event, of length 0 where it has none. */
static uint32_t text_of(uint32_t event, uint32_t which, uint8_t text[MAHJONGLARCH_TEXT_MOST]) {
    uint32_t len = mahjonglarch_event_text(answers, sizeof answers, event, which, text, MAHJONGLARCH_TEXT_MOST);
    if (len == MAHJONGLARCH_NONE) stop("its text can't be read", event); /* never: the event was just read */
    return len;
}

static void show_text_of(uint32_t event, uint32_t which) {
    uint8_t text[MAHJONGLARCH_TEXT_MOST];
    show_text(text, text_of(event, which, text));
    clear(text, sizeof text);
}

static void show_key(uint32_t event, uint32_t which, const struct mahjonglarch_key *key) {
    if (key->number == MAHJONGLARCH_KEY_CHARACTER) {
        show_text_of(event, which);
        return;
    }
    printf("%s", KEY_NAMES[key->number]);
    if (key->number == MAHJONGLARCH_KEY_UNIDENTIFIED) printf(" %u:%x", (unsigned)key->second, (unsigned)key->third);
    if (key->number == MAHJONGLARCH_KEY_DEAD && key->second == 1) printf(" %04x", (unsigned)key->third);
}

static void show_event(uint32_t i, const struct mahjonglarch_event_fields *e) {
    printf("    %s", CODE_NAMES[e->physical_key]);
    if (e->physical_key == 0) printf(" %u:%x", (unsigned)e->physical_native_kind, (unsigned)e->physical_native_value);
    printf(" %s %s", LOCATIONS[e->location], e->state == MAHJONGLARCH_STATE_PRESSED ? "pressed" : "released");
    if (e->repeat) printf(" repeat");
    if (e->synthetic) printf(" synthetic");
    printf(": key ");
    show_key(i, MAHJONGLARCH_TEXT_OF_LOGICAL_KEY, &e->logical_key);
    printf(", text ");
    show_text_of(i, MAHJONGLARCH_TEXT_OF_EVENT);
    printf(", with all modifiers ");
    show_text_of(i, MAHJONGLARCH_TEXT_WITH_ALL_MODIFIERS);
    printf(", without modifiers ");
    show_key(i, MAHJONGLARCH_TEXT_OF_KEY_WITHOUT_MODIFIERS, &e->key_without_modifiers);
    putchar('\n');
}

/* A card is what presses typed; one that the focus brought was typed before. */
static void take_text(uint32_t i, const struct mahjonglarch_event_fields *e) {
    uint8_t text[MAHJONGLARCH_TEXT_MOST];
    uint32_t len;
    if (e->state != MAHJONGLARCH_STATE_PRESSED || e->synthetic) return;
    len = text_of(i, MAHJONGLARCH_TEXT_OF_EVENT, text);
    if (len > sizeof card - card_len) stop("the card has no room for its text", i);
    memcpy(card + card_len, text, len);
    card_len += len;
    clear(text, sizeof text);
}

static void take_events(void) {
    uint32_t count = mahjonglarch_event_count(answers, sizeof answers);
    for (uint32_t i = 0; i < count; i++) {
        struct mahjonglarch_event_fields event;
        if (mahjonglarch_event_read(answers, sizeof answers, i, &event) != 0) stop("it can't be read", i); /* never */
        show_event(i, &event);
        take_text(i, &event);
    }
}

/* ---- calls */

static void show_message(const struct message *m) {
    printf("%x %02llx %08llx", (unsigned)m->kind, (unsigned long long)m->wparam, (unsigned long long)m->lparam);
}

static void show_refused(uint32_t number) {
    printf(": refused %u, %s\n", (unsigned)number, REFUSALS[number]);
}

static void open_message(const struct message *m) {
    uint32_t token, result, number;
    printf("open ");
    show_message(m);
    number = mahjonglarch_open(session, sizeof session, answers, sizeof answers, state, sizeof state, block, block_len, table, table_len, m->kind,
                               m->wparam, m->lparam, &token, &result);
    if (number != MAHJONGLARCH_ANSWERED) {
        show_refused(number);
        return;
    }
    if (token == MAHJONGLARCH_NONE) {
        printf(": opens none");
    } else {
        printf(": token %x", (unsigned)token);
        tokens[open_count++] = token; /* there is room: a ninth is refused */
    }
    printf(", %s\n", RESULTS[result]);
    take_events();
}

static void finish_latest(const struct message *peeked) {
    const struct message nothing = {0, 0, 0};
    const struct message *m = peeked ? peeked : &nothing;
    uint32_t token = open_count ? tokens[open_count - 1] : MAHJONGLARCH_NONE; /* no message has that one, so the finish is refused */
    uint32_t number;
    printf("finish ");
    if (open_count) printf("%x", (unsigned)token);
    else printf("of none");
    printf(", peeked ");
    if (peeked) show_message(peeked);
    else printf("nothing");
    number = mahjonglarch_finish(session, sizeof session, answers, sizeof answers, state, sizeof state, block, block_len, table, table_len, token,
                                 peeked != NULL, m->kind, m->wparam, m->lparam);
    if (number != MAHJONGLARCH_ANSWERED) {
        show_refused(number);
        return;
    }
    open_count--;
    putchar('\n');
    take_events();
}

/* ---- lines */

/* The next hexadecimal number of a line, up to a most; 0 where there is none. */
static int number_at(char **at, uint64_t most, uint64_t *number) {
    char *end;
    unsigned long long n;
    *at += strspn(*at, " ");
    if (strspn(*at, "0123456789abcdefABCDEF") == 0 || strspn(*at, "0123456789abcdefABCDEF") > 16) return 0;
    n = strtoull(*at, &end, 16);
    if (n > most || (*end != ' ' && *end != '\0')) return 0;
    *at = end;
    *number = n;
    return 1;
}

static int ends(const char *at) {
    return at[strspn(at, " ")] == '\0';
}

static int message_at(char *at, struct message *m) {
    uint64_t kind;
    if (!number_at(&at, UINT32_MAX, &kind)) return 0;
    m->kind = (uint32_t)kind;
    return number_at(&at, UINT64_MAX, &m->wparam) && number_at(&at, UINT64_MAX, &m->lparam) && ends(at);
}

static int set_key(char *at) {
    uint64_t key, byte;
    if (!number_at(&at, 0xff, &key) || !number_at(&at, 0xff, &byte) || !ends(at)) return 0;
    state[key] = (uint8_t)byte;
    return 1;
}

/* Does what a line says; 0 where it is of no form. */
static int do_line(char *line) {
    struct message m;
    if (line[0] == '#') return printf("%s\n", line) >= 0;
    if (strncmp(line, "key ", 4) == 0) return set_key(line + 4);
    if (strncmp(line, "open ", 5) == 0) {
        if (!message_at(line + 5, &m)) return 0;
        open_message(&m);
        return 1;
    }
    if (strcmp(line, "finish none") == 0) {
        finish_latest(NULL);
        return 1;
    }
    if (strncmp(line, "finish ", 7) == 0) {
        if (!message_at(line + 7, &m)) return 0;
        finish_latest(&m);
        return 1;
    }
    if (strcmp(line, "card") == 0) {
        printf("card \"%.*s\"\n", (int)card_len, card);
        clear(card, sizeof card);
        card_len = 0;
        return 1;
    }
    return 0;
}

static int do_lines(void) {
    char line[256];
    for (unsigned long n = 1; fgets(line, sizeof line, stdin); n++) {
        line[strcspn(line, "\r\n")] = '\0';
        if (!do_line(line)) {
            fprintf(stderr, "line %lu: %s\n", n, line);
            return 2;
        }
    }
    return 0;
}

static int read_file(const char *path, uint8_t *bytes, size_t most, size_t *len) {
    FILE *file = fopen(path, "rb");
    int ok;
    if (file) {
        *len = fread(bytes, 1, most, file);
        ok = !ferror(file);
        fclose(file);
        if (ok) return 1;
    }
    perror(path);
    return 0;
}

static int is_fresh(void) {
    for (size_t i = 0; i < sizeof session; i++)
        if (session[i] != 0) return 0;
    return 1;
}

int main(int argc, char **argv) {
    int status;
    if (argc != 3) {
        fprintf(stderr, "usage: console BLOCK TABLE <MESSAGES\n");
        return 1;
    }
    if (!read_file(argv[1], block, sizeof block, &block_len) || !read_file(argv[2], table, sizeof table, &table_len)) return 1;
    if (mahjonglarch_interface() != MAHJONGLARCH_INTERFACE) {
        fprintf(stderr, "the library has another interface\n");
        return 1;
    }
    if (mahjonglarch_fresh(session, sizeof session) != 0) return 1;
    status = do_lines();
    printf("%u open, %s\n", (unsigned)open_count, is_fresh() ? "the session area is a fresh one" : "the session area is in use");
    clear(session, sizeof session);
    clear(answers, sizeof answers);
    clear(card, sizeof card);
    return status;
}
