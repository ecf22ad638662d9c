/* Windows from a script, for window.c.
 *
 *     window BLOCK TABLE <SCRIPT
 *
 * The script's lines, with hexadecimal numbers:
 *
 *     # ..            printed as it is
 *     post K W L      puts a message into the queue, as the keyboard and TranslateMessage do
 *     key VK BYTE     the key state from now on: 80 the key is down, 0 it is up, 1 its lock is on
 *     at N key VK B   the same, from message N of the queue on, counted from 1
 *     at N send K W L a message that is sent to the window while message N peeks: it reaches the window procedure before the peek answers
 *     bad block S N   the layout is read S times as it is, and then N times with a block that is not in order
 *     bad table S N   the same of the break table
 *     run             dispatches the messages of the queue, each to the window procedure
 *     card            prints what was typed since the last card
 *
 * Exit status: 0; 1 where the station stopped or block or table can't be read; 2 at a line of another form. */
#include <inttypes.h>
#include <stdio.h>
#include <stdlib.h>
#include <string.h>

#include "host.h"

#define MOST 512

uint8_t block[MAHJONGLARCH_BLOCK_MOST + 1];
size_t block_len;
uint8_t table[MAHJONGLARCH_TABLE_MOST + 1];
size_t table_len;

static MSG queue[MOST];
static size_t first, last;
static struct {
    size_t at;
    MSG message;
} sent[MOST];
static size_t sent_first, sent_last;
static uint8_t keys[MAHJONGLARCH_KEY_STATE_SIZE];
static struct {
    size_t at;
    unsigned key, byte;
} changes[MOST];
static size_t change_count, dispatched;
static struct lent {
    size_t whole_len;
    unsigned good_reads, bad_reads;
} lent_block, lent_table;
static char card[4096];
static size_t card_len;

/* ---- what the window procedure asks */

BOOL PeekMessageW(MSG *next, HWND window, UINT lowest, UINT highest, UINT remove) {
    (void)remove;
    while (sent_first < sent_last && sent[sent_first].at <= dispatched) {
        MSG m = sent[sent_first++].message;
        window_procedure(window, m.message, m.wParam, m.lParam);
    }
    if (first == last || queue[first].message < lowest || queue[first].message > highest) return 0;
    *next = queue[first];
    return 1;
}

BOOL GetKeyboardState(BYTE *state) {
    memcpy(state, keys, sizeof keys);
    return 1;
}

SHORT GetAsyncKeyState(int key) {
    return keys[key] & 0x80 ? (SHORT)-0x8000 : 0;
}

SHORT GetKeyState(int key) {
    return (SHORT)((keys[key] & 0x80 ? -0x8000 : 0) | (keys[key] & 1));
}

LRESULT DefWindowProcW(HWND window, UINT kind, WPARAM wparam, LPARAM lparam) {
    (void)window, (void)kind, (void)wparam, (void)lparam;
    return 0;
}

/* The length that is read: where the script says so, one byte is missing. */
static size_t read_lent(struct lent *l) {
    if (l->good_reads > 0) l->good_reads--;
    else if (l->bad_reads > 0) return l->bad_reads--, l->whole_len - 1;
    return l->whole_len;
}

void read_layout(void) {
    block_len = read_lent(&lent_block);
}

void read_table(void) {
    table_len = read_lent(&lent_table);
}

/* ---- what it hands on */

/* A card is what presses typed. A press that a focus change wrote was typed before. */
void take_event(const uint8_t *answers, uint32_t i) {
    struct mahjonglarch_event_fields e;
    uint8_t text[MAHJONGLARCH_TEXT_MOST];
    uint32_t len;
    if (mahjonglarch_event_read(answers, MAHJONGLARCH_AREA_SIZE, i, &e) != 0) stop_station("event", i);
    if (e.state != MAHJONGLARCH_STATE_PRESSED || e.synthetic) return;
    len = mahjonglarch_event_text(answers, MAHJONGLARCH_AREA_SIZE, i, MAHJONGLARCH_TEXT_OF_EVENT, text, sizeof text);
    if (len == MAHJONGLARCH_NONE || len > sizeof card - card_len) stop_station("text", i);
    memcpy(card + card_len, text, len);
    card_len += len;
}

void refused_open(UINT kind, uint32_t number) {
    printf("open of %x refused with %" PRIu32 "\n", kind, number);
}

void stop_station(const char *call, uint32_t number) {
    printf("stopped: %s, %" PRIu32 "\n", call, number);
    end_session();
    exit(1);
}

/* ---- the script */

static void change_keys(void) {
    for (size_t i = 0; i < change_count; i++)
        if (changes[i].at == dispatched) keys[changes[i].key] = (uint8_t)changes[i].byte;
}

static void dispatch_all(void) {
    while (first < last) {
        MSG m = queue[first++];
        dispatched++;
        change_keys();
        window_procedure(NULL, m.message, m.wParam, m.lParam);
    }
    first = last = sent_first = sent_last = change_count = dispatched = 0;
}

static int message_at(const char *words, MSG *m) {
    uint64_t w, l;
    unsigned k;
    int end = 0;
    if (sscanf(words, "%x %" SCNx64 " %" SCNx64 "%n", &k, &w, &l, &end) != 3 || words[end] != '\0') return 0;
    m->hwnd = NULL, m->message = k, m->wParam = w, m->lParam = (LPARAM)l;
    return 1;
}

static int bad_reads_at(const char *words, struct lent *l) {
    int end = 0;
    return sscanf(words, "%u %u%n", &l->good_reads, &l->bad_reads, &end) == 2 && words[end] == '\0';
}

static int do_line(const char *line) {
    unsigned key, byte, n;
    int end = 0;
    if (line[0] == '#') return printf("%s\n", line) >= 0;
    if (strncmp(line, "post ", 5) == 0) return last < MOST && message_at(line + 5, &queue[last]) && ++last;
    if (sscanf(line, "key %2x %2x%n", &key, &byte, &end) == 2 && line[end] == '\0') return keys[key] = (uint8_t)byte, 1;
    if (sscanf(line, "at %u key %2x %2x%n", &n, &key, &byte, &end) == 3 && line[end] == '\0' && change_count < MOST) {
        changes[change_count].at = n, changes[change_count].key = key, changes[change_count++].byte = byte;
        return 1;
    }
    if (sscanf(line, "at %u send %n", &n, &end) == 1 && end > 0) {
        if (sent_last == MOST || !message_at(line + end, &sent[sent_last].message)) return 0;
        sent[sent_last++].at = n;
        return 1;
    }
    if (strncmp(line, "bad block ", 10) == 0) return bad_reads_at(line + 10, &lent_block);
    if (strncmp(line, "bad table ", 10) == 0) return bad_reads_at(line + 10, &lent_table);
    if (strcmp(line, "run") == 0) return dispatch_all(), 1;
    if (strcmp(line, "card") == 0) {
        printf("card %.*s, %s\n", (int)card_len, card, session_is_fresh() ? "the session area is a fresh one" : "the session area is in use");
        memset(card, 0, sizeof card);
        card_len = 0;
        return 1;
    }
    return 0;
}

static int read_file(const char *path, uint8_t *bytes, size_t most, struct lent *l) {
    FILE *file = fopen(path, "rb");
    if (!file) return 0;
    l->whole_len = fread(bytes, 1, most, file);
    fclose(file);
    return l->whole_len > 0;
}

int main(int argc, char **argv) {
    char line[256];
    if (argc != 3 || !read_file(argv[1], block, sizeof block, &lent_block) || !read_file(argv[2], table, sizeof table, &lent_table)) {
        fprintf(stderr, "usage: window BLOCK TABLE <SCRIPT\n");
        return 1;
    }
    start_session();
    for (unsigned long n = 1; fgets(line, sizeof line, stdin); n++) {
        line[strcspn(line, "\r\n")] = '\0';
        if (!do_line(line)) {
            fprintf(stderr, "line %lu: %s\n", n, line);
            return 2;
        }
    }
    end_session();
    return 0;
}
