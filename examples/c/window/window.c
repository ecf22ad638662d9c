/* A window procedure over Mahjonglarch. README shows the part between the two marks; tools/hosts builds the program with stand_in.c for the
 * Windows calls, runs it, and holds README to this text.
 *
 * The host's duties are those of include/mahjonglarch.h; each is named where it is done. */
#include <stdio.h>
#include <stdlib.h>
#include <string.h>

#include "host.h"

static uint8_t session[MAHJONGLARCH_AREA_SIZE], answers[MAHJONGLARCH_AREA_SIZE];
static uint8_t state[MAHJONGLARCH_KEY_STATE_SIZE];

/* [window procedure] */
/* The keyboard as it is now: read anew for each half of a message. For WM_SETFOCUS the keys that are down are the asynchronous ones, since
 * the window did not get their messages; the locks are those of its own queue. */
static void read_keyboard(UINT kind) {
    GetKeyboardState(state);
    if (kind == WM_SETFOCUS) {
        for (int key = 0; key < 256; key++)
            state[key] = (uint8_t)((GetAsyncKeyState(key) & 0x8000 ? 0x80 : 0) | (GetKeyState(key) & 1));
    }
    read_layout(); /* block and block_len: the layout in force */
    read_table();  /* table and table_len: Unicode's break table, the same for every layout */
}

/* Takes the events of an answered call, before the answer area is lent again. */
static void take_events(void) {
    uint32_t count = mahjonglarch_event_count(answers, sizeof answers);
    for (uint32_t i = 0; i < count; i++) take_event(answers, i);
}

/* Finishes the message of a token. A refused finish leaves its message open and everything behind it waiting, so it is brought again: with
 * refusals 1 to 3 and 11 the same token is answered once the inputs are in order. Where they can't be put in order the station stops. */
static void finish_message(uint32_t token, const MSG *peeked) {
    uint32_t no = MAHJONGLARCH_ANSWERED;
    for (int tries = 0; tries < FINISH_TRIES; tries++) {
        read_keyboard(0);
        no = mahjonglarch_finish(session, sizeof session, answers, sizeof answers, state, sizeof state, block, block_len, table, table_len, token,
                                 peeked != NULL, peeked ? peeked->message : 0, peeked ? peeked->wParam : 0, peeked ? (uint64_t)peeked->lParam : 0);
        if (no == MAHJONGLARCH_ANSWERED) {
            take_events();
            return;
        }
        if (no > MAHJONGLARCH_REFUSED_BLOCK && no != MAHJONGLARCH_REFUSED_TABLE) break;
    }
    stop_station("finish", no);
}

LRESULT CALLBACK window_procedure(HWND window, UINT kind, WPARAM wparam, LPARAM lparam) {
    uint32_t token, result, no;
    read_keyboard(kind);
    no = mahjonglarch_open(session, sizeof session, answers, sizeof answers, state, sizeof state, block, block_len, table, table_len, kind, wparam,
                           (uint64_t)lparam, &token, &result);
    if (no != MAHJONGLARCH_ANSWERED) {
        refused_open(kind, no); /* the message took no part in the session: a digit of it is lost unless it is brought again */
        return DefWindowProcW(window, kind, wparam, lparam);
    }
    take_events();
    if (token != MAHJONGLARCH_NONE) {
        MSG next;
        BOOL peeked = PeekMessageW(&next, window, WM_KEYFIRST, WM_KEYLAST, PM_NOREMOVE); /* may enter this procedure again */
        finish_message(token, peeked ? &next : NULL);
    }
    return result == MAHJONGLARCH_RESULT_ZERO ? 0 : DefWindowProcW(window, kind, wparam, lparam);
}
/* [end] */

void start_session(void) {
    if (mahjonglarch_interface() != MAHJONGLARCH_INTERFACE) stop_station("interface", mahjonglarch_interface());
    if (mahjonglarch_fresh(session, sizeof session) != 0) stop_station("fresh", MAHJONGLARCH_REFUSED_AREA_SIZE);
}

/* Both areas are overwritten in the end; volatile, so that no write is left out. */
void end_session(void) {
    volatile uint8_t *p = session, *q = answers;
    for (size_t i = 0; i < sizeof session; i++) p[i] = q[i] = 0;
}

int session_is_fresh(void) {
    for (size_t i = 0; i < sizeof session; i++)
        if (session[i] != 0) return 0;
    return 1;
}
