/* What window.c needs of windows.h, for a machine without Windows: the types, and the calls answered from a script (stand_in.c). On Windows
 * window.c includes windows.h instead. */
#ifndef STAND_IN_H
#define STAND_IN_H

#include <stdint.h>

typedef void *HWND;
typedef int BOOL;
typedef unsigned UINT;
typedef uint64_t WPARAM;
typedef int64_t LPARAM;
typedef int64_t LRESULT;
typedef uint8_t BYTE;
typedef int16_t SHORT;
typedef struct {
    HWND hwnd;
    UINT message;
    WPARAM wParam;
    LPARAM lParam;
} MSG;

#define CALLBACK
#define WM_SETFOCUS 0x0007u
#define WM_KEYFIRST 0x0100u
#define WM_KEYLAST 0x0109u
#define PM_NOREMOVE 0u

LRESULT CALLBACK window_procedure(HWND window, UINT kind, WPARAM wparam, LPARAM lparam);

/* The next key message of the queue, which stays there. Messages that were sent meanwhile reach the window procedure before it answers. */
BOOL PeekMessageW(MSG *next, HWND window, UINT first, UINT last, UINT remove);
BOOL GetKeyboardState(BYTE *state);
SHORT GetAsyncKeyState(int key);
SHORT GetKeyState(int key);
LRESULT DefWindowProcW(HWND window, UINT kind, WPARAM wparam, LPARAM lparam);

#endif
