/* What window.c and the program around it share. */
#ifndef HOST_H
#define HOST_H

#ifdef _WIN32
#include <windows.h>
#else
#include "stand_in.h"
#endif
#include "mahjonglarch.h"

/* How often a finish is brought again before the station stops. */
#define FINISH_TRIES 3

extern uint8_t block[MAHJONGLARCH_BLOCK_MOST + 1];
extern size_t block_len;
extern uint8_t table[MAHJONGLARCH_TABLE_MOST + 1];
extern size_t table_len;

void read_layout(void);
void read_table(void);
void take_event(const uint8_t *answers, uint32_t i);
void refused_open(UINT kind, uint32_t number);
void stop_station(const char *call, uint32_t number);

void start_session(void);
void end_session(void);
int session_is_fresh(void);

#endif
