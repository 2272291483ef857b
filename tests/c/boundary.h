/*
 * What the parts of the boundary's tests share: the checks, the caller's memory and a setup image.
 */
#ifndef BOUNDARY_H
#define BOUNDARY_H

#include "pd3120.h"

/* ---- checks ---- */

void check_at(const char *file, int line, const char *what, bool holds);

#define CHECK(condition) check_at(__FILE__, __LINE__, #condition, condition)

/* ---- the caller's memory ---- */

#define CANARY 0xA5
#define AROUND 13 /* bytes before and after a buffer; odd, so that no buffer is aligned */
#define ROOM 1000

extern pd3120_module *const box; /* between canaries */
extern uint8_t memory[AROUND + ROOM + AROUND];
extern uint8_t *const lent; /* ROOM bytes of memory, between canaries */

bool intact_past(size_t length);
bool arena_intact(void);
uint32_t wire_read(uint16_t swno, size_t length);
bool reads(uint16_t swno, const uint8_t *expected, size_t length);
uint32_t wire_write(uint16_t swno, const uint8_t *bytes, size_t length);
bool alike(const pd3120_module *one, const pd3120_module *other);
bool identical(const pd3120_module *one, const pd3120_module *other);

/* ---- setup images ---- */

extern uint8_t image[PD3120_IMAGE_SIZE];       /* as make_image makes it */
extern uint8_t older[PD3120_OLDER_IMAGE_SIZE]; /* the same settings, without the data channel */

void put32(uint8_t *at, uint32_t value);
void put_sum(uint8_t *bytes, size_t length);
uint32_t power_up(const uint8_t *bytes, size_t length);

/* ---- the parts: boundary_calls.c, boundary_data.c, boundary_hours.c, then boundary_checked.c ---- */

void answers(void);
void images(void);
void wire_calls(void);
void written_times(void);
void samples(void);
void older_images(void);
void table_bytes(void);
void data_registers(void);
void lookups(void);
void minutes_and_windows(void);
void refused_hours(void);
void opening_hours(void);
void closed_control(void);
void unset_hours(void);
void checked_hours(void);
void exact_blocks(void);
void checked_calls(void);

#endif
