/*
 * What the parts of the charge's tests share.
 */
#ifndef CHARGE_H
#define CHARGE_H

#include "pd3120_charge.h"

#include <stdbool.h>

void check_at(const char *file, int line, const char *what, bool holds);

#define CHECK(condition) check_at(__FILE__, __LINE__, #condition, condition)

#define CANARY 0xA5A5A5A5A5A5A5A5u

/* ---- charge_checked.c ---- */

void counters(void);
void reasons(void);
void readings(void);
void checked_charges(void);

#endif
