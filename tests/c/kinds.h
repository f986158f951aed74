/*
 * A run of two recorders with steps of all kinds; in its second view an entry is
 * left to be put into order.
 */
#ifndef HL3_TESTS_KINDS_H
#define HL3_TESTS_KINDS_H

#include "hall.h"

static const uint32_t all_kinds[][4] = {
    {HALL_SUBMIT, 1, 7, 0}, {HALL_LABEL, 1, 0, 0}, {HALL_SEND_ENTRY, 1, 0, 0}, {HALL_PLACE, 1, 1, 0},
    {HALL_RECEIVE, 1, 0, 0}, {HALL_RECEIVE, 2, 0, 0}, {HALL_SAFE, 1, 0, 0}, {HALL_SAFE, 2, 0, 0},
    {HALL_CONFIRM, 1, 0, 0}, {HALL_DELIVER, 1, 0, 0},
    {HALL_SUBMIT, 2, 8, 0}, {HALL_LABEL, 2, 0, 0},
    {HALL_FORM, 0, 2, 3}, {HALL_ENTER, 1, 2, 0}, {HALL_ENTER, 2, 2, 0},
    {HALL_SEND_SUMMARY, 1, 0, 0}, {HALL_SEND_SUMMARY, 2, 0, 0}, {HALL_PLACE, 1, 2, 0}, {HALL_PLACE, 2, 2, 0},
    {HALL_RECEIVE, 1, 0, 0}, {HALL_RECEIVE, 1, 0, 0}, {HALL_RECEIVE, 2, 0, 0}, {HALL_RECEIVE, 2, 0, 0},
    {HALL_SAFE, 1, 0, 0}, {HALL_SAFE, 1, 0, 0}, {HALL_CONFIRM, 1, 0, 0}, {HALL_DELIVER, 1, 0, 0},
};

enum { ALL_KINDS = sizeof all_kinds / sizeof all_kinds[0] };

#endif
