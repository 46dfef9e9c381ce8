#ifndef TEST_H
#define TEST_H

#include <stddef.h>
#include <stdint.h>
#include <string.h>

#include "louravela.h"

/* The file whose expectations are made: a failed one is printed with it and its line. */
extern const char *tested;

void expect(int line, const char *what, uint64_t got, uint64_t wanted);

#define EXPECT(got, wanted) expect(__LINE__, #got, (uint64_t)(got), (uint64_t)(wanted))

/* Records have no padding, so equal bytes are equal records. */
#define EXPECT_SAME(got, wanted) expect(__LINE__, #got " as given", memcmp(&(got), &(wanted), sizeof(got)) == 0, 1)

/* A report of a bay or of a port, with its tick. */
void expect_report(int line, const char *what, struct louravela_report report, uint64_t code, uint64_t tick);

#define EXPECT_REPORT(report, code, tick) expect_report(__LINE__, #report, report, code, tick)

/* Events with arguments. */
struct louravela_event tx_open(uint64_t destination);
struct louravela_event open_received(uint64_t source, uint64_t protocol);

/* A room of bytes, of which a part is lent. */
enum { BEFORE = 16, ROOM = 64 };

extern uint8_t room[BEFORE + ROOM];

uint8_t *lend(void);

/* All bytes of the room are as they were, but for `count` from `place` on, which are `bytes`. */
void expect_room(int line, size_t place, const uint8_t *bytes, size_t count);

#define EXPECT_ROOM(place, bytes, count) expect_room(__LINE__, place, bytes, count)

void test_machines(void);
void test_bays(void);
void test_shelf(void);
void test_traces(void);

#endif
