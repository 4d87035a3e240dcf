/* Expectations: each failure says where, what, what was got and what was wanted; a program ends with a summary line. */
#ifndef EXPECT_H
#define EXPECT_H

#include <inttypes.h>
#include <stdarg.h>
#include <stdbool.h>
#include <stddef.h>
#include <stdint.h>
#include <stdio.h>
#include <stdlib.h>
#include <string.h>

#define COUNT(table) (sizeof(table) / sizeof(table)[0])
#define ROWS(k, table) for (size_t k = 0; k < COUNT(table); k++)

enum { FAILURES_SHOWN = 20 };

/* The context names the row of a table or the line of a script that is being worked on, `when` the moment within it. */
static struct {
	size_t made, failed;
	char context[160];
	const char *when;
} expectations;

static inline void context(const char *format, ...)
{
	va_list arguments;
	va_start(arguments, format);
	vsnprintf(expectations.context, sizeof expectations.context, format, arguments);
	va_end(arguments);
}

/* Compiled with -DSTOP_AT_FIRST, the program ends at the first failure. */
#ifdef STOP_AT_FIRST
enum { STOPS = true };
#else
enum { STOPS = false };
#endif

/* Counts a failure; says whether it is still to be shown. */
static inline bool failure(const char *file, int line, const char *what)
{
	if (STOPS)
		exit(1);
	if (++expectations.failed > FAILURES_SHOWN)
		return false;
	printf("%s:%d: ", file, line);
	if (expectations.context[0])
		printf("[%s] ", expectations.context);
	if (expectations.when)
		printf("%s: ", expectations.when);
	printf("%s: ", what);
	return true;
}

static inline bool expect_at(const char *file, int line, const char *what, uint64_t got, uint64_t wanted)
{
	expectations.made++;
	if (got == wanted)
		return true;
	if (failure(file, line, what))
		printf("got %" PRIu64 " (0x%" PRIx64 "), wanted %" PRIu64 " (0x%" PRIx64 ")\n", got, got, wanted, wanted);
	return false;
}

static inline bool expect_bytes_at(const char *file, int line, const char *what, const uint8_t *got,
                                   const uint8_t *wanted, size_t length)
{
	expectations.made++;
	if (length == 0 || memcmp(got, wanted, length) == 0)
		return true;
	size_t i = 0;
	while (got[i] == wanted[i])
		i++;
	if (failure(file, line, what))
		printf("byte %zu of %zu: got 0x%02x, wanted 0x%02x\n", i, length, got[i], wanted[i]);
	return false;
}

#define EXPECT(what, got, wanted) expect_at(__FILE__, __LINE__, what, (uint64_t)(got), (uint64_t)(wanted))
#define EXPECT_BYTES(what, got, wanted, length) expect_bytes_at(__FILE__, __LINE__, what, got, wanted, length)

/* The program's last line and its exit status. */
static inline int summary(const char *program, const char *done)
{
	if (expectations.failed) {
		printf("%s: %zu of %zu expectations FAILED\n", program, expectations.failed, expectations.made);
		return 1;
	}
	printf("%s: %s, %zu expectations, all met\n", program, done, expectations.made);
	return 0;
}

/* What the machine that runs the test can't give is no result at all. */
static inline void *need(void *room)
{
	if (room)
		return room;
	printf("no room for the test's buffers\n");
	exit(1);
}

#endif
