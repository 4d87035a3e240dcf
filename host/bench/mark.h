/* A mark in a run that is counted: a system call that no kernel has, and that the plugin insn.c sees. */
#ifndef MARK_H
#define MARK_H

#define MARK_CALL 30511
#define COUNTED 20 /* operations in a counted run; every one takes as many instructions as the first */

#ifndef MARK_NUMBER_ONLY
#include <unistd.h>

static inline void mark(void)
{
	syscall(MARK_CALL);
}
#endif

#endif
