/*
 * A plugin of Debian's qemu-user (plugin interface 1): counts the instructions that an x86-64 program executes, and tells at each mark
 * how many lie between it and the one before.
 */
#include <stddef.h>
#include <stdint.h>
#include <stdio.h>

#define MARK_NUMBER_ONLY
#include "mark.h"

typedef uint64_t plugin_id;
struct tb;

/* Of the plugin interface, what is used; so that its header need not be installed. */
extern void qemu_plugin_register_vcpu_tb_trans_cb(plugin_id, void (*)(plugin_id, struct tb *));
extern size_t qemu_plugin_tb_n_insns(const struct tb *);
extern void qemu_plugin_register_vcpu_tb_exec_inline(struct tb *, int add, void *number, uint64_t by);
extern void qemu_plugin_register_vcpu_syscall_cb(plugin_id,
                                                 void (*)(plugin_id, unsigned, int64_t, uint64_t, uint64_t, uint64_t,
                                                          uint64_t, uint64_t, uint64_t, uint64_t, uint64_t));

__attribute__((visibility("default"))) int qemu_plugin_version = 1;

static uint64_t executed, before;

static void translated(plugin_id id, struct tb *t)
{
	(void)id;
	qemu_plugin_register_vcpu_tb_exec_inline(t, 0, &executed, qemu_plugin_tb_n_insns(t));
}

static void called(plugin_id id, unsigned cpu, int64_t call, uint64_t a, uint64_t b, uint64_t c, uint64_t d, uint64_t e,
                   uint64_t f, uint64_t g, uint64_t h)
{
	(void)id, (void)cpu, (void)a, (void)b, (void)c, (void)d, (void)e, (void)f, (void)g, (void)h;
	if (call != MARK_CALL)
		return;
	fprintf(stderr, "%llu\n", (unsigned long long)(executed - before));
	before = executed;
}

__attribute__((visibility("default"))) int qemu_plugin_install(plugin_id id, const void *info, int argc, char **argv)
{
	(void)info, (void)argc, (void)argv;
	qemu_plugin_register_vcpu_tb_trans_cb(id, translated);
	qemu_plugin_register_vcpu_syscall_cb(id, called);
	return 0;
}
