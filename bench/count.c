/* Counts executed instructions: a plugin for qemu-user 7.2 (plugin interface 1). A program opens and closes a region as in
   bench/mark.h; at its close a line `count TAG INSTRUCTIONS` goes to standard error. Counts repeat exactly, on any host.
   Debian packages no header for plugins, so what is used of the interface is declared here. */
#include <inttypes.h>
#include <stddef.h>
#include <stdio.h>

typedef uint64_t plugin_id;
struct qemu_plugin_tb;
enum operation { ADD_U64 };

typedef void on_translation(plugin_id, struct qemu_plugin_tb *);
typedef void on_system_call(plugin_id, unsigned, int64_t, uint64_t, uint64_t, uint64_t, uint64_t, uint64_t, uint64_t,
                            uint64_t, uint64_t);

void qemu_plugin_register_vcpu_tb_trans_cb(plugin_id, on_translation *);
void qemu_plugin_register_vcpu_syscall_cb(plugin_id, on_system_call *);
void qemu_plugin_register_vcpu_tb_exec_inline(struct qemu_plugin_tb *, enum operation, void *, uint64_t);
size_t qemu_plugin_tb_n_insns(const struct qemu_plugin_tb *);

#define EXPORT __attribute__((visibility("default")))
EXPORT int qemu_plugin_version = 1;

enum { GETPID = 39, MARK = 0x666f6c64 };
static uint64_t executed, opened_at;

/* Each translated piece adds its length whenever it is run. */
static void translated(plugin_id id, struct qemu_plugin_tb *piece)
{
    (void)id;
    qemu_plugin_register_vcpu_tb_exec_inline(piece, ADD_U64, &executed, qemu_plugin_tb_n_insns(piece));
}

static void system_call(plugin_id id, unsigned cpu, int64_t number, uint64_t mark, uint64_t tag, uint64_t a3, uint64_t a4,
                        uint64_t a5, uint64_t a6, uint64_t a7, uint64_t a8)
{
    (void)id, (void)cpu, (void)a3, (void)a4, (void)a5, (void)a6, (void)a7, (void)a8;
    if (number != GETPID || mark != MARK) return;
    if (tag == UINT64_MAX) opened_at = executed;
    else fprintf(stderr, "count %" PRIu64 " %" PRIu64 "\n", tag, executed - opened_at);
}

struct qemu_info;
EXPORT int qemu_plugin_install(plugin_id id, const struct qemu_info *info, int argc, char **argv)
{
    (void)info, (void)argc, (void)argv;
    qemu_plugin_register_vcpu_tb_trans_cb(id, translated);
    qemu_plugin_register_vcpu_syscall_cb(id, system_call);
    return 0;
}
