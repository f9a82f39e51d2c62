/* A plugin for qemu-user that counts the instructions which an emulated program executes: exact, the same in every run, and
   whatever else the machine does. tools/x86 builds and loads it.

   A program marks a place by the system call 0x5A5A, which no kernel has, with a number; the plugin prints 'mark NUMBER N' on
   standard error, N being the instructions since the last mark. At the end it prints 'instructions N'.

   QEMU counts per translated block: a block's instructions are added when it is entered. A system call ends its block, so
   that a mark falls between two blocks and nothing is counted on the wrong side of it.

   The declarations are those of QEMU's plugin interface, version 1, which Debian 12's qemu-user has; no header is needed. */
#include <inttypes.h>
#include <stddef.h>
#include <stdint.h>
#include <stdio.h>

typedef uint64_t plugin;
struct qemu_plugin_tb;

void qemu_plugin_register_vcpu_tb_trans_cb(plugin id, void (*translated)(plugin, struct qemu_plugin_tb *));
size_t qemu_plugin_tb_n_insns(const struct qemu_plugin_tb *block);
void qemu_plugin_register_vcpu_tb_exec_inline(struct qemu_plugin_tb *block, int add, void *sum, uint64_t amount);
void qemu_plugin_register_vcpu_syscall_cb(plugin id, void (*called)(plugin, unsigned vcpu, int64_t number, uint64_t, uint64_t, uint64_t,
                                                                    uint64_t, uint64_t, uint64_t, uint64_t, uint64_t));
void qemu_plugin_register_atexit_cb(plugin id, void (*ended)(plugin, void *), void *data);

int qemu_plugin_version = 1;

enum { ADD = 0, MARK = 0x5A5A };

static uint64_t executed, marked;

static void translated(plugin id, struct qemu_plugin_tb *block)
{
    (void)id;
    qemu_plugin_register_vcpu_tb_exec_inline(block, ADD, &executed, qemu_plugin_tb_n_insns(block));
}

static void called(plugin id, unsigned vcpu, int64_t number, uint64_t a, uint64_t b, uint64_t c, uint64_t d, uint64_t e, uint64_t f,
                   uint64_t g, uint64_t h)
{
    (void)id, (void)vcpu, (void)b, (void)c, (void)d, (void)e, (void)f, (void)g, (void)h;
    if (number == MARK) {
        fprintf(stderr, "mark %" PRIu64 " %" PRIu64 "\n", a, executed - marked);
        marked = executed;
    }
}

static void ended(plugin id, void *data)
{
    (void)id, (void)data;
    fprintf(stderr, "instructions %" PRIu64 "\n", executed);
}

int qemu_plugin_install(plugin id, const void *info, int argc, char **argv)
{
    (void)info, (void)argc, (void)argv;
    qemu_plugin_register_vcpu_tb_trans_cb(id, translated);
    qemu_plugin_register_vcpu_syscall_cb(id, called);
    qemu_plugin_register_atexit_cb(id, ended, NULL);
    return 0;
}
