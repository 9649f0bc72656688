/*
 * A plug-in for QEMU: counts the instructions that a program runs, and writes their number on standard error at its end.
 * The few functions of the plug-in interface that it uses are declared here, so that no header is needed. INTERFACE is
 * the version of that interface: 1 up to QEMU 8, 2 from QEMU 9 on.
 */

#include <stdint.h>
#include <stdio.h>

struct block; /* instructions that are translated together */
typedef uint64_t plugin;
typedef void translated(plugin, struct block *);
typedef void run(unsigned processor, void *count);
typedef void ended(plugin, void *);

enum registers { NO_REGISTERS };

void qemu_plugin_register_vcpu_tb_trans_cb(plugin, translated *);
size_t qemu_plugin_tb_n_insns(const struct block *);
void qemu_plugin_register_vcpu_tb_exec_cb(struct block *, run *, enum registers, void *count);
void qemu_plugin_register_atexit_cb(plugin, ended *, void *);

int qemu_plugin_version = INTERFACE;

static uint64_t instructions;

static void count_block(unsigned processor, void *count)
{
    (void)processor;
    instructions += (uintptr_t)count;
}

static void watch_block(plugin id, struct block *block)
{
    (void)id;
    qemu_plugin_register_vcpu_tb_exec_cb(block, count_block, NO_REGISTERS, (void *)qemu_plugin_tb_n_insns(block));
}

static void say(plugin id, void *nothing)
{
    (void)id, (void)nothing;
    fprintf(stderr, "instructions: %llu\n", (unsigned long long)instructions);
}

int qemu_plugin_install(plugin id, const void *info, int count, char **words)
{
    (void)info, (void)count, (void)words;
    qemu_plugin_register_vcpu_tb_trans_cb(id, watch_block);
    qemu_plugin_register_atexit_cb(id, say, NULL);
    return 0;
}
