/* A plugin for Debian's qemu-user that counts the instructions a program executes and, when it ends, writes
 * 'instructions N' to qemu's log. Such a count is the same in every run, whatever else the machine does.
 * bench/run builds and uses it.
 *
 * qemu calls translated() once for each block of instructions that it translates, and executed() each time
 * that an instruction of it is executed. Blocks are not counted whole, although that were faster: qemu 7.2
 * says that a block has one instruction more than it has where that one crosses the end of a page, so that
 * the count would depend on where the linker puts a function. Of a repeated instruction (rep movs) each
 * step is counted.
 *
 * The declarations are written out because Debian's qemu-user brings no header; these have kept their form
 * through the versions of qemu's plugin interface. Which version the installed qemu wants is tried out by
 * bench/run. */
#include <inttypes.h>
#include <stddef.h>
#include <stdint.h>
#include <stdio.h>

#ifndef INTERFACE_VERSION
#define INTERFACE_VERSION 1
#endif

typedef uint64_t plugin_identity;
struct qemu_plugin_tb;
struct qemu_plugin_insn;
struct qemu_info_t;
enum qemu_plugin_cb_flags { NO_REGISTERS = 0 };

void qemu_plugin_register_vcpu_tb_trans_cb(plugin_identity,
                                           void (*)(plugin_identity, struct qemu_plugin_tb *));
size_t qemu_plugin_tb_n_insns(const struct qemu_plugin_tb *);
struct qemu_plugin_insn *qemu_plugin_tb_get_insn(const struct qemu_plugin_tb *, size_t);
void qemu_plugin_register_vcpu_insn_exec_cb(struct qemu_plugin_insn *, void (*)(unsigned, void *),
                                            enum qemu_plugin_cb_flags, void *);
void qemu_plugin_register_atexit_cb(plugin_identity, void (*)(plugin_identity, void *), void *);
void qemu_plugin_outs(const char *);

extern int qemu_plugin_version;
int qemu_plugin_version = INTERFACE_VERSION;
int qemu_plugin_install(plugin_identity, const struct qemu_info_t *, int, char **);

static uint64_t total;

static void executed(unsigned processor, void *unused)
{
    (void)processor, (void)unused;
    total++;
}

static void translated(plugin_identity identity, struct qemu_plugin_tb *block)
{
    (void)identity;
    for (size_t place = 0; place < qemu_plugin_tb_n_insns(block); place++)
        qemu_plugin_register_vcpu_insn_exec_cb(qemu_plugin_tb_get_insn(block, place), executed,
                                               NO_REGISTERS, NULL);
}

static void ended(plugin_identity identity, void *unused)
{
    char line[48];

    (void)identity, (void)unused;
    snprintf(line, sizeof line, "instructions %" PRIu64 "\n", total);
    qemu_plugin_outs(line);
}

int qemu_plugin_install(plugin_identity identity, const struct qemu_info_t *info, int count, char **words)
{
    (void)info, (void)count, (void)words;
    qemu_plugin_register_vcpu_tb_trans_cb(identity, translated);
    qemu_plugin_register_atexit_cb(identity, ended, NULL);
    return 0;
}
