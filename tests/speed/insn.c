/*
 * A plugin for qemu's user mode that counts the instructions a program executes. Each system call getpid of the program is a mark: it prints how
 * many were executed since the mark before, on a line of the file that the plugin's word `out` names. `tools/count` builds and loads it.
 *
 * What it needs of qemu's plugin interface is declared here, since Debian 12 has no package with the header. It asks for a call at each
 * instruction, and not for the quicker sums over blocks: those have other names from qemu 9 on, and in qemu 7 a block lists an instruction that it
 * then leaves to the next where it crosses a page.
 */
#include <inttypes.h>
#include <stdio.h>
#include <string.h>

struct qemu_plugin_tb; /* a block of instructions that is translated together */
struct qemu_plugin_insn;
typedef uint64_t plugin_id;
typedef uint64_t word;

size_t qemu_plugin_tb_n_insns(const struct qemu_plugin_tb *);
struct qemu_plugin_insn *qemu_plugin_tb_get_insn(const struct qemu_plugin_tb *, size_t);
void qemu_plugin_register_vcpu_tb_trans_cb(plugin_id, void (*)(plugin_id, struct qemu_plugin_tb *));
void qemu_plugin_register_vcpu_insn_exec_cb(struct qemu_plugin_insn *, void (*)(unsigned, void *), int flags, void *);
void qemu_plugin_register_vcpu_syscall_cb(plugin_id, void (*)(plugin_id, unsigned, int64_t, word, word, word, word, word, word, word, word));

enum { NO_REGISTERS = 0, GETPID = 39 /* on x86-64 */ };

#define SHOWN __attribute__((visibility("default")))

SHOWN int qemu_plugin_version = PLUGIN_VERSION;

static FILE *out;
static uint64_t executed;

static void on_instruction(unsigned cpu, void *data)
{
    (void)cpu, (void)data;
    executed++;
}

static void on_block(plugin_id id, struct qemu_plugin_tb *block)
{
    (void)id;
    for (size_t i = 0; i < qemu_plugin_tb_n_insns(block); i++)
        qemu_plugin_register_vcpu_insn_exec_cb(qemu_plugin_tb_get_insn(block, i), on_instruction, NO_REGISTERS, NULL);
}

static void on_system_call(plugin_id id, unsigned cpu, int64_t number, word a, word b, word c, word d, word e, word f, word g, word h)
{
    (void)id, (void)cpu, (void)a, (void)b, (void)c, (void)d, (void)e, (void)f, (void)g, (void)h;
    if (number != GETPID) return;
    fprintf(out, "%" PRIu64 "\n", executed);
    executed = 0;
}

SHOWN int qemu_plugin_install(plugin_id id, const void *info, int count, char **words)
{
    (void)info;
    if (count != 1 || strncmp(words[0], "out=", 4) != 0) return -1;
    out = fopen(words[0] + 4, "w");
    if (out == NULL || setvbuf(out, NULL, _IOLBF, 0) != 0) return -1;
    qemu_plugin_register_vcpu_tb_trans_cb(id, on_block);
    qemu_plugin_register_vcpu_syscall_cb(id, on_system_call);
    return 0;
}
