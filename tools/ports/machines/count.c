/*
 * A plugin of QEMU 7.2: for each pass from the instruction at `begin` to that at `end` it prints how many were run, as `counted N`.
 *   gcc -shared -fPIC -O2 count.c -o count.so;  qemu-system-arm .. -plugin ./count.so,begin=0x100,end=0x104 -d plugin
 * Debian has no qemu-plugin.h: what is used of it is declared here.
 */
#include <inttypes.h>
#include <stdio.h>
#include <stdlib.h>
#include <string.h>

typedef uint64_t plugin_id;
struct block;
struct instruction;
int qemu_plugin_version = 1;
void qemu_plugin_register_vcpu_tb_trans_cb(plugin_id, void (*)(plugin_id, struct block *));
size_t qemu_plugin_tb_n_insns(const struct block *);
struct instruction *qemu_plugin_tb_get_insn(const struct block *, size_t);
uint64_t qemu_plugin_insn_vaddr(const struct instruction *);
void qemu_plugin_register_vcpu_insn_exec_cb(struct instruction *, void (*)(unsigned, void *), int, void *);
void qemu_plugin_register_vcpu_insn_exec_inline(struct instruction *, int, void *, uint64_t);
void qemu_plugin_outs(const char *);

static uint64_t begin, end, count, since;

static void at_begin(unsigned cpu, void *none)
{
    (void)cpu, (void)none;
    since = count;
}

static void at_end(unsigned cpu, void *none)
{
    char text[40];
    (void)cpu, (void)none;
    snprintf(text, sizeof text, "counted %" PRIu64 "\n", count - since);
    qemu_plugin_outs(text);
}

static void translate(plugin_id id, struct block *block)
{
    (void)id;
    for (size_t i = 0; i < qemu_plugin_tb_n_insns(block); i++) {
        struct instruction *one = qemu_plugin_tb_get_insn(block, i);
        uint64_t address = qemu_plugin_insn_vaddr(one);
        if (address == begin)
            qemu_plugin_register_vcpu_insn_exec_cb(one, at_begin, 0, NULL);
        if (address == end)
            qemu_plugin_register_vcpu_insn_exec_cb(one, at_end, 0, NULL);
        qemu_plugin_register_vcpu_insn_exec_inline(one, 0, &count, 1);
    }
}

__attribute__((visibility("default"))) int qemu_plugin_install(plugin_id id, const void *info, int words, char **word)
{
    (void)info;
    for (int i = 0; i < words; i++) {
        if (strncmp(word[i], "begin=", 6) == 0)
            begin = strtoull(word[i] + 6, NULL, 16);
        if (strncmp(word[i], "end=", 4) == 0)
            end = strtoull(word[i] + 4, NULL, 16);
    }
    qemu_plugin_register_vcpu_tb_trans_cb(id, translate);
    return 0;
}
