/* A plugin of qemu-user: counts the instructions of an emulated program from entering its function `counted` until that returns, as callgrind's --toggle-collect
 * does, and says how many on standard error. Debian has no header of qemu's interface, so what is used of it (version 1) is declared here. */
#include <stdint.h>
#include <stdio.h>
#include <string.h>

#define PUBLIC __attribute__((visibility("default")))
enum { RET = 0xc3, NO_REGISTERS = 0, ADD_U64 = 0 };

struct block;
struct instruction;
void qemu_plugin_register_vcpu_tb_trans_cb(uint64_t id, void (*call)(uint64_t, struct block *));
void qemu_plugin_register_atexit_cb(uint64_t id, void (*call)(uint64_t, void *), void *with);
size_t qemu_plugin_tb_n_insns(const struct block *);
struct instruction *qemu_plugin_tb_get_insn(const struct block *, size_t at);
const void *qemu_plugin_insn_data(const struct instruction *);
uint64_t qemu_plugin_insn_vaddr(const struct instruction *);
const char *qemu_plugin_insn_symbol(const struct instruction *);
void qemu_plugin_register_vcpu_insn_exec_cb(struct instruction *, void (*call)(unsigned, void *), int registers, void *with);
void qemu_plugin_register_vcpu_insn_exec_inline(struct instruction *, int operation, void *number, uint64_t by);

PUBLIC int qemu_plugin_version = 1;

static uint64_t executed, at_entry, counted, entry;

static void enter(unsigned processor, void *with)
{
    (void)processor;
    (void)with;
    at_entry = executed;
}

static void leave(unsigned processor, void *with)
{
    (void)processor;
    (void)with;
    counted += executed + 1 - at_entry;
}

/* Called once for each block of instructions, before it first runs. The first that is seen of a function is its first. */
static void prepare(uint64_t id, struct block *block)
{
    (void)id;
    for (size_t k = 0; k < qemu_plugin_tb_n_insns(block); k++) {
        struct instruction *one = qemu_plugin_tb_get_insn(block, k);
        const char *name = qemu_plugin_insn_symbol(one);
        if (name != NULL && strcmp(name, "counted") == 0) {
            entry = entry == 0 ? qemu_plugin_insn_vaddr(one) : entry;
            if (qemu_plugin_insn_vaddr(one) == entry) {
                qemu_plugin_register_vcpu_insn_exec_cb(one, enter, NO_REGISTERS, NULL);
            } else if (*(const uint8_t *)qemu_plugin_insn_data(one) == RET) {
                qemu_plugin_register_vcpu_insn_exec_cb(one, leave, NO_REGISTERS, NULL);
            }
        }
        qemu_plugin_register_vcpu_insn_exec_inline(one, ADD_U64, &executed, 1);
    }
}

static void end(uint64_t id, void *with)
{
    (void)id;
    (void)with;
    fprintf(stderr, "Collected : %llu\n", (unsigned long long)counted);
}

PUBLIC int qemu_plugin_install(uint64_t id, const void *host, int words, char **word)
{
    (void)host;
    (void)words;
    (void)word;
    qemu_plugin_register_vcpu_tb_trans_cb(id, prepare);
    qemu_plugin_register_atexit_cb(id, end, NULL);
    return 0;
}
