/* A plugin of the emulator qemu-user that counts the instructions of the program it runs, and prints their number when
 * the program ends. The emulator's header is not packaged, so what is used of it is declared here. */
#include <stddef.h>
#include <stdint.h>
#include <stdio.h>

struct qemu_plugin_tb;
struct qemu_plugin_insn;
typedef void on_translation(uint64_t id, struct qemu_plugin_tb *block);
typedef void on_end(uint64_t id, void *data);

void qemu_plugin_register_vcpu_tb_trans_cb(uint64_t id, on_translation *call);
void qemu_plugin_register_vcpu_insn_exec_inline(struct qemu_plugin_insn *one, int add, void *to, uint64_t number);
size_t qemu_plugin_tb_n_insns(const struct qemu_plugin_tb *block);
struct qemu_plugin_insn *qemu_plugin_tb_get_insn(const struct qemu_plugin_tb *block, size_t place);
void qemu_plugin_register_atexit_cb(uint64_t id, on_end *call, void *data);

int qemu_plugin_version = 1;

static uint64_t count = 0;

/* Each instruction by itself: a block's own number has one too many where its last lies across two pages of memory. */
static void count_block(uint64_t id, struct qemu_plugin_tb *block)
{
    size_t n;
    (void)id;
    for (n = 0; n < qemu_plugin_tb_n_insns(block); n++)
        qemu_plugin_register_vcpu_insn_exec_inline(qemu_plugin_tb_get_insn(block, n), 0, &count, 1);
}

static void print_count(uint64_t id, void *data)
{
    (void)id;
    (void)data;
    printf("%llu\n", (unsigned long long)count);
    fflush(stdout);
}

int qemu_plugin_install(uint64_t id, const void *info, int argc, char **argv)
{
    (void)info;
    (void)argc;
    (void)argv;
    qemu_plugin_register_vcpu_tb_trans_cb(id, count_block);
    qemu_plugin_register_atexit_cb(id, print_count, NULL);
    return 0;
}
