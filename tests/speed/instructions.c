/* A plugin of qemu's user emulation: how many instructions the program executed, told on standard error when it ends. For tests/speed/speed.sh on
   machines that are not x86-64, where no time of an emulated program is its own. Of qemu's interface it declares the four calls that it makes. */
#include <inttypes.h>
#include <stddef.h>
#include <stdio.h>

typedef uint64_t plugin;
struct qemu_plugin_tb;
size_t qemu_plugin_tb_n_insns(const struct qemu_plugin_tb *block);
void qemu_plugin_register_vcpu_tb_exec_inline(struct qemu_plugin_tb *block, int add, void *to, uint64_t by);
void qemu_plugin_register_vcpu_tb_trans_cb(plugin id, void (*translated)(plugin, struct qemu_plugin_tb *));
void qemu_plugin_register_atexit_cb(plugin id, void (*ended)(plugin, void *), void *data);

#define SEEN __attribute__((visibility("default")))
SEEN int qemu_plugin_version = 1;
static uint64_t executed;

/* Each run of a block adds its length. */
static void translated(plugin id, struct qemu_plugin_tb *block) {
    (void)id;
    qemu_plugin_register_vcpu_tb_exec_inline(block, 0, &executed, qemu_plugin_tb_n_insns(block));
}

static void ended(plugin id, void *data) {
    (void)id, (void)data;
    fprintf(stderr, "instructions %" PRIu64 "\n", executed);
}

SEEN int qemu_plugin_install(plugin id, const void *info, int argc, char **argv) {
    (void)info, (void)argc, (void)argv;
    qemu_plugin_register_vcpu_tb_trans_cb(id, translated);
    qemu_plugin_register_atexit_cb(id, ended, NULL);
    return 0;
}
