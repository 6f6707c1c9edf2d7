// A plugin for the emulator qemu-x86_64: counts the instructions that a program executes and prints
// the number when it ends.
#include <inttypes.h>
#include <stddef.h>
#include <stdint.h>
#include <stdio.h>

// Debian packages the emulator without its plugin header, so the few names used here are declared
// by hand. They read the same in every version of that interface, but for its number.
#ifndef PLUGIN_INTERFACE
#define PLUGIN_INTERFACE 1
#endif

struct qemu_plugin_tb;
struct qemu_info;
enum registers_seen { SEES_NO_REGISTERS };

void qemu_plugin_register_vcpu_tb_trans_cb(uint64_t plugin, void (*on_block)(uint64_t plugin, struct qemu_plugin_tb *block));
size_t qemu_plugin_tb_n_insns(const struct qemu_plugin_tb *block);
void qemu_plugin_register_vcpu_tb_exec_cb(struct qemu_plugin_tb *block, void (*on_run)(unsigned processor, void *lent),
                                          enum registers_seen seen, void *lent);
void qemu_plugin_register_atexit_cb(uint64_t plugin, void (*on_end)(uint64_t plugin, void *lent), void *lent);
void qemu_plugin_outs(const char *text);

// What the emulator looks up by name.
extern int qemu_plugin_version;
int qemu_plugin_install(uint64_t plugin, const struct qemu_info *info, int argc, char **argv);

int qemu_plugin_version = PLUGIN_INTERFACE;

// The measured programs have one thread, so a plain number will do.
static uint64_t executed;

// The block's length travels as the pointer itself, which spares a record for each block.
static void count_block(unsigned processor, void *length) {
  (void)processor;
  executed += (uintptr_t)length;
}

// The emulator runs whole blocks of instructions, which are counted at once.
static void watch_block(uint64_t plugin, struct qemu_plugin_tb *block) {
  (void)plugin;
  uintptr_t length = qemu_plugin_tb_n_insns(block);
  qemu_plugin_register_vcpu_tb_exec_cb(block, count_block, SEES_NO_REGISTERS, (void *)length);
}

static void print_count(uint64_t plugin, void *lent) {
  (void)plugin;
  (void)lent;
  char line[32];
  snprintf(line, sizeof line, "%" PRIu64 "\n", executed);
  qemu_plugin_outs(line);
}

int qemu_plugin_install(uint64_t plugin, const struct qemu_info *info, int argc, char **argv) {
  (void)info;
  (void)argc;
  (void)argv;
  qemu_plugin_register_vcpu_tb_trans_cb(plugin, watch_block);
  qemu_plugin_register_atexit_cb(plugin, print_count, NULL);
  return 0;
}
