// A plugin for QEMU's user mode: counts the guest instructions that run, by the symbol of the program they stand in.
// qemu-x86_64 -plugin libcount.so,out=FILE -d plugin -D /dev/null PROGRAM (-d so that QEMU reads the program's symbols)
// No Debian package has qemu-plugin.h; this declares the part of version 1 that is used.
#include <stdint.h>
#include <stdio.h>
#include <stdlib.h>
#include <string.h>

struct qemu_plugin_tb;
struct qemu_plugin_insn;
typedef void (*translated)(uint64_t id, struct qemu_plugin_tb *tb);
typedef void (*ended)(uint64_t id, void *data);
void qemu_plugin_register_vcpu_tb_trans_cb(uint64_t id, translated callback);
void qemu_plugin_register_atexit_cb(uint64_t id, ended callback, void *data);
size_t qemu_plugin_tb_n_insns(const struct qemu_plugin_tb *tb);
struct qemu_plugin_insn *qemu_plugin_tb_get_insn(const struct qemu_plugin_tb *tb, size_t index);
const char *qemu_plugin_insn_symbol(const struct qemu_plugin_insn *insn);
void qemu_plugin_register_vcpu_insn_exec_inline(struct qemu_plugin_insn *insn, int add, void *counter, uint64_t amount);

__attribute__((visibility("default"))) int qemu_plugin_version = 1;

#define MOST 65536
static struct { char *symbol; uint64_t count; } counted[MOST];
static size_t symbols;
static const char *out;

static uint64_t *counter_of(const char *symbol) {
  if (symbol == NULL || *symbol == 0) symbol = "(no symbol)";
  for (size_t i = symbols; i > 0; i--)
    if (strcmp(counted[i - 1].symbol, symbol) == 0) return &counted[i - 1].count;
  if (symbols == MOST) abort();
  counted[symbols].symbol = strdup(symbol);
  return &counted[symbols++].count;
}

static void on_translated(uint64_t id, struct qemu_plugin_tb *tb) {
  (void)id;
  size_t n = qemu_plugin_tb_n_insns(tb);
  for (size_t i = 0; i < n; i++) {
    struct qemu_plugin_insn *insn = qemu_plugin_tb_get_insn(tb, i);
    qemu_plugin_register_vcpu_insn_exec_inline(insn, 0, counter_of(qemu_plugin_insn_symbol(insn)), 1);
  }
}

static void on_end(uint64_t id, void *data) {
  (void)id, (void)data;
  FILE *file = fopen(out, "w");
  if (file == NULL) abort();
  for (size_t i = 0; i < symbols; i++) fprintf(file, "%llu %s\n", (unsigned long long)counted[i].count, counted[i].symbol);
  fclose(file);
}

__attribute__((visibility("default"))) int qemu_plugin_install(uint64_t id, const void *info, int argc, char **argv) {
  (void)info;
  for (int i = 0; i < argc; i++)
    if (strncmp(argv[i], "out=", 4) == 0) out = strdup(argv[i] + 4);
  if (out == NULL) return 1;
  qemu_plugin_register_vcpu_tb_trans_cb(id, on_translated);
  qemu_plugin_register_atexit_cb(id, on_end, NULL);
  return 0;
}
