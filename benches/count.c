/* Counts the instructions of a program that QEMU's user mode runs, where callgrind takes 30 times as long as the program
   alone and this about twice as long (Debian: gcc, qemu-user):

       gcc -O2 -shared -fPIC -o count.so count.c
       qemu-x86_64 -cpu max -plugin ./count.so PROGRAM WORD..

   What is counted goes to standard error. The plugin interface is that of qemu-plugin.h, which Debian does not ship. */
#include <stddef.h>
#include <stdint.h>
#include <stdio.h>

struct block;
typedef uint64_t id;

__attribute__((visibility("default"))) int qemu_plugin_version = 1;

void qemu_plugin_register_vcpu_tb_trans_cb(id plugin, void (*made)(id, struct block *));
void qemu_plugin_register_vcpu_tb_exec_inline(struct block *block, int add, void *to, uint64_t amount);
void qemu_plugin_register_atexit_cb(id plugin, void (*ended)(id, void *), void *with);
size_t qemu_plugin_tb_n_insns(const struct block *block);

static uint64_t count;

static void made(id plugin, struct block *block)
{
    (void)plugin;
    qemu_plugin_register_vcpu_tb_exec_inline(block, 0, &count, qemu_plugin_tb_n_insns(block));
}

static void ended(id plugin, void *with)
{
    (void)plugin, (void)with;
    fprintf(stderr, "instructions %llu\n", (unsigned long long)count);
}

__attribute__((visibility("default"))) int qemu_plugin_install(id plugin, const void *info, int words, char **of)
{
    (void)info, (void)words, (void)of;
    qemu_plugin_register_vcpu_tb_trans_cb(plugin, made);
    qemu_plugin_register_atexit_cb(plugin, ended, NULL);
    return 0;
}
