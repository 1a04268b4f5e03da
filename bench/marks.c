/* A plugin of qemu that counts the instructions between the marks of bench/exports.c. When the program ends it writes a line to
   standard error for each function: its number, how often it was called, and the most instructions of one call.

       cc -std=c11 -O2 -shared -fPIC bench/marks.c -o marks.so
       qemu-aarch64 -plugin ./marks.so PROGRAM ..

   What it calls of qemu is declared here, since not every system has the header. Instructions are counted by blocks, each when it
   is entered. */
#include <inttypes.h>
#include <stddef.h>
#include <stdint.h>
#include <stdio.h>

typedef uint64_t qemu_plugin_id_t;
struct qemu_plugin_tb;
typedef void (*on_block)(qemu_plugin_id_t, struct qemu_plugin_tb *);
typedef void (*on_syscall)(qemu_plugin_id_t, unsigned, int64_t, uint64_t, uint64_t, uint64_t, uint64_t, uint64_t, uint64_t, uint64_t,
                           uint64_t);
void qemu_plugin_register_vcpu_tb_trans_cb(qemu_plugin_id_t, on_block);
size_t qemu_plugin_tb_n_insns(const struct qemu_plugin_tb *);
void qemu_plugin_register_vcpu_tb_exec_inline(struct qemu_plugin_tb *, int, void *, uint64_t);
void qemu_plugin_register_vcpu_syscall_cb(qemu_plugin_id_t, on_syscall);
void qemu_plugin_register_atexit_cb(qemu_plugin_id_t, void (*)(qemu_plugin_id_t, void *), void *);
int qemu_plugin_install(qemu_plugin_id_t, const void *, int, char **);

extern int qemu_plugin_version;
int qemu_plugin_version = 1;

/* The functions have numbers below MOST. */
enum { ADD = 0, MOST = 64, FIRST = 1000 };

static uint64_t count, begun, most[MOST], calls[MOST];

static void add_block(qemu_plugin_id_t id, struct qemu_plugin_tb *block) {
    (void)id;
    qemu_plugin_register_vcpu_tb_exec_inline(block, ADD, &count, qemu_plugin_tb_n_insns(block));
}

/* Whether a call of the system is a mark tells its first number alone: no file has such a number. */
static void see_mark(qemu_plugin_id_t id, unsigned processor, int64_t call, uint64_t first, uint64_t a, uint64_t b, uint64_t c,
                     uint64_t d, uint64_t e, uint64_t f, uint64_t g) {
    (void)id, (void)processor, (void)call, (void)a, (void)b, (void)c, (void)d, (void)e, (void)f, (void)g;
    int64_t mark = -(int64_t)(int32_t)first - FIRST;
    if (mark < 0 || mark >= 2 * MOST) return;
    if (mark % 2 == 0) {
        begun = count;
        return;
    }
    calls[mark / 2]++;
    if (count - begun > most[mark / 2]) most[mark / 2] = count - begun;
}

static void tell(qemu_plugin_id_t id, void *data) {
    (void)id, (void)data;
    for (int at = 0; at < MOST; at++)
        if (calls[at] != 0) fprintf(stderr, "%d %" PRIu64 " %" PRIu64 "\n", at, calls[at], most[at]);
}

int qemu_plugin_install(qemu_plugin_id_t id, const void *info, int words, char **word) {
    (void)info, (void)words, (void)word;
    qemu_plugin_register_vcpu_tb_trans_cb(id, add_block);
    qemu_plugin_register_vcpu_syscall_cb(id, see_mark);
    qemu_plugin_register_atexit_cb(id, tell, NULL);
    return 0;
}
