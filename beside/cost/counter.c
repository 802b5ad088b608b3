/* A plugin for qemu-user (its plugin interface 1, of QEMU 6 to 8): counts the instructions that a program executes, function by function. The program marks
 * places by the call getppid, which nothing else here makes. At a mark the file named by `out` gets the count since the last mark, then the functions with the most.
 * Debian has no header for the interface, so what is used of it is declared here. */
#include <stdint.h>
#include <stdio.h>
#include <stdlib.h>
#include <string.h>

typedef uint64_t plugin_id;
struct block;
struct instruction;
extern void qemu_plugin_register_vcpu_tb_trans_cb(plugin_id, void (*)(plugin_id, struct block *));
extern void qemu_plugin_register_vcpu_tb_exec_inline(struct block *, int operation, void *counter, uint64_t more);
extern void qemu_plugin_register_vcpu_syscall_cb(plugin_id, void (*)(plugin_id, unsigned, int64_t, uint64_t, uint64_t, uint64_t, uint64_t, uint64_t, uint64_t,
                                                                     uint64_t, uint64_t));
extern size_t qemu_plugin_tb_n_insns(const struct block *);
extern struct instruction *qemu_plugin_tb_get_insn(const struct block *, size_t);
extern const char *qemu_plugin_insn_symbol(const struct instruction *);

int qemu_plugin_version = 1;

enum { ADD = 0, GETPPID_ON_X86_64 = 110, MOST_FUNCTIONS = 1 << 16, LISTED = 40 };

struct function {
    const char *name;
    uint64_t instructions;
};

static struct function functions[MOST_FUNCTIONS];
static size_t known;
static const char *out;

/* A function's entry. Names come from the program's own table, so one name is one address; the last entry takes what has no room. */
static struct function *function_named(const char *name)
{
    for (size_t i = 0; i < known; i++)
        if (functions[i].name == name || strcmp(functions[i].name, name) == 0)
            return &functions[i];
    if (known < MOST_FUNCTIONS)
        functions[known++].name = strdup(name);
    return &functions[known - 1];
}

/* A block is counted whole when it is entered. */
static void translated(plugin_id id, struct block *block)
{
    (void)id;
    const char *name = qemu_plugin_insn_symbol(qemu_plugin_tb_get_insn(block, 0));
    struct function *f = function_named(name && *name ? name : "(a shared library)");
    qemu_plugin_register_vcpu_tb_exec_inline(block, ADD, &f->instructions, qemu_plugin_tb_n_insns(block));
}

static int more_first(const void *a, const void *b)
{
    uint64_t x = (*(const struct function *const *)a)->instructions, y = (*(const struct function *const *)b)->instructions;
    return (x < y) - (x > y);
}

static void write_counts(void)
{
    static struct function *sorted[MOST_FUNCTIONS];
    uint64_t sum = 0;
    for (size_t i = 0; i < known; i++) {
        sorted[i] = &functions[i];
        sum += functions[i].instructions;
    }
    qsort(sorted, known, sizeof *sorted, more_first);
    FILE *file = fopen(out, "w");
    if (!file)
        exit(1);
    fprintf(file, "%llu\n", (unsigned long long)sum);
    for (size_t i = 0; i < known && i < LISTED && sorted[i]->instructions; i++)
        fprintf(file, "%llu %s\n", (unsigned long long)sorted[i]->instructions, sorted[i]->name);
    fclose(file);
    for (size_t i = 0; i < known; i++)
        functions[i].instructions = 0;
}

static void called(plugin_id id, unsigned cpu, int64_t number, uint64_t a, uint64_t b, uint64_t c, uint64_t d, uint64_t e, uint64_t f, uint64_t g, uint64_t h)
{
    (void)id, (void)cpu, (void)a, (void)b, (void)c, (void)d, (void)e, (void)f, (void)g, (void)h;
    if (number == GETPPID_ON_X86_64)
        write_counts();
}

int qemu_plugin_install(plugin_id id, const void *info, int count, char **words)
{
    (void)info;
    for (int i = 0; i < count; i++)
        if (strncmp(words[i], "out=", 4) == 0)
            out = strdup(words[i] + 4);
    if (!out)
        return 1;
    qemu_plugin_register_vcpu_tb_trans_cb(id, translated);
    qemu_plugin_register_vcpu_syscall_cb(id, called);
    return 0;
}
