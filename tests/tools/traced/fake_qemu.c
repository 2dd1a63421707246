// Replaces QEMU in tests: loads a plugin, and calls it for what the arguments after a program say.
//
//     fake_qemu -plugin FILE,ARGUMENT,.. .. -0 NAME PROGRAM STEP..
//     fake_qemu --version     fake_qemu -h
//
// 0:ADDRESS, 1:ADDRESS and 2:ADDRESS are references as in din, 3:ADDRESS reads and writes at once;
// many:N are N reads from 0 on. call is a system call, say:TEXT writes, exit:N ends, exec:N becomes
// another program that ends, kill is a death by SIGKILL, wait waits for ever, and loop reads for
// ever. fork has a child that ends. ignore lets SIGTERM do nothing. The program's code starts at
// FAKE_START.
#include <dlfcn.h>
#include <fcntl.h>
#include <signal.h>
#include <stdbool.h>
#include <stdint.h>
#include <stdio.h>
#include <stdlib.h>
#include <string.h>
#include <sys/mman.h>
#include <unistd.h>

typedef void translated(uint64_t, void *), executed(unsigned, void *), ended(uint64_t, void *);
typedef void accessed(unsigned, uint32_t, uint64_t, void *);
typedef void called(uint64_t, unsigned, int64_t, uint64_t, uint64_t, uint64_t, uint64_t, uint64_t,
                    uint64_t, uint64_t, uint64_t);
typedef int install(uint64_t, const void *, int, char **);

static translated *on_translation;
static struct { executed *call; void *word; } on_fetch[4];
static int fetch_calls;
static accessed *on_data;
static called *on_call;
static ended *on_end;
static uint64_t address;

void qemu_plugin_register_vcpu_tb_trans_cb(uint64_t id, translated *call)
{
    (void)id, on_translation = call;
}
void qemu_plugin_register_vcpu_insn_exec_cb(void *at, executed *call, int flags, void *word)
{
    (void)at, (void)flags, on_fetch[fetch_calls].call = call, on_fetch[fetch_calls++].word = word;
}
void qemu_plugin_register_vcpu_mem_cb(void *at, accessed *call, int flags, int way, void *word)
{
    (void)at, (void)flags, (void)way, (void)word, on_data = call;
}
void qemu_plugin_register_vcpu_syscall_cb(uint64_t id, called *call) { (void)id, on_call = call; }
void qemu_plugin_register_atexit_cb(uint64_t id, ended *call, void *word)
{
    (void)id, (void)word, on_end = call;
}
void qemu_plugin_register_vcpu_syscall_ret_cb(uint64_t id, void *call) { (void)id, (void)call; }
char *qemu_plugin_insn_disas(const void *instruction) { return (void)instruction, NULL; }
size_t qemu_plugin_tb_n_insns(const void *block) { return block != NULL; }
void *qemu_plugin_tb_get_insn(void *block, size_t at) { return at ? NULL : block; }
uint64_t qemu_plugin_insn_vaddr(const void *instruction) { return instruction ? address : 0; }
void *qemu_plugin_insn_haddr(const void *at) { return (void *)(at ? address : 0); }
bool qemu_plugin_mem_is_store(uint32_t access) { return access >> 16 & 2; }
unsigned qemu_plugin_mem_size_shift(uint32_t access) { return access & 3; }
#ifndef WITHOUT_START
uint64_t qemu_plugin_start_code(void) { return strtoull(getenv("FAKE_START"), NULL, 16); }
#endif

static void refer(char label) {
    fetch_calls = 0;
    on_translation(1, &address);
    for (int i = 0; label == '2' && i < fetch_calls; i++) on_fetch[i].call(0, on_fetch[i].word);
    unsigned way = label == '3' ? 3u : label - '0' + 1u;
    if (label != '2' && on_data) on_data(0, way << 16, address, NULL);
}

static void refer_many(uint64_t count) {
    for (address = 0; address < count; address++) refer('0');
}

static void call(void) { on_call(1, 0, 0, 0, 0, 0, 0, 0, 0, 0, 0); }

static void step(const char *word) {
    const char *value = strchr(word, ':') ? strchr(word, ':') + 1 : "";
    address = strtoull(value, NULL, 16);
    if (*word >= '0' && *word <= '3') refer(*word);
    if (!strncmp(word, "many:", 5)) refer_many(strtoull(value, NULL, 10));
    if (!strcmp(word, "call")) call();
    if (!strncmp(word, "say:", 4)) puts(value), fflush(stdout);
    if (!strcmp(word, "kill")) kill(getpid(), SIGKILL);
    if (!strcmp(word, "ignore")) signal(SIGTERM, SIG_IGN);
    if (!strcmp(word, "fork") && !fork()) _exit(0);
    if (!strcmp(word, "wait")) for (;;) pause();
    if (!strcmp(word, "loop")) refer_many(UINT64_MAX);
    if (!strncmp(word, "exit:", 5)) call(), on_end(1, NULL), exit(atoi(value));
    if (!strncmp(word, "exec:", 5)) call(), execlp("sh", "sh", "-c", value, (char *)0);
}

// What is behind a plugin's file or argument, which one comma ends; two commas are one of its own.
static char *behind(char *word) {
    char *to = word, *at = word;
    while (*at && (*at != ',' || *++at == ',')) *to++ = *at++;
    *to = 0;
    return at;
}

static int load(char *words) {
    char *arguments[4], *next = behind(words);
    int count = 0;
    for (; *next; next = behind(next)) arguments[count++] = next;
    void *plugin = dlopen(words, RTLD_NOW | RTLD_LOCAL);
    if (!plugin) return fprintf(stderr, "fake_qemu: %s\n", dlerror());
    int *version = dlsym(plugin, "qemu_plugin_version");
    install *start = (install *)dlsym(plugin, "qemu_plugin_install");
    return *version != 1 || start(1, NULL, count, arguments);
}

// Has the program's file where a map shows it.
static void map_program(const char *name) {
    int file = open(name, O_RDONLY);
    mmap(NULL, 1, PROT_READ, MAP_PRIVATE, file, 0);
    close(file);
}

int main(int count, char **words) {
    const char *version = "qemu-x86_64 version %s (Debian)\nCopyright\n";
    if (!strcmp(words[1], "--version")) return !printf(version, getenv("FAKE_VERSION"));
    if (!strcmp(words[1], "-h")) return !printf("%s\n", getenv("FAKE_HELP"));
    if (strcmp(words[1], "-plugin") || load(words[2])) return 1;
    int at = 3;
    while (at < count && words[at][0] == '-') at += 2;  // the program's name and others
    map_program(words[at]);
    for (at++; at < count; at++) step(words[at]);
    call();
    on_end(1, NULL);
    return 0;
}
