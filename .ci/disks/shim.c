/* Runs a program and writes down what it does with files, call by call; fails some of the calls.

   usage: shim TRACE FOLDER [RULE ..] -- PROGRAM [WORD ..]

   It stops the program at each system call (ptrace), so it reaches a program however that is linked, and no library call goes
   round it. TRACE gets a line for each call on a file or folder at or below FOLDER, and for each write on the standard streams,
   in order, with its result: -N where the call failed with error N.

     open RESULT FILE WHAT PATH        WHAT: made, emptied, file, folder
     lock RESULT FILE
     read RESULT FILE
     write RESULT FILE PLACE BYTES     PLACE: from which byte of the file on; BYTES: those that were written, in hexadecimal
     cut RESULT FILE LENGTH
     fsync RESULT FILE, fdatasync RESULT FILE, folder RESULT FILE       (folder: an fsync of a folder)
     rename RESULT FILE FROM TO        (FILE: the one that was moved)
     mkdir RESULT FILE PATH            (a folder is made)
     unlink RESULT FILE PATH
     out RESULT BYTES, err RESULT BYTES
     other NAME                        a call that changes files in a way that isn't told here
     end STATUS                        128 + N where a signal N ended it

   FILE is a number that each file keeps: its inode. A RULE is for calls of a kind, a word that begins a line:
     fail=KIND:FROM:TO:ERROR           the FROM-th to the TO-th call fail with this number, and do nothing
     short=KIND:FROM:TO                these writes write half of their bytes, at least one
     held=KIND:FROM:TO                 these syncs do nothing and say that they were done; their lines say `held` in the place of 0

   The status is the program's, or 125 where the shim itself failed. The last line, `unused RULE`, is there for each rule that met
   no call. It is for Linux on x86-64. */
#define _GNU_SOURCE
#include <errno.h>
#include <fcntl.h>
#include <limits.h>
#include <linux/limits.h>
#include <signal.h>
#include <stdio.h>
#include <stdlib.h>
#include <string.h>
#include <sys/ptrace.h>
#include <sys/stat.h>
#include <sys/syscall.h>
#include <sys/uio.h>
#include <sys/user.h>
#include <sys/wait.h>
#include <unistd.h>

enum action { PLAIN, FAILS, SHORT, HELD };

struct rule {
    enum action action;
    char kind[16];
    long from, to, error, used;
    const char *word;
};

/* A thread of the program, and the call that it is in. */
struct task {
    pid_t id;
    const char *kind;          /* of a call that is told; NULL for others */
    enum action action;
    long error;
    unsigned long long args[6];
    unsigned long long file;   /* the inode, where it is known before the call */
    int made;                  /* whether the path that is opened was not there */
    char path[PATH_MAX], other[PATH_MAX];
};

static struct rule rules[32];
static struct task tasks[64];
static int rule_count;
static long counts[32];
static const char *kinds[32];
static const char *folder;
static FILE *trace;

static void fault(const char *what) {
    fprintf(stderr, "shim: %s: %s\n", what, strerror(errno));
    exit(125);
}

static struct task *task_of(pid_t id) {
    struct task *unused = NULL;
    for (int i = 0; i < 64; i++) {
        if (tasks[i].id == id) return &tasks[i];
        if (!tasks[i].id && !unused) unused = &tasks[i];
    }
    if (!unused) fault("too many threads");
    memset(unused, 0, sizeof *unused);
    unused->id = id;
    return unused;
}

/* How many calls of this kind there were, this one too. */
static long count_of(const char *kind) {
    int i = 0;
    while (kinds[i] && strcmp(kinds[i], kind)) i++;
    kinds[i] = kind;
    return ++counts[i];
}

static int is_below(const char *path) {
    size_t length = strlen(folder);
    return !strncmp(path, folder, length) && (!path[length] || path[length] == '/');
}

/* The path of an open file. Returns whether it is told: one of the folder. */
static int path_of_file(pid_t id, int file, char *path) {
    char link[64];
    snprintf(link, sizeof link, "/proc/%d/fd/%d", id, file);
    ssize_t length = readlink(link, path, PATH_MAX - 1);
    if (length < 0) return 0;
    path[length] = 0;
    char *gone = strstr(path, " (deleted)");
    if (gone && !gone[10]) *gone = 0;
    return is_below(path);
}

static unsigned long long number_of_file(pid_t id, int file) {
    char link[64];
    struct stat found;
    snprintf(link, sizeof link, "/proc/%d/fd/%d", id, file);
    return stat(link, &found) ? 0 : found.st_ino;
}

static int is_folder(pid_t id, int file) {
    char link[64];
    struct stat found;
    snprintf(link, sizeof link, "/proc/%d/fd/%d", id, file);
    return !stat(link, &found) && S_ISDIR(found.st_mode);
}

static long long place_of_file(pid_t id, int file) {
    char name[64], line[128];
    long long place = -1;
    snprintf(name, sizeof name, "/proc/%d/fdinfo/%d", id, file);
    FILE *info = fopen(name, "r");
    if (!info) return -1;
    while (fgets(line, sizeof line, info))
        if (sscanf(line, "pos: %lld", &place) == 1) break;
    fclose(info);
    return place;
}

static size_t memory_of(pid_t id, unsigned long long from, void *to, size_t length) {
    struct iovec mine = {to, length}, theirs = {(void *)from, length};
    ssize_t had = process_vm_readv(id, &mine, 1, &theirs, 1, 0);
    return had < 0 ? 0 : (size_t)had;
}

/* The path that a call names, from the root on. Returns whether it is told. */
static int path_named(pid_t id, int at, unsigned long long name, char *path) {
    char text[PATH_MAX] = "", link[64], base[PATH_MAX];
    for (size_t i = 0; i < PATH_MAX - 1; i++)
        if (memory_of(id, name + i, text + i, 1) != 1 || !text[i]) break;
    if (text[0] == '/') {
        snprintf(path, PATH_MAX, "%s", text);
    } else {
        if (at == AT_FDCWD) snprintf(link, sizeof link, "/proc/%d/cwd", id);
        else snprintf(link, sizeof link, "/proc/%d/fd/%d", id, at);
        ssize_t length = readlink(link, base, PATH_MAX - 1);
        if (length < 0) return 0;
        base[length] = 0;
        if (strlen(base) + strlen(text) + 2 > PATH_MAX) return 0;
        strcpy(path, base);
        strcat(path, "/");
        strcat(path, text);
    }
    return is_below(path);
}

static unsigned long long number_of_path(const char *path) {
    struct stat found;
    return stat(path, &found) ? 0 : found.st_ino;
}

/* Of a call that begins: what is told of it, if anything. */
static const char *told(struct task *t, long call) {
    int file = (int)t->args[0];
    switch (call) {
    case SYS_open:
    case SYS_creat:
    case SYS_openat: {
        int named = call == SYS_openat;
        if (!path_named(t->id, named ? file : AT_FDCWD, t->args[named], t->path)) return NULL;
        t->made = !number_of_path(t->path);
        return "open";
    }
    case SYS_rename:
    case SYS_renameat:
    case SYS_renameat2: {
        int apart = call != SYS_rename;
        int is_told = path_named(t->id, apart ? file : AT_FDCWD, t->args[apart], t->path);
        is_told |= path_named(t->id, apart ? (int)t->args[2] : AT_FDCWD, t->args[apart ? 3 : 1], t->other);
        t->file = number_of_path(t->path);
        return is_told ? "rename" : NULL;
    }
    case SYS_mkdir:
    case SYS_mkdirat: {
        int apart = call == SYS_mkdirat;
        return path_named(t->id, apart ? file : AT_FDCWD, t->args[apart], t->path) ? "mkdir" : NULL;
    }
    case SYS_unlink:
    case SYS_unlinkat: {
        int apart = call == SYS_unlinkat;
        if (!path_named(t->id, apart ? file : AT_FDCWD, t->args[apart], t->path)) return NULL;
        t->file = number_of_path(t->path);
        return "unlink";
    }
    case SYS_truncate:
    case SYS_link:
    case SYS_linkat:
    case SYS_io_uring_setup:
    case SYS_sync:
    case SYS_syncfs:
        return "other";
    case SYS_mmap:
        if (!(t->args[2] & 2) || !(t->args[3] & 1)) return NULL;
        file = (int)t->args[4];
        return file >= 0 && path_of_file(t->id, file, t->path) ? "other" : NULL;
    case SYS_copy_file_range:
        file = (int)t->args[2];
        break;
    case SYS_write:
        if (file == 1 || file == 2) return file == 1 ? "out" : "err";
        break;
    case SYS_writev:
        if (file == 1 || file == 2) return "other";
        break;
    case SYS_read:
    case SYS_pread64:
    case SYS_pwrite64:
    case SYS_pwritev:
    case SYS_pwritev2:
    case SYS_sendfile:
    case SYS_splice:
    case SYS_fallocate:
    case SYS_sync_file_range:
    case SYS_ftruncate:
    case SYS_fsync:
    case SYS_fdatasync:
    case SYS_flock:
        break;
    default:
        return NULL;
    }
    if (file >= 0 && file <= 2) return NULL;
    if (!path_of_file(t->id, file, t->path)) return NULL;
    t->file = number_of_file(t->id, file);
    switch (call) {
    case SYS_write:
    case SYS_pwrite64: return "write";
    case SYS_read:
    case SYS_pread64: return "read";
    case SYS_ftruncate: return "cut";
    case SYS_fsync: return is_folder(t->id, file) ? "folder" : "fsync";
    case SYS_fdatasync: return is_folder(t->id, file) ? "folder" : "fdatasync";
    case SYS_flock: return "lock";
    default: return "other";
    }
}

/* Chooses what happens with a call of this kind. */
static void choose(struct task *t) {
    long count = count_of(t->kind);
    t->action = PLAIN;
    for (int i = 0; i < rule_count; i++) {
        struct rule *rule = &rules[i];
        if (strcmp(rule->kind, t->kind) || count < rule->from || count > rule->to) continue;
        rule->used++;
        t->action = rule->action;
        t->error = rule->error;
    }
}

static void set(struct task *t, struct user_regs_struct *registers) {
    if (ptrace(PTRACE_SETREGS, t->id, 0, registers)) fault("registers");
}

static void begins(struct task *t) {
    struct user_regs_struct registers;
    if (ptrace(PTRACE_GETREGS, t->id, 0, &registers)) return;
    long call = (long)registers.orig_rax;
    unsigned long long args[6] = {registers.rdi, registers.rsi, registers.rdx, registers.r10, registers.r8, registers.r9};
    memcpy(t->args, args, sizeof args);
    t->kind = told(t, call);
    if (!t->kind) return;
    if (!strcmp(t->kind, "other")) fprintf(trace, "other %ld\n", call);
    choose(t);
    if (t->action == FAILS || t->action == HELD) {
        registers.orig_rax = (unsigned long long)-1;
        set(t, &registers);
    } else if (t->action == SHORT && registers.rdx > 1) {
        registers.rdx /= 2;
        set(t, &registers);
    }
}

static void print_bytes(struct task *t, long long length) {
    static unsigned char bytes[1 << 16];
    unsigned long long from = t->args[1];
    while (length > 0) {
        size_t part = memory_of(t->id, from, bytes, length < (long long)sizeof bytes ? (size_t)length : sizeof bytes);
        if (!part) fault("memory of the program");
        for (size_t i = 0; i < part; i++) fprintf(trace, "%02x", bytes[i]);
        from += part;
        length -= (long long)part;
    }
    fputc('\n', trace);
}

static void ends(struct task *t) {
    struct user_regs_struct registers;
    if (!t->kind || ptrace(PTRACE_GETREGS, t->id, 0, &registers)) return;
    if (t->action == FAILS || t->action == HELD) {
        registers.rax = (unsigned long long)(t->action == FAILS ? -t->error : 0);
        /* (the call is told as it was asked, to a program that looks) */
        set(t, &registers);
    } else if (t->action == SHORT) {
        registers.rdx = t->args[2];
        set(t, &registers);
    }
    long long result = (long long)registers.rax;
    const char *kind = t->kind;
    if (!strcmp(kind, "open")) {
        int file = (int)result;
        const char *what = result < 0 ? "-" : is_folder(t->id, file) ? "folder" : t->made ? "made" : "file";
        if (result >= 0 && !t->made && (t->args[2] & O_TRUNC)) what = "emptied";
        fprintf(trace, "open %lld %llu %s %s\n", result, result < 0 ? 0 : number_of_file(t->id, file), what, t->path);
    } else if (!strcmp(kind, "rename")) {
        fprintf(trace, "rename %lld %llu %s %s\n", result, t->file, t->path, t->other);
    } else if (!strcmp(kind, "mkdir")) {
        fprintf(trace, "mkdir %lld %llu %s\n", result, number_of_path(t->path), t->path);
    } else if (!strcmp(kind, "unlink")) {
        fprintf(trace, "unlink %lld %llu %s\n", result, t->file, t->path);
    } else if (!strcmp(kind, "write")) {
        /* (a write at a place of its own leaves the file's own place alone) */
        long long place = place_of_file(t->id, (int)t->args[0]) - (result > 0 ? result : 0);
        fprintf(trace, "write %lld %llu %lld ", result, t->file, place);
        print_bytes(t, result);
    } else if (!strcmp(kind, "out") || !strcmp(kind, "err")) {
        fprintf(trace, "%s %lld ", kind, result);
        print_bytes(t, result);
    } else if (!strcmp(kind, "cut")) {
        fprintf(trace, "cut %lld %llu %llu\n", result, t->file, t->args[1]);
    } else if (strcmp(kind, "other")) {
        if (t->action == HELD) fprintf(trace, "%s held %llu\n", kind, t->file);
        else fprintf(trace, "%s %lld %llu\n", kind, result, t->file);
    }
    t->kind = NULL;
}

static void read_rule(const char *word) {
    struct rule *rule = &rules[rule_count];
    char name[8];
    rule->word = word;
    int read = sscanf(word, "%7[a-z]=%15[a-z]:%ld:%ld:%ld", name, rule->kind, &rule->from, &rule->to, &rule->error);
    if (read == 5 && !strcmp(name, "fail")) rule->action = FAILS;
    else if (read == 4 && !strcmp(name, "short")) rule->action = SHORT;
    else if (read == 4 && !strcmp(name, "held")) rule->action = HELD;
    else {
        fprintf(stderr, "shim: no rule: %s\n", word);
        exit(125);
    }
    rule_count++;
}

int main(int count, char **words) {
    int at = 3;
    while (at < count && strcmp(words[at], "--") && rule_count < 32) read_rule(words[at++]);
    if (at + 1 >= count || strcmp(words[at], "--")) {
        fprintf(stderr, "usage: shim TRACE FOLDER [RULE ..] -- PROGRAM [WORD ..]\n");
        return 125;
    }
    folder = words[2];
    trace = fopen(words[1], "ae");
    if (!trace) fault(words[1]);
    pid_t first = fork();
    if (!first) {
        ptrace(PTRACE_TRACEME, 0, 0, 0);
        raise(SIGSTOP);
        execvp(words[at + 1], words + at + 1);
        fault(words[at + 1]);
    }
    int status, result = 125;
    if (first < 0 || waitpid(first, &status, 0) < 0) fault("no process");
    long options = PTRACE_O_TRACESYSGOOD | PTRACE_O_EXITKILL | PTRACE_O_TRACECLONE | PTRACE_O_TRACEFORK | PTRACE_O_TRACEVFORK | PTRACE_O_TRACEEXEC;
    if (ptrace(PTRACE_SETOPTIONS, first, 0, options)) fault("ptrace");
    task_of(first);
    ptrace(PTRACE_SYSCALL, first, 0, 0);
    for (;;) {
        pid_t id = waitpid(-1, &status, __WALL);
        if (id < 0) break;
        struct task *t = task_of(id);
        if (WIFEXITED(status) || WIFSIGNALED(status)) {
            if (id == first) result = WIFEXITED(status) ? WEXITSTATUS(status) : 128 + WTERMSIG(status);
            t->id = 0;
            continue;
        }
        int signal = WSTOPSIG(status);
        if (signal == (SIGTRAP | 0x80)) {
            struct __ptrace_syscall_info info = {0};
            if (ptrace(PTRACE_GET_SYSCALL_INFO, id, sizeof info, &info) > 0) {
                if (info.op == PTRACE_SYSCALL_INFO_ENTRY) begins(t);
                if (info.op == PTRACE_SYSCALL_INFO_EXIT) ends(t);
            }
            signal = 0;
        } else if (signal == SIGTRAP || (signal == SIGSTOP && id != first)) {
            /* a step of the tracing itself */
            signal = 0;
        }
        ptrace(PTRACE_SYSCALL, id, 0, signal);
    }
    fprintf(trace, "end %d\n", result);
    for (int i = 0; i < rule_count; i++)
        if (!rules[i].used) fprintf(trace, "unused %s\n", rules[i].word);
    if (fclose(trace)) fault(words[1]);
    return result;
}
