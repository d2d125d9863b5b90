/* Preloaded into a program, it calls the program's `main` again and again, with other words for each job, and has something fail in each run:
   the k-th request for memory, or the k-th call that writes standard output or reads a file. `refuse` makes this library, gives it the jobs, and
   judges what was seen; here nothing is judged. The runs of a job share a child process; where a run ends it, the next run has a new one.

   HOSTILE_JOBS names a file with a job on each line, its parts with U+001F between them:
       MODE LAST SIZE WORD ..
   The runs of a job have k = 1, 2, .. until one ends in which nothing failed, or LAST has run. SIZE is how many bytes a call that
   reads or writes takes at most (0: as many as it is handed). MODE says what fails:
       memory   the k-th request for memory
       all      the k-th and each later one
       write    the k-th call that writes to standard output
       nothing  the k-th such call takes no byte
       read     the k-th call that reads from an opened file
       errors   each call that writes to standard error
       none     nothing
   HOSTILE_SEEN names the file for what is seen: a record (struct Record) for each run, with both outputs behind it. Runs of a job that follow
   one another and differ in nothing are one record. A job ends with a record of no runs. */
#define _GNU_SOURCE
#include <dlfcn.h>
#include <errno.h>
#include <fcntl.h>
#include <stdint.h>
#include <stdio.h>
#include <stdlib.h>
#include <string.h>
#include <sys/mman.h>
#include <sys/stat.h>
#include <sys/syscall.h>
#include <sys/wait.h>
#include <unistd.h>

enum { SECONDS = 60, MOST_WORDS = 16, MOST_FILES = 64 };
enum mode { MEMORY, ALL, WRITE, NOTHING, READ, ERRORS, NONE };
static const char *const MODES[] = {"memory", "all", "write", "nothing", "read", "errors", "none"};

struct Job {
    enum mode mode;
    long first, last;
    size_t size;
    int argc;
    char *argv[MOST_WORDS + 1];
};

/* What a child tells its parent of its run, in memory that they share. */
struct Told {
    long k;        /* which call fails */
    int is_over;   /* whether it was the job's last run, and its record is written */
    long asked;    /* requests for memory */
    long writes;   /* calls that write to standard output */
    long reads;    /* calls that read from an opened file */
    long failed;   /* what failed in them */
    long behind;   /* calls to a stream that had failed, or had ended */
    long largest;  /* the most bytes that a call was handed for standard output */
    long live;     /* blocks and files that are still there when `main` is done */
    long damaged;  /* blocks that were written behind their end, or freed twice */
};

struct Record {
    int64_t first, runs;  /* its k, and how many runs were alike */
    int64_t status;       /* of the process; below zero the signal that ended it */
    int64_t failed, behind, largest, live, damaged;
    int64_t out, err;     /* how many bytes of both outputs are behind it */
};

static struct Told *told;
static struct Job job;
static int is_running;
static char is_file[MOST_FILES], has_ended[MOST_FILES];
static int (*own_main)(int, char **, char **);

/* ---- memory: each block has its size before it and a mark on both sides */

extern void *__libc_malloc(size_t);
extern void __libc_free(void *);

static const uint64_t LIVE = 0x5ca1ab1e0ddba111, FREED = 0xdeadbeefcafef00d;
struct Head {
    size_t size;
    uint64_t mark;
};

static int is_refused(void) {
    if (!is_running) return 0;
    told->asked += 1;
    if (job.mode == MEMORY ? told->asked != told->k : job.mode == ALL ? told->asked < told->k : 1) return 0;
    told->failed += 1;
    errno = ENOMEM;
    return 1;
}

static void *block(size_t size) {
    struct Head *head = size < (size_t)1 << 46 ? __libc_malloc(sizeof *head + size + sizeof LIVE) : 0;
    if (!head) return 0;
    head->size = size;
    head->mark = LIVE;
    char *start = (char *)(head + 1);
    memcpy(start + size, &LIVE, sizeof LIVE);
    if (is_running) {
        told->live += 1;
        /* (what is read before it is written shows) */
        memset(start, 0xa5, size < 4096 ? size : 4096);
    }
    return start;
}

static void release(void *start) {
    struct Head *head = (struct Head *)start - 1;
    if (head->mark != LIVE) {
        told->damaged += is_running;
        return;
    }
    if (is_running) {
        told->live -= 1;
        told->damaged += memcmp((char *)start + head->size, &LIVE, sizeof LIVE) != 0;
        memset(start, 0xdd, head->size < 4096 ? head->size : 4096);
    }
    head->mark = FREED;
    __libc_free(head);
}

void *malloc(size_t size) { return is_refused() ? 0 : block(size); }

void free(void *start) {
    if (start) release(start);
}

void *calloc(size_t count, size_t size) {
    size_t all;
    if (is_refused() || __builtin_mul_overflow(count, size, &all)) return 0;
    void *start = block(all);
    return start ? memset(start, 0, all) : 0;
}

/* A block that grows moves always. */
void *realloc(void *old, size_t size) {
    if (is_refused()) return 0;
    void *start = block(size);
    if (start && old) {
        size_t before = ((struct Head *)old - 1)->size;
        memcpy(start, old, before < size ? before : size);
        release(old);
    }
    return start;
}

/* ---- devices */

static int fails(enum mode mode, long calls) {
    if (job.mode != mode || calls != told->k) return 0;
    told->failed += 1;
    return 1;
}

ssize_t write(int stream, const void *from, size_t size) {
    if (is_running && stream == 2 && job.mode == ERRORS) {
        told->failed += 1;
        errno = EIO;
        return -1;
    }
    if (!is_running || stream != 1) return syscall(SYS_write, stream, from, size);
    told->writes += 1;
    told->behind += has_ended[1];
    if ((long)size > told->largest) told->largest = size;
    if (fails(WRITE, told->writes) || fails(NOTHING, told->writes)) {
        has_ended[1] = 1;
        errno = told->k % 2 ? EIO : ENOSPC;
        return job.mode == WRITE ? -1 : 0;
    }
    return syscall(SYS_write, stream, from, job.size && size > job.size ? job.size : size);
}
ssize_t __write(int stream, const void *from, size_t size) { return write(stream, from, size); }

int open(const char *name, int flags, ...) {
    int file = syscall(SYS_openat, AT_FDCWD, name, flags, 0666);
    if (is_running && file > 2 && file < MOST_FILES) is_file[file] = 1;
    return file;
}

ssize_t read(int file, void *into, size_t size) {
    if (!is_running || file < 0 || file >= MOST_FILES || !is_file[file]) return syscall(SYS_read, file, into, size);
    told->reads += 1;
    told->behind += has_ended[file];
    if (fails(READ, told->reads)) {
        has_ended[file] = 1;
        errno = told->k % 2 ? EIO : EISDIR;
        return -1;
    }
    ssize_t got = syscall(SYS_read, file, into, job.size && size > job.size ? job.size : size);
    has_ended[file] = got <= 0;
    return got;
}

int close(int file) {
    if (is_running && file > 2 && file < MOST_FILES) is_file[file] = has_ended[file] = 0;
    return syscall(SYS_close, file);
}

/* ---- one run after the other */

/* What a run answered, with both outputs. */
struct Answer {
    struct Record record;
    char *out, *err;
};

/* The answer that was written last, and where. */
static struct Answer last;
static off_t last_at;
static int seen, out_file, err_file;
static int (*start)(int (*)(int, char **, char **), int, char **, void (*)(void), void (*)(void), void (*)(void), void *);

static void must(int is_well, const char *what) {
    if (is_well) return;
    perror(what);
    _exit(3);
}

static char *all_of(int file, int64_t *size) {
    struct stat about;
    must(!fstat(file, &about), "fstat");
    char *bytes = malloc(about.st_size + 1);
    must(bytes && pread(file, bytes, about.st_size, 0) == about.st_size, "pread");
    bytes[about.st_size] = 0;
    *size = about.st_size;
    return bytes;
}

static void put(const void *from, size_t size) { must(syscall(SYS_write, seen, from, size) == (ssize_t)size, "write"); }

static int are_alike(struct Answer *one, struct Answer *other) {
    struct Record record = other->record;
    record.first = one->record.first;
    record.runs = one->record.runs;
    return !memcmp(&one->record, &record, sizeof record) && !memcmp(one->out, other->out, record.out) && !memcmp(one->err, other->err, record.err);
}

/* Notes what the run answered that just ended with this status. */
static void note(int status) {
    struct Answer now = {.record = {
        .first = told->k, .runs = 1, .status = status, .failed = told->failed > 0,
        .behind = told->behind, .largest = told->largest, .live = told->live, .damaged = told->damaged,
    }};
    now.out = all_of(out_file, &now.record.out);
    now.err = all_of(err_file, &now.record.err);
    if (last.record.runs && are_alike(&last, &now)) {
        last.record.runs += 1;
        must(pwrite(seen, &last.record, sizeof last.record, last_at) == sizeof last.record, "pwrite");
        free(now.out);
        free(now.err);
        return;
    }
    free(last.out);
    free(last.err);
    last = now;
    last_at = lseek(seen, 0, SEEK_CUR);
    put(&now.record, sizeof now.record);
    put(now.out, now.record.out);
    put(now.err, now.record.err);
}

static void empty(int file) { must(!ftruncate(file, 0) && !lseek(file, 0, SEEK_SET), "ftruncate"); }

static void begin(long k) {
    *told = (struct Told){.k = k};
    memset(has_ended, 0, sizeof has_ended);
    empty(out_file);
    empty(err_file);
}

/* The files that the run has left open: they are closed, and count as what is still there. */
static void close_files(void) {
    for (int file = 3; file < MOST_FILES; file++) {
        if (!is_file[file]) continue;
        told->live += 1;
        close(file);
    }
}

/* Whether another run of the job is to come after this one. */
static int goes_on(void) { return told->failed && told->k < job.last; }

/* Stands for `main`: calls it once for each k from that of this process. */
static int main_again(int argc, char **argv, char **environment) {
    for (;;) {
        alarm(SECONDS);
        is_running = 1;
        int status = own_main(argc, argv, environment);
        close_files();
        is_running = 0;
        note(status & 0xff);
        if (!goes_on()) break;
        begin(told->k + 1);
    }
    told->is_over = 1;
    _exit(0);
}

/* Reads the job of a line. */
static void read_job(char *line) {
    char *words[3 + MOST_WORDS];
    int count = 0;
    while (line && count < 3 + MOST_WORDS) words[count++] = strsep(&line, "\x1f");
    must(count > 3 && !line, "a job");
    for (job.mode = 0; job.mode < NONE && strcmp(MODES[job.mode], words[0]);) job.mode++;
    job.last = atol(words[1]);
    job.size = atol(words[2]);
    job.argc = count - 3;
    memcpy(job.argv, words + 3, job.argc * sizeof *words);
    job.argv[job.argc] = 0;
}

/* A job, whose runs begin again in a new process after each that ended its own. */
static void run_job(void (*init)(void), void (*fini)(void), void (*done)(void), void *stack) {
    last.record.runs = 0;
    begin(1);
    for (;;) {
        pid_t child = fork();
        must(child >= 0, "fork");
        if (!child) {
            int none = syscall(SYS_openat, AT_FDCWD, "/dev/null", O_RDONLY, 0);
            must(!dup2(none, 0) && dup2(out_file, 1) == 1 && dup2(err_file, 2) == 2, "dup2");
            syscall(SYS_close_range, 3, MOST_FILES - 1, 0);
            exit(start(main_again, job.argc, job.argv, init, fini, done, stack));
        }
        int status;
        must(waitpid(child, &status, 0) == child, "waitpid");
        if (told->is_over) break;
        last.record.runs = 0;
        note(WIFEXITED(status) ? WEXITSTATUS(status) : -WTERMSIG(status));
        if (!goes_on()) break;
        begin(told->k + 1);
    }
    struct Record end = {0};
    put(&end, sizeof end);
}

/* A file of our own, above those that a run opens. */
static int above(int file) {
    int own = fcntl(file, F_DUPFD, MOST_FILES);
    must(file >= 0 && own >= 0, "dup");
    syscall(SYS_close, file);
    return own;
}

/* Stands before the C library's own, which begins a program: its constructors, `main`, its end. */
int __libc_start_main(int (*main)(int, char **, char **), int argc, char **argv, void (*init)(void), void (*fini)(void), void (*done)(void),
                      void *stack) {
    start = dlsym(RTLD_NEXT, "__libc_start_main");
    const char *from = getenv("HOSTILE_JOBS"), *to = getenv("HOSTILE_SEEN");
    if (!from || !to) return start(main, argc, argv, init, fini, done, stack);
    own_main = main;
    told = mmap(0, sizeof *told, PROT_READ | PROT_WRITE, MAP_SHARED | MAP_ANONYMOUS, -1, 0);
    must(told != MAP_FAILED, "mmap");
    out_file = above(memfd_create("out", 0));
    err_file = above(memfd_create("err", 0));
    seen = above(open(to, O_WRONLY | O_CREAT | O_TRUNC));
    int jobs = open(from, O_RDONLY);
    must(jobs >= 0, from);
    int64_t size;
    char *lines = all_of(jobs, &size), *line;
    while ((line = strsep(&lines, "\n")) && *line) {
        read_job(line);
        run_job(init, fini, done, stack);
    }
    exit(0);
}
