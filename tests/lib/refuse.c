/* A library that is loaded into the program before the C library. It counts the program's calls by their kind, and
   refuses those of one kind from one call to another, counted from 1, with an error number, or with the answer 0 where
   that is 0; past all errors it is 4096 and the number of a signal, which the program gets at the call, before it is
   made. And it lets a read or a write move so many bytes at most, but for reads where writes are refused, and writes
   where reads are: REFUSE is "kind first last error most". The counts stand in the file that COUNTS names, however the
   program ends: the calls of each kind, and then the refused ones. It takes in no header, since the kit's compiler comes
   without.

   Where AGAIN names a socket, the program doesn't begin by itself. For each message on the socket, which has what REFUSE
   has and the words of a command line, a copy of the process runs the program, from before `main`, as if it had just been
   started; the answer is its wait status, and the counts. So a run costs no loading, which is most of what a short one
   takes. */

typedef unsigned long size_t;
typedef long ssize_t;

enum { SIGNALS = 4096 };
/* The most bytes of a message, and the most words in it. */
enum { MESSAGE = 1 << 17, WORDS = 4096 };
enum { MEMORY, THREAD, OPEN, LOOK, LIST, READ, WRITE, SAY, RENAME, REMOVE, SYNC, LOCK, MODE, KINDS };

/* Of the C library. */
extern void *__libc_malloc(size_t), *__libc_calloc(size_t, size_t), *__libc_realloc(void *, size_t);
extern void *__libc_memalign(size_t, size_t);
extern void *dlsym(void *, const char *), *mmap(void *, size_t, int, int, int, long);
extern char *getenv(const char *);
extern unsigned long strtoul(const char *, char **, int);
extern int *__errno_location(void);
extern int getpid(void), kill(int, int), fork(void), waitpid(int, int *, int), close(int);
extern ssize_t recv(int, void *, size_t, int), send(int, const void *, size_t, int);
extern void _exit(int);
#define NEXT ((void *)-1l)
#define READ_AND_WRITE 3
#define SHARED 1
#define ANONYMOUS 32
#define FOR_BOTH 2

static unsigned long *counts, kind, first, last, error, most;
static int (*next_open)(const char *, int, int), (*next_openat)(int, const char *, int, int);
static int (*next_statx)(int, const char *, int, unsigned, void *), (*next_rename)(const char *, const char *);
static int (*next_unlink)(const char *), (*next_pthread_create)(void *, const void *, void *(*)(void *), void *);
static ssize_t (*next_getdents64)(int, void *, size_t), (*next_read)(int, void *, size_t);
static ssize_t (*next_write)(int, const void *, size_t);
static int (*next_fsync)(int), (*next_flock)(int, int), (*next_fchmod)(int, unsigned);

/* Reads the numbers of REFUSE. Answers what stands behind them. */
static char *take(char *told) {
    kind = strtoul(told, &told, 10);
    first = strtoul(told, &told, 10);
    last = strtoul(told, &told, 10);
    error = strtoul(told, &told, 10);
    most = strtoul(told, &told, 10);
    return told;
}

__attribute__((constructor)) static void begin(void) {
    char *told = getenv("REFUSE"), *file = getenv("COUNTS");
    next_open = dlsym(NEXT, "open");
    next_openat = dlsym(NEXT, "openat");
    next_statx = dlsym(NEXT, "statx");
    next_rename = dlsym(NEXT, "rename");
    next_unlink = dlsym(NEXT, "unlink");
    next_pthread_create = dlsym(NEXT, "pthread_create");
    next_getdents64 = dlsym(NEXT, "getdents64");
    next_read = dlsym(NEXT, "read");
    next_write = dlsym(NEXT, "write");
    next_fsync = dlsym(NEXT, "fsync");
    next_flock = dlsym(NEXT, "flock");
    next_fchmod = dlsym(NEXT, "fchmod");
    if (told == 0 || file == 0)
        return;
    take(told);
    counts = mmap(0, 8 * (KINDS + 1), READ_AND_WRITE, SHARED, next_open(file, FOR_BOTH, 0), 0);
}

/* Counts a call, and tells whether it is to be refused. */
static int refused(unsigned long this) {
    unsigned long call;
    if (counts == 0)
        return 0;
    call = __atomic_add_fetch(&counts[this], 1, __ATOMIC_SEQ_CST);
    if (this != kind || call < first || last < call)
        return 0;
    __atomic_add_fetch(&counts[KINDS], 1, __ATOMIC_SEQ_CST);
    if (error > SIGNALS) {
        kill(getpid(), error - SIGNALS);
        return 0;
    }
    *__errno_location() = error;
    return 1;
}

void *malloc(size_t size) { return refused(MEMORY) ? 0 : __libc_malloc(size); }

void *calloc(size_t count, size_t size) { return refused(MEMORY) ? 0 : __libc_calloc(count, size); }

void *realloc(void *old, size_t size) { return refused(MEMORY) ? 0 : __libc_realloc(old, size); }

void *memalign(size_t align, size_t size) { return refused(MEMORY) ? 0 : __libc_memalign(align, size); }

void *aligned_alloc(size_t align, size_t size) { return memalign(align, size); }

int posix_memalign(void **place, size_t align, size_t size) {
    void *made = memalign(align, size);
    if (made != 0)
        *place = made;
    return made == 0 ? error : 0;
}

int pthread_create(void *thread, const void *with, void *(*body)(void *), void *given) {
    return refused(THREAD) ? error : next_pthread_create(thread, with, body, given);
}

int open(const char *path, int flags, int mode) { return refused(OPEN) ? -1 : next_open(path, flags, mode); }

int openat(int dir, const char *path, int flags, int mode) {
    return refused(OPEN) ? -1 : next_openat(dir, path, flags, mode);
}

int statx(int dir, const char *path, int flags, unsigned what, void *about) {
    return refused(LOOK) ? -1 : next_statx(dir, path, flags, what, about);
}

ssize_t getdents64(int dir, void *names, size_t size) { return refused(LIST) ? -1 : next_getdents64(dir, names, size); }

static ssize_t answer(void) { return error == 0 ? 0 : -1; }

static size_t least(size_t count, unsigned long this) {
    int is_other = this != kind && (kind == READ || kind == WRITE);
    return count < most || is_other ? count : most;
}

ssize_t read(int file, void *bytes, size_t count) {
    return refused(READ) ? answer() : next_read(file, bytes, least(count, READ));
}

/* Standard error is a kind of its own, and gets its lines whole. */
ssize_t write(int file, const void *bytes, size_t count) {
    if (file == 2)
        return refused(SAY) ? answer() : next_write(file, bytes, count);
    return refused(WRITE) ? answer() : next_write(file, bytes, least(count, WRITE));
}

int rename(const char *from, const char *to) { return refused(RENAME) ? -1 : next_rename(from, to); }

int unlink(const char *path) { return refused(REMOVE) ? -1 : next_unlink(path); }

int fsync(int file) { return refused(SYNC) ? -1 : next_fsync(file); }

int flock(int file, int how) { return refused(LOCK) ? -1 : next_flock(file, how); }

int fchmod(int file, unsigned mode) { return refused(MODE) ? -1 : next_fchmod(file, mode); }

/* The words of a message, each behind a zero byte and with one behind it, as an argument list. */
static int words_in(char *at, char *end, char **argv) {
    int argc = 0;
    while (at < end && argc < WORDS) {
        argv[argc++] = at;
        while (*at++)
            ;
    }
    argv[argc] = 0;
    return argc;
}

/* Runs the program once for each message. A copy comes back with its command line; at the end of all, nobody does. */
static int served(int socket, char **argv) {
    static char message[MESSAGE];
    for (;;) {
        struct { int status; unsigned long counts[KINDS + 1]; } answer = {0};
        ssize_t length = recv(socket, message, sizeof message - 1, 0);
        if (length <= 0)
            _exit(0);
        message[length] = 0;
        for (int it = 0; it <= KINDS; it++)
            counts[it] = 0;
        int child = fork();
        if (child == 0) {
            close(socket);
            return words_in(take(message) + 1, message + length, argv);
        }
        if (child < 0 || waitpid(child, &answer.status, 0) != child)
            _exit(1);
        for (int it = 0; it <= KINDS; it++)
            answer.counts[it] = counts[it];
        send(socket, &answer, sizeof answer, 0);
    }
}

/* What a program begins with. */
int __libc_start_main(void *main, int argc, char **argv, void *init, void *fini, void *at_end, void *stack) {
    static char *words[WORDS + 1];
    int (*next)(void *, int, char **, void *, void *, void *, void *) = dlsym(NEXT, "__libc_start_main");
    char *socket = getenv("AGAIN");
    if (socket != 0) {
        counts = mmap(0, 8 * (KINDS + 1), READ_AND_WRITE, SHARED | ANONYMOUS, -1, 0);
        argc = served(strtoul(socket, 0, 10), words);
        argv = words;
    }
    return next(main, argc, argv, init, fini, at_end, stack);
}
