/* A library that is loaded into the program before the C library. It records each call of the program that opens or
   changes files, or waits until they are on the disk, in the order of the calls, if the call succeeds. The records
   stand in the file that EFFECTS names. Each has its kind, the number of the open file, the lengths of two texts, and
   the texts. Of a call that no test knows how to follow, the text is its name. It takes in no header, since the kit's
   compiler comes without. */

typedef unsigned long size_t;
typedef long ssize_t;

enum { OPEN, CREATE, WRITE, SYNC, RENAME, REMOVE, OTHER };

/* Of the C library. */
extern void *dlsym(void *, const char *);
extern char *getenv(const char *);
extern size_t strlen(const char *);
#define NEXT ((void *)-1l)
#define FOR_WRITING 1
#define CREATES 0100
#define AT_THE_END 02000
#define HERE -100

static int records = -1;
static char is_busy;
static int (*next_open)(const char *, int, int), (*next_openat)(int, const char *, int, int);
static int (*next_rename)(const char *, const char *), (*next_unlink)(const char *);
static ssize_t (*next_write)(int, const void *, size_t);
static int (*next_fsync)(int), (*next_fdatasync)(int), (*next_ftruncate)(int, long), (*next_mkdir)(const char *, int);

__attribute__((constructor)) static void begin(void) {
    char *file = getenv("EFFECTS");
    next_open = dlsym(NEXT, "open");
    next_openat = dlsym(NEXT, "openat");
    next_rename = dlsym(NEXT, "rename");
    next_unlink = dlsym(NEXT, "unlink");
    next_write = dlsym(NEXT, "write");
    next_fsync = dlsym(NEXT, "fsync");
    next_fdatasync = dlsym(NEXT, "fdatasync");
    next_ftruncate = dlsym(NEXT, "ftruncate");
    next_mkdir = dlsym(NEXT, "mkdir");
    if (file != 0)
        records = next_open(file, FOR_WRITING | CREATES | AT_THE_END, 0600);
}

/* A call and its record are made before those of another thread, so that the records have the order of the calls. */
static void enter(void) {
    while (__atomic_exchange_n(&is_busy, 1, __ATOMIC_ACQUIRE))
        ;
}

static void leave(void) { __atomic_store_n(&is_busy, 0, __ATOMIC_RELEASE); }

/* Writes a record. */
static void put(int kind, int file, const void *first, size_t count, const void *second, size_t more) {
    struct { int kind, file; size_t count, more; } head = {kind, file, count, more};
    if (records < 0)
        return;
    next_write(records, &head, sizeof head);
    next_write(records, first, count);
    next_write(records, second, more);
}

/* Ends a call with this answer, and its record if the call succeeded. */
static int ended(int answer, int kind, int file, const char *first, const char *second) {
    if (answer >= 0)
        put(kind, file, first, strlen(first), second, strlen(second));
    leave();
    return answer;
}

int open(const char *path, int flags, int mode) {
    enter();
    int file = next_open(path, flags, mode);
    return ended(file, flags & CREATES ? CREATE : OPEN, file, path, "");
}

int openat(int dir, const char *path, int flags, int mode) {
    enter();
    int file = next_openat(dir, path, flags, mode), kind = flags & CREATES ? CREATE : OPEN;
    return dir == HERE ? ended(file, kind, file, path, "") : ended(file, OTHER, file, "openat", "");
}

int rename(const char *from, const char *to) {
    enter();
    return ended(next_rename(from, to), RENAME, -1, from, to);
}

int unlink(const char *path) {
    enter();
    return ended(next_unlink(path), REMOVE, -1, path, "");
}

/* What goes to standard output and error is no file's. */
ssize_t write(int file, const void *bytes, size_t count) {
    enter();
    ssize_t done = next_write(file, bytes, count);
    if (file > 2 && done > 0)
        put(WRITE, file, bytes, done, "", 0);
    leave();
    return done;
}

int fsync(int file) {
    enter();
    return ended(next_fsync(file), SYNC, file, "", "");
}

int fdatasync(int file) {
    enter();
    return ended(next_fdatasync(file), OTHER, file, "fdatasync", "");
}

int ftruncate(int file, long length) {
    enter();
    return ended(next_ftruncate(file, length), OTHER, file, "ftruncate", "");
}

int mkdir(const char *path, int mode) {
    enter();
    return ended(next_mkdir(path, mode), OTHER, -1, "mkdir", "");
}
