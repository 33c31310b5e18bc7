/* Preloaded by tests/refused, this takes the place of the C library's allocator, of its calls on files, and of its start
   of a program.

   REFUSE=N      the Nth call since `main` began is refused, and the first four letters of its kind are written to the
                 descriptor REFUSE_FD
   REFUSED=KIND  which calls are counted: those for `memory` (where it isn't set), or one of `kind_names`, or `any` of
                 them but memory
   REASON=N      with this number of an error, in place of the one that such a call is likely to fail with
   FROM_THEN=1   all such calls from the Nth on are refused
   SAVE=TEXT     no call is refused: before the Nth, another program's save is made, which gives the file SAVE_TO this text
   SAVE_BY=HOW   in place, where it isn't set, or by `rename`
   DENIED=KIND   all calls of this kind are refused besides, which aren't counted
   EXCHANGE=NAME no call is refused: before the Nth, this name and the name FOR are exchanged, by one call
   WAIT_FD=FD    no call is refused: the Nth waits for a byte from there, and with FROM_THEN each from then on
   CALLS_FD=FD   each call on a file is written there, one a line: its kind, the names of files, and the numbers that it is
                 given; a file that is open by the name that it has then, and of a write also its mode
   TIMES_FD=FD   before the bytes of an old file are compared, a line is written there: when that is, as the monotonic
                 clock has it; and before each rename again, with the new name
   PAUSE=N       each opening, and each comparison of an old file, takes N microseconds longer
   NO_WORDS=1    the program gets no words, not even its name
   HELD_FD=FD    before each opening since `main` began, a line is written there: the bytes of memory that are held, and the
                 most that were since the opening before

   It is for glibc, whose own allocator it calls by its other names. */

#define _GNU_SOURCE
#include <dlfcn.h>
#include <errno.h>
#include <fcntl.h>
#include <malloc.h>
#include <stdarg.h>
#include <stddef.h>
#include <stdio.h>
#include <stdlib.h>
#include <string.h>
#include <sys/stat.h>
#include <time.h>
#include <unistd.h>

extern void *__libc_malloc(size_t);
extern void *__libc_calloc(size_t, size_t);
extern void *__libc_realloc(void *, size_t);
extern void *__libc_memalign(size_t, size_t);
extern void __libc_free(void *);

enum kind { MEMORY, OPEN, READ, WRITE, STAT, LIST, RENAME, UNLINK, CHMOD, OWNER, SYNC, SEEK, TRUNCATE, FOLLOW, LOCK, ANY };

static const char *const kind_names[] = {"memory", "open",  "read", "write", "stat",     "list",   "rename", "unlink",
                                         "chmod",  "owner", "sync", "seek",  "truncate", "follow", "lock",   "any"};

typedef int open_function(const char *, int, ...);
typedef int openat_function(int, const char *, int, ...);
typedef ssize_t read_function(int, void *, size_t);
typedef ssize_t write_function(int, const void *, size_t);
typedef int statx_function(int, const char *, int, unsigned int, struct statx *);
typedef ssize_t list_function(int, void *, size_t);
typedef int rename_function(const char *, const char *);
typedef int unlink_function(const char *);
typedef int chmod_function(int, mode_t);
typedef int chown_function(int, uid_t, gid_t);
typedef int sync_function(int);
typedef off_t seek_function(int, off_t, int);
typedef int truncate_function(int, off_t);
typedef ssize_t readlink_function(const char *, char *, size_t);
typedef int lock_function(int, int);

static open_function *real_open;
static openat_function *real_openat;
static read_function *real_read;
static write_function *real_write;
static statx_function *real_statx;
static list_function *real_list;
static rename_function *real_rename;
static unlink_function *real_unlink;
static chmod_function *real_chmod;
static chown_function *real_chown;
static sync_function *real_sync;
static seek_function *real_seek;
static truncate_function *real_truncate;
static readlink_function *real_readlink;
static lock_function *real_lock;
static enum kind counted = MEMORY;
static enum kind denied = ANY;
static const char *saved, *saved_to, *saved_by, *exchanged, *exchanged_for;
static int calls_descriptor = -1;
static int times_descriptor = -1;
static long long last_seek;
static useconds_t pause_time;
static long refused, requests;
static int given_reason;
static int from_then, descriptor = -1, wait_descriptor = -1;
static long held, most_held;
static int held_descriptor = -1;

static void tell_call(const char *format, ...) {
    char line[9000];
    int before = errno;
    va_list rest;
    if (calls_descriptor < 0)
        return;
    va_start(rest, format);
    int length = vsnprintf(line, sizeof line, format, rest);
    va_end(rest);
    if (real_write(calls_descriptor, line, (size_t)length) != length)
        abort();
    errno = before;
}

/* The name of a file that is open. */
static const char *open_name(int file, char into[4200]) {
    char link[64];
    snprintf(link, sizeof link, "/proc/self/fd/%d", file);
    ssize_t length = real_readlink(link, into, 4100);
    into[length < 0 ? 0 : length] = 0;
    return into;
}

/* The name of a path, which may go by a folder that is open. */
static const char *path_name(const char *path, char into[4200]) {
    int process, file, end = 0;
    if (calls_descriptor < 0 || (path[0] == '/' && strncmp(path, "/proc/", 6) != 0))
        return path;
    if (sscanf(path, "/proc/self/fd/%d/%n", &file, &end) == 1 && end > 0)
        open_name(file, into);
    else if (sscanf(path, "/proc/%d/fd/%d/%n", &process, &file, &end) == 2 && end > 0)
        open_name(file, into);
    else if (path[0] == '/')
        return path;
    else if (!getcwd(into, 4100))
        abort();
    size_t length = strlen(into);
    snprintf(into + length, 4200 - length, "/%s", path + end);
    return into;
}

static void tell_write(int file, size_t size) {
    char name[4200];
    struct stat found;
    if (calls_descriptor >= 0 && fstat(file, &found) == 0 && S_ISREG(found.st_mode))
        tell_call("write %s %o %zu\n", open_name(file, name), found.st_mode & 07777, size);
}

static void write_text(const char *path, int flags) {
    int to = real_open(path, flags | O_WRONLY, 0644);
    if (to < 0 || real_write(to, saved, strlen(saved)) != (ssize_t)strlen(saved) || close(to) != 0)
        abort();
}

static void save(void) {
    if (!saved_by) {
        write_text(saved_to, O_TRUNC);
        return;
    }
    write_text(".saved", O_CREAT | O_EXCL);
    if (real_rename(".saved", saved_to) != 0)
        abort();
}

static void wait_for_byte(void) {
    char byte;
    if (real_read(wait_descriptor, &byte, 1) != 1)
        abort();
}

static int is_refused(enum kind kind, int reason) {
    if (kind == denied) {
        errno = reason;
        return 1;
    }
    int is_counted = kind == counted || (counted == ANY && kind != MEMORY);
    if (refused == 0 || !is_counted || ++requests < refused || (requests > refused && !from_then))
        return 0;
    if (real_write(descriptor, kind_names[kind], 4) != 4)
        abort();
    if (wait_descriptor >= 0) {
        wait_for_byte();
        return 0;
    }
    if (exchanged) {
        if (renameat2(AT_FDCWD, exchanged, AT_FDCWD, exchanged_for, RENAME_EXCHANGE) != 0)
            abort();
        return 0;
    }
    if (saved) {
        save();
        return 0;
    }
    errno = given_reason ? given_reason : reason;
    return 1;
}

static void *counted_in(void *made) {
    held += (long)malloc_usable_size(made);
    if (held > most_held)
        most_held = held;
    return made;
}

static void counted_out(void *kept) { held -= (long)malloc_usable_size(kept); }

void *malloc(size_t size) { return is_refused(MEMORY, ENOMEM) ? NULL : counted_in(__libc_malloc(size)); }

void *calloc(size_t count, size_t size) {
    return is_refused(MEMORY, ENOMEM) ? NULL : counted_in(__libc_calloc(count, size));
}

/* Whether a block is to give some of itself back, which is no request: no block has more than these bytes beyond what was
   asked for it. */
static int gives_back(void *kept, size_t size) { return size > 0 && size + 24 < malloc_usable_size(kept); }

void *realloc(void *kept, size_t size) {
    if (!gives_back(kept, size) && is_refused(MEMORY, ENOMEM))
        return NULL;
    size_t before = malloc_usable_size(kept);
    void *made = __libc_realloc(kept, size);
    if (made || size == 0)
        held -= (long)before;
    return counted_in(made);
}

void *memalign(size_t align, size_t size) {
    return is_refused(MEMORY, ENOMEM) ? NULL : counted_in(__libc_memalign(align, size));
}

void free(void *kept) {
    counted_out(kept);
    __libc_free(kept);
}

void *aligned_alloc(size_t align, size_t size) { return memalign(align, size); }

int posix_memalign(void **made, size_t align, size_t size) {
    *made = memalign(align, size);
    return *made ? 0 : ENOMEM;
}

static void find_real(void) {
    if (!real_write) {
        real_open = (open_function *)dlsym(RTLD_NEXT, "open");
        real_read = (read_function *)dlsym(RTLD_NEXT, "read");
        real_statx = (statx_function *)dlsym(RTLD_NEXT, "statx");
        real_list = (list_function *)dlsym(RTLD_NEXT, "getdents64");
        real_rename = (rename_function *)dlsym(RTLD_NEXT, "rename");
        real_unlink = (unlink_function *)dlsym(RTLD_NEXT, "unlink");
        real_chmod = (chmod_function *)dlsym(RTLD_NEXT, "fchmod");
        real_chown = (chown_function *)dlsym(RTLD_NEXT, "fchown");
        real_sync = (sync_function *)dlsym(RTLD_NEXT, "fsync");
        real_seek = (seek_function *)dlsym(RTLD_NEXT, "lseek");
        real_truncate = (truncate_function *)dlsym(RTLD_NEXT, "ftruncate");
        real_readlink = (readlink_function *)dlsym(RTLD_NEXT, "readlink");
        real_openat = (openat_function *)dlsym(RTLD_NEXT, "openat");
        real_lock = (lock_function *)dlsym(RTLD_NEXT, "flock");
        real_write = (write_function *)dlsym(RTLD_NEXT, "write");
    }
}

static void tell_held(void) {
    char line[64];
    int length = snprintf(line, sizeof line, "%ld %ld\n", held, most_held);
    if (real_write(held_descriptor, line, (size_t)length) != length)
        abort();
    most_held = held;
}

int open(const char *path, int flags, ...) {
    va_list rest;
    va_start(rest, flags);
    mode_t mode = flags & O_CREAT ? va_arg(rest, mode_t) : 0;
    va_end(rest);
    find_real();
    if (held_descriptor >= 0)
        tell_held();
    if (pause_time)
        usleep(pause_time);
    char name[4200];
    tell_call("open %s %o %o\n", path_name(path, name), flags & (O_ACCMODE | O_CREAT | O_EXCL | O_TRUNC), mode);
    return is_refused(OPEN, EACCES) ? -1 : real_open(path, flags, mode);
}

/* So a folder is opened for its names. */
int openat(int folder, const char *path, int flags, ...) {
    va_list rest;
    va_start(rest, flags);
    mode_t mode = flags & O_CREAT ? va_arg(rest, mode_t) : 0;
    va_end(rest);
    find_real();
    return is_refused(OPEN, EACCES) ? -1 : real_openat(folder, path, flags, mode);
}

ssize_t read(int from, void *into, size_t size) {
    char name[4200];
    find_real();
    tell_call("read %s\n", calls_descriptor < 0 ? "" : open_name(from, name));
    return is_refused(READ, EIO) ? -1 : real_read(from, into, size);
}

ssize_t write(int to, const void *bytes, size_t size) {
    find_real();
    tell_write(to, size);
    return is_refused(WRITE, EIO) ? -1 : real_write(to, bytes, size);
}

int statx(int folder, const char *restrict path, int flags, unsigned int mask, struct statx *restrict into) {
    find_real();
    return is_refused(STAT, EACCES) ? -1 : real_statx(folder, path, flags, mask, into);
}

ssize_t getdents64(int folder, void *into, size_t size) {
    find_real();
    return is_refused(LIST, EIO) ? -1 : real_list(folder, into, size);
}

static long long now(void) {
    struct timespec time;
    clock_gettime(CLOCK_MONOTONIC, &time);
    return time.tv_sec * 1000000000LL + time.tv_nsec;
}

static void tell_time(const char *name) {
    char line[4200];
    int length = snprintf(line, sizeof line, "%lld%s%s\n", last_seek, *name ? " " : "", name);
    if (times_descriptor >= 0 && real_write(times_descriptor, line, (size_t)length) != length)
        abort();
}

int rename(const char *from, const char *to) {
    char old_name[4200], new_name[4200];
    find_real();
    tell_time(to);
    tell_call("rename %s %s\n", path_name(from, old_name), path_name(to, new_name));
    return is_refused(RENAME, EACCES) ? -1 : real_rename(from, to);
}

int unlink(const char *path) {
    char name[4200];
    find_real();
    tell_call("unlink %s\n", path_name(path, name));
    return is_refused(UNLINK, EACCES) ? -1 : real_unlink(path);
}

int fchmod(int file, mode_t mode) {
    char name[4200];
    find_real();
    tell_call("chmod %s %o\n", calls_descriptor < 0 ? "" : open_name(file, name), mode);
    return is_refused(CHMOD, EPERM) ? -1 : real_chmod(file, mode);
}

int fchown(int file, uid_t owner, gid_t group) {
    char name[4200];
    find_real();
    tell_call("owner %s %d %d\n", calls_descriptor < 0 ? "" : open_name(file, name), (int)owner, (int)group);
    return is_refused(OWNER, EPERM) ? -1 : real_chown(file, owner, group);
}

int fsync(int file) {
    char name[4200];
    find_real();
    tell_call("sync %s\n", calls_descriptor < 0 ? "" : open_name(file, name));
    return is_refused(SYNC, EIO) ? -1 : real_sync(file);
}

off_t lseek(int file, off_t offset, int whence) {
    find_real();
    last_seek = now();
    tell_time("");
    if (pause_time)
        usleep(pause_time);
    return is_refused(SEEK, EIO) ? -1 : real_seek(file, offset, whence);
}

int ftruncate(int file, off_t size) {
    char name[4200];
    find_real();
    tell_call("truncate %s %ld\n", calls_descriptor < 0 ? "" : open_name(file, name), (long)size);
    return is_refused(TRUNCATE, EIO) ? -1 : real_truncate(file, size);
}

ssize_t readlink(const char *restrict path, char *restrict into, size_t size) {
    find_real();
    return is_refused(FOLLOW, EIO) ? -1 : real_readlink(path, into, size);
}

int flock(int file, int how) {
    char name[4200];
    find_real();
    tell_call("lock %s %d\n", calls_descriptor < 0 ? "" : open_name(file, name), how);
    return is_refused(LOCK, ENOTSUP) ? -1 : real_lock(file, how);
}

ssize_t __write(int to, const void *bytes, size_t size) { return write(to, bytes, size); }

typedef int main_function(int, char **, char **);

static main_function *real_main;

static int begin(int argc, char **argv, char **environment) {
    const char *times_fd = getenv("TIMES_FD"), *pause = getenv("PAUSE");
    const char *number = getenv("REFUSE"), *told = getenv("REFUSE_FD"), *name = getenv("REFUSED"), *held_fd = getenv("HELD_FD");
    find_real();
    for (int kind = MEMORY; name && kind <= ANY; kind++)
        if (strcmp(name, kind_names[kind]) == 0)
            counted = kind;
    for (int kind = MEMORY; getenv("DENIED") && kind < ANY; kind++)
        if (strcmp(getenv("DENIED"), kind_names[kind]) == 0)
            denied = kind;
    if (getenv("CALLS_FD"))
        calls_descriptor = atoi(getenv("CALLS_FD"));
    exchanged = getenv("EXCHANGE");
    exchanged_for = getenv("FOR");
    saved = getenv("SAVE");
    saved_to = getenv("SAVE_TO");
    saved_by = getenv("SAVE_BY");
    if (pause)
        pause_time = (useconds_t)atoi(pause);
    if (times_fd)
        times_descriptor = atoi(times_fd);
    if (getenv("WAIT_FD"))
        wait_descriptor = atoi(getenv("WAIT_FD"));
    from_then = getenv("FROM_THEN") != NULL;
    if (getenv("REASON"))
        given_reason = atoi(getenv("REASON"));
    if (number && told) {
        descriptor = atoi(told);
        refused = atol(number);
    }
    if (held_fd)
        held_descriptor = atoi(held_fd);
    return real_main(argc, argv, environment);
}

typedef int start_function(main_function *, int, char **, void (*)(void), void (*)(void), void (*)(void), void *);

int __libc_start_main(main_function *main, int argc, char **argv, void (*init)(void), void (*fini)(void),
                      void (*rtld_fini)(void), void *stack_end) {
    start_function *start = (start_function *)dlsym(RTLD_NEXT, "__libc_start_main");
    real_main = main;
    if (getenv("NO_WORDS")) {
        argv += argc;
        argc = 0;
    }
    return start(begin, argc, argv, init, fini, rtld_fini, stack_end);
}
