/* Stands between the program under test and the C library: notes calls in the file `trace` of the folder that SHIM names, and lets them fail, or takes time
 * over them, as long as that folder has a file that says so: fail-NAME with an errno, slow-NAME with microseconds, fail-at with the number of the one call on
 * files that fails, counted from the program's start, swap-x with the number of the opening at which a name is swapped for another. With a file `keep` there, the bytes of all writes at a place are added to it, in their order. */
#define _GNU_SOURCE
#include <dirent.h>
#include <dlfcn.h>
#include <errno.h>
#include <fcntl.h>
#include <pthread.h>
#include <stdarg.h>
#include <stdatomic.h>
#include <stdio.h>
#include <stdlib.h>
#include <string.h>
#include <sys/file.h>
#include <sys/socket.h>
#include <sys/stat.h>
#include <sys/syscall.h>
#include <unistd.h>

static const char *folder(void) { return getenv("SHIM"); }

/* The number in a file of the folder; 0 if it is not there. */
static long number(const char *kind, const char *name) {
    char path[4200], text[32] = {0};
    if (!folder()) return 0;
    snprintf(path, sizeof path, "%s/%s-%s", folder(), kind, name);
    int fd = syscall(SYS_openat, AT_FDCWD, path, O_RDONLY);
    if (fd < 0) return 0;
    long n = syscall(SYS_read, fd, text, sizeof text - 1);
    syscall(SYS_close, fd);
    return n > 0 ? atol(text) : 0;
}

static void add(const char *file, int flags, const void *bytes, size_t n) {
    char path[4200];
    if (!folder()) return;
    snprintf(path, sizeof path, "%s/%s", folder(), file);
    int fd = syscall(SYS_openat, AT_FDCWD, path, O_WRONLY | O_APPEND | flags, 0600);
    if (fd < 0) return;
    syscall(SYS_write, fd, bytes, n);
    syscall(SYS_close, fd);
}

static void note(const char *form, ...) {
    char line[8400];
    va_list args;
    va_start(args, form);
    int n = vsnprintf(line, sizeof line, form, args);
    va_end(args);
    add("trace", O_CREAT, line, n);
}

static const char *name_of(int fd, char *buffer, size_t n) {
    char path[64];
    snprintf(path, sizeof path, "/proc/self/fd/%d", fd);
    ssize_t k = readlink(path, buffer, n - 1);
    buffer[k < 0 ? 0 : k] = 0;
    return buffer;
}

static int fails(const char *name) {
    long slow = number("slow", name), code = number("fail", name);
    if (slow) usleep(slow);
    if (code) errno = code;
    return code != 0;
}

/* The same of a call on files, which are counted. Where it does not fail, errno is as it was: readdir tells its end by that. */
static int breaks(const char *name) {
    static atomic_long calls;
    if (!folder()) return 0;
    int before = errno;
    long at = number("fail", "at"), now = ++calls;
    if (fails(name)) return 1;
    if (at && at == now) {
        note("broken %s\n", name);
        errno = EIO;
        return 1;
    }
    errno = before;
    return 0;
}

#define REAL(name) ((__typeof__(&name))dlsym(RTLD_NEXT, #name))

ssize_t pwrite64(int fd, const void *bytes, size_t n, off64_t at) {
    char name[4096];
    int bad = breaks("pwrite");
    note("pwrite %s %ld %zu%s\n", name_of(fd, name, sizeof name), (long)at, n, bad ? " failed" : "");
    if (!bad) add("keep", 0, bytes, n);
    return bad ? -1 : REAL(pwrite64)(fd, bytes, n, at);
}

int fdatasync(int fd) {
    char name[4096];
    int bad = breaks("fdatasync");
    note("fdatasync %s%s\n", name_of(fd, name, sizeof name), bad ? " failed" : "");
    return bad ? -1 : REAL(fdatasync)(fd);
}

int fsync(int fd) {
    char name[4096];
    int bad = breaks("fsync");
    note("fsync %s%s\n", name_of(fd, name, sizeof name), bad ? " failed" : "");
    return bad ? -1 : REAL(fsync)(fd);
}

int renameat(int from, const char *old, int to, const char *new) {
    char name[4096];
    int bad = breaks("rename");
    note("rename %s %s %s%s\n", name_of(from, name, sizeof name), old, new, bad ? " failed" : "");
    return bad ? -1 : REAL(renameat)(from, old, to, new);
}

ssize_t send(int fd, const void *bytes, size_t n, int flags) {
    note("send %zu\n", n);
    return REAL(send)(fd, bytes, n, flags);
}

int setsockopt(int fd, int level, int name, const void *value, socklen_t n) {
    note("setsockopt %d %d %d\n", level, name, n == sizeof(int) ? *(const int *)value : -1);
    return REAL(setsockopt)(fd, level, name, value, n);
}

int posix_fallocate(int fd, off_t from, off_t n) {
    return breaks("allocate") ? errno : REAL(posix_fallocate)(fd, from, n);
}

int pthread_create(pthread_t *thread, const pthread_attr_t *how, void *(*run)(void *), void *with) {
    return fails("thread") ? errno : REAL(pthread_create)(thread, how, run, with);
}

ssize_t getrandom(void *bytes, size_t n, unsigned flags) { return fails("random") ? -1 : syscall(SYS_getrandom, bytes, n, flags); }

/* Where in a path a name x begins. */
static const char *name_x(const char *path) {
    while (*path) {
        size_t n = strcspn(path, "/");
        if (n == 1 && *path == 'x') return path;
        path += n + strspn(path + n, "/");
    }
    return NULL;
}

/* Before the opening that swap-x counts, of those through a name x, that name and y beside it change places. A look is no opening. */
static void swap(int from, const char *path, int flags) {
    static atomic_long opened;
    char old[4200], new[4200];
    const char *x = name_x(path);
    if (!folder() || !x || flags & O_PATH) return;
    long at = number("swap", "x");
    if (!at || ++opened != at) return;
    snprintf(old, sizeof old, "%.*sx", (int)(x - path), path);
    snprintf(new, sizeof new, "%.*sy", (int)(x - path), path);
    note("swapped %s %ld\n", path, (long)syscall(SYS_renameat2, from, old, from, new, RENAME_EXCHANGE));
}

int openat(int from, const char *name, int flags, ...) {
    va_list args;
    va_start(args, flags);
    int mode = va_arg(args, int);
    va_end(args);
    swap(from, name, flags);
    return breaks("openat") ? -1 : syscall(SYS_openat, from, name, flags, mode);
}

static int is_file(int fd) {
    struct stat what;
    return folder() && syscall(SYS_fstat, fd, &what) == 0 && S_ISREG(what.st_mode);
}

ssize_t read(int fd, void *bytes, size_t n) {
    char name[4096];
    if (is_file(fd)) {
        /* fail-read is only for files that say so by their name: others are read to start at all. */
        int bad = strstr(name_of(fd, name, sizeof name), "unreadable") ? breaks("read") : breaks("load");
        if (bad) return -1;
    }
    return syscall(SYS_read, fd, bytes, n);
}

/* What is told on standard output. */
ssize_t write(int fd, const void *bytes, size_t n) {
    if (fd == 1) note("told %zu\n", n);
    return syscall(SYS_write, fd, bytes, n);
}

int open64(const char *name, int flags, ...) {
    va_list args;
    va_start(args, flags);
    int mode = va_arg(args, int);
    va_end(args);
    swap(AT_FDCWD, name, flags);
    return breaks("open") ? -1 : syscall(SYS_openat, AT_FDCWD, name, flags, mode);
}

int linkat(int from, const char *old, int to, const char *new, int flags) {
    int bad = breaks("link");
    note("link %s %s%s\n", old, new, bad ? " failed" : "");
    return bad ? -1 : REAL(linkat)(from, old, to, new, flags);
}

/* A name that is taken away: for std, and for the walk of folders. */
int unlink(const char *name) { return breaks("unlink") ? -1 : REAL(unlink)(name); }
int unlinkat(int from, const char *name, int flags) { return breaks("unlink") ? -1 : REAL(unlinkat)(from, name, flags); }

int flock(int fd, int how) { return breaks("flock") ? -1 : REAL(flock)(fd, how); }
int ftruncate64(int fd, off64_t n) { return breaks("truncate") ? -1 : REAL(ftruncate64)(fd, n); }
int fchmod(int fd, mode_t mode) { return breaks("chmod") ? -1 : REAL(fchmod)(fd, mode); }
int fchown(int fd, uid_t user, gid_t group) { return breaks("chown") ? -1 : REAL(fchown)(fd, user, group); }
int futimens(int fd, const struct timespec times[2]) { return breaks("utimens") ? -1 : REAL(futimens)(fd, times); }
int mkdirat(int at, const char *name, mode_t mode) { return breaks("mkdir") ? -1 : REAL(mkdirat)(at, name, mode); }

DIR *fdopendir(int fd) { return breaks("opendir") ? NULL : REAL(fdopendir)(fd); }
struct dirent *readdir(DIR *list) { return breaks("readdir") ? NULL : REAL(readdir)(list); }

int symlinkat(const char *target, int at, const char *name) {
    return breaks("symlink") ? -1 : REAL(symlinkat)(target, at, name);
}

ssize_t readlinkat(int at, const char *name, char *buffer, size_t n) {
    return breaks("readlink") ? -1 : REAL(readlinkat)(at, name, buffer, n);
}

int fchownat(int at, const char *name, uid_t user, gid_t group, int flags) {
    return breaks("chownat") ? -1 : REAL(fchownat)(at, name, user, group, flags);
}

int utimensat(int at, const char *name, const struct timespec times[2], int flags) {
    return breaks("utimensat") ? -1 : REAL(utimensat)(at, name, times, flags);
}

int statx(int at, const char *restrict name, int flags, unsigned mask, struct statx *restrict what) {
    return breaks("statx") ? -1 : syscall(SYS_statx, at, name, flags, mask, what);
}
