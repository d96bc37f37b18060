/* Preloaded to a program: before one of its system calls another command runs, or the program is killed there, or calls fail
   from there on. Calls are counted from the first that names a path with the text of BETWEEN_PATH in it.

   BETWEEN_CALL   the number of the call, from 1
   BETWEEN_ONLY   the name of the calls that are counted; without it, all are
   BETWEEN_RUN    the command, for sh
   BETWEEN_ERROR  the number of the error by which the call fails; without it and BETWEEN_RUN the program is killed
   BETWEEN_TIMES  how many calls fail, one after another; without it, one
   BETWEEN_LINKS  if it is `no`, the file system has no second names */
#define _GNU_SOURCE
#include <dirent.h>
#include <dlfcn.h>
#include <errno.h>
#include <fcntl.h>
#include <signal.h>
#include <stdarg.h>
#include <stdlib.h>
#include <string.h>
#include <sys/file.h>
#include <sys/stat.h>
#include <unistd.h>

static int has_begun;
static long count;

static const char *given(const char *name) {
    const char *value = getenv(name);
    return value ? value : "";
}

static int is_given(const char *name) {
    return *given(name) != 0;
}

/* A call comes, on a path or on none. Gives whether it fails. */
static int come(const char *name, const char *path) {
    has_begun |= path && is_given("BETWEEN_PATH") && strstr(path, given("BETWEEN_PATH"));
    if (!has_begun || (is_given("BETWEEN_ONLY") && strcmp(name, given("BETWEEN_ONLY")) != 0))
        return 0;
    long past = ++count - atol(given("BETWEEN_CALL"));
    if (is_given("BETWEEN_ERROR")) {
        errno = atoi(given("BETWEEN_ERROR"));
        return past >= 0 && past < (is_given("BETWEEN_TIMES") ? atol(given("BETWEEN_TIMES")) : 1);
    }
    if (past != 0)
        return 0;
    if (!is_given("BETWEEN_RUN"))
        kill(getpid(), SIGKILL);
    char *run = strdup(given("BETWEEN_RUN"));
    unsetenv("LD_PRELOAD");
    if (system(run) != 0)
        abort();
    free(run);
    return 0;
}

#define REAL(name) ((__typeof__(&name))dlsym(RTLD_NEXT, #name))
#define MEET(name, path, ...) return come(#name, path) ? -1 : REAL(name)(__VA_ARGS__)

int open(const char *path, int flags, ...) {
    va_list rest;
    va_start(rest, flags);
    mode_t mode = va_arg(rest, mode_t);
    va_end(rest);
    MEET(open, path, path, flags, mode);
}

int openat(int folder, const char *path, int flags, ...) {
    va_list rest;
    va_start(rest, flags);
    mode_t mode = va_arg(rest, mode_t);
    va_end(rest);
    MEET(openat, path, folder, path, flags, mode);
}

int mkdir(const char *path, mode_t mode) {
    MEET(mkdir, path, path, mode);
}

int statx(int folder, const char *restrict path, int flags, unsigned int mask, struct statx *restrict found) {
    MEET(statx, path, folder, path, flags, mask, found);
}

ssize_t getdents64(int file, void *entries, size_t length) {
    MEET(getdents64, NULL, file, entries, length);
}

ssize_t read(int file, void *bytes, size_t length) {
    MEET(read, NULL, file, bytes, length);
}

ssize_t write(int file, const void *bytes, size_t length) {
    MEET(write, NULL, file, bytes, length);
}

int flock(int file, int how) {
    MEET(flock, NULL, file, how);
}

int fchmod(int file, mode_t mode) {
    MEET(fchmod, NULL, file, mode);
}

int fsync(int file) {
    MEET(fsync, NULL, file);
}

int link(const char *from, const char *to) {
    if (come("link", from))
        return -1;
    if (strcmp(given("BETWEEN_LINKS"), "no") == 0) {
        errno = EPERM;
        return -1;
    }
    return REAL(link)(from, to);
}

int rename(const char *from, const char *to) {
    MEET(rename, from, from, to);
}

int unlink(const char *path) {
    MEET(unlink, path, path);
}
