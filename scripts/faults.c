// Faults of the disk and of the network, for scripts/faults-day: it is loaded in front of the C library of a program, and
// fails the calls that the day asks for by files in the folder $FAULTS. Each of these files holds how many calls fail, or at
// which one the program is killed or refused memory.
//
//   sync-ENDING    the next syncs of a file whose path has this ending fail with EIO
//   write-ENDING   the next writes to a file whose path has this ending fail with ENOSPC
//   sync           this sync, counted from 1, fails with EIO, and the file is then gone
//   accept-NUMBER  the next accepts fail with the error of this number
//   kill           the program is killed as it begins this write, counted from 1
//   memory         this request for memory, counted from 1, is refused, and the file is then gone
#define _GNU_SOURCE
#include <dirent.h>
#include <dlfcn.h>
#include <errno.h>
#include <signal.h>
#include <stdio.h>
#include <stdlib.h>
#include <string.h>
#include <sys/socket.h>
#include <sys/syscall.h>
#include <sys/uio.h>
#include <unistd.h>

// Takes a file of $FAULTS away.
static void spend(const char *name) {
    char path[4096];
    snprintf(path, sizeof path, "%s/%s", getenv("FAULTS"), name);
    unlink(path);
}

// The request for memory that is refused, counted from the next one, or 0; and whether it is this library that asks, whose
// requests do not count.
static long refused;
static int is_ours;

// The number in a file of $FAULTS; 0 if it is not there.
static long number_in(const char *name) {
    char path[4096];
    long number = 0;
    const char *folder = getenv("FAULTS");
    if (!folder) return 0;
    snprintf(path, sizeof path, "%s/%s", folder, name);
    is_ours = 1;
    FILE *file = fopen(path, "r");
    if (file) {
        if (fscanf(file, "%ld", &number) != 1) number = 0;
        fclose(file);
    }
    is_ours = 0;
    return number;
}

// Whether a call fails by this file, which is then worth one less.
static int fails_by(const char *name) {
    char path[4096];
    long number = number_in(name);
    if (number <= 0) return 0;
    snprintf(path, sizeof path, "%s/%s", getenv("FAULTS"), name);
    if (number == 1) {
        spend(name);
        return 1;
    }
    FILE *file = fopen(path, "w");
    if (file) {
        fprintf(file, "%ld\n", number - 1);
        fclose(file);
    }
    return 1;
}

// The file of $FAULTS with this front whose rest `is` accepts.
static int find_fault(const char *front, int (*is)(const char *, const void *), const void *what, char *name, size_t size) {
    const char *folder = getenv("FAULTS");
    is_ours = 1;
    DIR *all = folder ? opendir(folder) : NULL;
    struct dirent *one;
    int found = 0;
    is_ours = 0;
    if (!all) return 0;
    while (!found && (one = readdir(all))) {
        if (!strncmp(one->d_name, front, strlen(front)) && is(one->d_name + strlen(front), what)) {
            snprintf(name, size, "%s", one->d_name);
            found = 1;
        }
    }
    closedir(all);
    return found;
}

static int is_ending(const char *ending, const void *path) {
    size_t all = strlen(path), last = strlen(ending);
    return last <= all && !strcmp((const char *)path + all - last, ending);
}

// Whether a call on a file fails by a fault with this front.
static int file_fails(const char *front, int fd) {
    char link[64], path[4096], name[300];
    snprintf(link, sizeof link, "/proc/self/fd/%d", fd);
    ssize_t length = readlink(link, path, sizeof path - 1);
    if (length < 0) return 0;
    path[length] = 0;
    return find_fault(front, is_ending, path, name, sizeof name) && fails_by(name);
}

static int sync_fails(int fd) {
    static long syncs;
    if (++syncs == number_in("sync")) {
        spend("sync");
        return 1;
    }
    return file_fails("sync-", fd);
}

int fsync(int fd) {
    int (*real)(int) = (int (*)(int))dlsym(RTLD_NEXT, "fsync");
    if (sync_fails(fd)) {
        errno = EIO;
        return -1;
    }
    return real(fd);
}

int fdatasync(int fd) {
    int (*real)(int) = (int (*)(int))dlsym(RTLD_NEXT, "fdatasync");
    if (sync_fails(fd)) {
        errno = EIO;
        return -1;
    }
    return real(fd);
}

static int is_any(const char *rest, const void *what) {
    (void)what;
    return *rest != 0;
}

static int accept_fails(void) {
    char name[300];
    if (!find_fault("accept-", is_any, NULL, name, sizeof name) || !fails_by(name)) return 0;
    errno = atoi(name + strlen("accept-"));
    return 1;
}

int accept(int fd, struct sockaddr *address, socklen_t *length) {
    int (*real)(int, struct sockaddr *, socklen_t *) = (int (*)(int, struct sockaddr *, socklen_t *))dlsym(RTLD_NEXT, "accept");
    return accept_fails() ? -1 : real(fd, address, length);
}

int accept4(int fd, struct sockaddr *address, socklen_t *length, int flags) {
    int (*real)(int, struct sockaddr *, socklen_t *, int) =
        (int (*)(int, struct sockaddr *, socklen_t *, int))dlsym(RTLD_NEXT, "accept4");
    return accept_fails() ? -1 : real(fd, address, length, flags);
}

// A write to a file, which is counted: whether it fails.
static int write_fails(int fd) {
    static long writes;
    if (fd <= 2) return 0;
    if (++writes == number_in("kill")) kill(getpid(), SIGKILL);
    if (!file_fails("write-", fd)) return 0;
    errno = ENOSPC;
    return 1;
}

ssize_t write(int fd, const void *bytes, size_t size) {
    ssize_t (*real)(int, const void *, size_t) = (ssize_t(*)(int, const void *, size_t))dlsym(RTLD_NEXT, "write");
    return write_fails(fd) ? -1 : real(fd, bytes, size);
}

ssize_t pwrite(int fd, const void *bytes, size_t size, off_t at) {
    ssize_t (*real)(int, const void *, size_t, off_t) =
        (ssize_t(*)(int, const void *, size_t, off_t))dlsym(RTLD_NEXT, "pwrite");
    return write_fails(fd) ? -1 : real(fd, bytes, size, at);
}

ssize_t pwrite64(int fd, const void *bytes, size_t size, off64_t at) {
    ssize_t (*real)(int, const void *, size_t, off64_t) =
        (ssize_t(*)(int, const void *, size_t, off64_t))dlsym(RTLD_NEXT, "pwrite64");
    return write_fails(fd) ? -1 : real(fd, bytes, size, at);
}

__attribute__((constructor)) static void read_refused(void) { refused = number_in("memory"); }

static int is_refused(void) {
    if (is_ours || !refused || --refused) return 0;
    spend("memory");
    errno = ENOMEM;
    return 1;
}

// The C library's own, under its other names.
void *__libc_malloc(size_t size);
void *__libc_calloc(size_t count, size_t size);
void *__libc_realloc(void *old, size_t size);

void *malloc(size_t size) { return is_refused() ? NULL : __libc_malloc(size); }

void *calloc(size_t count, size_t size) { return is_refused() ? NULL : __libc_calloc(count, size); }

void *realloc(void *old, size_t size) { return is_refused() ? NULL : __libc_realloc(old, size); }
