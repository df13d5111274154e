/* Put before the C library (LD_PRELOAD): at the n-th sync it ends the process, sends it a signal, fails, or cuts the file
   short, and 0 is where blocks are asked for; each sync may take its time; there is no room for blocks; another program
   writes the file at that moment, or puts another one in its place when the lock is asked for. */
#define _GNU_SOURCE
#include <dlfcn.h>
#include <errno.h>
#include <signal.h>
#include <stdio.h>
#include <stdlib.h>
#include <sys/types.h>
#include <unistd.h>

static int told(const char *name) {
    const char *value = getenv(name);
    return value != NULL ? atoi(value) : -1;
}

/* The file that is appended to. */
static int appended = -1;

static int cut_short(void) {
    return ftruncate(appended, 0);
}

/* Before each sync, of a mapped file, a file or a folder. */
static int at_sync(void) {
    static int count;
    count++;
    if (told("KILL_AT") == count)
        raise(SIGKILL);
    if (told("SIGNAL_AT") == count)
        kill(getpid(), told("SIGNAL"));
    if (told("SHORTEN_AT") == count && cut_short() != 0)
        abort();
    if (told("SLOW") > 0)
        usleep(1000 * told("SLOW"));
    if (told("FAIL_AT") == count) {
        errno = EIO;
        return -1;
    }
    return 0;
}

int msync(void *at, size_t len, int flags) {
    int (*real)(void *, size_t, int) = (int (*)(void *, size_t, int))dlsym(RTLD_NEXT, "msync");
    return at_sync() == 0 ? real(at, len, flags) : -1;
}

int fsync(int file) {
    int (*real)(int) = (int (*)(int))dlsym(RTLD_NEXT, "fsync");
    return at_sync() == 0 ? real(file) : -1;
}

int posix_fallocate(int file, off_t offset, off_t len) {
    int (*real)(int, off_t, off_t) = (int (*)(int, off_t, off_t))dlsym(RTLD_NEXT, "posix_fallocate");
    appended = file;
    if (told("FULL") == 1 || (told("WRITE") == 1 && pwrite(file, "x", 1, len - 1) != 1))
        return ENOSPC;
    if (told("SIGNAL_AT") == 0)
        kill(getpid(), told("SIGNAL"));
    int answer = real(file, offset, len);
    if (told("SHORTEN_AT") == 0 && cut_short() != 0)
        abort();
    return answer;
}

/* Just before the first lock is asked for: the file is open then. */
int flock(int file, int how) {
    int (*real)(int, int) = (int (*)(int, int))dlsym(RTLD_NEXT, "flock");
    static int count;
    if (count++ == 0 && told("REPLACE") == 1 && rename(getenv("BY"), getenv("AT")) != 0)
        abort();
    return real(file, how);
}
