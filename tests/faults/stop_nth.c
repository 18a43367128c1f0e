/* Loaded before a program, it meddles with the Nth call (STOP_NTH) by which the program changes a file or has it kept for good. STOP_HOW says how:
   `before` ends the process in place of the call, `half` ends it after half of a write, or after another call, and `EIO` or `ENOSPC` has this one
   call fail with that error, and changes nothing. `unclosed` ends it in place of the Nth such call after an answer. With STOP_NTH=0 it meddles with
   none, and says at the end on standard error what the calls were, a letter each: `w` for a write, `k` for another one, and `a` for an answer, which goes
   to the output, to the errors or to a client, and isn't counted. */
#define _GNU_SOURCE
#include <dlfcn.h>
#include <errno.h>
#include <fcntl.h>
#include <signal.h>
#include <stdarg.h>
#include <stdio.h>
#include <stdlib.h>
#include <string.h>
#include <sys/socket.h>
#include <sys/types.h>
#include <unistd.h>

static unsigned long called, called_behind, answers;
static char letters[1 << 16];
static size_t lettered;

static void note(char letter)
{
    if (lettered < sizeof letters)
        letters[lettered++] = letter;
}

static unsigned long nth(void)
{
    const char *word = getenv("STOP_NTH");
    return word ? strtoul(word, NULL, 10) : 0;
}

static int is_how(const char *word)
{
    const char *how = getenv("STOP_HOW");
    return how && strcmp(how, word) == 0;
}

/* Whether the call is the one that is meddled with. */
static int is_nth(char letter)
{
    note(letter);
    called++;
    called_behind += answers > 0;
    return (is_how("unclosed") ? called_behind : called) == nth();
}

/* Ends the process in place of the call, or gives whether the call is to fail. */
static int fails(void)
{
    if (is_how("before") || is_how("unclosed"))
        raise(SIGKILL);
    errno = is_how("ENOSPC") ? ENOSPC : EIO;
    return is_how("EIO") || is_how("ENOSPC");
}

#define NEXT(name, type) ((type)dlsym(RTLD_NEXT, name))
#define MEDDLED(letter, call) \
    do { \
        if (!is_nth(letter)) \
            return (call); \
        if (fails()) \
            return -1; \
        (void)!(call); \
        raise(SIGKILL); \
        return -1; \
    } while (0)

ssize_t pwrite(int file, const void *bytes, size_t count, off_t at)
{
    ssize_t (*next)(int, const void *, size_t, off_t) = NEXT("pwrite", ssize_t (*)(int, const void *, size_t, off_t));
    size_t some = called + 1 == nth() && is_how("half") ? count / 2 : count;
    MEDDLED('w', next(file, bytes, some, at));
}

int ftruncate(int file, off_t size)
{
    MEDDLED('k', NEXT("ftruncate", int (*)(int, off_t))(file, size));
}

int fsync(int file)
{
    MEDDLED('k', NEXT("fsync", int (*)(int))(file));
}

int fdatasync(int file)
{
    MEDDLED('k', NEXT("fdatasync", int (*)(int))(file));
}

int fchmod(int file, mode_t mode)
{
    MEDDLED('k', NEXT("fchmod", int (*)(int, mode_t))(file, mode));
}

int fchown(int file, uid_t user, gid_t group)
{
    MEDDLED('k', NEXT("fchown", int (*)(int, uid_t, gid_t))(file, user, group));
}

int rename(const char *from, const char *to)
{
    MEDDLED('k', NEXT("rename", int (*)(const char *, const char *))(from, to));
}

int unlink(const char *path)
{
    MEDDLED('k', NEXT("unlink", int (*)(const char *))(path));
}

static void answer(void)
{
    note('a');
    answers++;
}

ssize_t write(int file, const void *bytes, size_t count)
{
    if (file == STDOUT_FILENO || file == STDERR_FILENO)
        answer();
    return NEXT("write", ssize_t (*)(int, const void *, size_t))(file, bytes, count);
}

ssize_t send(int socket, const void *bytes, size_t count, int flags)
{
    answer();
    return NEXT("send", ssize_t (*)(int, const void *, size_t, int))(socket, bytes, count, flags);
}

/* Opening a file counts where it may make one. */
int open(const char *path, int flags, ...)
{
    int (*next)(const char *, int, ...) = NEXT("open", int (*)(const char *, int, ...));
    if (!(flags & O_CREAT))
        return next(path, flags);
    va_list words;
    va_start(words, flags);
    mode_t mode = va_arg(words, mode_t);
    va_end(words);
    MEDDLED('k', next(path, flags, mode));
}

__attribute__((destructor)) static void tell(void)
{
    if (nth() == 0)
        fprintf(stderr, "%.*s\n", (int)lettered, letters);
}
