/* Put before the C library by LD_PRELOAD, it has calls on files fail, and writes be short. Only descriptors above 2 count. The
   variables count from 1: FAIL_CALL names a call of any of these kinds, FAIL_WRITE and FAIL_SYNC one of its kind, and SHORT_WRITE
   the most bytes that a write takes. INTERRUPT_CALL names a read or a write at a place that a signal cuts short. Files are opened, given their mode, locked and renamed too: FAIL_CALL counts that only where
   FAIL_NAMES is set. The failed call does nothing. It is written without headers, so that a compiler alone makes it. */
typedef unsigned long size_t;
typedef long ssize_t;
typedef long off_t;

extern long syscall(long, ...);
extern char *getenv(const char *);
extern int *__errno_location(void);

enum { WRITE = 1, PREAD = 17, FLOCK = 73, FSYNC = 74, FDATASYNC = 75, FTRUNCATE = 77, FCHMOD = 91, OPENAT = 257, RENAMEAT = 264 };
enum { CUT_SHORT = 4, NO_SPACE = 28, HERE = -100, CREATE = 64 };

static unsigned long call_left, write_left, sync_left, interrupt_left, most, names;

static unsigned long number(const char *text)
{
    unsigned long value = 0;
    while (text && *text >= '0' && *text <= '9')
        value = value * 10 + (unsigned long)(*text++ - '0');
    return value;
}

__attribute__((constructor)) static void begin(void)
{
    call_left = number(getenv("FAIL_CALL"));
    write_left = number(getenv("FAIL_WRITE"));
    sync_left = number(getenv("FAIL_SYNC"));
    interrupt_left = number(getenv("INTERRUPT_CALL"));
    most = number(getenv("SHORT_WRITE"));
    names = number(getenv("FAIL_NAMES"));
}

static int comes(unsigned long *left)
{
    return *left != 0 && --*left == 0;
}

static int lacks_space(int now)
{
    if (now)
        *__errno_location() = NO_SPACE;
    return now;
}

static int fails(int file, unsigned long *kind)
{
    if (file <= 2)
        return 0;
    int any = comes(&call_left), one = kind && comes(kind);
    return lacks_space(any || one);
}

static int is_interrupted(int file)
{
    if (file <= 2 || !comes(&interrupt_left))
        return 0;
    *__errno_location() = CUT_SHORT;
    return 1;
}

static int fails_by_name(void)
{
    return lacks_space(names && comes(&call_left));
}

ssize_t write(int file, const void *from, size_t size)
{
    if (fails(file, &write_left) || is_interrupted(file))
        return -1;
    if (file > 2 && most && size > most)
        size = most;
    return syscall(WRITE, file, from, size);
}

ssize_t __write(int file, const void *from, size_t size)
{
    return write(file, from, size);
}

ssize_t pread(int file, void *to, size_t size, off_t at)
{
    return fails(file, 0) || is_interrupted(file) ? -1 : syscall(PREAD, file, to, size, at);
}

ssize_t pread64(int file, void *to, size_t size, off_t at)
{
    return pread(file, to, size, at);
}

int fsync(int file)
{
    return fails(file, &sync_left) ? -1 : (int)syscall(FSYNC, file);
}

int fdatasync(int file)
{
    return fails(file, &sync_left) ? -1 : (int)syscall(FDATASYNC, file);
}

int ftruncate(int file, off_t size)
{
    return fails(file, 0) ? -1 : (int)syscall(FTRUNCATE, file, size);
}

int ftruncate64(int file, off_t size)
{
    return ftruncate(file, size);
}

int flock(int file, int how)
{
    return fails_by_name() ? -1 : (int)syscall(FLOCK, file, how);
}

int fchmod(int file, unsigned mode)
{
    return fails_by_name() ? -1 : (int)syscall(FCHMOD, file, mode);
}

static int opened(int folder, const char *name, int flags, __builtin_va_list more)
{
    if (fails_by_name())
        return -1;
    return (int)syscall(OPENAT, folder, name, flags, flags & CREATE ? __builtin_va_arg(more, unsigned) : 0);
}

int openat(int folder, const char *name, int flags, ...)
{
    __builtin_va_list more;
    __builtin_va_start(more, flags);
    int file = opened(folder, name, flags, more);
    __builtin_va_end(more);
    return file;
}

int open(const char *name, int flags, ...)
{
    __builtin_va_list more;
    __builtin_va_start(more, flags);
    int file = opened(HERE, name, flags, more);
    __builtin_va_end(more);
    return file;
}

int renameat(int from_folder, const char *from, int to_folder, const char *to)
{
    return fails_by_name() ? -1 : (int)syscall(RENAMEAT, from_folder, from, to_folder, to);
}

int rename(const char *from, const char *to)
{
    return renameat(HERE, from, HERE, to);
}
