/* Put before the C library by LD_PRELOAD, it has the system's clock say so many milliseconds more as the file that CLOCK names holds,
   in 8 bytes, which who shares it may change meanwhile. A file's rename adds as many to it as RENAME_TAKES says, as though it took so
   long. The clock by which time is measured goes on as it does. It is written without headers, so that a compiler alone makes it. */
typedef unsigned long size_t;

extern long syscall(long, ...);
extern char *getenv(const char *);

struct time { long seconds, nanos; };

enum { MMAP = 9, CLOCK_GETTIME = 228, OPENAT = 257, RENAMEAT = 264 };
enum { HERE = -100, READ_WRITE = 2, PAGES_READ_WRITE = 3, SHARED = 1, WALL = 0 };

static long none, *more = &none;
static unsigned long takes;

static unsigned long number(const char *text)
{
    unsigned long value = 0;
    while (text && *text >= '0' && *text <= '9')
        value = value * 10 + (unsigned long)(*text++ - '0');
    return value;
}

__attribute__((constructor)) static void begin(void)
{
    const char *name = getenv("CLOCK");
    long file = name ? syscall(OPENAT, HERE, name, READ_WRITE, 0) : -1;
    if (file >= 0)
        more = (long *)syscall(MMAP, 0L, sizeof(long), PAGES_READ_WRITE, SHARED, file, 0L);
    takes = number(getenv("RENAME_TAKES"));
}

int clock_gettime(int clock, struct time *now)
{
    int status = (int)syscall(CLOCK_GETTIME, clock, now);
    if (status != 0 || clock != WALL)
        return status;
    long millis = *(volatile long *)more;
    now->seconds += millis / 1000;
    now->nanos += millis % 1000 * 1000000;
    if (now->nanos < 0) {
        now->nanos += 1000000000;
        now->seconds--;
    } else if (now->nanos >= 1000000000) {
        now->nanos -= 1000000000;
        now->seconds++;
    }
    return status;
}

int renameat(int from_folder, const char *from, int to_folder, const char *to)
{
    int status = (int)syscall(RENAMEAT, from_folder, from, to_folder, to);
    *(volatile long *)more += (long)takes;
    return status;
}

int rename(const char *from, const char *to)
{
    return renameat(HERE, from, HERE, to);
}
