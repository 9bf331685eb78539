/* Put before the C library by LD_PRELOAD, its malloc and kin refuse the call of the number that the variable
   REFUSE_CALL names, counted from 1 once the program runs. The refusal is told by a byte on the descriptor that
   TELL_REFUSAL names. It is written without headers, so that a compiler alone makes it. */
typedef unsigned long size_t;
typedef long ssize_t;

extern void *__libc_malloc(size_t);
extern void *__libc_calloc(size_t, size_t);
extern void *__libc_realloc(void *, size_t);
extern void *__libc_memalign(size_t, size_t);
extern char *getenv(const char *);
extern ssize_t write(int, const void *, size_t);

static unsigned long left;
static int teller = -1;

static unsigned long number(const char *text)
{
    unsigned long value = 0;
    while (text && *text >= '0' && *text <= '9')
        value = value * 10 + (unsigned long)(*text++ - '0');
    return value;
}

__attribute__((constructor)) static void begin(void)
{
    teller = (int)number(getenv("TELL_REFUSAL"));
    left = number(getenv("REFUSE_CALL"));
}

static int is_refused(void)
{
    if (left == 0 || --left != 0)
        return 0;
    write(teller, "r", 1);
    return 1;
}

void *malloc(size_t size)
{
    return is_refused() ? 0 : __libc_malloc(size);
}

void *calloc(size_t count, size_t size)
{
    return is_refused() ? 0 : __libc_calloc(count, size);
}

void *realloc(void *old, size_t size)
{
    return is_refused() ? 0 : __libc_realloc(old, size);
}

void *aligned_alloc(size_t alignment, size_t size)
{
    return is_refused() ? 0 : __libc_memalign(alignment, size);
}

int posix_memalign(void **to, size_t alignment, size_t size)
{
    void *made = is_refused() ? 0 : __libc_memalign(alignment, size);
    if (!made)
        return 12; /* ENOMEM */
    *to = made;
    return 0;
}
