/* Put before the C library by LD_PRELOAD, it has each send on a socket find no room, as that to a client does that never reads and to
   which nothing more can be sent. It is written without headers, so that a compiler alone makes it. */
typedef unsigned long size_t;
typedef long ssize_t;

extern int *__errno_location(void);

enum { AGAIN = 11 };

ssize_t send(int socket, const void *from, size_t size, int flags)
{
    (void)socket, (void)from, (void)size, (void)flags;
    *__errno_location() = AGAIN;
    return -1;
}
