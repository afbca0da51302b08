/* Loaded before the C library by LD_PRELOAD, this refuses one growth of memory, or one write to
   standard output or standard error: the environment variable REFUSE has the number of the growth,
   counted from 1, or REFUSE_WRITE that of the write, and a byte to file descriptor 9 says that it was
   asked for. So the program that was proved and built is run with each of them refused. It declares
   what it calls, since the toolchain's compiler has no headers. */
typedef unsigned long size_t;
extern void *__libc_malloc(size_t size);
extern void *__libc_realloc(void *block, size_t size);
extern long __write(int file, const void *bytes, size_t count);
extern int *__errno_location(void);
extern char *getenv(const char *name);
extern int atoi(const char *text);

enum { OUTPUT = 1, ERRORS = 2, ASKED = 9, BROKEN_PIPE = 32 };

static int growths;
static int writes;

static int is_refused(const char *variable, int *count)
{
    const char *number = getenv(variable);

    *count += 1;
    if (number == 0 || atoi(number) != *count)
        return 0;
    __write(ASKED, "r", 1);
    return 1;
}

void *malloc(size_t size)
{
    return is_refused("REFUSE", &growths) ? 0 : __libc_malloc(size);
}

void *realloc(void *block, size_t size)
{
    return is_refused("REFUSE", &growths) ? 0 : __libc_realloc(block, size);
}

long write(int file, const void *bytes, size_t count)
{
    if ((file == OUTPUT || file == ERRORS) && is_refused("REFUSE_WRITE", &writes)) {
        *__errno_location() = BROKEN_PIPE;
        return -1;
    }
    return __write(file, bytes, count);
}
