/* Lets one call of a program fail: the nth of a kind, of those that the program itself makes once its main has begun. What the C library calls
 * inside of its own calls isn't counted. preload.py compiles this, and has it loaded before the program.
 *
 * REFUSE_COUNTS names a file of KINDS numbers of 64 bits, which is mapped: how many calls of each kind came. REFUSE_KIND is the number of a kind,
 * in the order of `enum kind`, REFUSE_AT that of the call which fails, from 0, and REFUSE_ERROR what errno is then. With REFUSE_ON all further ones
 * of that kind fail too. */
#define _GNU_SOURCE
#include <dlfcn.h>
#include <errno.h>
#include <fcntl.h>
#include <link.h>
#include <netdb.h>
#include <stdarg.h>
#include <stdint.h>
#include <stdlib.h>
#include <sys/epoll.h>
#include <sys/mman.h>
#include <sys/resource.h>
#include <sys/socket.h>
#include <time.h>
#include <unistd.h>

enum kind {
    MEMORY, READ, WRITE, COMPLAIN, RECV, SEND, ACCEPT, WAIT, WATCH, EPOLL, DRAW, CLOCK, SOCKET, CONNECT, BIND, LISTEN, OPTION, CONTROL, NAME,
    LIMIT, LOOKUP, SHUT, CLOSE, KINDS
};

static uint64_t nowhere[KINDS];
static volatile uint64_t *counts = nowhere;
static uint64_t kind = KINDS, at;
static int error, began, goes_on;
static uintptr_t first, last;

static int own_code(struct dl_phdr_info *info, size_t size, void *unused)
{
    (void)size;
    (void)unused;
    for (int i = 0; i < info->dlpi_phnum; i++) {
        const ElfW(Phdr) *part = &info->dlpi_phdr[i];
        if (part->p_type == PT_LOAD && part->p_flags & PF_X) {
            first = info->dlpi_addr + part->p_vaddr;
            last = first + part->p_memsz;
        }
    }
    return 1; /* the program itself comes first */
}

static int fails(enum kind which, void *caller)
{
    uintptr_t from = (uintptr_t)caller;
    if (!began || from < first || from >= last)
        return 0;
    uint64_t number = counts[which]++;
    if (which != kind || number < at || (number > at && !goes_on))
        return 0;
    errno = error;
    return 1;
}

#define FAILS(which) fails(which, __builtin_return_address(0))
#define NEXT(name) ((__typeof__(&name))dlsym(RTLD_NEXT, #name))

/* The C library's own names of its allocator, which need no look-up. */
extern void *__libc_malloc(size_t), *__libc_calloc(size_t, size_t), *__libc_realloc(void *, size_t), *__libc_memalign(size_t, size_t);

void *malloc(size_t size)
{
    return FAILS(MEMORY) ? NULL : __libc_malloc(size);
}

void *calloc(size_t count, size_t size)
{
    return FAILS(MEMORY) ? NULL : __libc_calloc(count, size);
}

void *realloc(void *old, size_t size)
{
    return FAILS(MEMORY) ? NULL : __libc_realloc(old, size);
}

void *aligned_alloc(size_t alignment, size_t size)
{
    return FAILS(MEMORY) ? NULL : __libc_memalign(alignment, size);
}

void *memalign(size_t alignment, size_t size)
{
    return FAILS(MEMORY) ? NULL : __libc_memalign(alignment, size);
}

int posix_memalign(void **made, size_t alignment, size_t size)
{
    if (FAILS(MEMORY))
        return ENOMEM;
    void *memory = __libc_memalign(alignment, size);
    if (!memory)
        return ENOMEM;
    *made = memory;
    return 0;
}

#define WRITTEN(fd) ((fd) == STDERR_FILENO ? COMPLAIN : WRITE)

/* A call whose failure is -1 with errno. */
#define REFUSED(kind, type, name, words, given)                 \
    type name words                                             \
    {                                                           \
        static type(*next) words;                               \
        if (!next)                                              \
            next = (type(*) words)dlsym(RTLD_NEXT, #name);      \
        return FAILS(kind) ? -1 : next given;                   \
    }

REFUSED(READ, ssize_t, read, (int fd, void *to, size_t size), (fd, to, size))
REFUSED(WRITTEN(fd), ssize_t, write, (int fd, const void *from, size_t size), (fd, from, size))
REFUSED(WRITTEN(fd), ssize_t, __write, (int fd, const void *from, size_t size), (fd, from, size))
REFUSED(RECV, ssize_t, recv, (int fd, void *to, size_t size, int flags), (fd, to, size, flags))
REFUSED(SEND, ssize_t, send, (int fd, const void *from, size_t size, int flags), (fd, from, size, flags))
REFUSED(ACCEPT, int, accept4, (int fd, struct sockaddr *address, socklen_t *size, int flags), (fd, address, size, flags))
REFUSED(WAIT, int, epoll_wait, (int fd, struct epoll_event *events, int most, int wait), (fd, events, most, wait))
REFUSED(WATCH, int, epoll_ctl, (int fd, int what, int other, struct epoll_event *event), (fd, what, other, event))
REFUSED(EPOLL, int, epoll_create1, (int flags), (flags))
REFUSED(DRAW, int, getentropy, (void *to, size_t size), (to, size))
REFUSED(CLOCK, int, clock_gettime, (clockid_t clock, struct timespec *to), (clock, to))
REFUSED(SOCKET, int, socket, (int domain, int type, int protocol), (domain, type, protocol))
REFUSED(CONNECT, int, connect, (int fd, const struct sockaddr *address, socklen_t size), (fd, address, size))
REFUSED(BIND, int, bind, (int fd, const struct sockaddr *address, socklen_t size), (fd, address, size))
REFUSED(LISTEN, int, listen, (int fd, int most), (fd, most))
REFUSED(OPTION, int, setsockopt, (int fd, int level, int name, const void *value, socklen_t size), (fd, level, name, value, size))
REFUSED(NAME, int, getsockname, (int fd, struct sockaddr *address, socklen_t *size), (fd, address, size))
REFUSED(LIMIT, int, getrlimit, (__rlimit_resource_t which, struct rlimit *limit), (which, limit))
REFUSED(SHUT, int, shutdown, (int fd, int how), (fd, how))

int close(int fd)
{
    static int (*next)(int);
    if (!next)
        next = NEXT(close);
    int failed = FAILS(CLOSE); /* Linux gives the descriptor back all the same */
    int answer = next(fd);
    if (!failed)
        return answer;
    errno = error;
    return -1;
}

int fcntl(int fd, int what, ...)
{
    static int (*next)(int, int, ...);
    va_list words;
    va_start(words, what);
    long word = va_arg(words, long);
    va_end(words);
    if (!next)
        next = NEXT(fcntl);
    return FAILS(CONTROL) ? -1 : next(fd, what, word);
}

int ioctl(int fd, unsigned long what, ...)
{
    static int (*next)(int, unsigned long, ...);
    va_list words;
    va_start(words, what);
    void *word = va_arg(words, void *);
    va_end(words);
    if (!next)
        next = NEXT(ioctl);
    return FAILS(CONTROL) ? -1 : next(fd, what, word);
}

/* Its answer is the failure, and not errno. */
int getaddrinfo(const char *host, const char *service, const struct addrinfo *hints, struct addrinfo **made)
{
    static int (*next)(const char *, const char *, const struct addrinfo *, struct addrinfo **);
    if (!next)
        next = NEXT(getaddrinfo);
    return FAILS(LOOKUP) ? EAI_AGAIN : next(host, service, hints, made);
}

static int (*real_main)(int, char **, char **);

static int counted_main(int count, char **words, char **environment)
{
    began = 1;
    return real_main(count, words, environment);
}

static uint64_t number_of(const char *name, uint64_t otherwise)
{
    const char *text = getenv(name);
    return text ? strtoull(text, NULL, 10) : otherwise;
}

static void map_counts(void)
{
    const char *path = getenv("REFUSE_COUNTS");
    int fd = path ? open(path, O_RDWR) : -1;
    void *map = fd < 0 ? MAP_FAILED : mmap(NULL, sizeof nowhere, PROT_READ | PROT_WRITE, MAP_SHARED, fd, 0);
    if (fd >= 0)
        NEXT(close)(fd);
    if (map != MAP_FAILED)
        counts = map;
}

/* What the program is started by, which hands its main over. */
int __libc_start_main(int (*program)(int, char **, char **), int count, char **words, void (*start)(void), void (*end)(void), void (*last_end)(void),
                      void *stack)
{
    map_counts();
    kind = number_of("REFUSE_KIND", KINDS);
    at = number_of("REFUSE_AT", 0);
    error = (int)number_of("REFUSE_ERROR", EIO);
    goes_on = getenv("REFUSE_ON") != NULL;
    dl_iterate_phdr(own_code, NULL);
    real_main = program;
    return NEXT(__libc_start_main)(counted_main, count, words, start, end, last_end, stack);
}
