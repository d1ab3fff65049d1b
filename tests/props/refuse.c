/* Loaded before a program's own libraries (LD_PRELOAD), this refuses one of its allocations. The variable REFUSED
   gives its number, counted from 1. At the refusal it makes the file that REFUSED_TOLD names. If INTERRUPTED is set,
   every second write to a socket, from the first on, fails as if a signal interrupted it. If HALVED is set, each write
   to a socket or a file takes half of its bytes. If CALLS is set, each call that makes, sets, joins or writes to a
   socket is noted in the file of this name, and the one whose number CALL_REFUSED gives fails, as if no file, no port
   or no room were left, or the other end were gone. It needs no header and no library but the C library of a running
   program, so that the kit's own compiler builds it. */
typedef __SIZE_TYPE__ size_t;

void *__libc_malloc(size_t size);
void *__libc_realloc(void *old, size_t size);
char *getenv(const char *name);
int open(const char *path, int flags, ...);
int close(int file);
long __send(int socket, const void *bytes, size_t size, int flags);
long __write(int file, const void *bytes, size_t size);
void *dlsym(void *after, const char *name);
int *__errno_location(void);

enum { WRITE_AND_CREATE = 0101, APPEND = 02000, OWNER_ONLY = 0600 };
enum { INTERRUPTED_CALL = 4, NO_FILE_LEFT = 24, ADDRESS_IN_USE = 98, NO_ADDRESS_LEFT = 99, CONNECTION_GONE = 104 };
enum { NO_ROOM_LEFT = 105 };

/* Of a name, what it stands for in the libraries behind this one. */
#define NEXT ((void *)-1L)

static long asked;
static long sends;
static long calls;

static long number_of(const char *digits) {
    long number = 0;
    while (digits && *digits >= '0' && *digits <= '9') {
        number = 10 * number + (*digits++ - '0');
    }
    return number;
}

static int is_refused(void) {
    asked++;
    if (asked != number_of(getenv("REFUSED"))) {
        return 0;
    }
    const char *told = getenv("REFUSED_TOLD");
    if (told) {
        close(open(told, WRITE_AND_CREATE, OWNER_ONLY));
    }
    return 1;
}

void *malloc(size_t size) {
    return is_refused() ? (void *)0 : __libc_malloc(size);
}

void *realloc(void *old, size_t size) {
    return is_refused() ? (void *)0 : __libc_realloc(old, size);
}

/* Notes a call by its line, and answers whether it fails. */
static int is_call_refused(const char *line, size_t size, int why) {
    const char *told = getenv("CALLS");
    if (!told) {
        return 0;
    }
    int file = open(told, WRITE_AND_CREATE | APPEND, OWNER_ONLY);
    __write(file, line, size);
    close(file);
    if (++calls != number_of(getenv("CALL_REFUSED"))) {
        return 0;
    }
    *__errno_location() = why;
    return 1;
}

/* How many bytes a write takes. */
static size_t taken_of(size_t size) {
    return getenv("HALVED") ? (size + 1) / 2 : size;
}

long send(int socket, const void *bytes, size_t size, int flags) {
    if (getenv("INTERRUPTED") && sends++ % 2 == 0) {
        *__errno_location() = INTERRUPTED_CALL;
        return -1;
    }
    if (is_call_refused("send\n", sizeof "send", CONNECTION_GONE)) {
        return -1;
    }
    return __send(socket, bytes, taken_of(size), flags);
}

long write(int file, const void *bytes, size_t size) {
    return __write(file, bytes, taken_of(size));
}

/* A call as the C library makes it, unless it is refused. */
#define CALL(name, why, parameters, given)                                                                             \
    int name parameters {                                                                                              \
        if (is_call_refused(#name "\n", sizeof #name, why)) {                                                          \
            return -1;                                                                                                 \
        }                                                                                                              \
        return ((int(*) parameters)dlsym(NEXT, #name))given;                                                           \
    }

CALL(socket, NO_FILE_LEFT, (int domain, int type, int protocol), (domain, type, protocol))
CALL(bind, ADDRESS_IN_USE, (int file, const void *address, unsigned size), (file, address, size))
CALL(listen, ADDRESS_IN_USE, (int file, int most), (file, most))
CALL(connect, NO_ADDRESS_LEFT, (int file, const void *address, unsigned size), (file, address, size))
CALL(accept4, NO_FILE_LEFT, (int file, void *address, unsigned *size, int flags), (file, address, size, flags))
CALL(setsockopt, NO_ROOM_LEFT, (int file, int level, int name, const void *value, unsigned size),
     (file, level, name, value, size))
