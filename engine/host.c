// What the program calls of the C library, for a WebAssembly module with a memory of 64 bits: memory, by `malloc`, and
// descriptors, which the host of the module has (engine.js). There are no threads: `pthread_create` answers EAGAIN.
typedef unsigned char u8;
typedef unsigned short u16;
typedef unsigned int u32;
typedef unsigned long u64;  // (64 bits on wasm64)
typedef long i64;
#define HOST(name) __attribute__((import_module("host"), import_name(#name)))

enum { ESRCH = 3, EAGAIN = 11, ERANGE = 34, ENOSYS = 38, ABORTED = 134 };
enum { PAGE = 65536, MOST_PATH = 4096, NOT_FOLLOWED = 0x100 };
static const u64 MOST = 1ul << 40;  // (so that no sum of sizes wraps)

// ---- memory: blocks by size, four classes to a power of two. A block has its class in the 16 bytes before it. ---------------

enum { HEAD = 16, CLASSES = 4 * 60 };
typedef struct Free { struct Free *next; } Free;
extern u8 __heap_base;
static u8 *top, *end;        // where the next block begins, and where the memory ends
static Free *kept[CLASSES];  // what was given back, by class

// 16, 32, 48, 64, and then the quarters of each power of two.
static u32 class_of(u64 size) {
    if (size <= 64) return size == 0 ? 0 : (u32)((size - 1) / 16);
    u32 log = 63 - (u32)__builtin_clzl(size - 1);  // 2^log < size <= 2^(log + 1)
    return 4 * (log - 5) + (u32)(((size - 1) >> (log - 2)) & 3);
}
static u64 size_of(u32 class) {
    if (class < 4) return 16 * ((u64)class + 1);
    u32 log = class / 4 + 5;
    return ((u64)(class % 4) + 5) << (log - 2);
}

// Makes the memory reach `to`. It grows by an eighth, or by what is wanted where that can't be had.
static int reach(u8 *to) {
    if (to <= end) return 1;
    u64 wanted = (u64)(to - end), eighth = (u64)end / 8, more = wanted > eighth ? wanted : eighth;
    u64 pages = (more + PAGE - 1) / PAGE;
    if (__builtin_wasm_memory_grow(0, pages) == (u64)-1) {
        pages = (wanted + PAGE - 1) / PAGE;
        if (__builtin_wasm_memory_grow(0, pages) == (u64)-1) return 0;
    }
    end += pages * PAGE;
    return 1;
}

static void begin(void) {
    top = (u8 *)(((u64)&__heap_base + 15) & ~15ul);
    end = (u8 *)(__builtin_wasm_memory_size(0) * PAGE);
}

void *malloc(u64 size) {
    if (!top) begin();
    if (size > MOST) return 0;
    u32 class = class_of(size);
    Free *free = kept[class];
    if (free) {
        kept[class] = free->next;
        return free;
    }
    u64 room = HEAD + size_of(class);
    if (!reach(top + room)) return 0;
    u8 *block = top + HEAD;
    *(u64 *)top = class;
    top += room;
    return block;
}

void free(void *block) {
    if (!block) return;
    u32 class = *(u32 *)((u8 *)block - HEAD);
    if ((u8 *)block + size_of(class) == top) {
        top = (u8 *)block - HEAD;
        return;
    }
    ((Free *)block)->next = kept[class];
    kept[class] = block;
}

// Makes the last block as large as `size` where it lies.
static int stretch(u8 *block, u64 *class, u64 size) {
    u32 wanted = class_of(size);
    if (!reach(block + size_of(wanted))) return 0;
    *class = wanted;
    top = block + size_of(wanted);
    return 1;
}

void *realloc(void *block, u64 size) {
    if (!block) return malloc(size);
    u64 *class = (u64 *)((u8 *)block - HEAD), had = size_of((u32)*class);
    if (size <= had && size > had / 4) return block;
    if ((u8 *)block + had == top && size <= MOST) return stretch(block, class, size) ? block : 0;
    u8 *new = malloc(size);
    if (!new) return 0;
    __builtin_memcpy(new, block, had < size ? had : size);
    free(block);
    return new;
}

// (clang makes single instructions of these)
void *memcpy(void *to, const void *from, u64 size) { return __builtin_memmove(to, from, size); }
void *memmove(void *to, const void *from, u64 size) { return __builtin_memmove(to, from, size); }
void *memset(void *to, int byte, u64 size) { return __builtin_memset(to, byte, size); }

// What `std` calls for memory.
typedef struct { u8 ok; u8 *p; } Tried;
static u8 nothing;
static Tried tried(u8 *p) { return p ? (Tried){1, p} : (Tried){0, &nothing}; }
Tried rattle_alloc(u64 size, u64 align) { return tried(malloc(size ? size : align)); }
Tried rattle_realloc(u8 *p, u64 had, u64 size, u64 align) { return tried(realloc(p, size ? size : align)); }
void rattle_dealloc(u8 *p) { free(p); }

// ---- descriptors and the command line: the host of the module has them, and answers -errno where it can't. ------------------

HOST(read) i64 host_read(int fd, void *to, u64 size);
HOST(write) i64 host_write(int fd, const void *from, u64 size);
HOST(open) int host_open(const char *path, u64 length, int flags);
HOST(close) int host_close(int fd);
HOST(dup) int host_dup(int fd);
HOST(seek) i64 host_seek(int fd, i64 by, int whence);
HOST(truncate) int host_truncate(int fd, i64 length);
HOST(sync) int host_sync(int fd);
HOST(chmod) int host_chmod(int fd, u32 mode);
// Of the file at a path, or of the link there where `is_link`, or of the one that is open: its mode, its number and its device.
HOST(stat) int host_stat(int fd, const char *path, u64 length, int is_link, u64 *found);
// Another name of a file, a name in place of another one, a name less, and the name behind all links: its length.
HOST(link) int host_link(const char *from, u64 size, const char *to, u64 length);
HOST(rename) int host_rename(const char *from, u64 size, const char *to, u64 length);
HOST(unlink) int host_unlink(const char *path, u64 length);
HOST(real) i64 host_real(const char *path, u64 length, void *to, u64 size);
HOST(tty) int host_tty(int fd);
// A word of the command line: its length, or -1 where there is none, and -2 where it is longer than `size`.
HOST(word) i64 host_word(u64 number, void *to, u64 size);
HOST(exit) _Noreturn void host_exit(int status);

static int error;
int *__errno_location(void) { return &error; }
int rattle_errno(void) { return error; }
void rattle_set_errno(int to) { error = to; }

// What a call of the system answers: -1 where the host answered an error.
static i64 done(i64 answer) {
    if (answer >= 0) return answer;
    error = (int)-answer;
    return -1;
}
static u64 length_of(const char *text) {
    u64 length = 0;
    while (text[length]) length++;
    return length;
}

i64 read(int fd, void *to, u64 size) { return done(host_read(fd, to, size)); }
i64 write(int fd, const void *from, u64 size) { return done(host_write(fd, from, size)); }
int open(const char *path, int flags, ...) { return (int)done(host_open(path, length_of(path), flags)); }
int close(int fd) { return (int)done(host_close(fd)); }
i64 lseek(int fd, i64 by, int whence) { return done(host_seek(fd, by, whence)); }
int ftruncate(int fd, i64 length) { return (int)done(host_truncate(fd, length)); }
int isatty(int fd) { return host_tty(fd); }

int fsync(int fd) { return (int)done(host_sync(fd)); }
int fdatasync(int fd) { return fsync(fd); }
int flock(int fd, int operation) { return (int)done(-ENOSYS); }
int fchmod(int fd, u32 mode) { return (int)done(host_chmod(fd, mode)); }
int link(const char *from, const char *to) { return (int)done(host_link(from, length_of(from), to, length_of(to))); }
int rename(const char *from, const char *to) { return (int)done(host_rename(from, length_of(from), to, length_of(to))); }
int unlink(const char *path) { return (int)done(host_unlink(path, length_of(path))); }
char *realpath(const char *path, char *to) {
    i64 length = done(host_real(path, length_of(path), to, MOST_PATH - 1));
    if (length < 0) return 0;
    to[length] = 0;
    return to;
}

// (std asks for one command alone: a second descriptor of the same file)
int fcntl(int fd, int command, ...) { return (int)done(host_dup(fd)); }

// Of a file the program asks for its mode, and for the number and the device by which two names are known to be of one file.
struct statx {
    u32 mask, blksize;
    u64 attributes;
    u32 nlink, uid, gid;
    u16 mode, spare;
    u64 number, rest[12], device, more[15];
};
int statx(int fd, const char *path, int flags, u32 mask, struct statx *found) {
    u64 it[3];
    if (done(host_stat(fd, path, length_of(path), (flags & NOT_FOLLOWED) != 0, it)) < 0) return -1;
    *found = (struct statx){.mask = 0x103, .blksize = 4096, .nlink = 1, .mode = (u16)it[0], .number = it[1], .device = it[2]};
    return 0;
}

u64 rattle_arg_count(void) {
    u64 count = 0;
    while (host_word(count, 0, 0) != -1) count++;
    return count;
}
i64 rattle_arg(u64 number, u8 *to, u64 size) { return host_word(number, to, size); }

static const struct { int error; const char *text; } TEXTS[] = {
    {1, "Operation not permitted"},       {2, "No such file or directory"},
    {5, "Input/output error"},            {6, "No such device or address"},
    {9, "Bad file descriptor"},           {11, "Resource temporarily unavailable"},
    {12, "Cannot allocate memory"},       {13, "Permission denied"},
    {17, "File exists"},                  {20, "Not a directory"},
    {21, "Is a directory"},               {22, "Invalid argument"},
    {24, "Too many open files"},          {27, "File too large"},
    {28, "No space left on device"},      {30, "Read-only file system"},
    {32, "Broken pipe"},                  {36, "File name too long"},
    {38, "Function not implemented"},     {40, "Too many levels of symbolic links"},
};
int __xpg_strerror_r(int number, char *to, u64 size) {
    const char *text = "Unknown error";
    for (u32 i = 0; i < sizeof TEXTS / sizeof *TEXTS; i++)
        if (TEXTS[i].error == number) text = TEXTS[i].text;
    u64 length = length_of(text);
    if (size == 0) return ERANGE;
    if (length >= size) length = size - 1;
    __builtin_memcpy(to, text, length);
    to[length] = 0;
    return 0;
}

void _exit(int status) { host_exit(status); }
void abort(void) { host_exit(ABORTED); }
void *__sysv_signal(int signal, void *handler) { return 0; }

// (the native program looks whether its processor has what it was compiled for)
static const struct { u64 bits[8]; } ALL = {{-1ul, -1ul, -1ul, -1ul, -1ul, -1ul, -1ul, -1ul}};
const void *__x86_get_cpuid_feature_leaf(u32 leaf) { return &ALL; }
i64 __write(int fd, const void *from, u64 size) { return write(fd, from, size); }

// ---- threads: there are none ----------------------------------------------------------------------------------------------

int pthread_attr_init(void *it) { return 0; }
int pthread_attr_destroy(void *it) { return 0; }
int pthread_attr_setguardsize(void *it, u64 size) { return 0; }
int pthread_attr_setstacksize(void *it, u64 size) { return 0; }
int pthread_create(void *thread, const void *it, void *(*start)(void *), void *given) { return EAGAIN; }
int pthread_join(u64 thread, void **answer) { return ESRCH; }
int pthread_detach(u64 thread) { return ESRCH; }
u64 pthread_self(void) { return 1; }
int sched_yield(void) { return 0; }
// (a futex: nobody else is there to wait for or to wake)
i64 syscall(i64 a, i64 b, i64 c, i64 d, i64 e, i64 f) { return done(-ENOSYS); }

// ---- what LLVM calls for numbers of 128 bits -------------------------------------------------------------------------------

typedef unsigned __int128 u128;
typedef union { u128 whole; struct { u64 low, high; } part; } Halves;

u128 __multi3(u128 a, u128 b) {
    Halves x = {a}, y = {b}, z;
    u64 mask = 0xffffffff, x0 = x.part.low & mask, x1 = x.part.low >> 32, y0 = y.part.low & mask, y1 = y.part.low >> 32;
    u64 low = x0 * y0, middle = x1 * y0 + (low >> 32), other = x0 * y1 + (middle & mask);
    z.part.low = (low & mask) | (other << 32);
    z.part.high = x1 * y1 + (middle >> 32) + (other >> 32) + x.part.high * y.part.low + x.part.low * y.part.high;
    return z.whole;
}

// The high half of a shift to the left by 1 to 63.
static u64 joined(u64 high, u64 low, int by) { return high << by | low >> (64 - by); }

u128 __ashlti3(u128 a, int by) {
    Halves x = {a}, z = x;
    if (by & 64) z.part = (typeof(z.part)){0, x.part.low << (by & 63)};
    else if (by) z.part = (typeof(z.part)){x.part.low << by, joined(x.part.high, x.part.low, by)};
    return z.whole;
}
u128 __lshrti3(u128 a, int by) {
    Halves x = {a}, z = x;
    if (by & 64) z.part = (typeof(z.part)){x.part.high >> (by & 63), 0};
    else if (by) z.part = (typeof(z.part)){joined(x.part.high, x.part.low, 64 - by), x.part.high >> by};
    return z.whole;
}
u128 __ashrti3(u128 a, int by) {
    Halves x = {a}, z = x;
    i64 high = (i64)x.part.high;
    if (by & 64) z.part = (typeof(z.part)){(u64)(high >> (by & 63)), (u64)(high >> 63)};
    else if (by) z.part = (typeof(z.part)){joined(x.part.high, x.part.low, 64 - by), (u64)(high >> by)};
    return z.whole;
}
