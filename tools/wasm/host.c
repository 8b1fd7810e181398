/* What the program calls of the C library, in a page: words and an input that were given before, and what it prints and says, in memory. Files can't
   be opened and threads can't be started, which the program takes as it takes a system that refuses. Nothing proves it. The program ends by `_exit`,
   which the page's script has. */
#include "room.h"

enum { INPUT = 0, STREAMS = 3, EACCES = 13, EBADF = 9, ENOSPC = 28, ENOSYS = 38 };

struct text { u8 *at; u64 length, room; };

int main(void);
/* The script has it. */
void _exit(int status);

static struct text words, streams[STREAMS];
static int error;
/* How much of the input is read. */
static u64 done;

static long refuse(int why) {
    error = why;
    return -1;
}

/* For the page's script: room for bytes of its own; a run, by words with a zero behind each; and what a stream was told, 1 or 2. */
void *superpager_room(u64 count) { return room_of(count); }
u8 *superpager_told(int stream) { return streams[stream].at; }
u64 superpager_told_length(int stream) { return streams[stream].length; }
void superpager_run(u8 *given, u64 many, u8 *input, u64 count) {
    words = (struct text){given, many, many};
    streams[INPUT] = (struct text){input, count, count};
    _exit(main());
}

static u64 length_of(const u8 *word) {
    u64 length = 0;
    while (word[length]) length++;
    return length;
}
long rattle_arg(u64 number, u8 *to, u64 room) {
    u8 *word = words.at, *end = words.at + words.length;
    for (; number && word < end; number--) word += length_of(word) + 1;
    if (word >= end) return -1;
    u64 length = length_of(word);
    __builtin_memcpy(to, word, length < room ? length : room);
    return length > room ? -2 : (long)length;
}
/* There is no environment. */
long rattle_env(const char *name, u8 *to, u64 room) { return -1; }
long rattle_env_at(u64 number, u8 *to, u64 room) { return -1; }

int rattle_errno(void) { return error; }
void rattle_set_errno(int why) { error = why; }

long read(int stream, u8 *to, u64 room) {
    if (stream != INPUT) return refuse(EBADF);
    u64 left = streams[INPUT].length - done, count = left < room ? left : room;
    __builtin_memcpy(to, streams[INPUT].at + done, count);
    done += count;
    return (long)count;
}

/* Whether a stream has room for so many bytes more. */
static int has_room(struct text *told, u64 count) {
    if (told->room - told->length >= count) return 1;
    u64 room = 2 * (told->length + count);
    u8 *at = room_of(room);
    if (!at) return 0;
    __builtin_memcpy(at, told->at, told->length);
    if (told->at) rattle_dealloc(told->at);
    *told = (struct text){at, told->length, room};
    return 1;
}

long write(int stream, const u8 *from, u64 count) {
    if (stream <= INPUT || stream >= STREAMS) return refuse(EBADF);
    struct text *told = &streams[stream];
    if (!has_room(told, count)) return refuse(ENOSPC);
    __builtin_memcpy(told->at + told->length, from, count);
    told->length += count;
    return (long)count;
}

int open(const char *path, int flags, ...) { return refuse(EACCES); }
int fcntl(int file, int command, ...) { return refuse(EBADF); }
int close(int file) { return refuse(EBADF); }
long pread(int file, u8 *to, u64 room, long at) { return refuse(EBADF); }
long pwrite(int file, const u8 *from, u64 count, long at) { return refuse(EBADF); }

void *malloc(u64 count) { return room_of(count); }
void free(void *at) {
    if (at) rattle_dealloc(at);
}

/* There are no signals, and one thread: module.py has `pthread_create`, which starts none. */
u64 __sysv_signal(int number, u64 what) { return 0; }
int pthread_attr_init(void *all) { return 0; }
int pthread_attr_destroy(void *all) { return 0; }
int pthread_attr_setguardsize(void *all, u64 count) { return 0; }
int pthread_attr_setstacksize(void *all, u64 count) { return 0; }
int pthread_detach(u64 thread) { return 0; }
int pthread_join(u64 thread, void *result) { return 0; }
u64 pthread_self(void) { return 1; }
int sched_yield(void) { return 0; }
long syscall(long number, void *at, u64 what, u64 value, void *time, ...) { return refuse(ENOSYS); }

/* The product of two numbers of 128 bits, which the compiler's library has elsewhere; of halves of 32 bits, since a longer one would be made by
   this. */
typedef unsigned __int128 u128;
u128 __multi3(u128 one, u128 other) {
    u64 a = (u64)one, b = (u64)other, half = 0xffffffff;
    u64 low = (a & half) * (b & half), left = (a >> 32) * (b & half), right = (a & half) * (b >> 32);
    u64 middle = (low >> 32) + (left & half) + (right & half);
    u64 high = (a >> 32) * (b >> 32) + (left >> 32) + (right >> 32) + (middle >> 32);
    high += (u64)(one >> 64) * b + a * (u64)(other >> 64);
    return (u128)high << 64 | (middle << 32 | (low & half));
}
