/* What the two files share. */
typedef unsigned long u64;
typedef unsigned char u8;

/* Room for so many bytes, or 0 where there is none. */
void *room_of(u64 count);
/* Gives such room back. */
void rattle_dealloc(void *at);
