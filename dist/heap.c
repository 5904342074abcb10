/* The heap of libpb.a. The compiled code of crates/pb_c calls these three functions for all of its memory. They use malloc(),
** realloc() and free() of the program that links the library. Where memory runs out `ok` is false. `p` then points to a byte that
** nobody uses, as it may not be null.
**
** An alignment is 1, 2, 4, 8 or 16, and divides the size. malloc() aligns each such block, so no call needs aligned_alloc(). For a
** block of 0 bytes as many are allocated as its alignment says, so that it is aligned too.
**
** The file includes no header, so its object is the same on every machine (dist/archive compiles it). The three names are weak,
** so two libraries of this kind can be linked into one program. They are hidden, so a shared library does not export them. */

typedef __SIZE_TYPE__ size_t;

void *malloc(size_t size);
void *realloc(void *block, size_t size);
void free(void *block);

_Static_assert(_Alignof(long double) == 16, "malloc() has to align to 16");

#define HEAP __attribute__((weak, visibility("hidden")))

struct answer {
    _Bool ok;
    unsigned char *p;
};

static unsigned char unused;

static struct answer answer_of(void *block)
{
    struct answer answer = {block != 0, block != 0 ? block : &unused};
    return answer;
}

/* Allocates a block of `size` bytes. */
HEAP struct answer rattle_alloc(size_t size, size_t align)
{
    return answer_of(malloc(size != 0 ? size : align));
}

/* Makes the block `p` one of `size` bytes. The first `kept` stay as they were. It may move. Where this fails `p` stays as it was. */
HEAP struct answer rattle_realloc(unsigned char *p, size_t kept, size_t size, size_t align)
{
    (void)kept;
    return answer_of(realloc(p, size != 0 ? size : align));
}

/* Frees a block. */
HEAP void rattle_dealloc(unsigned char *p)
{
    free(p);
}
