/*
 * What both harts do. With SUMS each loads the other's word and stores sums that depend on all loads so far; without,
 * they store, wait by a fence, load, swap, and count with LR and SC.
 */
#ifdef SUMS
enum { ROUNDS = 966, SLOTS = 64 };
#else
enum { ROUNDS = 551, SLOTS = 64 };
#endif

#define WORD(name) static volatile unsigned name[16] __attribute__((aligned(64)))
WORD(first);
WORD(second);
WORD(turn);
WORD(counter);
WORD(started);
static volatile unsigned sums[2][SLOTS];
static volatile float float_sums[2][SLOTS];

/* The other hart may run for a while; chance tells when. */
static void yield(unsigned *chance)
{
    *chance = *chance * 1664525 + 1013904223;
    if (*chance >> 30 == 0)
        asm volatile("wfi" ::: "memory");
}

static inline void fence(void) { asm volatile("fence rw,rw" ::: "memory"); }

static inline void count(volatile unsigned *word)
{
    unsigned old, failed;

    do
        asm volatile("lr.w.aq %0,(%2)\n addi %0,%0,1\n sc.w.rl %1,%0,(%2)"
                     : "=&r"(old), "=&r"(failed) : "r"(word) : "memory");
    while (failed);
}

static inline unsigned swap(volatile unsigned *word, unsigned value)
{
    unsigned old;

    asm volatile("amoswap.w.aqrl %0,%1,(%2)" : "=r"(old) : "r"(value), "r"(word) : "memory");
    return old;
}

void body(unsigned hart)
{
    volatile unsigned *own = hart ? second : first, *other = hart ? first : second;
    unsigned chance = hart + 1, value = (hart + 1) << 20, sum = 0;
    float float_sum = 0;

    asm volatile("amoadd.w.aqrl zero,%0,(%1)" ::"r"(1), "r"(started) : "memory");
    while (*started < 2)
        asm volatile("wfi" ::: "memory");
    for (unsigned round = 0; round < ROUNDS; round++) {
        *own = ++value;
        yield(&chance);
#ifdef SUMS
        unsigned loaded = *other;
        sum += loaded;
        sums[hart][round % SLOTS] = sum;
        yield(&chance);
        float_sum += (float)loaded;
        float_sums[hart][round % SLOTS] = float_sum;
#else
        fence();
        sum += *other;
        yield(&chance);
        sum += swap(turn, value);
        count(counter);
        yield(&chance);
#endif
    }
    sums[hart][0] = sum;
    float_sums[hart][0] = float_sum;
}
