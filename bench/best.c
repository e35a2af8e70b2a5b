/* The fast program: the same job as kiosk-list, as fast as we could write it in C. It shares nothing with the crates or with plain.c.

   Usage: best < FILE                the report, or the refusal
          best repeat N < FILE       the same once; then to standard error the nanoseconds of one evaluation, the mean of N in this process

   A literal set is one word: bit a is "yes a", bit a + 16 is "no a". What it rests on, for the order by position:
   - Of the rules with one head only the topmost sheet whose body is true counts, so rejection is one comparison.
   - Let X be two-valued, p(a) the topmost sheet with a true rule for yes a (-1 without one) and q(a) that for no a. Then X is an outcome
     exactly where, for each matter, p > q where X holds a, q > p or p = q = -1 where it does not, and the closure reaches all of X.
   - Each outcome X is a fixed point of the narrow step too, and both steps turn round inclusion. So low <= X <= high gives
     N(high) <= X <= B(low). The search starts with the well-founded model for low and narrows by this. Then it tries 64 sets at a time:
     a lane of a word for each setting of the six lowest open matters, and a block of lanes for each setting of the others. Where lately
     many blocks came as far as the closure and failed there, it narrows again in between. */
#define _POSIX_C_SOURCE 200809L
#include <stdint.h>
#include <stdio.h>
#include <stdlib.h>
#include <string.h>
#include <time.h>
#include <unistd.h>

typedef uint8_t u8;
typedef uint16_t u16;
typedef uint32_t u32;
typedef uint64_t u64;

enum { FILE_MOST = 2048, RULES_MOST = 256, PLACES = 1024, LANE_MATTERS = 6 };
enum { NARROW_ABOVE = 8, NARROW_AT_LEAST = 5 }; /* narrow again after more duds than that, where so many of the blocks' matters are open */

static u32 n, all, rule_count;
static u32 body[RULES_MOST];
static u8 head[RULES_MOST]; /* the bit number of the head literal */
static int8_t sheet[RULES_MOST];
static u32 by_matter[RULES_MOST]; /* rules by matter, the topmost sheet first */
static u32 model, count;
static u16 outcomes[PLACES];

/* The file */

static int read_sheets(const u8 *b, u32 length)
{
    rule_count = 0;
    if (length < 3) return 1;
    if (b[0] != 1) return 2;
    if (b[1] - 1u > 15) return 3;
    if (b[2] > 32) return 4;
    n = b[1];
    all = (1u << n) - 1;
    u32 foreign = ~(all | all << 16), sheets = b[2];
    const u8 *end = b + length;
    b += 3;
    for (u32 s = 0; s < sheets; s++) {
        if (end - b < 2) return 5;
        u32 size = (u32)b[0] << 8 | b[1];
        b += 2;
        if (size % 6) return 6;
        if (rule_count + size / 6 > RULES_MOST) return 7;
        if (end - b < (long)size) return 5;
        for (const u8 *stop = b + size; b < stop; b += 6) {
            u32 w = (u32)b[2] << 8 | b[3] | (u32)b[4] << 24 | (u32)b[5] << 16;
            if (b[0] >= n || b[1] > 1 || w & foreign) return 8;
            body[rule_count] = w;
            head[rule_count] = b[0] + (b[1] ? 0 : 16);
            sheet[rule_count++] = (int8_t)s;
        }
    }
    return b == end ? 0 : 9;
}

static void sort_rules(void)
{
    u32 at[17] = { 0 };
    for (u32 i = 0; i < rule_count; i++) at[(head[i] & 15) + 1]++;
    for (u32 a = 1; a < 17; a++) at[a] += at[a - 1];
    for (u32 i = rule_count; i-- > 0;) by_matter[at[head[i] & 15]++] = i;
}

/* The steps: narrow = 0 for the broad one */

static inline u32 turned(u32 x)
{
    return x << 16 | x >> 16;
}

static u32 step(u32 x, int narrow)
{
    int8_t top[32];
    u8 live[RULES_MOST];
    memset(top, -1, sizeof top);
    for (u32 i = 0; i < rule_count; i++) /* sheets ascend, so the last true rule is the topmost */
        if (!(body[i] & ~x)) top[head[i]] = sheet[i];
    u32 c = 0, left = 0;
    for (u32 a = 0; a < n; a++) c |= (u32)(top[a] < 0) << (a + 16);
    for (u32 i = 0; i < rule_count; i++) {
        live[left] = (u8)i;
        left += (sheet[i] + narrow > top[head[i] ^ 16]) & ~(c >> head[i]) & 1;
    }
    for (u32 before = ~c; before != c && left;) {
        before = c;
        u32 still = 0;
        for (u32 k = 0; k < left; k++) {
            u32 i = live[k];
            u32 fires = !(body[i] & ~c);
            c |= fires << head[i];
            live[still] = (u8)i;
            still += ~(c >> head[i]) & 1;
        }
        left = still;
    }
    return c;
}

/* Narrows what the outcomes that hold all of low have in common; 0 if there is none. */
static int narrow(u32 *common)
{
    u32 both = all | all << 16, low = *common;
    for (;;) {
        if (low & low >> 16 & all) return 0;
        u32 high = step(low, 0) & ~turned(low) & both;
        if ((high | turned(high)) != both || low & ~high) return 0;
        u32 next = low | step(high, 1) | (high & ~turned(high));
        if (next == low) break;
        low = next;
    }
    *common = low;
    return 1;
}

/* The lanes */

static const u64 pattern[LANE_MATTERS] = { 0xAAAAAAAAAAAAAAAA, 0xCCCCCCCCCCCCCCCC, 0xF0F0F0F0F0F0F0F0,
                                           0xFF00FF00FF00FF00, 0xFFFF0000FFFF0000, 0xFFFFFFFF00000000 };

typedef struct { u64 word[4]; } rule_set;

static struct {
    u32 block_count, block[16];   /* the open matters that are fixed in one block of lanes, the highest first */
    u64 lanes;                    /* the lanes in use */
    u32 lane_set;                 /* the matters of the lanes */
    u64 member[16];               /* for each matter, the lanes whose set holds it */
    u16 offset[64];               /* the matters of the lanes, for each lane */
    u32 start[17];                /* where each matter's rules begin; below, rules that can be true, by matter, the topmost sheet first */
    u64 truth[RULES_MOST];        /* the lanes in which the body is true, as far as the lanes decide */
    u16 matters[RULES_MOST];      /* the matters of the body */
    u8 is_no[RULES_MOST];
    int8_t sheet[RULES_MOST];
    rule_set without[16][2];      /* the rules that a block's matter, being out or in, leaves possible */
} t;
static int duds;          /* how often lately the closure left no lane of a block */
static u8 kill_order[16]; /* the matters, those first that lately left no lane */

static inline u64 part(const rule_set *s, u32 word, u32 from, u32 to) /* the bits of one word that lie in from .. to */
{
    u64 w = s->word[word];
    if (from > word * 64) w &= ~0ull << (from - word * 64);
    if (to < word * 64 + 64) w &= ~(~0ull << (to - word * 64));
    return w;
}

static u64 supported(const rule_set *live, u64 alive)
{
    for (u32 k = 0; k < n; k++) {
        u32 a = kill_order[k];
        u64 m = t.member[a], wrong[2] = { ~m, m }, above = 0, here = 0, bad = 0;
        int at = -1;
        u32 from = t.start[a], to = t.start[a + 1];
        if (from < to) {
            for (u32 w = from >> 6; w <= (to - 1) >> 6; w++) {
                for (u64 bits = part(live, w, from, to); bits; bits &= bits - 1) {
                    u32 i = w * 64 + (u32)__builtin_ctzll(bits);
                    if (t.sheet[i] != at) {
                        at = t.sheet[i];
                        above |= here;
                        if (!(alive & ~above)) goto decided;
                    }
                    bad |= t.truth[i] & ~above & wrong[t.is_no[i]];
                    here |= t.truth[i];
                }
            }
        }
        above |= here;
    decided:
        alive &= ~(bad | (m & ~above));
        if (!alive) {
            for (; k > 0; k--) kill_order[k] = kill_order[k - 1];
            kill_order[0] = (u8)a;
            return 0;
        }
    }
    return alive;
}

static u64 founded(const rule_set *live, u64 alive)
{
    u64 got[16], fires[RULES_MOST];
    u16 needs[RULES_MOST];
    u8 gives[RULES_MOST];
    u32 left = 0, todo = 0;
    for (u32 a = 0; a < n; a++) {
        u64 m = t.member[a], seen[2] = { 0, 0 }, facts = 0, hoped = 0;
        u32 from = t.start[a], to = t.start[a + 1], group[RULES_MOST], size = 0, mark = left;
        if (from < to)
            for (u32 w = from >> 6; w <= (to - 1) >> 6; w++)
                for (u64 bits = part(live, w, from, to); bits; bits &= bits - 1)
                    group[size++] = w * 64 + (u32)__builtin_ctzll(bits);
        for (u32 g = 0; g < size;) {
            u32 e = g;
            int at = t.sheet[group[g]];
            for (; e < size && t.sheet[group[e]] == at; e++) seen[t.is_no[group[e]]] |= t.truth[group[e]];
            for (; g < e; g++) {
                u32 i = group[g], no = t.is_no[i];
                u64 f = t.truth[i] & alive & (no ? ~m : m) & ~seen[!no];
                if (!f || t.matters[i] >> a & 1) continue; /* a rule that needs its own head reaches nothing */
                hoped |= f;
                if (!t.matters[i]) {
                    facts |= f;
                    continue;
                }
                fires[left] = f;
                needs[left] = t.matters[i];
                gives[left++] = (u8)a;
            }
        }
        got[a] = facts | (alive & ~seen[0]);
        alive &= got[a] | hoped;
        if (!alive) return 0;
        if (!(alive & ~got[a])) left = mark;
        else todo |= 1u << a;
    }
    for (int change = 1; change && todo;) {
        change = 0;
        u32 still = 0;
        for (u32 k = 0; k < left; k++) {
            u32 a = gives[k];
            u64 f = fires[k] & alive & ~got[a];
            if (!f) continue;
            fires[still] = f;
            needs[still] = needs[k];
            gives[still++] = (u8)a;
            for (u32 rest = needs[k] & todo; rest && f; rest &= rest - 1) f &= got[__builtin_ctz(rest)];
            if (!f) continue;
            change = 1;
            got[a] |= f;
            if (!(alive & ~got[a])) todo &= ~(1u << a);
        }
        left = still;
    }
    for (; todo; todo &= todo - 1) alive &= got[__builtin_ctz(todo)];
    return alive;
}

/* Tries the sets that hold all of low; 1 if there are too many outcomes. */
static int try_blocks(u32 depth, u32 low, rule_set live)
{
    if (depth < t.block_count) {
        u32 a = t.block[depth];
        if (duds > NARROW_ABOVE && t.block_count - depth >= NARROW_AT_LEAST) {
            u32 before = low;
            if (!narrow(&low)) return 0;
            if (low == before) duds -= NARROW_ABOVE;
        }
        for (u32 in = 0; in < 2; in++) {
            if (low >> (in ? a + 16 : a) & 1) continue;
            rule_set next;
            for (u32 w = 0; w < 4; w++) next.word[w] = live.word[w] & t.without[depth][in].word[w];
            t.member[a] = -(u64)in;
            if (try_blocks(depth + 1, low | 1u << (in ? a : a + 16), next)) return 1;
        }
        return 0;
    }
    u64 alive = t.lanes;
    for (u32 rest = (low | low >> 16) & t.lane_set; rest; rest &= rest - 1) {
        u32 a = (u32)__builtin_ctz(rest);
        alive &= low >> a & 1 ? t.member[a] : ~t.member[a];
    }
    alive = supported(&live, alive);
    if (alive) {
        alive = founded(&live, alive);
        if (!alive && duds < 4 * NARROW_ABOVE) duds += 2;
    } else if (duds > 0) duds--;
    for (u32 fixed = low & all & ~t.lane_set; alive; alive &= alive - 1) {
        if (count == PLACES) return 1;
        outcomes[count++] = (u16)(fixed | t.offset[__builtin_ctzll(alive)]);
    }
    return 0;
}

static int try_all(u32 low)
{
    u32 open = all & ~(low | low >> 16), lane_matters = 0, lane_of[16], depth_of[16];
    t.block_count = t.lane_set = 0;
    for (u32 a = 0; a < n; a++) {
        lane_of[a] = depth_of[a] = 99;
        t.member[a] = -(u64)(low >> a & 1);
        if (open >> a & 1 && lane_matters < LANE_MATTERS) {
            t.member[a] = pattern[lane_matters];
            lane_of[a] = lane_matters++;
            t.lane_set |= 1u << a;
        }
    }
    for (u32 a = n; a-- > 0;)
        if (open >> a & 1 && lane_of[a] == 99) {
            depth_of[a] = t.block_count;
            t.block[t.block_count++] = a;
        }
    u32 lanes = 1u << lane_matters;
    t.lanes = lanes == 64 ? ~0ull : (1ull << lanes) - 1;
    t.offset[0] = 0;
    for (u32 a = 0, l = 1; a < n; a++)
        if (lane_of[a] != 99) {
            for (u32 i = 0; i < l; i++) t.offset[l + i] = t.offset[i] | (u16)(1u << a);
            l *= 2;
        }
    memset(t.without, 0, sizeof t.without[0] * t.block_count);
    u32 made = 0, k = 0, never = turned(low);
    rule_set live = { { 0, 0, 0, 0 } };
    for (u32 a = 0; a < n; a++) {
        t.start[a] = made;
        for (; k < rule_count && (head[by_matter[k]] & 15u) == a; k++) {
            u32 i = by_matter[k], b = body[i];
            if (b & never || b & b >> 16 & 0xFFFF) continue;
            u64 truth = ~0ull;
            for (u32 rest = b & ~low; rest; rest &= rest - 1) {
                u32 bit = (u32)__builtin_ctz(rest), matter = bit & 15, no = bit >> 4;
                if (lane_of[matter] != 99) truth &= no ? ~pattern[lane_of[matter]] : pattern[lane_of[matter]];
                else t.without[depth_of[matter]][!no ? 0 : 1].word[made >> 6] |= 1ull << (made & 63);
            }
            t.truth[made] = truth;
            t.matters[made] = (u16)(b | b >> 16);
            t.is_no[made] = head[i] >> 4;
            t.sheet[made] = sheet[i];
            live.word[made >> 6] |= 1ull << (made & 63);
            made++;
        }
    }
    t.start[n] = made;
    for (u32 d = 0; d < t.block_count; d++) /* so far these are the rules to leave out */
        for (u32 in = 0; in < 2; in++)
            for (u32 w = 0; w < 4; w++) t.without[d][in].word[w] = ~t.without[d][in].word[w];
    duds = 0;
    return try_blocks(0, low, live);
}

/* The whole */

static u32 put_number(char *out, u32 value)
{
    char digits[10];
    u32 length = 0;
    do digits[length++] = (char)('0' + value % 10);
    while (value /= 10);
    for (u32 i = 0; i < length; i++) out[i] = digits[length - 1 - i];
    return length;
}

static u32 evaluate(const u8 *bytes, u32 length, char *out)
{
    int refusal = read_sheets(bytes, length);
    model = count = 0;
    if (!refusal) {
        sort_rules();
        for (u32 next; (next = step(step(model, 0), 1)) != model;) model = next;
        for (u32 a = 0; a < n; a++) kill_order[a] = (u8)a;
        u32 low = model;
        if (narrow(&low) && try_all(low)) refusal = 31;
    }
    if (refusal) {
        memcpy(out, "refused ", 8);
        u32 size = 8 + put_number(out + 8, (u32)refusal);
        out[size++] = '\n';
        return size;
    }
    out[0] = '1';
    out[1] = ' ';
    u32 size = 2 + put_number(out + 2, count);
    out[size++] = '\n';
    for (u32 i = 0; i < count; i++) {
        for (u32 a = 0; a < n; a++) out[size + a] = (char)('0' + (outcomes[i] >> a & 1));
        size += n;
        out[size++] = '\n';
    }
    for (u32 a = 0; a < n; a++) out[size++] = "utfb"[(model >> a & 1) | (model >> (a + 16) & 1) << 1];
    out[size++] = '\n';
    return size;
}

int main(int argc, char **argv)
{
    static u8 bytes[FILE_MOST];
    static char out[32768];
    u32 length = 0;
    for (ssize_t got = 1; got && length < FILE_MOST; length += (u32)got)
        if ((got = read(0, bytes + length, FILE_MOST - length)) < 0) return 1;
    u32 size = evaluate(bytes, length, out);
    for (u32 done = 0; done < size;) {
        ssize_t put = write(1, out + done, size - done);
        if (put <= 0) return 1;
        done += (u32)put;
    }
    if (argc == 3 && !strcmp(argv[1], "repeat")) {
        long times = atol(argv[2]);
        struct timespec a, b;
        clock_gettime(CLOCK_MONOTONIC, &a);
        for (long i = 0; i < times; i++) {
            evaluate(bytes, length, out);
            __asm__ volatile("" : : "r"(out) : "memory");
        }
        clock_gettime(CLOCK_MONOTONIC, &b);
        double ns = (double)(b.tv_sec - a.tv_sec) * 1e9 + (double)(b.tv_nsec - a.tv_nsec);
        u32 open = all & ~(model | model >> 16);
        fprintf(stderr, "%.0f nanoseconds, %u matters, %u rules, %d undecided\n", times > 0 ? ns / (double)times : 0.0, n, rule_count,
                __builtin_popcount(open));
    }
    return 0;
}
