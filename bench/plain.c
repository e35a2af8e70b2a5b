/* The plain program: the same job as kiosk-list, written straight from docs/SEMANTICS.md and docs/FILE.md with no thought for speed.
   It tries each of the 2^n sets: which rules are rejected (each rule against each), the defaults, the closure by repeated passes, and
   whether the closure is the set itself. It shares nothing with the crates. Usage: plain < FILE */
#include <stdio.h>
#include <stdlib.h>

enum { FILE_MOST = 2048, RULES_MOST = 256, SHEETS_MOST = 32, MATTERS_MOST = 16, PLACES = 1024 };

typedef struct { unsigned yes, no; } literals;
typedef struct { int sheet, matter, sign; literals body; } rule;

static int matters, rule_count;
static rule rules[RULES_MOST];
static unsigned outcomes[PLACES];

static void refuse(int number)
{
    printf("refused %d\n", number);
    exit(0);
}

/* The file */

static void read_sheets(const unsigned char *bytes, int length)
{
    if (length < 3) refuse(1);
    if (bytes[0] != 1) refuse(2);
    if (bytes[1] < 1 || bytes[1] > MATTERS_MOST) refuse(3);
    if (bytes[2] > SHEETS_MOST) refuse(4);
    matters = bytes[1];
    int at = 3;
    for (int sheet = 0; sheet < bytes[2]; sheet++) {
        if (length - at < 2) refuse(5);
        int size = bytes[at] * 256 + bytes[at + 1];
        at += 2;
        if (size % 6 != 0) refuse(6);
        if (rule_count + size / 6 > RULES_MOST) refuse(7);
        if (length - at < size) refuse(5);
        for (int end = at + size; at < end; at += 6) {
            rule r = { sheet, bytes[at], bytes[at + 1],
                       { bytes[at + 2] * 256u + bytes[at + 3], bytes[at + 4] * 256u + bytes[at + 5] } };
            if (r.matter >= matters || r.sign > 1 || r.body.yes >> matters || r.body.no >> matters) refuse(8);
            rules[rule_count++] = r;
        }
    }
    if (at != length) refuse(9);
}

/* The definitions */

static int holds(literals x, literals body)
{
    return (body.yes & ~x.yes) == 0 && (body.no & ~x.no) == 0;
}

static int overrules(int j, int i)
{
    return j >= i;
}

static int clash(const rule *r, const rule *s)
{
    return r->matter == s->matter && r->sign != s->sign;
}

static int rejected(const rule *r, literals x, int narrow)
{
    for (int i = 0; i < rule_count; i++) {
        const rule *s = &rules[i];
        if (clash(r, s) && holds(x, s->body) && overrules(s->sheet, r->sheet) && !(narrow && overrules(r->sheet, s->sheet)))
            return 1;
    }
    return 0;
}

static literals defaults(literals x)
{
    literals d = { 0, 0 };
    for (int a = 0; a < matters; a++) {
        int found = 0;
        for (int i = 0; i < rule_count; i++)
            if (rules[i].sign == 1 && rules[i].matter == a && holds(x, rules[i].body)) found = 1;
        if (!found) d.no |= 1u << a;
    }
    return d;
}

static literals step(literals x, int narrow)
{
    int kept[RULES_MOST];
    for (int i = 0; i < rule_count; i++) kept[i] = !rejected(&rules[i], x, narrow);
    literals c = defaults(x);
    for (;;) {
        literals before = c;
        for (int i = 0; i < rule_count; i++) {
            if (!kept[i] || !holds(c, rules[i].body)) continue;
            if (rules[i].sign == 1) c.yes |= 1u << rules[i].matter;
            else c.no |= 1u << rules[i].matter;
        }
        if (c.yes == before.yes && c.no == before.no) return c;
    }
}

static int is_outcome(unsigned m)
{
    literals x = { m, ((1u << matters) - 1) & ~m };
    literals b = step(x, 0);
    return b.yes == x.yes && b.no == x.no;
}

static literals well_founded(void)
{
    literals x = { 0, 0 };
    for (;;) {
        literals next = step(step(x, 0), 1);
        if (next.yes == x.yes && next.no == x.no) return x;
        x = next;
    }
}

/* The report */

static void report(int count, literals model)
{
    printf("1 %d\n", count);
    for (int i = 0; i < count; i++) {
        for (int a = 0; a < matters; a++) putchar('0' + (outcomes[i] >> a & 1));
        putchar('\n');
    }
    for (int a = 0; a < matters; a++) putchar("utfb"[(model.yes >> a & 1) + 2 * (model.no >> a & 1)]);
    putchar('\n');
}

int main(void)
{
    static unsigned char bytes[FILE_MOST];
    int length = (int)fread(bytes, 1, FILE_MOST, stdin);
    if (ferror(stdin)) return 1;
    read_sheets(bytes, length);
    int count = 0;
    for (unsigned m = 0; m < 1u << matters; m++) {
        if (!is_outcome(m)) continue;
        if (count == PLACES) refuse(31);
        outcomes[count++] = m;
    }
    report(count, well_founded());
    return fflush(stdout) ? 1 : 0;
}
