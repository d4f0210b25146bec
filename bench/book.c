/* A book by hand in C, the floor of a book that keeps formulas, with the same duties on ASCII: a formula is checked
   by recursive descent and kept as the flat list of its bound tokens, which is its key too; sheets and definitions
   are found by hash. It knows add_sheet, new_defined_name, update_cell_with_formula, get_cell_formula, and
   set_user_input and get_localized_cell_content as the same on formulas, and writes one reply a line, many at once. Text that it reads stands from p to e, tokens that it writes from out to o, replies
   from replies to t. It tests nothing that a floor needn't. */
#include <stdint.h>
#include <stdio.h>
#include <stdlib.h>
#include <string.h>
#include <unistd.h>
typedef unsigned char u8;
typedef uint32_t u32;
typedef uint64_t u64;
static u64 hash(const u8* p, size_t n) {
    u64 h = 0x9E3779B97F4A7C15ull ^ n;
    while (n >= 8) {
        u64 x;
        memcpy(&x, p, 8);
        h = (h ^ x) * 0xff51afd7ed558ccdull;
        h ^= h >> 32;
        p += 8;
        n -= 8;
    }
    u64 x = 0;
    memcpy(&x, p, n);
    h = (h ^ x) * 0xff51afd7ed558ccdull;
    return h ^ h >> 29;
}
/* Numbers of folded words. */
typedef struct {
    u32* slot;
    u32 cap, n;
    struct {
        char* name;
        u8* key;
        u32 len;
    } * e;
    u32 ecap;
} Dict;
static u8 fold[256], class_of[256];
static u32* slot_of(Dict* d, const u8* k, size_t n) {
    u64 h = hash(k, n);
    for (u32 i = h & (d->cap - 1);; i = (i + 1) & (d->cap - 1)) {
        u32 x = d->slot[i];
        if (!x || (d->e[x - 1].len == n && !memcmp(d->e[x - 1].key, k, n))) return d->slot + i;
    }
}
static size_t fold_to(u8* o, const char* s, size_t n) {
    for (size_t i = 0; i < n; i++) o[i] = fold[(u8)s[i]];
    return n;
}
static int find(Dict* d, const char* s, size_t n) {
    u8 k[512];
    if (!d->cap || n > 512) return -1;
    fold_to(k, s, n);
    u32 x = *slot_of(d, k, n);
    return x ? (int)x - 1 : -1;
}
static int add(Dict* d, const char* s, size_t n) {
    u8 k[512];
    fold_to(k, s, n);
    if (2 * d->n + 2 > d->cap) {
        u32 c = d->cap ? 2 * d->cap : 64;
        free(d->slot);
        d->slot = calloc(c, 4);
        d->cap = c;
        for (u32 i = 0; i < d->n; i++) *slot_of(d, d->e[i].key, d->e[i].len) = i + 1;
    }
    u32* p = slot_of(d, k, n);
    if (*p) return -1;
    if (d->n == d->ecap) {
        d->ecap = d->ecap ? 2 * d->ecap : 64;
        d->e = realloc(d->e, d->ecap * sizeof *d->e);
    }
    d->e[d->n].name = strndup(s, n);
    d->e[d->n].key = malloc(n);
    memcpy(d->e[d->n].key, k, n);
    d->e[d->n].len = n;
    *p = ++d->n;
    return d->n - 1;
}
static Dict sheets, names, functions;
typedef struct {
    u8* arena;
    size_t used, cap;
    u32* off;
    u32 n, ncap;
    u32* slot;
    u32 scap;
    struct {
        u64 k;
        u32 v;
    } * cell;
    u32 ccap, cn;
} Pool;
static Pool* pools;
static u32 pool_count;
/* Reading and checking. */
static const char *p, *e;
static u8 out[1 << 20], *o;
static int row, col;
static void put_varint(u64 v) {
    while (v >= 128) {
        *o++ = v | 128;
        v >>= 7;
    }
    *o++ = v;
}
static u64 zigzag(int64_t v) { return (u64)v << 1 ^ v >> 63; }
enum { NUM = 1, STR, REF, RANGE, WORD, FUN, CALL, OPN, CLS, SEP, EMP, OP, PFX, PCT, HSH, OB, CB, SEMI, BOOL };
static int level(int c) {
    switch (c) {
        case '=':
        case '<':
        case '>':
            return 1;
        case '&':
            return 2;
        case '+':
        case '-':
            return 3;
        case '*':
        case '/':
            return 4;
        case '^':
            return 5;
    }
    return 0;
}
static int corner(const char** q, int* abs, int* r, int* c) {
    const char* s = *q;
    int a = 0;
    if (s < e && *s == '$') {
        a |= 1;
        s++;
    }
    int k = 0, m = 0;
    while (s < e && class_of[(u8)*s] == 1 && m < 4) {
        k = k * 26 + (*s & 31);
        s++;
        m++;
    }
    if (!m || k > 16384) return 0;
    if (s < e && *s == '$') {
        a |= 2;
        s++;
    }
    int n = 0;
    m = 0;
    while (s < e && class_of[(u8)*s] == 2 && m < 8) {
        n = n * 10 + *s - 48;
        s++;
        m++;
    }
    if (!m || !n || n > 1048576) return 0;
    *abs = a;
    *r = n;
    *c = k;
    *q = s;
    return 1;
}
static void putc_(int a, int r, int c) {
    *o++ = a;
    put_varint(zigzag(a & 2 ? r : r - row));
    put_varint(zigzag(a & 1 ? c : c - col));
}
static int expr(int, int);
static int args(int d) {
    if (p < e && *p == ')') {
        p++;
        *o++ = CLS;
        return 1;
    }
    for (;;) {
        if (p < e && (*p == ',' || *p == ')'))
            *o++ = EMP;
        else if (!expr(1, d))
            return 0;
        if (p >= e) return 0;
        if (*p == ',') {
            p++;
            *o++ = SEP;
            continue;
        }
        if (*p == ')') {
            p++;
            *o++ = CLS;
            return 1;
        }
        return 0;
    }
}
static int ref(const char* s, int kind, int id, const char* dang, size_t dl) {
    int a, r, c, b, r2, c2;
    const char* q = s;
    if (!corner(&q, &a, &r, &c)) return 0;
    const char* z = q;
    int rg = 0;
    if (z < e && *z == ':') {
        z++;
        if (corner(&z, &b, &r2, &c2)) {
            rg = 1;
            q = z;
        }
    }
    if (q < e && (class_of[(u8)*q] == 1 || class_of[(u8)*q] == 2 || class_of[(u8)*q] == 3)) return 0;
    *o++ = rg ? RANGE : REF;
    *o++ = kind;
    if (kind == 1) put_varint(id);
    if (kind == 2) {
        put_varint(dl);
        memcpy(o, dang, dl);
        o += dl;
    }
    putc_(a, r, c);
    if (rg) putc_(b, r2, c2);
    p = q;
    return 1;
}
static int number(void) {
    u64 w = 0, f = 0;
    int n = 0, m = 0;
    while (p < e && class_of[(u8)*p] == 2) {
        w = w * 10 + *p++ - 48;
        n++;
    }
    if (p < e && *p == '.') {
        p++;
        while (p < e && class_of[(u8)*p] == 2 && m < 9) {
            f = f * 10 + *p++ - 48;
            m++;
        }
    }
    if (!n && !m) return 0;
    while (m++ < 9) f *= 10;
    *o++ = NUM;
    put_varint(w);
    put_varint(f);
    return 1;
}
static int array(void) {
    for (;;) {
        if (p < e && *p == '-') {
            p++;
            *o++ = PFX;
            *o++ = '-';
        }
        if (p < e && *p == '"') {
            *o++ = STR;
            const char* s = ++p;
            while (p < e && *p != '"') p++;
            if (p == e) return 0;
            put_varint(p - s);
            memcpy(o, s, p - s);
            o += p - s;
            p++;
        } else if (!number())
            return 0;
        if (p >= e) return 0;
        if (*p == ',') {
            p++;
            *o++ = SEP;
        } else if (*p == ';') {
            p++;
            *o++ = SEMI;
        } else if (*p == '}') {
            p++;
            *o++ = CB;
            return 1;
        } else
            return 0;
    }
}
static int operand(int d) {
    if (d > 128 || p >= e) return 0;
    u8 c = *p;
    if (c == '+' || c == '-' || c == '@') {
        p++;
        *o++ = PFX;
        *o++ = c;
        return operand(d);
    }
    if (c == '(') {
        p++;
        *o++ = OPN;
        if (!expr(1, d + 1) || p >= e || *p != ')') return 0;
        p++;
        *o++ = CLS;
    } else if (c == '{') {
        p++;
        *o++ = OB;
        if (!array()) return 0;
    } else if (c == '"') {
        const char* s = ++p;
        u8* at = o;
        *o++ = STR;
        for (;;) {
            while (p < e && *p != '"') p++;
            if (p == e) return 0;
            if (p + 1 < e && p[1] == '"') {
                p += 2;
                continue;
            }
            break;
        }
        put_varint(p - s);
        memcpy(o, s, p - s);
        o += p - s;
        p++;
        (void)at;
    } else if (c == '\'') {
        const char* s = ++p;
        while (p < e && *p != '\'') p++;
        if (p + 1 >= e || p[1] != '!') return 0;
        int id = find(&sheets, s, p - s);
        size_t n = p - s;
        if (!ref(p + 2, id < 0 ? 2 : 1, id, s, n)) return 0;
    } else if (class_of[c] == 2 || c == '.') {
        if (!number()) return 0;
    } else if (class_of[c] == 1 || class_of[c] == 3 || c == '$') {
        const char *s = p, *q = p;
        while (q < e && (class_of[(u8)*q] || *q == '$') && class_of[(u8)*q] < 5) q++;
        if (q < e && *q == '!') {
            int id = find(&sheets, s, q - s);
            if (!ref(q + 1, id < 0 ? 2 : 1, id, s, q - s)) return 0;
        } else if (q < e && *q == '(') {
            int f = find(&functions, s, q - s);
            if (f >= 0) {
                *o++ = FUN;
                put_varint(f);
            } else {
                int id = find(&names, s, q - s);
                *o++ = CALL;
                *o++ = id < 0 ? 2 : 1;
                if (id >= 0)
                    put_varint(id);
                else {
                    put_varint(q - s);
                    memcpy(o, s, q - s);
                    o += q - s;
                }
            }
            p = q + 1;
            if (!args(d + 1)) return 0;
        } else if (ref(s, 0, 0, 0, 0))
            ;
        else {
            if (c == '$') return 0;
            size_t n = q - s;
            if (n == 4 && !strncasecmp(s, "TRUE", 4)) {
                *o++ = BOOL;
                *o++ = 1;
            } else if (n == 5 && !strncasecmp(s, "FALSE", 5)) {
                *o++ = BOOL;
                *o++ = 0;
            } else {
                int id = find(&names, s, n);
                *o++ = WORD;
                *o++ = id < 0 ? 2 : 1;
                if (id >= 0)
                    put_varint(id);
                else {
                    put_varint(n);
                    memcpy(o, s, n);
                    o += n;
                }
            }
            p = q;
        }
    } else
        return 0;
    for (; p < e;) {
        if (*p == '%') {
            p++;
            *o++ = PCT;
        } else if (*p == '#') {
            p++;
            *o++ = HSH;
        } else
            break;
    }
    return 1;
}
static int expr(int least, int d) {
    if (!operand(d)) return 0;
    for (; p < e;) {
        int l = level(*p);
        if (!l || l < least) return 1;
        *o++ = OP;
        if (*p == '<' && p + 1 < e && p[1] == '>') {
            *o++ = 'n';
            p += 2;
        } else if (*p == '<' && p + 1 < e && p[1] == '=') {
            *o++ = 'l';
            p += 2;
        } else if (*p == '>' && p + 1 < e && p[1] == '=') {
            *o++ = 'g';
            p += 2;
        } else
            *o++ = *p++;
        if (!expr(l + 1, d)) return 0;
    }
    return 1;
}
static u32 place(Pool* q, const u8* k, size_t n) {
    if (2 * q->n + 2 > q->scap) {
        u32 c = q->scap ? 2 * q->scap : 1024;
        free(q->slot);
        q->slot = calloc(c, 4);
        q->scap = c;
        for (u32 i = 0; i < q->n; i++) {
            u32 a = q->off[i], b = q->off[i + 1];
            u32 j = hash(q->arena + a, b - a) & (c - 1);
            while (q->slot[j]) j = (j + 1) & (c - 1);
            q->slot[j] = i + 1;
        }
    }
    u32 j = hash(k, n) & (q->scap - 1);
    for (; q->slot[j]; j = (j + 1) & (q->scap - 1)) {
        u32 i = q->slot[j] - 1;
        if (q->off[i + 1] - q->off[i] == n && !memcmp(q->arena + q->off[i], k, n)) return i;
    }
    if (q->used + n > q->cap) {
        q->cap = q->cap ? 2 * q->cap : 4096;
        while (q->cap < q->used + n) q->cap *= 2;
        q->arena = realloc(q->arena, q->cap);
    }
    if (q->n + 2 > q->ncap) {
        q->ncap = q->ncap ? 2 * q->ncap : 64;
        q->off = realloc(q->off, q->ncap * 4);
        q->off[0] = 0;
    }
    memcpy(q->arena + q->used, k, n);
    q->used += n;
    q->slot[j] = ++q->n;
    q->off[q->n] = q->used;
    return q->n - 1;
}
static u32* cell(Pool* q, int r, int c, int add) {
    u64 k = (u64)r << 32 | c;
    if (add && 2 * q->cn + 2 > q->ccap) {
        u32 n = q->ccap ? 2 * q->ccap : 1024;
        __typeof__(q->cell) z = calloc(n, sizeof *z);
        for (u32 i = 0; i < q->ccap; i++)
            if (q->cell[i].k) {
                u32 j = (q->cell[i].k * 0x9E3779B97F4A7C15ull >> 32) & (n - 1);
                while (z[j].k) j = (j + 1) & (n - 1);
                z[j] = q->cell[i];
            }
        free(q->cell);
        q->cell = z;
        q->ccap = n;
    }
    if (!q->ccap) return 0;
    u32 j = (k * 0x9E3779B97F4A7C15ull >> 32) & (q->ccap - 1);
    for (; q->cell[j].k; j = (j + 1) & (q->ccap - 1))
        if (q->cell[j].k == k) return &q->cell[j].v;
    if (!add) return 0;
    q->cell[j].k = k;
    q->cn++;
    return &q->cell[j].v;
}
static char* t;
static u64 get_varint(const u8** q) {
    u64 v = 0;
    int s = 0;
    for (;;) {
        u8 b = *(*q)++;
        v |= (u64)(b & 127) << s;
        s += 7;
        if (b < 128) return v;
    }
}
static void put_digits(u64 v) {
    char b[24];
    int n = 0;
    do b[n++] = 48 + v % 10;
    while (v /= 10);
    while (n) *t++ = b[--n];
}
static int64_t unzigzag(u64 v) { return (int64_t)(v >> 1) ^ -(int64_t)(v & 1); }
static void show_corner(const u8** q) {
    int a = *(*q)++;
    int64_t r = unzigzag(get_varint(q)), c = unzigzag(get_varint(q));
    if (!(a & 2)) r += row;
    if (!(a & 1)) c += col;
    if (a & 1) *t++ = '$';
    char b[4];
    int n = 0;
    while (c > 0) {
        b[n++] = 'A' + (c - 1) % 26;
        c = (c - 1) / 26;
    }
    while (n) *t++ = b[--n];
    if (a & 2) *t++ = '$';
    put_digits(r);
}
static void name(const char* s, size_t n) {
    int pl = 1;
    for (size_t i = 0; i < n; i++)
        if (!class_of[(u8)s[i]] || class_of[(u8)s[i]] >= 4) pl = 0;
    if (class_of[(u8)s[0]] == 2) pl = 0;
    if (!pl) *t++ = '\'';
    memcpy(t, s, n);
    t += n;
    if (!pl) *t++ = '\'';
    *t++ = '!';
}
static void show(const u8* q, const u8* z) {
    while (q < z) {
        switch (*q++) {
            case NUM: {
                put_digits(get_varint(&q));
                u64 f = get_varint(&q);
                if (f) {
                    *t++ = '.';
                    char b[10];
                    for (int i = 8; i >= 0; i--) {
                        b[i] = 48 + f % 10;
                        f /= 10;
                    }
                    int n = 9;
                    while (b[n - 1] == 48) n--;
                    memcpy(t, b, n);
                    t += n;
                }
            } break;
            case STR: {
                u64 n = get_varint(&q);
                *t++ = '"';
                memcpy(t, q, n);
                t += n;
                q += n;
                *t++ = '"';
            } break;
            case REF:
            case RANGE: {
                int rg = q[-1] == RANGE, k = *q++;
                if (k == 1) {
                    u64 id = get_varint(&q);
                    name(sheets.e[id].name, strlen(sheets.e[id].name));
                } else if (k == 2) {
                    u64 n = get_varint(&q);
                    name((const char*)q, n);
                    q += n;
                }
                show_corner(&q);
                if (rg) {
                    *t++ = ':';
                    show_corner(&q);
                }
            } break;
            case WORD:
            case CALL: {
                int cl = q[-1] == CALL;
                if (*q++ == 1) {
                    char* s = names.e[get_varint(&q)].name;
                    size_t n = strlen(s);
                    memcpy(t, s, n);
                    t += n;
                } else {
                    u64 n = get_varint(&q);
                    memcpy(t, q, n);
                    t += n;
                    q += n;
                }
                if (cl) *t++ = '(';
            } break;
            case FUN: {
                char* s = functions.e[get_varint(&q)].name;
                size_t n = strlen(s);
                memcpy(t, s, n);
                t += n;
                *t++ = '(';
            } break;
            case OPN:
                *t++ = '(';
                break;
            case CLS:
                *t++ = ')';
                break;
            case SEP:
                *t++ = ',';
                break;
            case EMP:
                break;
            case OP:
                switch (*q) {
                    case 'n':
                        *t++ = '<';
                        *t++ = '>';
                        break;
                    case 'l':
                        *t++ = '<';
                        *t++ = '=';
                        break;
                    case 'g':
                        *t++ = '>';
                        *t++ = '=';
                        break;
                    default:
                        *t++ = *q;
                }
                q++;
                break;
            case PFX:
                *t++ = *q++;
                break;
            case PCT:
                *t++ = '%';
                break;
            case HSH:
                *t++ = '#';
                break;
            case OB:
                *t++ = '{';
                break;
            case CB:
                *t++ = '}';
                break;
            case SEMI:
                *t++ = ';';
                break;
            case BOOL:
                memcpy(t, *q ? "TRUE" : "FALSE", 5 - *q);
                t += 5 - *q++;
                break;
        }
    }
}
static char replies[1 << 21];
static void reply(int ok) {
    memcpy(t, ok ? "ok\n" : "error\tBadLine\n", ok ? 3 : 14);
    t += ok ? 3 : 14;
}
static long in(const char* s, const char* z) {
    long v = 0;
    if (s == z) return -1;
    for (; s < z; s++) {
        if (*s < 48 || *s > 57) return -1;
        v = v * 10 + *s - 48;
    }
    return v;
}
static void newsheet(const char* s, size_t n) {
    int id = add(&sheets, s, n);
    if (id < 0) {
        reply(0);
        return;
    }
    pools = realloc(pools, (pool_count + 1) * sizeof *pools);
    memset(pools + pool_count++, 0, sizeof *pools);
    reply(1);
}
static void answer(char* s, size_t n) {
    char* w[8];
    size_t l[8];
    int k = 0;
    char *q = s, *z = s + n;
    for (;;) {
        char* b = memchr(q, '\t', z - q);
        if (!b || k == 7) b = z;
        w[k] = q;
        l[k++] = b - q;
        if (b == z) break;
        q = b + 1;
    }
#define IS(x) (l[0] == sizeof x - 1 && !memcmp(w[0], x, sizeof x - 1))
    if (k == 5 && (IS("update_cell_with_formula") || IS("set_user_input"))) {
        long sh = in(w[1], w[1] + l[1]), r = in(w[2], w[2] + l[2]), c = in(w[3], w[3] + l[3]);
        if (sh < 0 || sh >= pool_count || r < 1 || r > 1048576 || c < 1 || c > 16384 || l[4] < 2 || w[4][0] != '=') {
            reply(0);
            return;
        }
        row = r;
        col = c;
        p = w[4] + 1;
        e = w[4] + l[4];
        o = out;
        *o++ = 0;
        if (!expr(1, 0) || p != e) {
            o = out;
            *o++ = 1;
            memcpy(o, w[4] + 1, l[4] - 1);
            o += l[4] - 1;
        }
        Pool* P = pools + sh;
        *cell(P, r, c, 1) = place(P, out, o - out);
        reply(1);
    } else if (k == 4 && (IS("get_cell_formula") || IS("get_localized_cell_content"))) {
        long sh = in(w[1], w[1] + l[1]), r = in(w[2], w[2] + l[2]), c = in(w[3], w[3] + l[3]);
        u32* v = sh >= 0 && sh < pool_count ? cell(pools + sh, r, c, 0) : 0;
        if (!v) {
            reply(1);
            if (IS("get_localized_cell_content")) memcpy(t - 1, "\t\n", 2), t++;
            return;
        }
        row = r;
        col = c;
        Pool* P = pools + sh;
        memcpy(t, "ok\t=", 4);
        t += 4;
        const u8 *a = P->arena + P->off[*v], *b = P->arena + P->off[*v + 1];
        if (*a)
            memcpy(t, a + 1, b - a - 1), t += b - a - 1;
        else
            show(a + 1, b);
        *t++ = '\n';
    } else if (k == 2 && IS("add_sheet"))
        newsheet(w[1], l[1]);
    else if (k == 4 && IS("new_defined_name"))
        reply(add(&names, w[1], l[1]) >= 0);
    else
        reply(0);
}
int main(void) {
    for (int i = 0; i < 256; i++) fold[i] = i >= 'A' && i <= 'Z' ? i + 32 : i;
    for (int i = 'a'; i <= 'z'; i++) class_of[i] = class_of[i - 32] = 1;
    for (int i = '0'; i <= '9'; i++) class_of[i] = 2;
    class_of['_'] = class_of['.'] = 3;
    for (int i = 128; i < 256; i++) class_of[i] = 3;
    static const char* fn[] = {"SUM",   "AVERAGE", "MIN",      "MAX",    "COUNT", "COUNTA", "COUNTIF", "SUMIF",
                               "IF",    "IFERROR", "IFNA",     "AND",    "OR",    "NOT",    "XOR",     "ABS",
                               "SIN",   "COS",     "TAN",      "PI",     "SQRT",  "POWER",  "LOG10",   "ROUND",
                               "INT",   "MOD",     "LEN",      "LEFT",   "RIGHT", "MID",    "UPPER",   "CONCAT",
                               "INDEX", "VLOOKUP", "SEQUENCE", "UNIQUE", "TODAY"};
    for (size_t i = 0; i < sizeof fn / sizeof *fn; i++) add(&functions, fn[i], strlen(fn[i]));
    t = replies;
    newsheet("Sheet1", 6);
    t = replies;
    static char held[1 << 22];
    size_t n = 0;
    ssize_t g;
    while ((g = read(0, held + n, 65536)) > 0) {
        n += g;
        char *l = held, *x;
        while ((x = memchr(l, '\n', held + n - l))) {
            answer(l, x - l);
            l = x + 1;
            if (t - replies > 65536) {
                if (write(1, replies, t - replies) < 0) return 1;
                t = replies;
            }
        }
        n = held + n - l;
        memmove(held, l, n);
        if (t > replies) {
            if (write(1, replies, t - replies) < 0) return 1;
            t = replies;
        }
    }
    if (t > replies && write(1, replies, t - replies) < 0) return 1;
    return 0;
}
