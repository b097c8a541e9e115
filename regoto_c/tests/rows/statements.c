/* Forms of statements: each function with an int is called with 0 to 7, before and after it was restructured. */
#include "rows.h"

int forward(int n) { if (n > 3) goto end; t(1); end: return t(2) + n; }

int backward(int n) { again: t(n); if (n-- > 0) goto again; return n; }

int into_then(int n) { if (n & 1) goto in; if (n > 3) { t(1); in: t(2); } else t(3); return n; }

int into_else(int n) { if (n & 1) goto in; if (n > 3) t(1); else { t(2); in: t(3); } return n; }

int into_while(int n) { int i = 0; if (n > 4) goto in; while (i < n) { t(i); in: i++; } return i; }

int into_do(int n) { int i = 0; if (n > 4) goto in; do { t(i); in: i++; } while (i < n); return i; }

int into_for(int n) { int i = 5; if (n > 4) goto in; for (i = 0; i < n; i += 2) { t(i); in: t(9); } return i; }

int out_of_three(int n) {
    int i, j, k = 0;
    for (i = 0; i < 3; i++)
        for (j = 0; j < 3; j++)
            while (k < 40) { if (++k == n * 5 + 1) goto out; if (k % 4 == 0) break; }
    t(-1);
out:
    return k;
}

int into_case(int n) {
    if (n == 6) goto two;
    switch (n) { case 1: t(1); break; case 2: two: t(2); case 3: t(3); if (n == 2) goto end; break; default: t(4); }
    t(5);
end: return n;
}

int device(int n) {
    int left = (n + 3) / 4;
    if (n == 0) goto end;
    switch (n % 4) { case 0: do { t(0); case 3: t(3); case 2: t(2); case 1: t(1); } while (--left > 0); }
end: return left;
}

int no_braces(int n) { switch (n) case 2: if (n) goto end; t(1); end: return n; }

int default_first(int n) {
    switch (n) { default: t(9); if (n == 5) goto one; case 2: t(2); break; case 1: one: t(1); }
    return n;
}

int selectors(int n) {
    char c = n - 3; enum colour { RED, GREEN = 3, BLUE } e = n; unsigned long u = n; long long l = n - 4; _Bool b = n;
    switch (c) { case -1: t(1); goto b; case 'a': case 0: t(2); }
    switch (e) { case RED: t(3); case GREEN: t(4); goto b; case BLUE: break; }
b:  switch (u + 0xfffffffffffffffcu) { case 0xfffffffffffffffeul: t(5); goto c; case 1: t(6); }
c:  switch (l) { case -4LL: t(7); goto d; case 3: t(8); }
d:  switch (b) { case 0: t(9); goto e; case 1: t(10); }
    switch ((unsigned char)(n + 253)) { case 255: t(11); goto e; case 0: t(12); }
e:  return n;
}

int ranges(int n) { switch (n) { case 1 ... 3: if (n == 2) goto end; t(1); break; case 4: t(2); default: t(3); } end: return n; }

int continues(int n) {
    int i = 0, j;
    while (i++ < n) { if (i == 2) continue; if (i == 5) goto end; t(i); }
    for (j = 0; j < n; j++) { if (j == 1) continue; if (j == 6) goto end; t(-j); }
    do { if (i == 3) continue; if (i == 7) goto end; t(i); } while (++i < 9);
end: return i;
}

int leaves_both(int n) {
    for (int i = 0; i < 9; i++) switch (i) { case 0: continue; case 4: if (n > 3) goto end; break; case 6: break; default: t(i); }
end: return n;
}

int returns(int n) { while (1) { if (n == 3) return 30; if (n == 5) goto end; if (n++ > 6) return n; t(n); } end: return -1; }

static void without_value(int n) { if (n > 3) goto end; t(1); if (n > 1) return; t(2); end: t(3); }
int calls_without_value(int n) { without_value(n); return 0; }

static void just_label(int n) { if (n > 3) goto end; t(1); end:; }
int calls_just_label(int n) { just_label(n); return 0; }

int two_labels(int n) { if (n == 1) goto a; if (n == 2) goto b; t(1); a: b: t(2); return n; }

int unused_labels(int n) { a: __attribute__((unused)); if (n == 2) goto c; t(1); c: __attribute__((unused)) t(2); return n; }

int dangling(int n) { if (n > 1) if (n > 3) goto x; else t(1); else t(2); t(3); x: return n; }

int else_ifs(int n) { if (n == 0) t(0); else if (n == 1) goto x; else if (n == 2) { t(2); } else goto y; t(3); x: t(4); y: return n; }

int empty_parts(int n) { if (n == 1) ; else goto end; if (n) {} else ; for (; ; ) { break; } { } ; t(1); end: return n; }

int assigned(int n) { int c; while ((c = n--) > 0) { if (c == 3) goto end; t(c); } if ((c = 7), c > n) goto end; t(1); end: return c; }

int looser(int n) {
    int a = 0, b;
    if (n > 2 ? n < 6 : n == 1) goto one;
    while (n > 4 || (n < 2 && a < 3)) { a++; if (a > 5) goto one; }
    if (b = n - 3) goto one;
    do { t(a); if (a > 3) goto one; } while (a++, a < n);
one: return a;
}

int pointers(int n) {
    const char *p = "abc{goto}", *q = n > 4 ? p : 0;
    if (q) goto end;
    if (!p) goto end;
    while (*p) { if (*p++ == '{') goto end; t(*p); }
end: return *p;
}

int floating(int n) { double d = n / 4.0; float f = n - 3; if (d) goto a; t(1); a: if (f) goto b; t(2); b: return d * 8; }

struct pair { int a, b : 5; union { int c; char d[4]; }; };
static struct pair made(int n) {
    struct pair it = {n, 2, {.c = 1}};
    if (n > 3) goto end;
    it.b = -it.b;
end: return it;
}
int structures(int n) { struct pair p = made(n), *q = &p; if (q->b < 0) goto x; q->c += 5; x: return p.c + q->b; }

static const char *named(int n) { if (n < 3) goto none; return "some"; none: return n ? "one" : (const char *)0; }
int strings(int n) { const char *s = named(n); return s ? (int)strlen(s) : -1; }

int functions(int n) { int (*f[2])(int) = {t, abs}; if (n > 5) goto end; (*f[n & 1])(n); (n & 2 ? abs : t)(n); end: return n; }

int expressions(int n) {
    int r = ({ int k = n; while (k > 3) k -= 2; k; });
    if (({ int z = r; z == 1; })) goto end;
    (void)({ for (int i = 0; i < n; i++) { if (i == 2) break; t(i); } 0; });
end: return r;
}

int assembler(int n) { if (n == 2) goto end; __asm__ volatile("" : "+r"(n) : : "memory"); t(n); end: return n; }

static _Bool is_odd(int n) { return n & 1; }
int truths(int n) { _Bool b = n & 2; while (is_odd(n)) { if (b) goto end; if (is_odd(n / 2)) goto end; t(n); n += 3; } end: return n; }

int volatiles(int n) { volatile int v = n; if (v) goto end; v = 3; t(v); end: return v; }

int old_style(n) int n; { if (n > 3) goto end; t(n); end: return n; }

int hidden(int n) { do { if (n > 3) goto end; t(1); } while (0); t(2); end: return n; }

int crossing(int n) { int k = 0; a: k++; if (n == 1 && k < 3) goto b; t(k); b: if (k < 2) goto a; if (k < n) { t(9); k = n; goto a; } return k; }

int into_two(int n) { int i = 0; if (n == 4) goto deep; while (i < 2) { i++; if (n > 1) { t(1); for (;;) { t(2); break; deep: t(3); if (++i > 2) break; } } } return i; }

int from_case_to_loop(int n) {
    int i = 0;
    switch (n) {
    case 0: while (i < 3) { t(i); into: i++; } break;
    case 1: i = 1; goto into;
    case 2: { int k = 5; t(k); goto three; }
    case 3: three: t(33);
    }
    return i;
}

int digraphs(int n) { int a<:2:> = <%n, 1%>; if (a<:0:> > 3) goto end; <% t(a<:1:>); %> end: return n; }

int odd_names(int s1) { int t1 = s1, goto_end = 2, v1 = 3; if (t1 > 3) goto end; t(goto_end); end: return v1 + goto_end; }

int names_of_library(int n) { char b[20]; if (n > 3) goto end; sprintf(b, "%d", n); printf("[%s]", b); end: if (n > 6) exit_code = abs(-n); return n; }

inline static __attribute__((noinline)) int attributes(int n) { if (n > 3) goto end; t(1); end: return n; }

int fallthrough(int n) { switch (n) { case 1: t(1); __attribute__((fallthrough)); case 2: t(2); goto end; default: t(3); } end: return n; }

int generic(int n) { if (_Generic(n, int: n > 3, default: 0)) goto end; t(sizeof(int[3])); end: return _Alignof(int) + n; }

int own_loops(int n) {
    while (n > 0) { int k = n--; for (int i = 0; i < k; i++) { if (i == 3) break; if (i == 1) continue; t(i); }
        switch (k) { case 3: t(30); break; default: ; } if (k == 5) goto end; }
end: return n;
}

int recursive(int n) { if (n < 2) goto end; return recursive(n - 1) + recursive(n - 2); end: return n; }

long wide(long n) { if (n > 3) goto end; n <<= 33; end: return n; }
int widened(int n) { return wide(n) >> 33; }

int many(int n) { int i = 0; l: switch (i++) { case 0: if (n == 0) goto e; goto l; case 1: goto m; case 2: goto l; case 3: if (n > 4) goto e; } m: if (i < 4) goto l; e: return t(i); }
