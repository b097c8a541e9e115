/* Forms of declarations in blocks: each function with an int is called with 0 to 7, before and after it was restructured. */
#include "rows.h"

static int outer = 5;
#define LIMIT 3

int simple(int n) { while (n > 0) { int x = n * 2; if (x == 6) goto end; t(x); n--; } end: return n; }

int shadows(int n) {
    int x = 1;
    { int x = 2; t(x); if (n == 1) goto end; { int x = 3 + n; t(x); if (n == 2) goto end; } t(x); }
    for (int x = 0; x < n; x++) { int n = x * 10; if (n == 30) goto end; t(n); }
end: return x + n;
}

int shadows_outside(int n) { { int outer = n; if (outer > 3) goto end; t(outer); } t(outer); end: return outer; }

int shadows_in_between(int n) {
    if (n > 5) goto end;
    t(outer);
    { int outer = 7; t(outer++); { extern int exit_code; t(exit_code); } t(outer); }
end: return outer;
}

int named_as_function(int n) { if (n > 5) goto end; { int abs = n - 3; t(abs); } t(abs(n - 9)); end: return n; }

int its_own_size(int n) {
    while (n-- > 3) { int s = sizeof s + n; char *p = malloc(sizeof *p * 4); if (!p) goto end; t(s); free(p); }
end: return n;
}

int arrays(int n) {
    for (int i = 0; i < 3; i++) {
        int a[] = {1, n, 3}, b[2][2] = {{1}, {i, 4}}, c[4] = {[2] = n, 7}, z[3] = {0};
        a[0] += i; z[i]++; b[1][1]++; c[0] += 2;
        if (n == 4 && i == 1) goto end;
        t(a[0] + a[1] + a[2]); t(b[0][0] + b[1][0] + b[1][1]); t(c[0] + c[2] + c[3]); t(z[0] + z[1] + z[2]);
        t(sizeof a / sizeof a[0]);
    }
end: return n;
}

int texts(int n) {
    for (int i = 0; i < 2; i++) {
        char s[] = "abc", p[8] = "ab" "cd", q[] = {"xyz"}, r[3] = "abc", two[2][4] = {"ab", "cde"};
        const unsigned char u[] = "\x41\0B"; int w[] = L"wi"; static const char fixed[] = "fixed";
        if (n == 5 && i) goto end;
        s[0]++; p[5] = 'z'; q[1] = 'Y'; r[0] = 'R'; two[1][0] = 'C';
        printf(" %s %s %d %s %.3s %s %s %d %d %d %s", s, p, p[7], q, r, two[0], two[1], u[2], (int)sizeof u, w[1], fixed);
    }
end: return n;
}

struct point { int x, y; struct { char name[4]; unsigned bits : 3, more : 5; } in; const char *text; };
int structs(int n) {
    for (int i = 0; i < 2; i++) {
        struct point p = {1, n, {"ab", 5, .more = 9}, "text"}, q = p, *r = &q, all[2] = {{.y = 3}, p}, none = {0};
        union { int i; char c[4]; } u = {.c = {1, 2}};
        struct point other = i ? p : (struct point){.x = n};
        if (n == 3 && i) goto end;
        p.x += 5; r->y--; all[1].x++;
        t(p.x + q.y + r->x); t(p.in.bits + p.in.more + q.in.name[1]); t(all[0].y + all[1].x); t(u.c[1] + u.c[3] + none.y);
        t(other.x + other.in.more);
    }
end: return n;
}

int several(int n) { { int a = n, *p = &a, b[2] = {a + 1, *p}, c; c = b[0]; if (c > 4) goto end; t(c + b[1]); } end: return n; }

int constants(int n) {
    while (n > 0) {
        const int k = n * 3; const char *const s = n & 1 ? "odd" : "even"; int const volatile v = k; const int table[3] = {k, 2, 3};
        register int r = k; const struct point p = {.x = k}; int *const restrict q = &n;
        if (k == 9) goto end;
        t(k + r + v); t(s[0]); t(table[0] + p.x); *q -= 1;
    }
end: return n;
}

int kinds(int n) {
    if (n == 7) goto end;
    {
        _Alignas(16) int a = n; __attribute__((aligned(32))) int b = n + 1; int c __attribute__((unused)) = 3;
        __typeof__(n + 1L) l = n; volatile int v = 2; unsigned long long u = ~0ull; short h = -n; _Bool f = n; double d = n / 2.0;
        long double e = d; int (*g)(int) = abs, (*h2[2])(int) = {abs, t}; int (*row)[2] = 0; void *p = &a;
        t(((unsigned long)&a % 16 + (unsigned long)&b % 32) == 0); t(c + l + v); t(u > 5); t(h + f); t(d + e); t(g(-n) + h2[1](3));
        t(row == 0 && p == &a);
    }
end: return n;
}

int statics(int n) { while (n-- > 0) { static int kept = 10, list[] = {1, 2}; if (n == 4) goto end; t(kept++ + list[n & 1]++); } end: return n; }

int externs(int n) {
    if (n == 2) goto end;
    { extern int exit_code; int proto(int); t(exit_code); t(proto(n)); }
end: return n;
}
int proto(int n) { return n + 40; }

int types(int n) {
    if (n == 2) goto end;
    {
        typedef struct inner { int a; } inner_type; enum colours { RED = 4, GREEN } c = GREEN; struct inner x = {n}; inner_type y = x;
        struct { int q; } unnamed = {6}; enum { LOCAL = 8 }; union inner_union { int k; } u = {3};
        _Static_assert(LOCAL == 8, "eight");
        t(x.a + y.a + c + RED); t(unnamed.q + LOCAL + u.k);
    }
end: return n;
}

int in_switch(int n) { switch (n) { int x; case 1: x = 4; t(x); break; case 2: x = 5; goto end; default: { int y = n; t(y); } } t(1); end: return n; }

int jumped_over(int n) { if (n > 3) goto in; { int x = 6; t(x); in: x = 3; t(x); } return n; }

int after_statements(int n) { t(n); int a = n + 1; if (a > 4) goto end; t(a); int b[2] = {a, 2}; t(b[0] + b[1]); end: return n; }

int first_stay(int n) {
    const int k = n * 2; int room[n + 1]; const struct point p = {.x = k}; char text[] = "top"; static int s = 3;
    struct { const int fixed; } c = {k};
    room[n] = 1;
    if (k > 6) goto end;
    t(k + p.x + c.fixed); t(text[0] + s++);
end: return room[n];
}

int loop_heads(int n) { for (int i = 0, j = 9, a[2] = {n, 1}; i < j; i++, j--) { if (i == n) goto end; t(i * j + a[0]); } end: return n; }

int addresses(int n) {
    int *last = 0, sum = 0;
again:
    { int here = n; if (last == &here) sum += 100; last = &here; sum += *last; if (n-- > 3) goto again; }
    return sum > 99 ? sum % 100 : sum;
}

int two_of_a_name(int n) { { int a = 1; t(a); if (n == 1) goto end; } { char a[] = "two"; t(a[0]); if (n == 2) goto end; } { double a = 3; t(a); } end: return n; }

int taken_by_macro(int n) {
    if (n > 5) goto end;
#undef MAX
    { int MAX = 4; t(MAX); }
#define MAX 12
    t(MAX + LIMIT);
end: return n;
}

int labels_as_variables(int n) { int end = n; if (end > 3) goto end; { int end = 9; t(end); } end: return end; }

int members_as_variables(int n) { struct point p = {.x = 1}; { int x = n, y = 2; p.x = x; if (y > n) goto end; t(p.x + y); } { int x = 3; t(p.x + x); } end: return p.x; }

int designators(int n) {
    { int x = n, y = 3; t(x); struct point p = {.x = y, .y = x}; if (p.x == n) goto end; t(p.y); { int x = 8; struct point q = {.x = x}; t(q.x); } }
end: return n;
}

#define DOUBLE(v) ((v) * 2)
#define SWAP(type, one, two) do { type swapped = one; one = two; two = swapped; } while (0)
int in_macros(int n) {
    { int a = DOUBLE(n), b = 7; SWAP(int, a, b); if (a == 7 && n == 3) goto end; t(DOUBLE(a) + b); { int a = DOUBLE(b); t(DOUBLE(a)); } }
end: return n;
}

int sized_by_constant(int n) { { int a[LIMIT] = {n}, b[sizeof a / sizeof *a + 1] = {0}; if (n == 4) goto end; t(a[0] + b[3] + sizeof b); } end: return n; }

int in_expressions(int n) { if (n == 3) goto end; t(({ int n = 8; n + 1; })); { int k = ({ int j = n; j * 2; }); t(k); } end: return n; }

int empty_braces(int n) { while (n-- > 2) { struct point p = {}; int a[3] = {}; if (n == 4) goto end; p.x++; a[1]++; t(p.x + a[1]); } end: return n; }

struct pair_of { int a, b[2]; };
#define PAIR_STARTS { n, { 1, 2 } }
#define THREE_STARTS { 1, 2, 3 }

/* initialisers whose braces stand in a macro */
int macro_braces(int n) {
    while (n < 20) {
        struct pair_of v = PAIR_STARTS;
        int w[3] = THREE_STARTS, x[] = THREE_STARTS, y = n;
        t(v.a);
        if (v.a > 4 && n != 6)
            goto out;
        n += w[2] + x[1] + y + v.b[1];
    }
out:
    return n;
}
