/* Macros, directives and marks of the text: each function with an int is called with 0 to 7, before and after it was restructured. */
#include "rows.h"

#define EITHER n > 4 || n < 2
#define NOT !
#define OR ||
#define TWICE t(n), n--
#define PICK n ? n > 3 : 1
#define JUMP goto end
#define LABEL(name) label_##name:
#define TO(name) goto label_##name
#define IF_JUMP(test, name) if (test) goto name
#define LOOP_JUMP(test, name) do { if (test) goto name; t(7); } while (0)
#define CASE(x) case x:
#define STOP break
#define RET(x) return x
#define GIVE return
#define BEGIN {
#define END }
#define EMPTY
#define STATEMENTS t(1); t(2)
#define BLOCK { t(3); t(4); }
#define FOREVER for (;;)
#define WHEN(x) if (x)
#define OTHERWISE else
#define SAY(text) printf(" " #text)
#define VARIABLE(type, name) type name = n
#define EACH(i, of) for (int i = 0; i < of; i++)

int hidden_or(int n) { int k = 0; while (EITHER) { if (k++ > 2) goto end; t(k); n = k; } end: return k; }

int hidden_marks(int n) { int k = 0; while (n > 4 OR n < 2) { if (NOT n) JUMP; if (k++ > 2) goto end; t(k); n++; } end: return k; }

int hidden_comma(int n) { while (TWICE, n > 0) { if (n == 3) JUMP; t(n); } end: return n; }

int hidden_choice(int n) { while (PICK) { if (n-- == 5) JUMP; t(n); if (n < 0) break; } end: return n; }

int labels_of_macros(int n) { if (n > 4) TO(one); t(1); LABEL(one) t(2); if (n == 2) TO(two); t(3); LABEL(two); return n; }

int jumps_in_macros(int n) { IF_JUMP(n == 2, end); t(1); LOOP_JUMP(n == 4, end); t(2); IF_JUMP(n > 5, end); else t(3); end: return n; }

int cases_of_macros(int n) { switch (n) { CASE(1) t(1); STOP; CASE(2) CASE(3) t(2); JUMP; default: t(4); } t(5); end: return n; }

int returns_of_macros(int n) { if (n == 1) RET(5); if (n == 2) JUMP; if (n == 3) GIVE n * 2; t(1); end: RET(n); }

int braces_of_macros(int n) { if (n > 3) BEGIN t(1); JUMP; END t(2); end: return n; }

int nothing(int n) { EMPTY; if (n EMPTY > 3) JUMP; EMPTY; t(1 EMPTY); end: EMPTY; return n; }

int several(int n) { if (n > 3) { STATEMENTS; if (n > 5) goto end; BLOCK } else BLOCK STATEMENTS; t(9); end: return n; }

int heads(int n) { FOREVER { WHEN(n > 3) goto end; OTHERWISE t(1); n++; } end: return n; }

int each(int n) { EACH(i, n) { if (i == 4) goto end; EACH(j, 2) t(i + j); } end: return n; }

int texts(int n) { SAY(goto end;); if (n > 3) goto end; SAY(a + b); { VARIABLE(int, k); if (k == 2) goto end; t(k); } end: return n; }

int conditionals(int n) {
    if (n == 6) goto end;
#if 1
    t(1);
#else
    t(2);
#endif
#ifdef NOT_DEFINED
    t(3);
#elif defined EMPTY
    while (n > 3) { t(n--); if (n == 4) break; }
#endif
    t(n
#ifdef EMPTY
      + 1
#endif
    );
    if (n
#ifndef EMPTY
        + 5
#endif
        > 4) goto end;
#define INSIDE 11
    t(INSIDE);
#undef INSIDE
#pragma GCC diagnostic push
    t(12);
#pragma GCC diagnostic pop
end:
    return n;
}

int unrolled(int n) {
    int i, k = 0;
    if (n == 1) goto end;
#pragma GCC unroll 2
    for (i = 0; i < 3; i++) k += i;
    t(k);
end:
    return n;
}

int tabs_and_tricks(int n) { if (n > 3)goto/**/end;t(1)/*;*/;/*{*/t('{');t("}"[0]);end:return/**/n;}

int counted(int n) { if (n > 3) goto end; { int line = __LINE__ > 0; if (n == 2) goto end; t(line); } SAY(__LINE__); end: return n; }

/* several declarations, or more than one, in one invocation */
#define TWO(type) type first = n, second = 2; type third = first
#define BEGIN int part = 1; part++
int declared_by_one(int n) { while (n > 0) { if (n == 3) goto in; TWO(int); t(second); n -= third - first; in: n -= second = 1; } return n; }
int begun_by_one(int n) { for (int i = 0; i < n; i++) { if (i == 2) goto in; BEGIN; n -= part; in: t(part = i); if (n == 4) goto out; } out: return n; }

/* the counter counts on in the same order */
int numbered(int n) { int first = __COUNTER__; if (n > 5) goto end; { int k = __COUNTER__ - first; if (k + n == 4) goto end; t(__COUNTER__ - first + k); } end: return __COUNTER__ - first; }

int asserted(int n) { if (n == 2) goto end; { int k = n; if (k == 5) goto end; t(__extension__ ({ k + 1; })); } end: return n; }

#define PASTED2(a, b) a##b
#define PASTED(a, b) PASTED2(a, b)
#define TWICE(k) for (int PASTED(i_, __LINE__) = 0; PASTED(i_, __LINE__) < k; PASTED(i_, __LINE__)++)

/* names that are made of the number of a line */
int names_of_lines(int n) {
again:
    TWICE(2) { t(n); }
    if (n > 4)
        goto out;
    TWICE(1) { n++; }
    n++;
    goto again;
out:
    return n;
}

#define SHOWS(x) printf(#x " %d", x)
#define KEEPS kept
#define ADDS(x) (kept += (x))

/* a variable that gets another name, and that macros name or make a text of */
int named_by_macros(int n) {
    int kept = 1;
    if (n > 5)
        goto a;
    {
        int kept = n;
        SHOWS(kept);
        if (kept == 3)
            goto a;
        ADDS(KEEPS + 1);
        t(KEEPS);
        n += kept;
    }
a:
    ADDS(n);
    SHOWS(kept);
    return n + KEEPS;
}

static int first(int k, int from) { return k + from; }
#define first(k, from) \
    (__extension__ ((k) < 5 ? ({ int at_; for (at_ = (from); at_ < 9; at_++) if (at_ * at_ > (k)) break; at_; }) : first(k, from)))

/* a macro that names itself, with a `break` out of a loop of its own */
int loops_in_expressions(int n) {
    while (n > 0) {
        if (first(n, 0) == 2)
            goto end;
        n -= first(n, 1) - ({ int k = 0; switch (n) { case 6: k = 3; break; default: k = 1; } t(k); k; });
    }
    t(n);
end:
    return n;
}
