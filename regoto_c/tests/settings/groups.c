/* Functions whose groups of directives hold jumps; X and Y may be set. */
#include "rows.h"

static int r(int k) {
    return t(k) % 3;
}

int plain(int n) {
    int e = 0;
    if (n > 5)
        goto err;
#ifdef X
    if (n == 3)
        goto err;
    t(1); /* one */
    if (n == 4) { e = 7; goto out; }
    t(2); // two
#endif
    t(3);
out:
    return e + n;
err:
    t(4);
    return -1;
}

int otherwise(int n) {
    int k = 0;
again:
    t(k);
#if defined(X) && defined(Y)
    if (n & 1) {
        t(10);
        goto done;
    } else if (n & 2)
        return t(11) + n;
    else {
        int q = n;
        if (q == 4)
            return -1;
        int w = q + 1;
        t(w);
    }
    t(12);
#elif defined(X)
    goto done;
#else
#ifdef Y
    if (k == 2)
        goto done;
    t(13);
#endif
    t(14);
#endif
    if (k++ < 3)
        goto again;
done:
    return k;
}

int loops(int n) {
    int i, j;
    for (i = 0; i < 6; i++) {
        t(i);
        if (i == n)
            goto out;
#ifdef X
        for (j = 0; j < 3; j++) {
            switch (n + j) {
            case 1:
                continue;
            case 2:
                break;
            case 3:
                goto out;
            case 4:
                while (1) {
                    if (r(j))
                        goto next;
                    if (n == 7)
                        break;
                    return t(33);
                }
                t(20);
            default:
                t(21);
            }
            if (j == 2 && n == 0)
                return 5;
            if (j == 1)
                do {
                    if (n == 5) goto out;
                    switch (n) case 6: if (i == 3) goto next; else continue;
                } while (r(j++));
            t(22);
        }
        if (n == 6) continue;
        t(23);
#endif
#ifdef Y
        if (i == 4)
            break;
#endif
        t(24);
    next:
        t(25);
    }
out:
    return i;
}

int cases(int n) {
	switch (n) {
	case 0:
#ifdef X
		if (r(n)) goto two;
		t(7); if (n) goto two; t(8);
		t("a\
		b"[0]);
		break;
#endif
	case 1:
		t(1);
#ifndef Y
		return 4;
#endif
	two:
	case 2:
		t(2);
		break;
	case 4:
		goto two;
	default:
		t(3);
	}
	return n;
}

static const char *text(int n) {
    const char *found = "none";
    if (n == 6)
        goto out;
    {
        int before = n;
#ifdef X
        if (before == 2)
            return "two";
        while (before--)
            t(before);
        if (n == 3)
            return found;
#elif defined(Y)
        if (n == 1) return NULL; // nothing
        else goto out;
#endif
    }
    found = "some";
out:
    t(5);
    return found;
}

int shown(int n) {
    const char *it = text(n);
    printf(" %s", it ? it : "null");
    return n;
}

static void nothing(int n) {
#ifdef Y
    if (n == 2)
        return;
    t(1);
#endif
    if (n == 3)
        goto end;
    t(2);
#ifdef X
    for (;;) {
        if (n++ > 5)
            goto end;
        if (r(n))
            return;
    }
#else
    if (n == 5)
        return;
#endif
    t(3);
end:
    t(4);
}

int called(int n) {
    nothing(n);
    return 0;
}

int declares(int n) {
again:
    t(n);
    if (n > 5)
        goto out;
    if (n > 0) {
#ifdef X
        int twice = n * 2;
        const char *word = "word";
        if (twice == 4)
            goto out;
        t(word[n - 1]);
#ifndef Y
        long more = twice + 1;
        n += more > 3;
#endif
#endif
        n++;
    }
#ifdef Y
    unsigned only = n;
    t(only + 1);
#endif
    if (n++ < 4)
        goto again;
out:
    return n;
}

int parted(int n) {
    int k = n;
#ifdef X
    const char *word = "parted";
    int other; /* set below */

    if (n > 3)
        k = 2;
    other = t(k);
#endif
    long last = 3;
again:
    t(k);
#ifdef X
    t(word[other]);
#endif
    if (k++ < 4)
        goto again;
    return k + last;
}
