"""Where comments behind brackets go, and how lines are shifted whose indentation has spaces before a tab."""
from __future__ import annotations

from pathlib import Path

import pytest

from .conftest import Command, check_text

# a name, the file before, the file after
TEXTS = [
    ('comments behind brackets', '''int g(int);
int f(int n, int *p) {
    if (n > 7) {
        goto end;
    } // behind an if
    while (n) {
        if (n == 3) {
            goto end;
        } /* last */
    } /* a loop */ /* and more */
    if (n == 4) {
        goto end;
    } else if (n == 5) {
        g(n);
    } /* a chain
         in two lines */
    switch (n) {
    case 1:
        if (*p) {
            goto end;
        } /* one */ /* FALLTHROUGH */
    case 2:
        if (*p) goto end; // falls through
    default:
        g(8);
    } /* a switch */
    for (;;) {
        if (g(n)) goto end;
    } /* for ever */
    {
        if (g(n)) {
            goto end;
        } // one line
    } /* another */
    if (n) {
        goto end;
    } else {
        if (g(3)) {
            g(4);
        } // inner
    } // outer
    n = 9;
end:
    return n;
}
''', '''int g(int);
int f(int n, int *p) {
    int goto_end = 0;
    goto_end = n > 7; // behind an if
    if (!goto_end) {
        while (!goto_end && n) {
            goto_end = n == 3; /* last */
        } /* a loop */ /* and more */
        if (!goto_end) {
            if (n == 4) {
                goto_end = 1;
            } else {
                if (n == 5) {
                    g(n);
                }
            } /* a chain
                 in two lines */
            if (!goto_end) {
                switch (n) {
                case 1:
                    goto_end = *p != 0; /* one */
                    /* FALLTHROUGH */
                case 2:
                    if (!goto_end) {
                        goto_end = *p != 0;
                    }
                    // falls through
                default:
                    if (!goto_end) {
                        g(8);
                    }
                } /* a switch */
                if (!goto_end) {
                    /* for ever */
                    while (!goto_end && 1) {
                        goto_end = g(n) != 0;
                    }
                    if (!goto_end) {
                        goto_end = g(n) != 0; // one line
                        /* another */
                        if (!goto_end) {
                            if (n) {
                                goto_end = 1;
                            } else {
                                if (g(3)) {
                                    g(4);
                                } // inner
                            } // outer
                            if (!goto_end) {
                                n = 9;
                            }
                        }
                    }
                }
            }
        }
    }
    goto_end = 0;
    return n;
}
'''),
    ('spaces before a tab', '''int g(int, int);
int f(int n)
{
    if (n > 7)
        goto end;
#ifdef X
    if (n == 2)
        goto end;
    n = 3;
  \tn = g(4,
      \t5);
#endif
end:
    return n;
}
''', '''int g(int, int);
int f(int n)
{
    int leave;
    int goto_end = 0;
    goto_end = n > 7;
    if (!goto_end) {
        leave = 0;
#ifdef X
        if (n == 2)
            leave = 1;
        if (!leave) {
            n = 3;
                n = g(4,
                5);
        }
#endif
        goto_end = leave != 0;
    }
    goto_end = 0;
    return n;
}
'''),
]


@pytest.mark.parametrize('before, after', [row[1:] for row in TEXTS], ids=[row[0].replace(' ', '-') for row in TEXTS])
def test_layout(command: Command, tmp_path: Path, before: str, after: str) -> None:
    """The result is this text."""
    check_text(command, tmp_path, before, after)
