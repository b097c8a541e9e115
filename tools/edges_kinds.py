"""The kinds of texts that `edges` tries: each a function from a size to a text of nearly that many bytes."""
import edges_parts as parts
from edges_parts import beside, guards, kind, main_with, nested, over, switch, two

LONG = "n" + "o" * 60
LONGER = LONG * 16
JUMP = "L: if (a < 9) goto L; return 0; }\n"
SET = "while (!# && a) { a--; # = a == 3; }\n# = 0;\n"

KINDS = {
    "ordinary": kind("", parts.ordinary),
    "functions with jumps": kind("", parts.jumpy),
    # bytes and comments
    "blanks": kind("int a;", " ", "\n"),
    "newlines": kind("int a;", "\n", "\n"),
    "one comment": kind("/*", "x", "*/ int a;\n"),
    "carriage returns in a comment": kind("int a; //", "\r", "\n"),
    "backslashes in a comment": kind("int a; // ", "\\ ", "x\n"),
    "continued lines in a comment": kind("int a; /*", "*\\ \n", "*/\n"),
    "one directive": kind("#include <a>", "/**/", "\nint a;\n"),
    "directives": kind("", "#include <a.h>\n", "int a;\n"),
    "one name": kind("int ", "x", ";\n"),
    "one string": kind("int main(void) { printf(\"", "x", "\"); return 0; }\n"),
    "one string of many": kind("int main(void) { printf(", "\"\"", "); return 0; }\n"),
    "comments in a list": main_with(";/**/"),
    "comments in a switch": kind("int a; int main(void) { switch (a) { case 1: ", ";/**/", " } return 0; }\n"),
    "comments in an expression": kind("int a; int main(void) { a = ", "/**/", "1; return 0; }\n"),
    "comments behind statements": main_with("a++; // x\n", "int a;\n"),
    "comments at file scope": kind("", lambda n: f"int a{n};/**/", "\n"),
    # statements and expressions
    "null statements": main_with(";"),
    "statements": main_with("a++;\n", "int a;\n"),
    "statements beside a jump": main_with("a++;\n", "int a;\n", JUMP),
    "blocks 390 deep": nested("{", "}", "a++;"),
    "blocks 390 deep with a variable each": kind("", parts.with_variables),
    "ifs 390 deep": nested("if (a) ", "", "a++;"),
    "390 ifs with else-lists round all of it": main_with(
        "while (a) a--;\n", "int a;\n", "} else a--;\n" * 390 + "return 0; }\n", "if (a) {\n" * 390),
    "ifs 390 deep with else-lists": main_with("if (a) {" * 390 + "a++;" + "} else a--;" * 390 + "\n", "int a;\n"),
    "loops 390 deep": nested("while (a) ", "", "a++;"),
    "fors 390 deep": nested("for (int b = 0; b < 9; b++) ", "", "a++;"),
    "dos 390 deep": nested("do ", " while (a);", "a++;"),
    "switches 190 deep": main_with("switch (a) { case 1: a++; default: " * 190 + "a--;" + "}" * 190 + "\n", "int a;\n"),
    "else ifs 390 deep": nested("if (a) a--; else ", "", "a++;"),
    "brackets 390 deep": main_with("a = " + "(" * 390 + "a" + ")" * 390 + ";\n", "int a;\n"),
    "brackets 4,000 deep": main_with("a = " + "(" * 4000 + "a" + ")" * 4000 + ";\n", "int a;\n"),
    "calls 390 deep": main_with("a = " + "f(" * 390 + "a" + ")" * 390 + ";\n", "int a; int f(int x);\n"),
    "cells 390 deep": main_with("a = " + "b[" * 390 + "a" + "]" * 390 + ";\n", "int a; int b[9];\n"),
    "sums of 190 parts": main_with("a = " + "a + " * 190 + "a;\n", "int a;\n"),
    # names
    "functions": kind("", lambda n: f"int f{n}(void) {{ return {n}; }}\n"),
    "functions with a jump each": kind("", lambda n: f"void f{n}(void) {{ L: goto L; }}\n"),
    "prototypes": kind("", lambda n: f"int f{n}(int a);\n"),
    "prototypes of 1,000 parameters": kind("", "int f(" + "int," * 999 + "int);\n"),
    "one prototype again and again": kind("", "int f(int a);\n"),
    "parameters": kind("int f(int a", lambda n: f",int a{n}", ") { return a; }\n"),
    "variables of a file": kind("", lambda n: f"int a{n};\n"),
    "variables of a file with long names": kind("", lambda n: f"int {LONG}{n};\n"),
    "variables of a file with names of 1,000 bytes": kind("", lambda n: f"int {LONGER}{n};\n"),
    "variables of one declaration": kind("int a", lambda n: f",a{n}", ";\n"),
    "calls of functions with long names": two(
        "", lambda n: f"int {LONG}{n}(void);\n", "int main(void) {\n", lambda n: f"{LONG}{n % 600}();\n", "return 0; }\n"),
    "calls of functions with names of 1,000 bytes": two(
        "", lambda n: f"int {LONGER}{n}(void);\n", "int main(void) {\n", lambda n: f"{LONGER}{n % 500}();\n", "return 0; }\n"),
    "variables of a block": main_with(lambda n: f"int a{n};\n"),
    "variables of blocks": main_with("{int a;}\n"),
    "variables of blocks beside a jump": main_with("{int a;}\n", "", "L: if (0) goto L; return 0; }\n"),
    "one name hidden 390 deep": kind("", parts.hiding),
    "enum constants": kind("enum { e", lambda n: f", e{n}", " };\n"),
    "enum constants in use": two(
        "enum { e", lambda n: f", e{n}", " };\nint main(void) {\nint a = 0;\n", lambda n: f"a += e{n};\n", "return a; }\n"),
    "initialisers": kind("", lambda n: f"int a{n}[1000] = {{ " + ", ".join("1" * 1000) + " };\n"),
    "labels that no goto names": main_with(lambda n: f"l{n}: a++;\n", "int a;\n", JUMP),
    "labels of one statement": main_with(lambda n: f"l{n}:\n", "int a;\n", JUMP),
    "labels with long names": kind("", lambda n: f"void f{n}(void) {{ {LONG[1:]}{n % 9}: goto {LONG[1:]}{n % 9}; }}\n"),
    "guards whose names are taken": two(
        "int goto_L;\n", lambda n: f"int goto_L_{n + 2};\n", "",
        lambda n: f"void f{n}(void){{L:goto L;}}\n"),
    "guards whose names are taken but one": two(
        "int goto_L;\n", lambda n: f"int goto_L_{n + 2 + (n > 99)};\n", "",
        lambda n: f"void f{n}(void){{int goto_L_102;L:goto L;}}\n"),
    "variables whose names are taken": two(
        "int a;\n", lambda n: f"int a_{n + 2};\n", "", lambda n: f"void f{n}(void){{int a;L:goto L;}}\n"),
    "switches whose names are taken": two(
        "int switch_1;\n", lambda n: f"int switch_1_{n + 2};\n", "",
        lambda n: f"void f{n}(int a){{switch(a){{case 1:if(a)case 2:a++;}}}}\n"),
    # switches and calls
    "cases": switch(lambda n: f"case {n}: a++;\n", ""),
    "cases that fall through": switch(lambda n: f"case {n}:\n", "a++; "),
    "cases beside a nested one": switch(lambda n: f"case {n}:;\n", "", "", "case -1: while (a) { case -2: a++; }\n"),
    "cases with a label each": switch(lambda n: f"case {n}: l{n}: goto l{n};\n", ""),
    "cases of enum constants": two(
        "enum { e", lambda n: f", e{n}", " };\nint main(void) {\nint a = 0;\nswitch (a) {\n", lambda n: f"case e{n}:;\n",
        "} return a; }\n"),
    "cases in a loop": switch(lambda n: f"case {n + 1}:;\n", "} ", "while (1) { "),
    "cases in a loop behind a default": switch(lambda n: f"case {n + 1}:;\n", "} ", "while (1) { ", "default:;\n"),
    "blocks 390 deep that end a case": switch(
        lambda n: f"case {n}: " + "{" * 380 + "break;" + "}" * 380 + "\n", "case -1: if (a) goto L; ", "L: "),
    "nested cases in functions": kind("", parts.cases_inside),
    "switches": main_with("switch (a) { case 1: a++; break; default: a--; }\n", "int a;\n"),
    "calls": main_with("f(1, a, f(2, 3, a));\n", "int a; int f(int x, int y, int z);\n"),
    "one call": parts.one_call,
    "printf": main_with("printf(\"%d %x\\n\", a, a);\n", "int a;\n"),
    "one printf": parts.one_printf,
    "a function of many variables that calls itself": parts.called("return f();", "return f();"),
    "a function of many variables that writes to its last one and calls itself": parts.writing(1 << 30),
    "a function of many variables that writes to each 1,000th and calls itself": parts.writing(1000),
    "a function of many variables in a loop": parts.called("return 1;", "while (f()); return 0;"),
    # 390 bytes are written for each that is read, so a quarter of a text is written as 100 MB
    "arrays of 1,024 cells, a quarter of a text": parts.quarter(kind("", parts.cells)),
    "arrays of 65,536 cells": kind("", lambda n: f"int a{n}[65536];\n", "int main(void) { return 0; }\n"),
    # jumps
    "66 labels, 132 gotos": kind("", parts.tangled),
    "gotos in one function": main_with(lambda n: f"l{n}: a++; if (a == {n}) goto l{n};\n", "int a;\n"),
    "gotos far back": main_with("goto l;\n", "int a;\n", "l: return 0; }\n"),
    "gotos nested in switches": kind("", parts.switched),
    "60 gotos over all of it": over(lambda i: f"if (a == {i}) goto l{i};\n", lambda i: f"l{i}: a--;\n"),
    "60 gotos back over all of it": over(lambda i: f"l{i}: a--;\n", lambda i: f"if (a == {i}) goto l{i};\n"),
    "60 gotos into ifs in front": kind("", parts.inward),
    "60 gotos into ifs in front of all of it": beside(parts.jumps_in(60)),
    "60 gotos into ifs behind all of it": beside("", parts.jumps_in(60)),
    "22 gotos out of 330 ifs in front of all of it": beside(parts.jumps_out(22, 330)),
    "22 gotos out of 330 ifs behind all of it": beside("", parts.jumps_out(22, 330)),
    "66 gotos in front of all of it": beside(parts.jumps_back(66)),
    "66 gotos behind all of it": beside("", parts.jumps_back(66)),
    "130 gotos over nothing in front of all of it": beside(parts.jumps_over_nothing(65)),
    "130 gotos over nothing behind all of it": beside("", parts.jumps_over_nothing(65)),
    # guards
    "a guard in each function": kind("", parts.guarded),
    "guards of loops, 100 in a function": guards(100, SET),
    "guards of loops, 1,000 in a function": guards(1000, SET),
    "guards of loops, all in one function": parts.all_guards(SET),
    "guards of loops, all in one block of a function": parts.all_guards(SET, "{\n", "}\n"),
    "guards of loops, all in one section of a switch": parts.all_guards(SET, "switch (a) { case 1:\n", "break; }\n"),
    "guards of loops, all in one loop, which ends with `g = 0;`": parts.all_guards(SET, "while (a) {\n", "}\n"),
    "guards of turns, 1,000 in a function": guards(1000, "while (a) { # = a == 3; if (!#) { a--; } # = 0; }\n"),
    "guards that stay, 1,000 in a function": guards(1000, "while (!# && a) { # = a == 3; a--; }\n# = 0;\n"),
    "guards of loops, all in one loop, each set by `!g` of its guard": parts.all_guards(
        "while (!# && a) { a--; # = !q; }\n# = 0;\n", "int q = 0;\nwhile (a) {\nif (a == 7) { q = 1; }\n", "q = 0;\n}\n"),
    "guards of loops, all in one block, each set by `!a` of a parameter": parts.all_guards(
        "while (!# && a) { a--; # = !a; }\n# = 0;\n", "{\n", "}\n"),
    "guards of loops, all in one loop, each set by `!g` and `!h` of two guards round it": parts.all_guards(
        "while (!# && a) { a--; if (a == 3) { # = !q; } else { # = !r; } }\n# = 0;\n",
        "int q = 0;\nint r = 0;\nwhile (!q && a) {\nwhile (!r && a) {\nif (a == 7) { q = 1; r = 1; }\n",
        "}\nr = 0;\n}\nq = 0;\n"),
    "guards of loops one inside the other": kind("", parts.deep_guards),
    "guards of 380 loops one inside the other round all of it": parts.guards_round("a++;\n"),
    "guards of 380 loops round all of it, each set at the end of its loop": parts.guards_round("a++;\n", "# = a == 3;\n"),
    "one guard with many sets": kind("", parts.many_sets),
    "one violation at the end": kind("", parts.ordinary, "int z(void) { return q; }\n"),
}
