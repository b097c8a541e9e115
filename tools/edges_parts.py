"""What the texts of edges_kinds are made of."""


def filled(most, front, part, behind):
    """As many parts as fit: a text, or a function of their number."""
    made, size, number = [], most - len(front) - len(behind), 0
    while True:
        piece = part(number) if callable(part) else part
        size -= len(piece)
        if size < 0:
            return front + "".join(made) + behind
        made.append(piece)
        number += 1


def kind(front, part, behind=""):
    return lambda most: filled(most, front, part, behind)


def main_with(part, front="", behind="return 0; }\n", before=""):
    return kind(front + "int main(void) {\n" + before, part, behind)


def two(front, first, middle, second, behind=""):
    """Half of the text of the first parts, the rest of the second."""
    return lambda most: filled(most, filled(most // 2, front, first, middle), second, behind)


def each(count, part):
    return "".join(part(i) for i in range(count))


def ordinary(number):
    return (f"int f{number}(int a, int b) {{\n    int i;\n    for (i = 0; i < a; i++) {{\n        if (a % (i + 1) == b)\n"
            f"            return i;\n        b = b * 3 + i; /* step */\n    }}\n    while (b > 10)\n        b = b / 2;\n"
            f"    return a + b;\n}}\n")


def jumpy(number):
    return (f"int f{number}(int a, int b) {{\n    int i;\n    for (i = 0; i < a; i++) {{\n"
            f"        if (a % (i + 1) == b) goto done;\n        if (b == 7) goto again;\n    }}\n"
            f"again:\n    b = b / 2;\n    if (b > 10) goto again;\ndone:\n    return a + b;\n}}\n")


def nested(opening, closing, middle, depth=390):
    """Constructs so deep, as often as they fit."""
    return main_with(opening * depth + middle + closing * depth + "\n", "int a;\n")


def function(number, body):
    return f"int f{number}(int a) {{\n{body}return a; }}\n"


def guarded(number):
    return (f"int f{number}(int a) {{\n    int i;\n    int g = 0;\n    i = 0;\n    while (!g && i < a) {{\n"
            f"        g = a % (i + 1) == 7;\n        if (!g) {{\n            i++;\n        }}\n    }}\n    g = 0;\n"
            f"    return i;\n}}\n")


def guards(count, part):
    """Functions with so many guards each, of which each has its part."""
    declared = each(count, lambda i: f"int g{i} = 0;\n")
    return kind("", lambda n: function(n, declared + each(count, lambda i: part.replace("#", f"g{i}"))))


def all_guards(part, before="", behind=""):
    """One function with as many guards as fit, of which each has its part; these parts stand between two texts."""
    def declared(i):
        return f"int g{i} = 0;\n"

    def used(i):
        return part.replace("#", f"g{i}")

    def text(most):
        count, size = 0, len(function(0, before + behind))
        while size + len(declared(count) + used(count)) <= most:
            size += len(declared(count) + used(count))
            count += 1
        return function(0, each(count, declared) + before + each(count, used) + behind)
    return text


def loops_with_guards(depth, end=""):
    """Loops one inside the other, with a guard each, of which the innermost sets its own: the text in front of theirs, and
    behind. Each loop but the innermost ends with this text."""
    declared = each(depth, lambda i: f"int g{i} = 0;\n")
    opened = each(depth, lambda i: f"while (!g{i} && a) {{\n")
    innermost = depth - 1
    closed = each(innermost, lambda i: "}\ng%d = 0;\n" % (innermost - i) + end.replace("#", f"g{innermost - 1 - i}"))
    return declared + opened, f"a--;\ng{innermost} = a == 3;\n" + closed + "}\ng0 = 0;\n"


def deep_guards(number):
    return function(number, "".join(loops_with_guards(90)))


def guards_round(part, end="", depth=380):
    """As many parts as fit, inside so many loops with a guard each, of which each ends with this text."""
    front, behind = loops_with_guards(depth, end)
    return kind("int f(int a) {\n" + front, part, behind + "return a; }\n")


def many_sets(number):
    ifs = "g = a == 3;\nif (!g) {\n" * 380 + "a--;\n" + "}\n" * 380
    return function(number, "int g = 0;\nwhile (!g && a) {\n" + ifs + "}\ng = 0;\n")


def tangled(number):
    return function(number, each(66, lambda i: f"l{i}: a++;\nif (a == {i}) goto l{65 - i};\n"))


def switched(number):
    def part(i):
        return (f"switch (a) {{ case {i}: while (a) {{ if (a == 3) goto m{i}; l{i}: a--; }} break; "
                f"default: goto l{i * 7 % 30}; m{i}: a++; }}\n")
    return function(number, each(30, part))


def jumps_in(count):
    """Jumps into ifs one inside the other."""
    inside = each(count, lambda i: f"if (a > {i}) {{ L{i}: a++;\n") + "}" * count + "\n"
    return inside + each(count, lambda i: f"if (a == {i}) goto L{i};\n")


def jumps_out(count, depth):
    """Jumps out of ifs one inside the other, to one label behind them."""
    return "if (a) {\n" * depth + each(count, lambda i: f"if (a == {i}) goto l;\n") + "}" * depth + "\nl: a--;\n"


def jumps_back(count):
    return each(count, lambda i: f"l{i}: if (a == {i}) goto l{i};\n")


def jumps_over_nothing(count):
    return each(count, lambda i: f"if (a == 1) goto l{i};\nif (a == 2) goto l{i};\nl{i}: ;\n")


def beside(before, behind=""):
    """Jumps in front of very many statements, or behind them, in one function."""
    return main_with("a++;\n", "int a;\n", behind + "return 0; }\n", before)


def over(before, behind):
    """Jumps over very many statements."""
    return main_with("a++;\n", "int a;\n", each(60, behind) + "return 0; }\n", each(60, before))


def inward(number):
    return function(number, jumps_in(60))


def cells(number):
    return function(number, "L: if (a > 3) goto L;\n" + "{ int b[1024] = {1}; a = b[3]; }\n" * 4)


def quarter(text):
    """A text of a quarter of the size that is asked for."""
    return lambda most: text(most // 4)


def cases_inside(number):
    cases = each(40, lambda i: f"case {2 * i}: while (a) {{ case {2 * i + 1}: a--; }}\n")
    return function(number, "switch (a) {\n" + cases + "}\n")


def hiding(number):
    """Variables of one name, each in the block of the one before."""
    return function(number, "L: if (a > 9) goto L;\n" + "{int a;a=1;" * 390 + "}" * 390)


def with_variables(number):
    return function(number, "{int b;" * 390 + "a++;b=a;" * 60 + "}" * 390)


def one_call(most):
    """One call with as many arguments as fit."""
    count = (most - 80) // 6
    return "int f(int" + ",int" * count + ");\nint main(void) {\nint a = 0;\nf(a" + ",a" * count + ");\nreturn 0; }\n"


def one_printf(most):
    count = (most - 80) // 4
    return "int main(void) {\nint a = 0;\nprintf(\"" + "%d" * count + "\"" + ",a" * count + ");\nreturn 0; }\n"


def switch(part, behind, before="", first=""):
    """A switch with such cases."""
    return kind("int a; int main(void) { " + before + "switch (a) {\n" + first, part, behind + "} return 0; }\n")


def called(first, main):
    """A function with as many variables as fit, behind its first statement, and a main function."""
    return kind("int f(void) {\n" + first + "\n", lambda n: f"int a{n};\n", "}\nint main(void) { " + main + " }\n")


def writing(step):
    """A function with as many variables as fit, which jumps over them, writes to some and to the last, and calls itself."""
    def text(most):
        front = filled(most - 200 - 2 * most // step, "int f(void) {\ngoto L;\n", lambda n: f"int a{n};\n", "L:\n")
        count = front.count("int a")
        written = "".join(f"a{i} = 1;\n" for i in [*range(0, count, step), count - 1])
        return front + written + "return f(); }\nint main(void) { return f(); }\n"
    return text
