"""Large sources, each near a limit of the language or deep in one construct, by name. Each takes its size."""

HEAD = "int a[9];\nint e(void);\nint z(void) { return 0; }\n"
MAIN = HEAD + "int main(void) {\n int x = e();\n"
END = " return 0;\n}\n"


def each(count, text):
    """So many pieces, `#` in them the number of each from 0, and `%` the remainder of that by 9."""
    return "".join(text.replace("#", str(k)).replace("%", str(k % 9)) for k in range(count))


def chain(count):
    """Functions each of which calls the next."""
    last = f"static int f{count}(int x) {{ return x; }}\n"
    calls = "".join(
        f"static int f{k}(int x) {{ a[x & 7] = x; return f{k + 1}(x + 1); }}\n"
        for k in reversed(range(count))
    )
    return HEAD + last + calls + "int main(void) { return f0(0); }\n"


def ring(count):
    """Functions each of which calls the next, and the last the first."""
    calls = "".join(
        f"int f{k}(int x) {{ if (x > 9) return 0; a[x & 7] = x; return f{(k + 1) % count}(x + 1); }}\n"
        for k in range(count)
    )
    return HEAD + each(count, "int f#(int x);\n") + calls + "int main(void) { return f0(0); }\n"


def fan(count):
    """Functions that all are called by one."""
    body = each(count, "static int f#(int x) { a[x & 7] = x; return x + #; }\n")
    return HEAD + body + "int main(void) {\n int x = 0;\n" + each(count, " x = f#(x);\n") + END


def table(count):
    """Functions that are called through a table."""
    body = each(count, "static int f#(int x) { a[x & 7] = x; return x; }\n")
    names = ", ".join(f"f{k}" for k in range(count))
    call = f" int i;\n for (i = 0; i < {count}; i++) x = t[i](x & 7);\n"
    return HEAD + body + f"int (*t[])(int) = {{ {names} }};\nint main(void) {{\n int x = 0;\n" + call + END


def functions(count):
    """Functions that nothing calls."""
    return each(count, "int f#(void) { return #; }\n") + "int main(void) { return 0; }\n"


def sites(count):
    """Accesses, a thousand in a function."""
    body = "static void f#(void) { " + "a[1]=1;" * 1000 + " }\n"
    return HEAD + each(count // 1000, body) + "int main(void) {\n" + each(count // 1000, " f#();\n") + END


def switch(count):
    """The cases of one switch, each with its break."""
    return MAIN + " switch (x) {\n" + each(count, " case #: a[%] = 1; break;\n") + " }\n" + END


def falling(count):
    """The cases of one switch, each of which falls through to the next."""
    return MAIN + " switch (x) {\n" + each(count, " case #: a[%] = 1;\n") + " }\n" + END


def leaving(count):
    """Ways out of one block, with changes between them."""
    return MAIN + " do {\n" + each(count, " a[%] = x;\n if (x == #) break;\n") + " } while (0);\n" + END


def branches(count):
    """Choices one after another."""
    return MAIN + each(count, " if (x == #) a[%] = 1; else a[0] = 2;\n") + END


def loops(count):
    """Loops one after another."""
    return MAIN + each(count, " for (x = 0; x < 9; x++) a[x] = #;\n") + END


def nested_loops(count):
    """Loops inside one another."""
    head = each(count, " int i#;\n") + each(count, " for (i# = 0; i# < 10; i#++)")
    return HEAD + "int b[99];\nint main(void) {\n" + head + f" b[i0 + i{count - 1}] = 1;\n" + END


def blocks(count):
    """Blocks inside one another."""
    return MAIN + "{" * count + " a[1] = x; " + "}" * count + END


def registers(count):
    """Variables of one function."""
    return MAIN + each(count, " int v# = a[%];\n") + END


def sums(count):
    """Variables of one function, each the sum of the one before and a number."""
    return MAIN + " int v0 = 1;\n" + "".join(f" int v{k} = v{k - 1} + 1;\n" for k in range(1, count)) + END


def one_function(count):
    """A function of so many statements with about a quarter as many variables."""
    number = 1
    body = []
    most = max(count * 4 // 15, 1)
    for _ in range(count):
        number = (1664525 * number + 1013904223) % 2**32
        v, w, n = number // 7 % most, number // 8192 % most, number // 65536 % 60 + 1
        body.append([
            f" v{v} = v{w} + {n % 9};\n",
            f" if (v{v} < {n}) v{w} = {n}; else v{v} = v{w};\n",
            f" b[v{v} & 63] = v{w};\n",
            f" for (v{v} = 0; v{v} < {n}; v{v}++) b[v{v}] = v{w};\n",
            f" while (v{v} < {n}) {{ v{v}++; if (v{v} > g) break; }}\n",
        ][number // 2**20 % 5])
    head = "int b[64];\nint g;\nint main(void) {\n" + each(most, " int v# = 0;\n")
    return head + "".join(body) + END


def pointers(count):
    """Arrays to all of which one pointer may point."""
    return each(count, "int c#[5];\n") + "int main(void) {\n int *p = 0;\n" + each(count, " p = c#;\n") + " p[0] = 1;\n" + END


def members(count):
    """Members of one structure."""
    use = f" s.m{count - 1} = 1;\n"
    return "struct {\n" + each(count, " int m#;\n") + "} s;\nint z(void) { return 0; }\nint main(void) {\n" + use + END


def values(count):
    """Elements of one initialiser."""
    return HEAD + "int b[] = { " + "1, " * count + "0 };\nint main(void) { return b[1]; }\n"


def enumerators(count):
    """Constants of one enumeration."""
    return HEAD + "enum { " + each(count, "e#, ") + "last };\nint main(void) { return last; }\n"


def types(count):
    """Names of types, each a pointer to the one before."""
    chain = "".join(f"typedef t{k} *t{k + 1};\n" for k in range(count))
    return HEAD + "typedef int t0;\n" + chain + "int main(void) { return 0; }\n"


def objects(count):
    """Static objects."""
    return HEAD + each(count, "int g#;\n") + "int main(void) { return g0; }\n"


def again(count):
    """Declarations of one function."""
    return HEAD + "int f(int);\n" * count + "int main(void) { return 0; }\n"


def empty(count):
    """Empty statements."""
    return HEAD + "int main(void) {\n" + ";" * count + END


def open_brackets(count):
    """Parentheses that nothing closes."""
    return HEAD + "int main(void) { return " + "(" * count


def stars(count):
    """Stars of one declarator."""
    return HEAD + "int " + "*" * count + "p;\n"


def comment(count):
    """Bytes of one comment."""
    return "/*" + "x" * count + "*/ int main(void) { return 0; }\n"


def lines(count):
    """Empty lines."""
    return "\n" * count + "int main(void) { return 0; }\n"


def directives(count):
    """Directives, each with a new name."""
    return each(count, '# 1 "f#"\n') + "int main(void) { return 0; }\n"


LARGE = {
    "chain": (chain, 3000), "ring": (ring, 3000), "fan": (fan, 15000), "table": (table, 3000),
    "functions": (functions, 19999), "sites": (sites, 400_000), "switch": (switch, 10000),
    "falling": (falling, 10000), "leaving": (leaving, 10000), "branches": (branches, 7000),
    "loops": (loops, 5000), "nested_loops": (nested_loops, 12), "blocks": (blocks, 250),
    "registers": (registers, 5000), "sums": (sums, 8000), "one_function": (one_function, 1500),
    "pointers": (pointers, 10000), "members": (members, 100_000), "values": (values, 2_000_000),
    "enumerators": (enumerators, 500_000), "types": (types, 200_000), "objects": (objects, 400_000),
    "again": (again, 500_000), "empty": (empty, 4_000_000), "open_brackets": (open_brackets, 4_000_000),
    "stars": (stars, 4_000_000), "comment": (comment, 16_000_000), "lines": (lines, 16_000_000),
    "directives": (directives, 65_000),
}
