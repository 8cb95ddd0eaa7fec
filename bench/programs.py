"""Programs that have one construct many times; bench/shapes measures them.

Each shape is legal C of the language of docs/profile.md, and its greatest size is near a limit: 262,144 words or 1 MiB of a file (M2 and M1),
1,048,576 words of all files (M4), a nesting of 512 (M5), 8,192 macros (M6), 256 files (M7), or the bytes of objects (M8).
"""

HIGH = 240  # operators one after the other in a pair of parentheses: their nesting is within M5, and eight of these within the height that a tree may have
MIB = 1048576


def many(form, count, between="\n"):
    """The form count times, with the number in the place of each @."""
    return between.join(form.replace("@", str(k)) for k in range(count))


def program(body, before=""):
    """One source, with a body of main and what stands before it."""
    return {"a.c": f"#include <assert.h>\n{before}\nint main(void) {{\n    int s = 1;\n{body}\n    return s & 1;\n}}\n"}


def chain(count):
    """Functions each of which calls the one before it."""
    first = "static int f0(int x) { return x; }\n"
    return program(f"    s = f{count - 1}(s);", first + "\n".join(f"static int f{k}(int x) {{ return f{k - 1}(x); }}" for k in range(1, count)))


def parameters(count):
    function = f"static int f({many('int p@', count, ', ')}) {{ return p0; }}"
    return program(f"    s = f({many('0', count, ', ')});", function)


def structure(count, body):
    return program(body, f"struct wide {{ {many('int m@;', count, ' ')} }};")


def tower(operand, count):
    """An expression that is count operators high, within nested parentheses."""
    text, left = "s", count
    while left > 0:
        text = f"({text}{operand * min(HIGH, left)})"
        left -= HIGH
    return program(f"    s = {text};")


def arrays(count):
    """Arrays of count bytes together, each of at most 1 MiB."""
    sizes = [MIB] * (count // MIB) + ([count % MIB] if count % MIB else [])
    before = "\n".join(f"static unsigned char a{k}[{size}];" for k, size in enumerate(sizes))
    return program("    s = " + " + ".join(f"a{k}[s]" for k in range(len(sizes))) + ";", before)


def roots(count, header="", body=""):
    """count sources and main, each with the header where there is one."""
    include = '#include "all.h"\n' if header else ""
    files = {"main.c": f"{include}int main(void) {{ return 0; }}\n", **({"all.h": header} if header else {})}
    return files | {f"r{k}.c": include + body.replace("@", str(k)) for k in range(count)}


def headers(count):
    files = {f"h{k}.h": f"#define H{k} {k}\n" for k in range(count)}
    return files | {"a.c": many('#include "h@.h"', count) + "\nint main(void) { return H0; }\n"}


FLIGHT_STYLE = """/* Channel @: integrates the error and limits the demand. */
static int integrate_@(int error, int gain)
{
    static int sum_@ = 0;          // kept from turn to turn
    if (error > LIMIT || error < -LIMIT) {
        error = (error > 0) ? LIMIT : -LIMIT;
    }
    for (int i = 0; i < 4; i++) {
        sum_@ += (error * gain) >> (i + 1);
        if ((sum_@ & 0xffu) == 'A') { sum_@ ^= 0x1fL; }
    }
    return sum_@ - LIMIT;
}
"""


def flight_style(count):
    return {"a.c": "#define LIMIT 1000\n" + many(FLIGHT_STYLE, count) + "int main(void) { return 0; }\n"}


# For each shape the greatest size, and what makes its files. The sources are those whose names end in .c.
SHAPES = {
    "locals": (50000, lambda n: program(many("    int v@ = 0;", n))),
    "declarators": (64000, lambda n: program(f"    int {many('v@ = 0', n, ', ')};")),
    "parameters": (50000, parameters),
    "blocks one after another": (23000, lambda n: program(many("    { int v = s; s = v; }", n))),
    "loops": (11500, lambda n: program(many("    for (int i = 0; i < 3; i++) { s = s ^ i; }", n))),
    "branches": (21000, lambda n: program(many("    if (s > @) { s = 0; }", n))),
    "breaks": (25000, lambda n: program("    for (int i = 0; i < 3; i++) {\n" + many("        if (s > @) { break; }", n) + "\n    }")),
    "objects": (52000, lambda n: program("", many("static int o@;", n))),
    "conditionals": (48000, lambda n: program("", many("#ifdef A@\n#endif", n))),
    "flight style": (2000, flight_style),
    "high operands": (8 * HIGH, lambda n: tower(" & 1", n)),
    "high conditions": (8 * HIGH, lambda n: tower(" && s", n)),
    "call chains": (16000, chain),
    "members": (80000, lambda n: structure(n, "    static struct wide w; s = w.m0;")),
    "members initialised": (50000, lambda n: structure(n, f"    struct wide w = {{ {many('@', n, ', ')} }}; s = w.m0;")),
    "members copied": (80000, lambda n: structure(n, "    static struct wide v; struct wide w = v; w = v; s = w.m0;")),
    "redeclarations": (65000, lambda n: program("", many("extern int x;", n))),
    "roots with one header": (240, lambda n: roots(n, many("extern int x@;", 1000) + "\n", "static int f@;\n")),
    "roots with one header of structures": (240, lambda n: roots(n, many("struct s@ { int m; };\nextern struct s@ o@;", 300) + "\n", "static int f@;\n")),
    "statics of one name": (12000, lambda n: program("", many("static int f@(int x) { static int n; n = x; return n; }", n))),
    "cases": (28000, lambda n: program("    switch (s) {\n" + many("    case @: s = 2; break;", n) + "\n    default: break;\n    }")),
    "literals": (37000, lambda n: program(many('    s = "text @"[0];', n))),
    "bytes of arrays": (4 * MIB, arrays),
    "elements that are set": (MIB // 4, lambda n: program(f"    for (int i = 0; i < {n}; i++) {{ a[i] = s; }}", f"static int a[{n}];")),
    "enumerators": (120000, lambda n: program("", f"enum {{ {many('e@', n, ',')} }};")),
    "fan-out": (13000, lambda n: program(many("    s = f@(s);", n), many("static int f@(int x) { return x; }", n))),
    "initialiser lists": (130000, lambda n: program("    s = a[s];", f"static int a[] = {{ {many('@', n, ',')} }};")),
    "assertions": (37000, lambda n: program(many("    assert(s >= 0);", n))),
    "macros": (8192, lambda n: {"a.c": many("#define m@ @", n) + "\nint main(void) {\n    int s = 1;\n" + many("    s = m@;", n) + "\n    return s;\n}\n"}),
    "parentheses": (504, lambda n: program(many(f"    s = {'(' * n}s{')' * n};", 250))),
    "headers": (255, headers),
    "roots": (254, lambda n: roots(n, body="int f@(int x) { return x; }\n")),
}


def sizes_of(name):
    """The four sizes of a shape, each three times the one before it."""
    most, _ = SHAPES[name]
    return [most // 27, most // 9, most // 3, most]


def files_of(name, size):
    """The texts of the files of a program, by name."""
    return SHAPES[name][1](size)
