"""Sources that no tool can port: cut, binary, large, deep, and with headers and macros that do not end."""


def hostile(text):
    """The bytes of hostile sources by their names, some of them made of a source that is ported."""
    return {
        "cut_early": text[: len(text) // 5], "cut_in_a_word": text[: len(text) // 2 + 3], "cut_at_the_end": text[: len(text.rstrip()) - 1],
        "empty": b"", "binary": b"int x;\n" + bytes(range(256)) * 8000, "no_utf_8": text.replace(b"void", b"v\xff\xfeid", 1),
        "large": text + b"".join(b"void F%d(tapa::ostream<int>& q) { q << %d; }\n" % (at, at) for at in range(46000)),
        "deep_parentheses": b"#include <tapa.h>\nvoid Bfs(int n) { int x = " + b"(" * 30000 + b"n" + b")" * 30000 + b"; }\n",
        "deep_blocks": b"#include <tapa.h>\nvoid Bfs(int n) { " + b"if (n) { " * 5000 + b"}" * 5000 + b" }\n",
        "sum_of_many": b"#include <tapa.h>\nvoid Bfs(int n) { int x = n" + b" + n" * 20000 + b"; }\n",
        "own_header": b'#include "own_header.cpp"\n' + text,
        "macros": b"".join(b"#define M%d(x) M%d(x) + M%d(x)\n" % (at, at - 1, at - 1) for at in range(1, 30)) + b"#define M0(x) x\n" + text + b"\nvoid G(int n) { n = M29(n); }\n",
        "templates": b"#include <tapa.h>\ntemplate <int N> int Of(int x) { return Of<N + 1>(x) + 1; }\nvoid Bfs(int n) { n = Of<0>(n); }\n",
        "recursion": b"#include <tapa.h>\nint Of(int x) { return x ? Of(x - 1) + 1 : 0; }\nvoid Bfs(int n) { n = Of(n); }\n",
        "unrolling": b"#include <tapa.h>\nvoid W(tapa::istreams<int, 64>& q) { for (int i = 0; i < 64; ++i) for (int j = 0; j < 64; ++j) for (int k = 0; k < 64; ++k) q[(i + j + k) % 64].read(); }\n"
                     b"void Bfs() { tapa::streams<int, 64> q; tapa::task().invoke(W, q); }\n",
    }
