#!/usr/bin/env python3
"""Writes the text of a generated model: a source, so many stages joined by fifos, and a drain that stops the run.

usage: bench/gen/text.py STAGES ITEMS SEED

It was written from the definition alone: what `ooo_gen` makes is compared with it. bench/run measures its models.
"""
import sys

MODULES = """\
#include <systemc.h>
SC_MODULE(Source) { sc_fifo_out<int> out;
  void run() { for (int i = 0; i < ITEMS; i++) { out.write(i); wait(1, SC_NS); } }
  SC_CTOR(Source) { SC_THREAD(run); } };
SC_MODULE(Stage) { sc_fifo_in<int> in; sc_fifo_out<int> out; const int add; const int gap;
  SC_HAS_PROCESS(Stage);
  Stage(sc_module_name n, int a, int g) : sc_module(n), add(a), gap(g) { SC_THREAD(run); }
  void run() { while (true) { int v = in.read(); wait(gap, SC_NS); out.write(v + add); } } };
SC_MODULE(Drain) { sc_fifo_in<int> in;
  void run() { for (int i = 0; i < ITEMS; i++) { int v = in.read(); cout << v << endl; } sc_stop(); }
  SC_CTOR(Drain) { SC_THREAD(run); } };
"""


def stage_lines(stages, seed):
    """Yields the line of each stage, with what it adds and how many nanoseconds it takes."""
    x = seed % 2**31
    for k in range(1, stages + 1):
        x = (x * 1103515245 + 12345) % 2**31
        yield f'  Stage g{k}("g{k}", {x % 100}, {1 + (x // 100) % 9});\n'


def text(stages, items, seed):
    parts = [MODULES.replace("ITEMS", str(items))]
    parts.append("int sc_main(int argc, char* argv[]) {\n")
    parts.extend(f"  sc_fifo<int> f{k}(4);\n" for k in range(stages + 1))
    parts.append('  Source s("s");\n')
    parts.extend(stage_lines(stages, seed))
    parts.append('  Drain d("d");\n')
    parts.append("  s.out(f0);\n")
    parts.extend(f"  g{k}.in(f{k - 1}); g{k}.out(f{k});\n" for k in range(1, stages + 1))
    parts.append(f"  d.in(f{stages});\n")
    parts.append("  sc_start(1, SC_SEC);\n")
    parts.append("  return 0;\n")
    parts.append("}\n")
    return "".join(parts)


if __name__ == "__main__":
    if len(sys.argv) != 4:
        sys.exit(__doc__)
    print(text(*map(int, sys.argv[1:])), end="")
