#!/usr/bin/env python3
"""Times a program in whole runs, beside another one where it is named: what bench/compare.sh prints."""

import argparse
import filecmp
import math
import os
import pathlib
import statistics
import subprocess
import sys
import tempfile

SIZES = (1, 2, 4, 8)
TABLE_LIMIT = 16_777_216


def counter():
    return "model C Integer x; equation when Clock(1, 1000) then x = previous(x) + 1; end when; end C;\n"


def partitions(count):
    """Base partitions at six rates, each of which samples the held value of the one before it."""
    rates = (1000, 500, 250, 200, 125, 100)
    declared = "".join(f"Integer x{k}(start = {k % 7}); Integer h{k};\n" for k in range(count))
    clocked = "".join(
        f"when Clock(1, {rates[k * 5 % 6]}) then x{k} = mod(previous(x{k}) * 31 + "
        + (f"sample(h{k - 1}) + {k}, 100000" if k % 50 else f"{k}, 1000")
        + f"); end when;\nh{k} = hold(x{k}) - {k};\n"
        for k in range(count)
    )
    return f"model P\n{declared}equation\n{clocked}end P;\n"


def components(count):
    """Components of a library with short connectors, three names each, joined by connections."""
    library = """connector In = input Integer;
connector Out = output Integer;
block Gain "gain"
  parameter Integer k = 1;
  In u;
  Out y(start = 3);
equation
  y = if u > k then u - k else max(u, mod(k * 3 + u, 1000));
end Gain;
"""
    declared = "".join(f"  Gain c{k}(k = {k % 977});\n" for k in range(count))
    joined = "".join(f"  connect(c{k - 1}.y, c{k}.u);\n" if k % 4 else f"  c{k}.u = c{k - 1}.y + 1;\n" for k in range(1, count))
    return f"{library}model M\n{declared}equation\n  c0.u = 5;\n{joined}end M;\n"


def classes(count):
    """Classes each of which has a component of the one before it."""
    return "block C0 Integer v = 1; end C0;\n" + "".join(f"block C{k} Integer v = {k}; end C{k};\n" for k in range(1, count))


def modifications(count):
    declared = "".join(f"Integer x{k};" for k in range(count))
    given = ",".join(f"x{k}={k}" for k in range(count))
    return f"block A {declared} end A; model M A a({given}); end M;\n"


def partition(count):
    """One base partition, of equations that stand in blocks of eight in the reverse order of use."""
    def equation(k):
        if k == 0:
            return "x0 = mod(previous(x0) + 1, 10007);"
        if k % 3 == 0:
            return f"x{k} = if x{k - 1} > previous(x{k}) then x{k - 1} - 1 else min(x{k - 1} + {k % 13}, 9999);"
        if k % 3 == 1:
            return f"x{k} = mod(previous(x{k}) * 3 + x{k - 1}, 10007);"
        return f"x{k - 1} - x{k} = div(previous(x{k}), 2) - {k % 11};"

    order = [k ^ 7 if k ^ 7 < count else k for k in range(count)]
    declared = "".join(f"Integer x{k}(start = {k % 1000});\n" for k in range(count))
    clocked = "\n".join(equation(k) for k in order)
    return f"model L\n{declared}equation\nwhen Clock(1, 100) then\n{clocked}\nend when;\nend L;\n"


def table_rows(most, limit=TABLE_LIMIT):
    """Rows of a time in thousandths and a value, as many as fit."""
    rows, size = ["time,u\n"], 7
    for k in range(most):
        row = f"{k // 1000}.{k % 1000:03},{k * 7919 % 20011 - 5000}\n"
        size += len(row)
        if size > limit:
            break
        rows.append(row)
    return "".join(rows)


def reading():
    return "model T input Integer u; Integer y = div(u * 7, 3) - 1; end T;\n"


class Bench:
    def __init__(self, programs, runs, folder):
        self.programs, self.runs, self.folder = programs, runs, folder

    def put(self, name, make, *sizes):
        """Writes a text, made in a process of its own: what this one holds would count as held by the runs that it starts."""
        path = self.folder / name
        child = os.fork()
        if child == 0:
            path.write_text(make(*sizes))
            os._exit(0)
        if os.waitpid(child, 0)[1] != 0:
            sys.exit(f"bench: {path} was not written")
        return str(path)

    def once(self, program, words, out):
        """The processor seconds and the most bytes that a run holds."""
        with open(out, "wb") as to:
            process = subprocess.Popen([program, *words], stdout=to, stderr=subprocess.DEVNULL)
            _, status, usage = os.wait4(process.pid, 0)
            process.returncode = os.waitstatus_to_exitcode(status)
        if process.returncode != 0:
            sys.exit(f"bench: {program} {' '.join(words)} ended with status {process.returncode}")
        return usage.ru_utime + usage.ru_stime, usage.ru_maxrss * 1024

    def medians(self, words):
        """For each program the median of its seconds and the most bytes; the runs of the programs take turns."""
        taken = [[] for _ in self.programs]
        for _ in range(self.runs):
            for at, program in enumerate(self.programs):
                taken[at].append(self.once(program, words, self.folder / f"out{at}"))
        return [(statistics.median(seconds for seconds, _ in one), max(held for _, held in one)) for one in taken]

    def case(self, name, words):
        figures = self.medians(words)
        seconds, held = figures[0]
        cells = [name, f"{seconds:.3f}", f"{held / 1e6:.1f}"]
        if len(figures) == 2:
            other_seconds, other_held = figures[1]
            same = filecmp.cmp(self.folder / "out0", self.folder / "out1", shallow=False)
            cells += [f"{seconds / max(other_seconds, 1e-4):.1f}", f"{held / other_held:.1f}", "yes" if same else "no"]
        print("| " + " | ".join(cells) + " |", flush=True)

    def growth(self, name, words_of):
        empty = self.medians([self.put("empty.mo", counter), "--stop", "0"])[0][0]
        points = []
        for size in SIZES:
            seconds = self.medians(words_of(size))[0][0]
            points.append((math.log(size), math.log(max(seconds - empty, 1e-4))))
        middle = [statistics.mean(axis) for axis in zip(*points)]
        slope = sum((x - middle[0]) * (y - middle[1]) for x, y in points) / sum((x - middle[0]) ** 2 for x, _ in points)
        print(f"| {name} | {slope:.2f} |", flush=True)


def main():
    parser = argparse.ArgumentParser(description=__doc__)
    parser.add_argument("program")
    parser.add_argument("other", nargs="?")
    parser.add_argument("--runs", type=int, default=5)
    options = parser.parse_intermixed_args()
    programs = [os.path.abspath(program) for program in (options.program, options.other) if program]
    with tempfile.TemporaryDirectory() as folder:
        bench = Bench(programs, options.runs, pathlib.Path(folder))
        ratios = ["processor time to the other", "memory to the other", "same bytes"] if options.other else []
        print("| " + " | ".join(["Case", "Seconds", "MB", *ratios]) + " |")
        print("|" + " --- |" * (3 + len(ratios)))
        bench.case("counter, 1,000,001 rows", [bench.put("counter.mo", counter), "--stop", "1000"])
        bench.case("2,000 base partitions, 10,000 rows", [bench.put("partitions.mo", partitions, 2_000), "--stop", "9.999"])
        bench.case("20,000 components, 1 row", [bench.put("components.mo", components, 20_000), "--stop", "0"])
        rows = bench.put("rows.csv", table_rows, TABLE_LIMIT)
        reader = bench.put("reader.mo", reading)
        bench.case("a table of 16 MiB", [reader, "--stop", "1048575", "--table", rows])
        bench.case("5,000 equations, 2,000 ticks", [bench.put("partition.mo", partition, 5_000), "--stop", "19.99"])
        print("\n| What grows | Exponent |\n| --- | --- |")
        bench.growth("equations", lambda n: [bench.put("grown.mo", partition, 625 * n), "--stop", "19.99"])
        bench.growth("ticks", lambda n: [bench.put("grown.mo", counter), "--stop", str(125 * n)])
        bench.growth("rows of the table", lambda n: [reader, "--stop", "1048575", "--table", bench.put("grown.csv", table_rows, 125_000 * n)])
        bench.growth("text", lambda n: [bench.put("grown.mo", components, 2_500 * n), "--stop", "0"])
        bench.growth("modifications", lambda n: [bench.put("grown.mo", modifications, 2_500 * n), "--stop", "0"])
        bench.growth("classes", lambda n: [bench.put("grown.mo", classes, 2_500 * n), "--stop", "0"])


if __name__ == "__main__":
    main()
