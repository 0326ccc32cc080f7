"""A unit of 256 procedures whose widths differ, and the time that its check takes.

  check.py unit          the text of the unit
  check.py time PROGRAM  times PROGRAM's check on u.py: the least of ten runs, and the most memory
  check.py z3            times Z3 on the same claims, each with a solver of its own: is there a point of the context that fails it?
"""
import resource
import subprocess
import sys
import time

COUNT = 256


def width(number):
    return 1 + (7 * (COUNT - 64) + 13 * number) % 97


def factor(number):
    return 1 + (COUNT - 64 + 3 * number) % 1000


def unit():
    for number in range(COUNT):
        w = width(number)
        print("@proc")
        print(f"def g{number}(n: size, x: i32[n, {w}], y: i32[n, {w}]):")
        print("    for i in seq(0, n):")
        print(f"        for j in seq(0, {w}):")
        print(f"            x[i, j] += y[i, j] * {factor(number)}")


def timed(program):
    best = None
    for _ in range(10):
        start = time.perf_counter()
        ran = subprocess.run([program, "check", "u.py"], capture_output=True, text=True)
        took = time.perf_counter() - start
        if ran.returncode != 0:
            sys.exit(ran.stderr)
        best = took if best is None else min(best, took)
    count = int(ran.stdout.split()[0])
    most = resource.getrusage(resource.RUSAGE_CHILDREN).ru_maxrss
    print(f"exoc: {count} obligations in {best * 1000:.1f} ms, {count / best:.0f} a second, {most // 1024} MB")


def claims(z3, w):
    """What one procedure has to show: each with the context of its place."""
    n, i, j = z3.Ints("n i j")
    place = [n >= 1, i >= 0, i < n, j >= 0, j < w]
    for _ in ("x", "y"):
        yield [n >= 1], n >= 1
        yield [n >= 1], z3.IntVal(w) >= 1
    for _ in ("x", "y"):
        yield place, i >= 0
        yield place, i < n
        yield place, j >= 0
        yield place, j < w


def timed_z3():
    import z3
    count = 0
    start = time.perf_counter()
    for number in range(COUNT):
        for context, claim in claims(z3, width(number)):
            solver = z3.Solver()
            solver.add(*context, z3.Not(claim))
            if solver.check() != z3.unsat:
                sys.exit("Z3 has a point")
            count += 1
    took = time.perf_counter() - start
    print(f"z3:   {count} claims in {took * 1000:.1f} ms, {count / took:.0f} a second")


if __name__ == "__main__":
    if sys.argv[1] == "unit":
        unit()
    elif sys.argv[1] == "time":
        timed(sys.argv[2])
    else:
        timed_z3()
