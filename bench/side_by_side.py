"""Times a program on several runs of words, and another program beside it.

side_by_side.py ROOM RUNS FIRST PROGRAM [OTHER]

ROOM/workloads has a line for each row: its name, and behind a tab the words. Times are milliseconds, the best of RUNS runs,
in which the programs take turns; their output goes to /dev/null. Processor time is user and system time, with the start of
the process. FIRST is a word: with `first` a column has the ratio of the processor time to that of the first row. With OTHER
two more columns have its times and two the ratios to them; before that each program runs once, and what the two write and
their exit statuses are compared: a difference is told, and the status is then 1. With `audited` the words are `run RULES ..`,
whose reports may differ: each program audits its own instead.
"""
import os, sys, time

room, runs, to_first, programs = sys.argv[1], int(sys.argv[2]), sys.argv[3] == "first", sys.argv[4:]
is_audited = sys.argv[3] == "audited"


def run(program, words, out, err):
    """Runs a program, and returns its exit status, processor time and wall time, in milliseconds."""
    flags = os.O_WRONLY | os.O_CREAT | os.O_TRUNC
    files = [(os.POSIX_SPAWN_OPEN, 0, os.devnull, os.O_RDONLY, 0)]
    files += [(os.POSIX_SPAWN_OPEN, at, path, flags, 0o600) for at, path in ((1, out), (2, err))]
    start = time.perf_counter()
    pid = os.posix_spawn(program, [program, *words], os.environ, file_actions=files)
    _, status, used = os.wait4(pid, 0)
    wall = time.perf_counter() - start
    return status, 1000 * (used.ru_utime + used.ru_stime), 1000 * wall


def whole(path):
    with open(path, "rb") as it:
        return it.read()


def answer(program, words):
    """Returns what the program answers: its status and all that it writes."""
    out, err = f"{room}/out", f"{room}/err"
    status = run(program, words, out, err)[0]
    return status, whole(out), whole(err)


def verdict(program, words):
    """Returns what the program says of its own report: its statuses, and all that the audit writes."""
    report, out, err = f"{room}/report", f"{room}/out", f"{room}/err"
    ended = run(program, words, report, err)[0]
    return (ended, run(program, ["audit", words[1], report], out, err)[0]), whole(out), whole(err)


def best(words):
    """Returns the least processor and the least wall time of each program."""
    times = [[] for _ in programs]
    for _ in range(runs):
        for program, own in zip(programs, times):
            own.append(run(program, words, os.devnull, os.devnull)[1:])
    return [(min(cpu for cpu, _ in own), min(wall for _, wall in own)) for own in times]


def table(*rows):
    widths = [max(map(len, column)) for column in zip(*rows)]
    for row in rows:
        print("  ".join([row[0].ljust(widths[0])] + [it.rjust(n) for it, n in zip(row[1:], widths[1:])]))


has_other, differing, rows, first = len(programs) > 1, [], [], None
with open(f"{room}/workloads") as it:
    workloads = [line.rstrip("\n").split("\t") for line in it]
for name, *words in workloads:
    answers = [verdict(it, words) if is_audited else answer(it, words) for it in programs]
    if is_audited:
        answers.append(((0, 0), b"yes\n", b""))
    for part, *told in zip(("status", "output", "error output"), *answers):
        if any(it != told[-1] for it in told):
            differing.append(f"{name}: {part}")
    times = best(words)
    first = first or times[0]
    numbers = [*times[0]]
    if to_first:
        numbers.append(times[0][0] / first[0])
    if has_other:
        numbers += [*times[1], *(own / beside for own, beside in zip(times[0], times[1]))]
    rows.append([name, *(f"{it:.2f}" for it in numbers)])
head = [f"ms, best of {runs}", "cpu", "wall", *["to the first"] * to_first]
head += ["other cpu", "other wall", "cpu ratio", "wall ratio"] * has_other
table(head, *rows)
for it in differing:
    print(f"side_by_side: {'a report is not audited' if is_audited else 'the two programs differ'} in {it}", file=sys.stderr)
if differing:
    sys.exit(1)
if is_audited:
    print("Each report was audited.")
elif has_other:
    print("Both programs gave the same bytes and statuses.")
