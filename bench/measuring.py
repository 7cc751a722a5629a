"""Times, peaks of memory and counted instructions of the rows, on this machine."""
import hashlib, os, pathlib, re, statistics, subprocess, sys, tempfile, time

from programs import installed

# The spread above which a row is too noisy: as a part, and in seconds, below which no process can be timed.
CALM, CALM_THREADS, CALM_SECONDS = 0.10, 0.40, 0.0003


def one_run(job, side):
    """The seconds of one run, of the whole process or as the process reports them; and its result: a checksum of its
    output, or the sum of what it read."""
    command = [str(word) for word in job.sides[side]]
    with open(job.stdin or os.devnull, "rb") as source, tempfile.TemporaryFile() as sink:
        start = time.perf_counter()
        done = subprocess.run(command, stdin=source, stdout=sink)
        wall = time.perf_counter() - start
        if done.returncode != 0:
            sys.exit(f"run: {' '.join(command)} ended with status {done.returncode}")
        sink.seek(0)
        if job.by == "inside":
            nanos, answer = sink.read().split()
            return int(nanos) / 1e9, answer
        return wall, hashlib.md5(sink.read()).hexdigest()


def peak_memory(job, side):
    """The peak memory of one run in KiB, by `time`: for a child of this process, the system would count this process."""
    command = [installed("time", "/usr/bin/time"), "-f", "%M", "-o"]
    with open(job.stdin or os.devnull, "rb") as source, tempfile.NamedTemporaryFile() as report:
        subprocess.run(
            [*command, report.name, *(str(word) for word in job.sides[side])],
            stdin=source,
            stdout=subprocess.DEVNULL,
            check=True,
        )
        return int(report.read())


def spread_of(times, threads):
    """The spread of the times in seconds, and the time that counts."""
    if threads == 1:
        return statistics.median(times) - min(times), min(times)
    low, middle, high = statistics.quantiles(times, n=4)
    return high - low, middle


def measure_once(job, rounds):
    """Runs all sides in turn. If it is repeated, the fastest runs count; with several threads, the calmest repetition."""
    runs, answers = {side: [] for side in job.sides}, set()
    for _ in range(rounds):
        for side in job.sides:
            seconds, answer = one_run(job, side)
            runs[side].append(seconds)
            if side not in job.references:
                answers.add(answer)
    # With several threads, what they read depends on their order.
    if job.threads == 1 and len(answers) != 1:
        sys.exit(f"run: {job.group}, {job.name}: the sides return different results: {answers}")
    before = job.times, job.spread, job.noisy
    if job.threads == 1:
        job.runs = {side: sorted(job.runs.get(side, []) + times)[:rounds] for side, times in runs.items()}
        runs = job.runs
    spreads = {side: spread_of(times, job.threads) for side, times in runs.items()}
    job.times = {side: taken for side, (_width, taken) in spreads.items()}
    job.spread = max(spreads[side][0] / spreads[side][1] for side in job.shown())
    limit = CALM if job.threads == 1 else CALM_THREADS
    job.noisy = any(spreads[side][0] > limit * spreads[side][1] + CALM_SECONDS for side in job.shown())
    if job.threads > 1 and before[0] and before[1] < job.spread:
        job.times, job.spread, job.noisy = before


def measure(jobs, rounds, minutes):
    """Measures all rows, and then the noisy ones up to two more times, until the minutes are over."""
    begun = time.monotonic()
    for turn in range(3):
        for job in [job for job in jobs if turn == 0 or job.noisy]:
            if turn == 0 or time.monotonic() - begun < 60 * minutes:
                measure_once(job, max(3, round(rounds * job.often)))
                shown = ", ".join(f"{side} {seconds * 1000:.1f} ms" for side, seconds in job.times.items())
                print(
                    f"[{time.monotonic() - begun:.0f} s] {job.group}, {job.name}: {shown}; spread {job.spread:.0%}{' NOISY' if job.noisy else ''}",
                    flush=True,
                )
    print(f"[{time.monotonic() - begun:.0f} s] all times are taken; now the peaks of memory", flush=True)
    for job in jobs:
        job.memory = {side: peak_memory(job, side) for side in job.sides}


def counted(job, side):
    """Instructions, misses of the first and of the last cache, and mispredicted branches, of a whole run in cachegrind."""
    command = [
        installed("valgrind", "/usr/bin/valgrind"),
        "--tool=cachegrind",
        "--cache-sim=yes",
        "--branch-sim=yes",
        "--cachegrind-out-file=/dev/null",
    ]
    with open(job.stdin or os.devnull, "rb") as source:
        done = subprocess.run(
            [*command, *(str(word) for word in job.sides[side])],
            stdin=source,
            stdout=subprocess.DEVNULL,
            stderr=subprocess.PIPE,
            text=True,
        )
    figures = [
        re.search(rf"{name}:\s+([\d,]+)", done.stderr)
        for name in ("I\\s+refs", "D\\d\\s+misses", "LLd misses", "Mispredicts")
    ]
    return [int(figure.group(1).replace(",", "")) for figure in figures]


def count(jobs):
    for job in jobs:
        if job.threads == 1:
            figures = {side: counted(job, side) for side in job.sides}
            shown = "; ".join(
                f"{side} {i / 1e6:.1f} M instructions, {d / 1e6:.2f} M first-level and {l / 1e6:.2f} M last-level misses, {b / 1e6:.2f} M mispredicted branches"
                for side, (i, d, l, b) in figures.items()
            )
            print(f"{job.group}, {job.name}: {shown}", flush=True)


def machine():
    model = re.search(r"^model name\s*: (.*)$", pathlib.Path("/proc/cpuinfo").read_text(), re.M)
    rustc = subprocess.run(["rustc", "--version"], capture_output=True, text=True).stdout.strip()
    kit = subprocess.run(["rt", "version"], capture_output=True, text=True).stdout.strip()
    return f"{os.cpu_count()} cores of {model.group(1) if model else 'an unnamed processor'}; {rustc}; {kit}"
