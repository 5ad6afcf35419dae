# Runs engines and the plain engine in turns, and prints tables. Of each way the turn counts that took the least.
# Arguments: the program `aria`, which writes the scripts; the plain engine; a folder for scripts and catalogues; how
# many turns; the engines, each as NAME=PROGRAM; and the names of tables, if not all are wanted.
import itertools
import os
import re
import subprocess
import sys
import time

WORKERS = (1, 2, 4)
SIZES = {50: 600, 1_000: 40, 10_000: 5}
TPCC = (50, 40)

aria, plain, folder, turns = sys.argv[1:5]
engines = dict(word.split("=", 1) for word in sys.argv[5:] if "=" in word)
wanted = [word for word in sys.argv[5:] if "=" not in word]


class Load:
    """What is run: `size` is the keys of ycsb, the warehouses of tpcc, or how many chains there are. `share` is the reads of
    ycsb, whether warehouses are full, or how many rows the longest run of a chain reads. `hot` is of ycsb alone."""

    def __init__(self, kind, size, share, requests, batches, hot=0):
        self.kind, self.size, self.share, self.requests, self.batches, self.hot = kind, size, share, requests, batches, hot

    def words(self, workers, touched, batons):
        kind = ["ycsb", "tpcc", "chains"].index(self.kind)
        return [kind, self.size, self.share, touched, self.requests, self.batches, workers, batons, self.hot]

    def title(self):
        if self.kind == "ycsb":
            return f"ycsb {self.size:,} {self.share}%" + (f" hot {self.hot}" if self.hot else "")
        if self.kind == "chains":
            return f"{self.size} chains"
        return f"tpcc {self.size} {'full' if self.share else 'small'}"

    # The script of this load, which is written once.
    def script(self):
        file = f"{folder}/{self.kind}-{self.size}-{self.share}-{self.requests}-{self.batches}"
        if not os.path.exists(file):
            amount = ["--kind", self.kind, "--batches", self.batches, "--size", self.requests]
            if self.kind == "ycsb":
                own = ["--keys", self.size, "--reads", self.share, "--updates", 100 - self.share]
            else:
                customers, items = (3_000, 100_000) if self.share else (30, 100)
                own = ["--warehouses", self.size, "--customers", customers, "--items", items]
            with open(file + ".part", "wb") as out:
                subprocess.run([aria, "gen", *map(str, amount + own)], stdout=out, check=True)
            os.rename(file + ".part", file)
        return file

    def by_engine(self, name, workers, touched=0, batons=0):
        return [os.path.abspath(engines[name]), *map(str, self.words(workers, touched, batons))]

    def by_plain(self):
        return [os.path.abspath(plain), f"{folder}/{self.kind}.json", self.script()]


# The texts of the built-in catalogues, cut out of the sources.
def cut_catalogs():
    crates = os.path.join(os.path.dirname(os.path.abspath(__file__)), "../../crates")
    for kind in ("ycsb", "tpcc"):
        with open(f"{crates}/cat_builtin/src/{kind}.rt") as source, open(f"{folder}/{kind}.json", "w") as out:
            out.write(re.search(r'r#"(.*?)"#', source.read(), re.S)[1])


# What a process took of the processors so far, its threads that ended included, in nanoseconds.
def processors(pid):
    return time.clock_gettime_ns(((~pid) << 3) | 2)


def memory(pid, name):
    with open(f"/proc/{pid}/status") as status:
        return next(int(line.split()[1]) for line in status if line.startswith(name)) / 1e3


# What the processors of this machine did so far, and what they wanted to do while its host had taken them away.
def worked_and_stolen():
    with open("/proc/stat") as stat:
        user, nice, system, _, _, interrupts, others, stolen = map(int, stat.readline().split()[1:9])
    return user + nice + system + interrupts + others, stolen


# What the program told, the processor time of its batches, the hundredths of it that the host took away, and the most
# memory that it had, in MB.
def run(command):
    ran = subprocess.Popen(command, stdin=subprocess.PIPE, stdout=subprocess.PIPE)
    seen, machine = [], []
    for word in (b"ready\n", b"done\n"):
        assert ran.stdout.readline() == word, command
        seen.append(processors(ran.pid))
        machine.append(worked_and_stolen())
        most = memory(ran.pid, "VmHWM")
        ran.stdin.write(b"\n")
        ran.stdin.flush()
    told = {name.decode(): int(value) for name, value in map(bytes.split, ran.communicate()[0].splitlines())}
    assert ran.returncode == 0, command
    worked, stolen = (then - before for before, then in zip(*machine))
    return told | {"processor": seen[1] - seen[0], "memory": most, "stolen": 100 * stolen / max(worked + stolen, 1)}


# Of each command what it told in the turn that took the least by the clock, with the least processor time.
def least(commands):
    found = {}
    for _, (name, command) in itertools.product(range(int(turns)), commands.items()):
        told = run(command)
        best = found.setdefault(name, told)
        kept = told if told["whole"] < best["whole"] else best
        found[name] = kept | {"processor": min(told["processor"], best["processor"])}
    return found


def row(*cells):
    print(" ".join(f"{cell:>{22 if place == 0 else 11}}" for place, cell in enumerate(cells)), flush=True)


def loads(least_keys=100_000, most_keys=1_000_000):
    for keys, reads, (size, batches) in itertools.product((least_keys, most_keys), (80, 50), SIZES.items()):
        yield Load("ycsb", keys, reads, size, batches)
    yield from loads_of_orders()


def loads_of_orders():
    for warehouses in (1, 4):
        yield Load("tpcc", warehouses, 1, *TPCC)


# Finished requests a second by the clock; what one costs, in microseconds of all processors; and memory.
def rates():
    row("finished a second", "requests", "way", "plain", *(f"{w} workers" for w in WORKERS), "1 / plain", "4 / 1",
        *("us plain", "us 1", "us 2", "us 4", "MB plain", "MB 1", "MB 4", "% stolen 1", "% stolen 4"))
    for load in loads():
        commands = {"plain": load.by_plain()}
        commands |= {(name, w): load.by_engine(name, w) for name in engines for w in WORKERS}
        told = least(commands)
        assert len({(one["ended"], one["waits"]) for one in told.values()}) == 1, "all ways end the same requests"
        rate = {way: one["ended"] / one["whole"] * 1e9 for way, one in told.items()}
        cost = {way: one["processor"] / one["ended"] / 1e3 for way, one in told.items()}
        for name in engines:
            ways = ["plain", *((name, w) for w in WORKERS)]
            one, four = (name, 1), (name, 4)
            row(load.title(), f"{load.requests:,}", name, *(f"{rate[way]:,.0f}" for way in ways),
                f"{rate[one] / rate['plain']:.2f}", f"{rate[four] / rate[one]:.2f}",
                *(f"{cost[way]:.1f}" for way in ways), *(f"{told[way]['memory']:.0f}" for way in ("plain", one, four)),
                *(f"{told[way]['stolen']:.0f}" for way in (one, four)))


# What a request costs one worker by the size of its batch, over rows that were all written just before, in
# microseconds of the processor, and the first and the longest batch by the clock.
def sizes():
    row("after a large batch", "requests", "way", "us", "first us", "longest us")
    for keys, (size, batches) in itertools.product((1_000, 1_000_000), SIZES.items()):
        load = Load("ycsb", keys, 50, size, batches)
        for name, one in least({name: load.by_engine(name, 1, 1) for name in engines}).items():
            whole = [one["processor"] / size / batches, one["first"] / size, one["longest"] / size]
            row(load.title(), f"{size:,}", name, *(f"{nanos / 1e3:.1f}" for nanos in whole))


# What callgrind counts within the batches: the events that it has summed up, in the order of their names.
def collected(command, *words):
    tool = ["valgrind", "--tool=callgrind", "--callgrind-out-file=/dev/null", "--toggle-collect=*timed_batch*", *words]
    ran = subprocess.run([*tool, *command], input=b"\n\n", capture_output=True, check=True)
    told = dict(line.split() for line in ran.stdout.splitlines()[2:])
    return list(map(int, re.search(rb"Collected : ([\d ]+)", ran.stderr)[1].split())), int(told[b"ended"])


# What a finished request costs one worker in instructions.
def count(command):
    (instructions,), ended = collected(command)
    return instructions / ended


# What a finished request costs one worker in instructions, and what it costs the plain engine.
def instructions():
    row("instructions", "requests", "plain", *engines, *(f"{name}/plain" for name in engines))
    counted = [Load("ycsb", 100_000, reads, *both) for reads in (80, 50) for both in ((50, 20), (1_000, 2), (10_000, 2))]
    counted += [Load("tpcc", 1, 0, 50, 20), Load("tpcc", 4, 0, 50, 20), Load("tpcc", 1, 1, 50, 20)]
    for load in counted:
        each = [count(command) for command in (load.by_plain(), *(load.by_engine(name, 1) for name in engines))]
        row(load.title(), f"{load.requests:,}", *(f"{one:,.0f}" for one in each), *(f"{one / each[0]:.2f}" for one in each[1:]))


# What a finished request reads and writes in vain in a cache of 1 MB, by a model of it, with one worker.
def misses():
    cache = ["--cache-sim=yes", "--D1=32768,8,64", "--LL=1048576,16,64"]
    row("misses a request", "requests", "way", "reads", "writes", "both / plain")
    for load in (Load("ycsb", 100_000, 80, 1_000, 10), Load("ycsb", 100_000, 50, 1_000, 10), *loads_of_orders()):
        ways = {"plain": load.by_plain()} | {name: load.by_engine(name, 1) for name in engines}
        plain = None
        for name, command in ways.items():
            events, ended = collected(command, *cache)  # Ir Dr Dw I1mr D1mr D1mw ILmr DLmr DLmw
            plain = plain or sum(events[7:]) / ended
            row(load.title(), f"{load.requests:,}", name, *(f"{one / ended:,.1f}" for one in events[7:]),
                f"{sum(events[7:]) / ended / plain:.2f}")


# What waits, run again in waves and by handed rows; one worker does neither.
def both_ways():
    yield Load("tpcc", 1, 0, 50, 60)
    yield Load("tpcc", 4, 0, 50, 120)
    for hot in (0, 20, 50, 80):
        yield Load("ycsb", 100_000, 80, 1_000, 40, hot)
    for chains in (8, 64):
        yield Load("chains", chains, 200, 1_000, 10)


# Finished requests a second by the clock, and what one costs in microseconds of all processors.
def batons():
    ways = [(kind, w) for kind in (0, 1) for w in WORKERS]
    names = [f"{('waves', 'batons')[kind]} {w}" for kind, w in ways]
    row("finished a second", "requests", "way", *names, *(f"us {name}" for name in names), "batons/waves 2", "of 4")
    for load in both_ways():
        for name in engines:
            told = least({way: load.by_engine(name, way[1], 0, way[0]) for way in ways})
            assert len({(one["ended"], one["waits"]) for one in told.values()}) == 1, "all ways end the same requests"
            rate = {way: one["ended"] / one["whole"] * 1e9 for way, one in told.items()}
            cost = {way: one["processor"] / one["ended"] / 1e3 for way, one in told.items()}
            row(load.title(), f"{load.requests:,}", name, *(f"{rate[way]:,.0f}" for way in ways),
                *(f"{cost[way]:.1f}" for way in ways), *(f"{rate[1, w] / rate[0, w]:.2f}" for w in (2, 4)))


tables = {
    "rates": rates, "sizes": sizes, "instructions": instructions, "misses": misses,
    "batons": batons,
}
os.makedirs(folder, exist_ok=True)
cut_catalogs()
for name in wanted or ("rates", "sizes"):
    tables[name]()
    print(flush=True)
