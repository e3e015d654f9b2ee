"""What scripts of several folders share: their words, programs built in scratch folders, and the tables of the standard. A program's name is
its path here."""
import functools
import glob
import os
import random
import re
import shutil
import subprocess
import sys
import tempfile
import time

TOP = os.path.dirname(os.path.dirname(os.path.abspath(__file__)))
BENCH = f"{TOP}/bench"
MADE = {"out", "target", ".git"}
MANIFEST = '[package]\nname = "{}"\nversion = "0.0.0"\nedition = "2021"\n[dependencies]\nraptorq = {{ path = "{}", version = "=2.0.1", features = ["{}"] }}\n'


@functools.lru_cache(None)
def files():
    """All files here but what is made, as paths from the top."""
    found = []
    for folder, folders, names in os.walk(TOP):
        folders[:] = [name for name in folders if name not in MADE]
        found += [os.path.relpath(os.path.join(folder, name), TOP) for name in names]
    return sorted(found)


def pages():
    """The pages of this repository, as paths from its top."""
    patterns = ("README.md", "CONTRIBUTING.md", "CHANGELOG.md", "docs/*.md", "wrapper/README.md", "python/README.md")
    return sorted(os.path.relpath(path, TOP) for pattern in patterns for path in glob.glob(f"{TOP}/{pattern}"))


def rooms():
    """The pages that say what stands in a folder."""
    return sorted({os.path.relpath(path, TOP) for path in glob.glob(f"{TOP}/*/README.md")} - set(pages()))


def misused(usage):
    """Ends a script that can't be called so."""
    print(usage, file=sys.stderr)
    sys.exit(64)


def arguments(usage, names=None, least=1):
    """The words that a script was called with. Asked for help it prints its usage, and ends with 0; with too few words, or a first one
    that isn't among the names, with 64."""
    words = sys.argv[1:]
    if words and words[0] in ("-h", "--help"):
        print(usage)
        sys.exit(0)
    if len(words) < least or (names is not None and words[0] not in names):
        misused(usage)
    return words


def whole_numbers(words, usage):
    """The numbers that words are. Where one is none it ends the script as `arguments` does."""
    if not all(re.fullmatch(r"[0-9]+", word) for word in words):
        misused(usage)
    return list(map(int, words))


def whole_number(words, usage, otherwise, least=1):
    """The number that the first of these words is, and this one where there is none. Where it is less than the least one this ends the
    script too."""
    number = (whole_numbers(words[:1], usage) or [otherwise])[0]
    return number if number >= least else misused(usage)


def take_seed(usage, otherwise):
    """The seed that two of a script's words say, and this one where none is said. `arguments` has the other words then."""
    if "--seed" not in sys.argv:
        return otherwise
    at = sys.argv.index("--seed")
    found = whole_numbers(sys.argv[at + 1 : at + 2] or ["none"], usage)[0]
    del sys.argv[at : at + 2]
    return found


def make_file(path, length, seed=1):
    """Fills a file with random bytes, in pieces: what this process took at most counts as memory of the programs that it starts."""
    drawn = random.Random(seed)
    with open(path, "wb") as file:
        for first in range(0, length, 1_000_000):
            file.write(drawn.randbytes(min(1_000_000, length - first)))


def run_timed(words, source, target):
    """Seconds and the greatest memory in MB of a program that reads one file and writes another. Where it fails this ends the script with
    what it told."""
    with open(source, "rb") as stdin, open(target, "wb") as stdout, tempfile.TemporaryFile("w+") as told:
        start = time.monotonic()
        child = subprocess.Popen(words, stdin=stdin, stdout=stdout, stderr=told)
        _, status, used = os.wait4(child.pid, 0)
        seconds = time.monotonic() - start
        if status:
            told.seek(0)
            sys.exit(f"{words}: {told.read()}")
    return seconds, used.ru_maxrss * 1024 / 1e6


def run_here(name, folder, processor, crates, **streams):
    """Runs the program NAME.rt.txt over these crates of this repository, which are proved first."""
    shutil.copytree(f"{TOP}/crates", f"{folder}/crates")
    os.makedirs(f"{folder}/crates/rq_bench/src")
    shutil.copy(f"{TOP}/{name}.rt.txt", f"{folder}/crates/rq_bench/src/main.rt")
    with open(f"{TOP}/crates.txt") as listed, open(f"{folder}/crates.txt", "w") as all_crates:
        all_crates.write(f"{listed.read()}rq_bench: {crates}\n")
    return subprocess.run(["rt", "run", "--cpu", processor], cwd=f"{folder}/crates/rq_bench", text=True, **streams)


def build_here(name, folder, processor):
    """The program NAME.rt.txt over this repository's crates."""
    # It runs without words or lines, and may end with an error then.
    built = run_here(name, folder, processor, "raptorq anyhow", stdin=subprocess.DEVNULL, capture_output=True)
    program = f"{folder}/crates/rq_bench/out/rq_bench"
    if not os.path.exists(program):
        sys.exit(built.stdout + built.stderr)
    return program


def build_crate(name, folder, crate, feature="std"):
    """The program NAME.rs.txt over the Rust crate in a folder, with one of its features."""
    if not os.path.exists(f"{crate}/Cargo.toml"):
        sys.exit(f"there is no crate in {crate}")
    os.makedirs(f"{folder}/src")
    with open(f"{folder}/Cargo.toml", "w") as manifest:
        manifest.write(MANIFEST.format(os.path.basename(name), os.path.abspath(crate), feature))
    shutil.copy(f"{TOP}/{name}.rs.txt", f"{folder}/src/main.rs")
    subprocess.run(["cargo", "build", "--release", "--offline", "--quiet"], cwd=folder, check=True)
    return f"{folder}/target/release/{os.path.basename(name)}"


def further_rows(crate):
    """The numbers of the rows above K' = 497, five a row, from the crate's source."""
    with open(f"{crate}/src/systematic_constants.rs") as source:
        table = source.read().split("SYSTEMATIC_INDICES_AND_PARAMETERS", 1)[1].split("];", 1)[0]
    rows = [re.findall(r"\d+", row) for row in re.findall(r"\(((?:\d+,? *){5})\)", table)]
    return [number for row in rows if int(row[0]) > 497 for number in row]


def numbers(name, constant, crate="rq_standard"):
    """The numbers of a constant of a crate."""
    with open(f"{TOP}/crates/{crate}/src/{name}.rt") as source:
        return list(map(int, re.findall(r"\d+", source.read().split(f"const {constant}:", 1)[1].split("=", 1)[1].split("];", 1)[0])))


def is_prime(number):
    return number > 1 and all(number % factor for factor in range(2, int(number**0.5) + 1))


def all_rows():
    """All rows of the table, as K', J, S, H, W and P1."""
    built_in, sizes = numbers("systematic_indices", "SYSTEMATIC_INDICES_AND_PARAMETERS"), numbers("p1_table", "P1_TABLE")
    all_numbers = built_in + numbers("further_rows", "FURTHER_ROWS", "rq_rows")
    rows = [all_numbers[at : at + 5] for at in range(0, len(all_numbers), 5)]
    p1 = dict(zip(sizes[::2], sizes[1::2]))
    rows = [[*row, p1[row[0]]] for row in rows]
    assert all(is_prime(row[place]) for row in rows for place in (2, 4, 5)), "S, W and P1 are primes"
    return rows


def write_tables(path):
    """Writes the tables that compare/rank reads."""
    tables = {f"V{place}": numbers("random_numbers", f"V{place}") for place in range(4)}
    tables["DEGREE_STARTS"] = numbers("degrees", "DEGREE_STARTS")
    with open(path, "w") as file:
        for name, table in tables.items():
            file.write(f"static const uint32_t {name}[{len(table)}] = {{{', '.join(map(str, table))}}};\n")
        rows = ", ".join(f"{{{', '.join(map(str, row))}}}" for row in all_rows())
        file.write(f"static const struct row table_rows[] = {{{rows}}};\n")


def build_rank(name, folder, *beside):
    """The program NAME.c of compare/rank, with other files of it beside, for this machine. Needs a compiler of C."""
    write_tables(f"{folder}/tables.h")
    sources = [f"{TOP}/compare/rank/{source}.c" for source in ("rank", "peeling", "equations", "draw", name, *beside)]
    flags = ["-std=c11", "-O3", "-march=native", "-flto", f"-I{TOP}/compare/rank", f"-I{folder}"]
    subprocess.run([os.environ.get("CC", "cc"), *flags, *sources, "-o", f"{folder}/{name}"], check=True)
    return f"{folder}/{name}"


def build_over_library(names, prefix, folder, *flags):
    """A program of the files NAME.c over the library that is installed in PREFIX. It has the first one's name. Needs a compiler of C."""
    library, program = f"{prefix}/lib/libreamertan.a", f"{folder}/{os.path.basename(names[0])}"
    if not os.path.exists(library):
        sys.exit(f"there is no {library}")
    sources = [f"{TOP}/{name}.c" for name in names]
    words = ["-std=c11", "-O2", f"-I{prefix}/include", *sources, library, *flags, "-o", program]
    subprocess.run([os.environ.get("CC", "cc"), *words], check=True)
    return program


def build_pieces(name, folder, *flags):
    """The program of a code of pieces, NAME.c of bench/others. Needs a compiler of C, and what the flags name."""
    sources = [f"{BENCH}/others/{source}.c" for source in (name, "pieces")]
    words = ["-std=c11", "-O2", *sources, *flags, "-o", f"{folder}/{name}"]
    subprocess.run([os.environ.get("CC", "cc"), *words], check=True)
    return f"{folder}/{name}"
