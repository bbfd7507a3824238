"""Builds the plain Rust programs that the benchmark compares with, using Debian's packages of the crates."""
import os
import re
import shutil
import subprocess

BENCH = os.path.dirname(os.path.abspath(__file__))
REGISTRY = "/usr/share/cargo/registry"


def is_installed(crate):
    """Returns true if Debian's package of a crate is installed."""
    names = os.listdir(REGISTRY) if os.path.isdir(REGISTRY) else []
    return any(name.startswith(crate + "-") and name[len(crate) + 1].isdigit() for name in names)


def build(folder, name, *crates):
    """Builds bench/NAME.rs with its modules and some crates, and returns the path of the program, or None if it cannot be built. A feature
    follows its crate after a slash, as in `serde/derive`."""
    named = [crate.partition("/")[::2] for crate in crates]
    if shutil.which("cargo") is None or not all(is_installed(crate) for crate, _ in named):
        return None
    package = os.path.join(folder, name)
    os.makedirs(os.path.join(package, "src"))
    os.makedirs(os.path.join(package, ".cargo"))
    with open(os.path.join(BENCH, name + ".rs")) as file:
        modules = re.findall(r"^mod (\w+);$", file.read(), re.M)
    shutil.copy(os.path.join(BENCH, name + ".rs"), os.path.join(package, "src/main.rs"))
    for module in modules:
        shutil.copy(os.path.join(BENCH, module + ".rs"), os.path.join(package, "src"))
    with open(os.path.join(package, "Cargo.toml"), "w") as file:
        file.write('[package]\nname = "plain"\nversion = "0.1.0"\nedition = "2021"\n\n[dependencies]\n')
        for crate, feature in named:
            file.write('%s = { version = "*", features = [%s] }\n' % (crate, '"%s"' % feature if feature else ""))
    with open(os.path.join(package, ".cargo/config.toml"), "w") as file:
        file.write('[source.crates-io]\nreplace-with = "debian"\n\n[source.debian]\ndirectory = "%s"\n' % REGISTRY)
    done = subprocess.run(["cargo", "build", "--release", "--offline", "--quiet"], cwd=package)
    return os.path.join(package, "target/release/plain") if done.returncode == 0 else None


def times_of(turns, programs):
    """Runs the programs in turns, and returns what they did, and the times of each.

    `programs` maps a name to a command and the path of its standard input, or None. A program prints one line: what it
    did and, after the last comma, the time of one item, message or call. They must all have done the same.
    """
    told, times = {}, {name: [] for name in programs}
    for _ in range(turns):
        for name, (command, source) in programs.items():
            with open(source or os.devnull, "rb") as stdin:
                line = subprocess.run(command, stdin=stdin, stdout=subprocess.PIPE, check=True, text=True).stdout
            told[name], _, time = line.strip().rpartition(", ")
            times[name].append(float(time.split()[0]))
    if len(set(told.values())) != 1:
        raise SystemExit("the programs did different things: %s" % told)
    return told[name], times


def best_of(turns, programs):
    """As `times_of`, but returns only the best time of each program."""
    told, times = times_of(turns, programs)
    return told, {name: min(of) for name, of in times.items()}


def median(numbers):
    return sorted(numbers)[len(numbers) // 2]
