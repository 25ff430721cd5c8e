"""The library as its hosts use it. `make` must have built the archive before.

python3 tests/hosts.py c         the host in C, built and run, also under the sanitizers
python3 tests/hosts.py rust      the Rust crate: its texts, layout, lints and documentation; its tests and its host, run
python3 tests/hosts.py hostile   every exported call on random and hostile bytes: between closed pages, and under the
                                 sanitizers
python3 tests/hosts.py valgrind  the same in C and in Rust, under valgrind
python3 tests/hosts.py install   `make install` into a temporary prefix; the host in C, built with pkg-config and run
"""
import json
import os
import pathlib
import re
import shlex
import subprocess
import sys
import tempfile

root = pathlib.Path(__file__).resolve().parent.parent
library = root / "target/staticlib/libfahireky.a"
header = root / "bindings/fahireky.h"
crate = root / "bindings/rust"
strict = ["-Wall", "-Wextra", "-Werror", "-pedantic"]
sanitized = ["-g", "-fsanitize=address,undefined", "-fno-sanitize-recover=all"]
drivers = ["hostile.c", "trial.c"]
expected = """11223344: flashed, and reset
11223345: flashed, and reset
f0000001: flashed, and reset
3 pods hold the image
"""


def ran(command, **more):
    print("+", " ".join(str(c) for c in command), flush=True)
    return subprocess.run(command, check=True, text=True, **more)


def output(command, **more):
    return ran(command, stdout=subprocess.PIPE, **more).stdout


def same(found, wanted):
    if found != wanted:
        sys.exit(f"found:\n{found}\nexpected:\n{wanted}")


def built(name, sources, *flags):
    program = root / "target" / name
    files = [root / "bindings/c" / source for source in sources]
    ran(["gcc", "-std=c11", *strict, "-O2", *flags, "-I", header.parent, *files, library, "-o", program])
    return program


def c():
    same(output([built("flash_all_c", ["flash_all.c"])]), expected)
    same(output([built("flash_all_sanitized", ["flash_all.c"], *sanitized)]), expected)


def header_texts():
    """The header's text for each of the numbers 0 to 23, by its name in the Rust crate."""
    source = header.read_text()
    names = re.search(r"enum fahireky_refusal \{(.*?)\};", source, re.DOTALL)[1]
    numbers = {name: int(number) for name, number in re.findall(r"FAHIREKY_(\w+) = (\d+)", names)}
    texts = dict(re.findall(r'case FAHIREKY_(\w+):\s*return\s*"([^"]*)";', source))
    same(sorted(numbers.values()), list(range(24)))
    same(sorted(texts), sorted(numbers))
    same([text for text in texts.values() if len(text) >= 80], [])
    return {name.title().replace("_", ""): (numbers[name], texts[name]) for name in numbers}


def rust_texts():
    """Header and crate have the same text for each refusal: the crate's are the arms of a match."""
    source = "\n".join(file.read_text() for file in sorted(crate.glob("src/**/*.rs")))
    for name, (number, text) in header_texts().items():
        if 1 <= number <= 22:
            arm = rf'\b{name}\s*(?:\([^)]*\)|\{{[^}}]*\}})?\s*=>\s*\{{?\s*"([^"]*)"'
            found = re.findall(arm, source)
            if text not in found:
                sys.exit(f"{number} {name}: '{text}' in the header, {found} in the crate")
    print("the crate has the header's text for each refusal", flush=True)


def rust():
    rust_texts()
    ran(["cargo", "fmt", "--check"], cwd=crate)
    ran(["cargo", "clippy", "--offline", "--quiet", "--all-targets", "--", "-D", "warnings"], cwd=crate)
    strict_docs = {**os.environ, "RUSTDOCFLAGS": "-D warnings"}
    ran(["cargo", "doc", "--no-deps", "--offline", "--quiet"], cwd=crate, env=strict_docs)
    ran(["cargo", "test", "--offline", "--quiet"], cwd=crate)
    same(output(["cargo", "run", "--offline", "--quiet", "--example", "flash_all"], cwd=crate), expected)


def rust_test(name):
    """The program of a test file of the crate."""
    build = ["cargo", "test", "--offline", "--quiet", "--no-run", "--test", name, "--message-format=json"]
    for line in output(build, cwd=crate).splitlines():
        message = json.loads(line)
        if message.get("executable") and message["target"]["name"] == name:
            return message["executable"]
    sys.exit(f"cargo built no test {name}")


def hostile():
    ran([built("hostile", drivers), "1", "2000000"])
    ran([built("hostile_sanitized", drivers, *sanitized), "2", "300000", "heap"])


def valgrind():
    under = ["valgrind", "--error-exitcode=9", "--quiet"]
    ran([*under, built("hostile", drivers), "3", "30000", "heap"])
    ran([*under, rust_test("hostile"), "--nocapture"], env={**os.environ, "FAHIREKY_CALLS": "1000"})


def make(*arguments):
    """Runs make with no options of a make that may have started this. `rt` must not run."""
    env = {name: value for name, value in os.environ.items() if not name.startswith("MAKE")}
    return output(["make", "--no-print-directory", "-C", root, "RT=false", *arguments], env=env)


def files_in(folder):
    return sorted(str(file.relative_to(folder)) for file in folder.rglob("*") if file.is_file())


def header_alone(flags):
    """The header compiles by itself, and twice, in C and in C++."""
    source = "#include <fahireky.h>\n" * 2
    for compiler in ["gcc", "-x", "c", "-std=c11"], ["g++", "-x", "c++", "-std=c++17"]:
        ran([*compiler, *strict, "-fsyntax-only", *flags, "-"], input=source)


def install():
    installed = ["include/fahireky.h", "lib/libfahireky.a", "lib/pkgconfig/fahireky.pc"]
    if "crates/fahireky_c && false lib" not in make("-n", "-W", "crates.txt"):
        sys.exit("a newer source does not build the archive again")
    if "fahireky_c" in make("-n"):
        sys.exit("the archive is missing, or older than the sources: run make first")
    with tempfile.TemporaryDirectory() as folder:
        prefix = pathlib.Path(folder) / "prefix"
        make("install", f"PREFIX={prefix}")
        same(files_in(prefix), installed)
        env = {**os.environ, "PKG_CONFIG_PATH": str(prefix / "lib/pkgconfig")}
        same(output(["pkg-config", "--modversion", "fahireky"], env=env), (root / "VERSION").read_text())
        flags = shlex.split(output(["pkg-config", "--cflags", "--libs", "fahireky"], env=env))
        program = prefix / "flash_all"
        ran(["gcc", root / "bindings/c/flash_all.c", *flags, "-o", program])
        same(output([program]), expected)
        header_alone(shlex.split(output(["pkg-config", "--cflags", "fahireky"], env=env)))
        program.unlink()
        make("uninstall", f"PREFIX={prefix}")
        same(files_in(prefix), [])
        # A package is staged under DESTDIR, and fahireky.pc does not name that.
        stage = pathlib.Path(folder) / "stage"
        make("install", "PREFIX=/usr", f"DESTDIR={stage}")
        same(files_in(stage / "usr"), installed)
        same((stage / "usr/lib/pkgconfig/fahireky.pc").read_text().splitlines()[0], "prefix=/usr")


commands = {"c": c, "rust": rust, "hostile": hostile, "valgrind": valgrind, "install": install}
if len(sys.argv) != 2 or sys.argv[1] not in commands:
    sys.exit(__doc__)
try:
    commands[sys.argv[1]]()
except subprocess.CalledProcessError as failure:
    sys.exit(f"exit status {failure.returncode}: {' '.join(str(c) for c in failure.cmd)}")
