"""The version is in the file VERSION. The header and the Rust crate must have the same one, and CHANGELOG.md, if it
exists, must have a heading for it. (The Makefile reads VERSION, and makes fahireky.pc from it.)

python3 tests/version.py           compares
python3 tests/version.py --write   writes the version to the header, Cargo.toml and both Cargo.lock, then compares
"""
import pathlib
import re
import sys

root = pathlib.Path(__file__).resolve().parent.parent
version = (root / "VERSION").read_text().strip()
if not re.fullmatch(r"\d+\.\d+\.\d+", version):
    sys.exit(f"VERSION: '{version}' is not of the form 1.2.3")
major, minor, patch = version.split(".")

# File, pattern and value: the pattern's second group is the value.
places = [
    ("bindings/fahireky.h", r'(#define FAHIREKY_VERSION ")([^"]*)', version),
    ("bindings/fahireky.h", r"(#define FAHIREKY_VERSION_MAJOR )(\S*)", major),
    ("bindings/fahireky.h", r"(#define FAHIREKY_VERSION_MINOR )(\S*)", minor),
    ("bindings/fahireky.h", r"(#define FAHIREKY_VERSION_PATCH )(\S*)", patch),
    ("bindings/rust/Cargo.toml", r'(\[package\][^\[]*?^version\s*=\s*")([^"]*)', version),
    ("bindings/rust/Cargo.lock", r'(^name = "fahireky"\nversion = ")([^"]*)', version),
    ("oracle/Cargo.lock", r'(^name = "fahireky"\nversion = ")([^"]*)', version),
]


def write():
    for name, pattern, value in places:
        file = root / name
        old = file.read_text()
        new = re.sub(pattern, rf"\g<1>{value}", old, count=1, flags=re.MULTILINE)
        if new != old:
            file.write_text(new)
            print(f"{name}: written")


def differences():
    for name, pattern, value in places:
        found = re.search(pattern, (root / name).read_text(), re.MULTILINE)
        if not found:
            yield f"{name}: no match for {pattern}"
        elif found[2] != value:
            yield f"{name}: '{found[2]}', not '{value}'"
    changelog = root / "CHANGELOG.md"
    heading = rf"^#+ +\[?v?{re.escape(version)}\]?(\s|$)"
    if changelog.exists() and not re.search(heading, changelog.read_text(), re.MULTILINE):
        yield f"CHANGELOG.md: no heading for {version}"


if sys.argv[1:] == ["--write"]:
    write()
elif sys.argv[1:]:
    sys.exit(__doc__)
wrong = list(differences())
for line in wrong:
    print(line)
if wrong:
    sys.exit(1)
print(f"version {version} in {len(places)} places")
