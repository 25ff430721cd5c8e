"""The Rust that was ported, beside this port.

python3 tests/oracle.py --replay     the Rust's stored answers, replayed by the program that `rt ci` has built of
                                     crates/oracle_replay
python3 tests/oracle.py --compare    client.rs is the file that NOTICE names; both sides live over the same wires, each
                                     difference on its smallest input, and the stored answers made again
python3 tests/oracle.py --store      writes the Rust's answers to tests/oracle
python3 tests/oracle.py --excerpt    writes some of the stored answers to crates/oracle_replay, where `rt ci` runs the
                                     program on them; --store does so too

--compare and --store need client.rs, which is not in this repository, in ../shared/documents/src beside it, and fail
without it.
"""
import hashlib
import pathlib
import re
import subprocess
import tempfile

import project
from project import Faults, root

source = project.documents / "src/client.rs"
stored = root / "tests/oracle"
program = root / "crates/oracle_replay"
runs, seed = "60000", "1"
operations, most_lines = range(1, 11), 12  # of the excerpt


def cargo(verb, *words):
    subprocess.run(["cargo", verb, "--offline", "--release", "--quiet", *words], cwd=root / "oracle", check=True)


def sample(folder):
    """Makes the Rust's answers."""
    cargo("run", "-p", "differential", "--bin", "sample", "--", str(folder))


def stored_runs():
    """Each stored run: its lines, and the Rust's answer to them."""
    asked = re.findall(r"(?s)(.+?\n)\n", (stored / "runs.in").read_text())
    answers = re.findall(r"(?s)(.+?\ns [^\n]*\n)", (stored / "runs.out").read_text())
    if not asked or len(asked) != len(answers):
        raise Faults(f"tests/oracle has {len(asked)} runs and {len(answers)} answers")
    return list(zip(asked, answers))


def generated():
    """The excerpt: of each operation a run of few lines to which the Rust's answer has the most."""
    few = [(lines, answer) for lines, answer in stored_runs() if lines.count("\n") <= most_lines]
    chosen = []
    for operation in operations:
        own = [run for run in few if int(run[0][:2], 16) == operation]
        chosen.append(max(own, key=lambda run: (run[1].count("\n"), len(run[1]))))
    return {program / "stdin": "".join(lines + "\n" for lines, _ in chosen),
            program / "stdout": "".join(answer for _, answer in chosen)}


def replay():
    with open(stored / "runs.in") as lines:
        command = [project.program("oracle_replay")]
        out = subprocess.run(command, stdin=lines, capture_output=True, text=True, check=True).stdout
    expected = (stored / "runs.out").read_text()
    if out != expected:
        pairs = zip(out.split("\n"), expected.split("\n"))
        first = next((number for number, (a, b) in enumerate(pairs, 1) if a != b), "the end of one of them")
        raise Faults(f"the replay differs from the Rust's stored answers, first at line {first}")
    print(f"{len(stored_runs())} runs of the Rust replayed")


def compare():
    if hashlib.sha256(source.read_bytes()).hexdigest() not in (root / "NOTICE").read_text():
        raise Faults("client.rs is not the file that NOTICE names")
    cargo("test", "-p", "differential")
    cargo("run", "-p", "differential", "--bin", "differential", "--", runs, seed)
    with tempfile.TemporaryDirectory() as folder:
        sample(folder)
        for name in ("runs.in", "runs.out", "clients.in", "clients.out", "texts"):
            if (pathlib.Path(folder) / name).read_bytes() != (stored / name).read_bytes():
                raise Faults(f"tests/oracle/{name} differs: python3 tests/oracle.py --store writes it")


def main(words):
    if words not in (["--replay"], ["--compare"], ["--store"], ["--excerpt"]):
        raise Faults(__doc__)
    if words == ["--replay"]:
        replay()
    elif words == ["--excerpt"]:
        project.write_or_compare(generated(), False, "")
    elif not source.exists():
        raise Faults("client.rs is not in ../shared/documents/src")
    elif words == ["--compare"]:
        compare()
    else:
        sample(stored)
        project.write_or_compare(generated(), False, "")
    return 0


if __name__ == "__main__":
    project.run(main)
