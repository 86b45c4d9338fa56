#!/usr/bin/env python3
"""make_lesson_test.py [WITHOUT]: writes crates/lesson/stdin and stdout, what the gate runs `lesson` on, with answers of the Rust.

Needs the oracle (oracle/README.md: cargo build --release). First come the lines of tests/lines.txt (bad lines, comments), whose
answers are those of tests/lines.out, read off LESSON-FORMAT.md by hand; then, each after a `reset`, 01's sample runs A to J and the
findings, without what a comparison has to stop at, and some generated scripts; their answers are the oracle's. WITHOUT is a list of
commands, as split,run, to leave out.
"""
import glob
import subprocess
import sys

GENERATED = ["1 400 small dump=50", "2 400 small room dump=50", "3 200 edge room dump=50", "4 300 mid dump=150"]
ORACLE = "oracle/target/release/oracle"


def run(words, text=""):
    return subprocess.run(words, input=text, capture_output=True, text=True, check=True).stdout


def main():
    without = sys.argv[1].split(",") if len(sys.argv) > 1 else []

    def commands(text):
        lines = [line for line in text.split("\n") if line and not line.startswith("#")]
        return [line for line in lines if line.split(" ")[0] not in without + ["stamp"]]

    scripts = {}
    for path in sorted(glob.glob("oracle/samples/*.txt")) + sorted(glob.glob("oracle/findings/*.txt")):
        scripts[path] = open(path).read()
    for words in GENERATED:
        scripts["gen " + words] = run(["oracle/target/release/gen"] + words.split())
    stdin, stdout = open("tests/lines.txt").read(), open("tests/lines.out").read()
    for name, text in scripts.items():
        script = "\n".join(["reset"] + commands(text) + ["dump"]) + "\n"
        answer = run([ORACLE], script)
        if any(line.startswith("#") for line in answer.split("\n")):
            print("left out, it leaves the domain of equality:", name)
            continue
        stdin += f"# {name}\n" + script
        stdout += answer
    # a last line without a newline counts
    open("crates/lesson/stdin", "w").write(stdin.rstrip("\n"))
    open("crates/lesson/stdout", "w").write(stdout)
    print(len(stdin.split("\n")), "lines")


main()
