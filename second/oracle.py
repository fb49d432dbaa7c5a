"""Compares the second program with PARI/GP, an oracle that nobody here wrote.

usage: python3 oracle.py [SEED]

It takes a sample of the inputs that `second inputs SEED` makes, lets `gp`
work out each answer from the definitions in oracle.gp, and compares with what
`second answers` says. Build first: cargo build --release. docs/ORACLE.md tells what
was compared and what came out.
"""

import os
import subprocess
import sys

HERE = os.path.dirname(os.path.abspath(__file__))
SECOND = os.path.join(HERE, "target", "release", "second")
MOST_VARS = 5  # as many variables as oracle.gp names
MOST_OF_EACH = 400  # cases of each entry

# The fields of each entry, as FORMAT.md has them: n a number, l a list.
FIELDS = {1: "nn", 2: "nn", 3: "n", 4: "nn", 5: "nn", 6: "n",
          10: "nnl", 11: "nnll", 12: "nnllll", 20: "nnlnll", 21: "nnnll"}


def read_list(numbers):
    """A list at the front of the numbers: written out, or made by the rule."""
    length = numbers.pop(0)
    if length != 4294967295:
        return [numbers.pop(0) for _ in range(length)]
    length, s, modulus, lowest, count = [numbers.pop(0) for _ in range(5)]
    members = []
    for _ in range(length):
        s = (s * 1103515245 + 12345) % 4294967291
        members.append(lowest + s % modulus)
    for _ in range(count):
        index = numbers.pop(0)
        members[index] = numbers.pop(0)
    return members


def read_case(line):
    numbers = [int(word) for word in line.split(" ")]
    code = numbers.pop(0)
    if code not in FIELDS:
        return code, None
    fields = [numbers.pop(0) if kind == "n" else read_list(numbers) for kind in FIELDS[code]]
    return code, fields


def question(code, fields):
    """The case as a call of oracle.gp."""
    if code <= 6:
        fields = [code] + (fields + [0])[:2]
        return "field(%s, %s, %s)" % tuple(fields)
    name = {10: "truesum", 11: "valueat", 12: "messages", 20: "check", 21: "rounds"}[code]
    return "%s(%s)" % (name, ", ".join(str(field) for field in fields[:4 if code == 12 else 6]))


def expected(code, fields, answer):
    """Of a prover's answer only the messages are the oracle's matter."""
    if code != 12:
        return answer
    vars_, degree = fields[:2]
    return answer[2:2 + vars_ * (degree + 1)]


def sample(inputs, answers):
    taken = {}
    for line, answer_line in zip(inputs, answers):
        code, fields = read_case(line)
        answer = [int(word) for word in answer_line.split(" ")][1:]
        if fields is None or answer[0] >= 2:
            continue  # another entry, or refused: nothing to calculate
        if code >= 10 and fields[0] > MOST_VARS:
            continue
        kind = (code, answer[0])
        taken[kind] = taken.get(kind, 0) + 1
        if taken[kind] <= MOST_OF_EACH:
            yield code, question(code, fields), expected(code, fields, answer)


def main():
    seed = sys.argv[1] if len(sys.argv) > 1 else "1"
    text = subprocess.run([SECOND, "inputs", seed], check=True, capture_output=True).stdout
    out = subprocess.run([SECOND, "answers"], input=text, check=True, capture_output=True).stdout
    inputs = [line for line in text.decode().splitlines() if not line.startswith("#")]
    asked = list(sample(inputs, out.decode().splitlines()))
    script = 'read("oracle.gp");\n' + "".join("print(%s)\n" % q for _, q, _ in asked)
    gp = subprocess.run(["gp", "-q", "-f", "-s", "256M"], cwd=HERE, input=script.encode(),
                        check=True, capture_output=True)
    lines = gp.stdout.decode().splitlines()
    if len(lines) != len(asked):
        sys.exit("gp gave %d answers to %d questions\n%s" % (len(lines), len(asked), gp.stderr.decode()))
    same, different = {}, 0
    for (code, call, ours), line in zip(asked, lines):
        theirs = [int(word) for word in line.strip("[]").split(",") if word.strip()]
        if ours == theirs:
            same[code] = same.get(code, 0) + 1
        else:
            different += 1
            print("differs: %s\n  second %s\n  gp     %s" % (call, ours, theirs))
    for code in sorted(same):
        print("entry %d: %d answers the same" % (code, same[code]))
    print("%d different" % different)
    sys.exit(1 if different else 0)


main()
