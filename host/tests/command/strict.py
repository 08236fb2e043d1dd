# Reads one JSON object to a line as the standard has it, and writes the name in each, ended by a zero byte.
import json
import sys


def refused(word):
    raise ValueError(word + " is no JSON")


def once(pairs):
    if len(dict(pairs)) < len(pairs):
        raise ValueError("a key stands twice")
    return dict(pairs)


for line in sys.stdin.buffer.read().decode("utf-8", "strict").split("\n")[:-1]:
    read = json.loads(line, parse_constant=refused, object_pairs_hook=once)
    sys.stdout.buffer.write((read["file"] + "\0").encode("utf-8"))
