#!/usr/bin/env python3
"""Writes a large model of one clock: a chain of names, each of which reads the one before it.

    generate.py [--names N] > FILE
    generate.py --names N --sums > FILE
    generate.py --names N --held > FILE
    generate.py --controllers > FILE

The first name counts ticks, and every other one is greater by 1 than the one before it. The names are the shortest
that there are, so that many fit the 1,048,576 bytes that a model may have. With `--sums` each equation has its name inside
a sum. With `--held` one name ticks each second, one a hundred times a second, and all others hold the slow one without a
clock. With `--controllers` it writes classes of an ordinary form instead, as many as leave 16 bytes of these.
"""

import argparse
import itertools
import string
import sys

MODEL_LIMIT = 1_048_576
FIRST_BYTES = string.ascii_letters + "_"
LATER_BYTES = FIRST_BYTES + string.digits
# The keywords of at most three letters.
KEYWORDS = {"if", "in", "or", "and", "der", "end", "for", "not"}


CONTROLLER = """block Filter "mean of two"
  input Integer u;
  output Integer y;
equation
  y = div(u + previous(u), 2);
  annotation(Icon(extent = {{-100.5, -100}, {100.5, 100}}));
end Filter;
block Controller "integral control"
  parameter Integer ref = 100;
  parameter Integer limit = 40;
  input Integer u;
  output Integer y;
protected
  Integer e "error";
  Integer sum(start = 0);
equation
  e = ref - u; // the distance to the set point
  sum = max(-limit, min(limit, previous(sum) + e));
  y = sum;
end Controller;
"""


def short_names():
    """All names that are no keywords and no names of functions, shortest first."""
    functions = {"div", "mod", "rem", "abs", "min", "max"}
    for length in itertools.count(1):
        for parts in itertools.product(FIRST_BYTES, *[LATER_BYTES] * (length - 1)):
            name = "".join(parts)
            if name not in KEYWORDS and name not in functions:
                yield name


def held_text(names):
    slow, fast, *held = names
    clocked = f"when Clock(1) then {slow}=previous({slow})+1; end when;\nwhen Clock(1,100) then {fast}=previous({fast})+1; end when;\n"
    unclocked = "".join(f"{name}=hold({slow})+{number};\n" for number, name in enumerate(held))
    return f"model Held\nInteger {','.join(names)};\nequation\n{clocked}{unclocked}end Held;\n"


def model_text(count, sums, held):
    names = list(itertools.islice(short_names(), count))
    if held:
        return held_text(names)
    declarations = f"Integer {','.join(names)};\n"
    counter = f"{names[0]}=previous({names[0]})+1;\n"
    form = "7-({name}-1)=7-{before};\n" if sums else "{name}={before}+1;\n"
    chain = "".join(form.format(name=name, before=before) for before, name in itertools.pairwise(names))
    return f"model Chain\n{declarations}equation\nwhen Clock(1) then\n{counter}{chain}end when;\nend Chain;\n"


def main():
    parser = argparse.ArgumentParser(description="Writes a chain of names as a model.")
    parser.add_argument("--names", type=int, default=60_000)
    parser.add_argument("--sums", action="store_true")
    parser.add_argument("--held", action="store_true")
    parser.add_argument("--controllers", action="store_true")
    options = parser.parse_args()
    if options.controllers:
        sys.stdout.write(CONTROLLER * ((MODEL_LIMIT - 16) // len(CONTROLLER)))
        return
    count = options.names
    if count < 1 + options.held:
        sys.exit("generate.py: a chain has at least one name, and names that are held come with two clocks")
    text = model_text(count, options.sums, options.held)
    if len(text) > MODEL_LIMIT:
        sys.exit(f"generate.py: {count} names take {len(text)} bytes, and a model may have {MODEL_LIMIT}")
    sys.stdout.write(text)


if __name__ == "__main__":
    main()
