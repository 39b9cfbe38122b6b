#!/usr/bin/env bash
# Times the flattening of large models by the proved program.
#
#     bench/flatten.sh [REPEATS]
#
# Prints for each model the seconds of the fastest of REPEATS runs (5 where none is given) in mode flat: of reading the text,
# its tree, flattening, types, and the print of the flat model. A model that is refused is one whose first broken rule is told.
set -eu

root="$(dirname "$(dirname "$(readlink -f "${BASH_SOURCE[0]}")")")"
program="$root/crates/clockrun/out/clockrun"
scratch="$(mktemp -d)"
trap 'rm -rf "$scratch"' EXIT

# The program is built where it is missing or older than its sources. Called without words it only ends with status 3.
status=0
"$root/clockrun" 2>/dev/null || status=$?
[ "$status" -eq 3 ] || { echo "bench: the program was not built" >&2; exit 1; }

python3 - "$program" "$scratch" "${1:-5}" <<'PYTHON'
import pathlib
import subprocess
import sys
import time

program, scratch, repeats = sys.argv[1], pathlib.Path(sys.argv[2]), int(sys.argv[3])
MANY = 20_000


def names():
    text = "model M " + "".join(f"Integer v{k:05}=1;" for k in range(60_000))
    return text + " " * (1_048_576 - len(text) - len("end M;")) + "end M;"


def levels():
    classes = ["block C0 end C0;"] + [f"block C{k} C{k - 1} a; C{k - 1} b; end C{k};" for k in range(1, 1_000)]
    return "\n".join(classes)


def modifications():
    declared = "".join(f"Integer x{k};" for k in range(MANY))
    given = ",".join(f"x{k}={k}" for k in range(MANY))
    return f"block A {declared} end A; model M A a({given}); end M;"


def starts():
    declared = "".join(f"Integer x{k};" for k in range(MANY))
    given = ",".join(f"x{k}(start={k})" for k in range(MANY))
    return f"block A {declared} end A; model M A a({given}); end M;"


def chain(last):
    declared = "".join(f"parameter Integer p{k}=p{k + 1}+1;" for k in range(MANY - 1))
    return f"model M {declared} parameter Integer p{MANY - 1}={last}; end M;"


def classes():
    return "".join(f"block C{k} C{(k + 1) % MANY} a; end C{k};" for k in range(MANY))


def connects():
    declared = "".join(f"P p{k};" for k in range(MANY))
    joined = "".join(f"connect(p{k},p{k + 1});" for k in range(MANY - 1))
    return f"connector P Integer v; end P; model M {declared} equation {joined} end M;"


def fastest(status, model):
    """The seconds of the fastest run on a model, each of which ends with the status."""
    seconds = []
    for _ in range(repeats):
        begun = time.perf_counter()
        ended = subprocess.run(
            [program, model, "--stop", "0", "--mode", "flat"], stdout=subprocess.DEVNULL, stderr=subprocess.DEVNULL
        )
        seconds.append(time.perf_counter() - begun)
        if ended.returncode != status:
            sys.exit(f"bench: {model} ended with status {ended.returncode}")
    return min(seconds)


for said, text, status in (
    ("60,000 names in 1 MiB", names(), 0),
    ("1,000 levels of nothing", levels(), 1),
    ("20,000 bindings in one list", modifications(), 0),
    ("20,000 starts in one list", starts(), 0),
    ("a chain of 20,000 parameters, backwards", chain("1"), 0),
    ("a cycle of 20,000 parameters", chain("p0"), 1),
    ("a cycle of 20,000 classes", classes(), 1),
    ("a chain of 20,000 connectors", connects(), 0),
):
    model = scratch / "model.mo"
    model.write_text(text)
    print(f"{said:40} {len(text):9,} bytes  {fastest(status, str(model)):7.4f} s")
PYTHON
