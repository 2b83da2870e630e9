#!/usr/bin/env bash
# The loops over the columns of a row, and what they call, multiply no two numbers that the program computes but for BlaMka's two halves
# of state words, so no row number by C: where rows start is found before them. That product and those by a literal are listed. Looked for
# in the form that the compiler is given, where nothing has been moved yet; the kit leaves it in the libraries that it makes. A call through
# a bound is followed to the closure or the function that the calls on the way fill it with. The test fails where they fill it with none, as
# where the row's caller does, and where a function is called that is not read, but for a rotation of the library's.
set -eu
cd "$(dirname "$0")/.."
exec python3 - <<'END'
import glob
import json
import sys


def statements(body, at, looped, see):
    """Reads the statement that begins at a place of a body, which lists a tree from the root on, and answers where the next one begins."""
    here = body[at]
    kind, what = (here, None) if isinstance(here, str) else next(iter(here.items()))
    arms = {"Seq": 2, "If": 2, "Block": 1, "Loop": 1}.get(kind, 0)
    if kind == "Switch":
        arms = len(what[1]) + what[2]
    see(kind, what, looped)
    at += 1
    for _ in range(arms):
        at = statements(body, at, looped or kind == "Loop", see)
    return at


UNKNOWN = "what is called under a column loop is not known"
# The library's functions are not read. This one is known to multiply nothing.
UNREAD = ["core::int::u64::rotate_right"]


def literal(operand):
    return operand["Int"]["value"] if "Int" in operand else None


class Function:
    def __init__(self, name, body, impls):
        self.products, self.calls = {False: [], True: []}, []
        self.methods = {impl["name"]: tuple(impl["methods"]) for impl in impls}

        def see(kind, what, looped):
            if kind == "Assign" and "Op2" in what[1]:
                operation, left, right = what[1]["Op2"]
                if "Mul" in operation:
                    by = literal(left) if literal(left) is not None else literal(right)
                    # A product by 8 or 32 finds an element of a slice or of a table.
                    if by not in (8, 32):
                        self.products[looped].append(f"{name}*{'?' if by is None else by}")
            if kind == "Call":
                self.calls.append((what[0], looped))

        if statements(body, 0, False, see) != len(body):
            sys.exit(f"{name} was not read to its end")


def products(functions, crate, rows):
    """What is multiplied under the column loops of the functions `rows`, and how many functions stand there."""
    reached, listed = {}, []

    def filled(it, bounds, given):
        """What fills bounds at a call in a function, whose own are filled by `given`: methods, and what fills the bounds of these."""
        found = []
        for bound in bounds:
            kind, what = next(iter(bound.items()))
            if kind == "Given" and what < len(given):
                found.append(given[what])
            elif kind == "Impl" and what[0] in it.methods:
                found.append((it.methods[what[0]], filled(it, what[2], given)))
            else:
                sys.exit(UNKNOWN)
        return tuple(found)

    def follow(it, callee, given):
        kind, what = next(iter(callee.items()))
        if kind == "Fn":
            reach(what[0], filled(it, what[1]["dicts"], given))
        elif kind == "Method":
            # A value that goes out of scope is dropped through a bound too.
            [(methods, of_impl)], of_method = filled(it, what[:1], given), filled(it, what[2]["dicts"], given)
            # Which of the two come first is not known.
            if of_impl and of_method:
                sys.exit(UNKNOWN)
            reach(methods[what[1]], of_impl or of_method)
        else:
            # A call through a pointer names no function.
            sys.exit(UNKNOWN)

    def reach(name, given):
        if name in UNREAD:
            return
        if name not in functions:
            sys.exit(UNKNOWN)
        it, before = functions[name], reached.setdefault(name, set())
        if given in before:
            return
        if not before:
            listed.extend(it.products[False] + it.products[True])
        before.add(given)
        for callee, _ in it.calls:
            follow(it, callee, given)

    for row in rows:
        it = functions[f"{crate}::{row}"]
        listed.extend(it.products[True])
        inner = [callee for callee, looped in it.calls if looped]
        if not inner:
            sys.exit(f"{crate}::{row} has no loop with a call")
        for callee in inner:
            follow(it, callee, ())
    return listed, len(reached)


def read(form):
    return {name: Function(name, it["body"], it["generics"]["impls"]) for name, it in form}


# The look is tried on a made-up form: of what stands before or after a loop, or is called there alone, nothing is listed, and of what
# stands in the loop, or is called from it, everything, be it through a bound.
def local(n):
    return {"Copy": {"local": n, "steps": []}}


def product(left, right):
    return {"Assign": [{"local": 9, "steps": []}, {"Op2": [{"Mul": "Unsigned"}, left, right]}]}


def called(callee):
    return {"Call": [callee, [], {"local": 9, "steps": []}]}


def call(name, *bounds):
    return called({"Fn": [name, {"types": [], "dicts": list(bounds)}]})


def bound(n):
    return called({"Method": [{"Given": n}, 0, {"types": [], "dicts": []}]})


def by(name):
    return {"Impl": [f"{name}+Fn", [], []]}


def number(n):
    return {"Int": {"width": 64, "value": n}}


two = product(local(1), local(2))


def made_up(cell=product(local(3), number(12)), closure=product(local(3), number(5)), named="Skip", drop="Skip",
            besides="Skip"):
    loop = ["Seq", product(number(2), local(3)), "Seq", product(local(3), number(8)), "Seq", {"If": local(3)}, "Skip", {"Exit": 1},
            "Seq", besides, call("made::column")]
    row = ["Seq", product(local(1), number(3)), "Seq", call("made::before", {"Given": 0}), "Seq", "Block", "Loop", *loop, two]
    column = ["Seq", call("made::cell"), "Seq", call("made::each", by("made::fn::column::each"), by("made::drop")),
              call("made::each", by("made::named"), by("made::drop"))]
    bodies = {"made::caller": [call("made::row", by("made::fn::caller::row"))], "made::row": row, "made::before": ["Seq", two, bound(0)],
              "made::column": column, "made::cell": [cell],
              "made::each": ["Seq", call("made::inner", {"Given": 0}), bound(1)], "made::inner": [bound(0)]}
    # What fills a bound is, as in the libraries, a method that calls the function.
    filling = {"made::fn::column::each": closure, "made::fn::caller::row": two, "made::named": named, "made::drop": drop}
    for name, body in filling.items():
        bodies |= {name: [body], f"{name}+Fn::call": [call(name)]}
    impls = [{"name": f"{name}+Fn", "methods": [f"{name}+Fn::call"]} for name in [*filling, "core::times"]]
    return read([(name, {"body": body, "generics": {"impls": impls}}) for name, body in bodies.items()])


def agrees(listed, expected):
    return sorted(listed) == sorted(expected)


known = ["made::row*2", "made::cell*12", "made::fn::column::each*5"]
if not agrees(products(made_up(), "made", ["row"])[0], known):
    sys.exit("the products of the made-up form are not listed")
for where, name in {"cell": "cell", "closure": "fn::column::each", "named": "named", "drop": "drop"}.items():
    listed = products(made_up(**{where: two}), "made", ["row"])[0]
    if f"made::{name}*?" not in listed or any(agrees(listed, known[:end]) for end in range(4)):
        sys.exit(f"a product of two numbers passes: it lists {listed}")
# What is not known is refused: the row's bound, called or handed on, a bound that nothing known fills, what is not read, and a pointer.
for besides in [bound(0), call("made::inner", {"Given": 0}), call("made::inner"), call("made::inner", by("made::unlisted")),
                call("made::inner", by("core::times")), call("core::times"), called({"Pointer": local(1)})]:
    try:
        listed = products(made_up(besides=besides), "made", ["row"])[0]
    except SystemExit as refusal:
        if refusal.code != UNKNOWN:
            raise
    else:
        sys.exit(f"what is not known passes: it lists {listed}")

functions = {}
for path in glob.glob("crates/*/out/rlib/*.rlib/toolchain/mir.json"):
    with open(path, encoding="utf-8") as form:
        functions |= read(json.load(form))
if "setup::setup_row" not in functions:
    sys.exit("no library is there: run 'scripts/library.sh derivation_export' first")
# The look itself is tried on the function that finds a start, which multiplies two numbers.
if "places::RowStart::of*?" not in functions["places::RowStart::of"].products[False]:
    sys.exit("no product is seen in places::RowStart::of")

start, halves = "places::RowStart::cell_start*12", "mixer::doubled_product*?"
for crate, expected, rows in [
    ("setup", [start, halves], ["fill_row", "copy_row", "setup_row"]),
    ("visits", ["packing::note*65536", start, halves], ["visit_row"]),
    ("lane_visits", [start, halves], ["visit_row"]),
]:
    listed, reached = products(functions, crate, rows)
    print(f"{crate}: {reached} functions under the column loops of {' '.join(rows)}; products: {' '.join(listed)}")
    if not agrees(listed, expected):
        sys.exit(f"expected are {' '.join(sorted(expected))}")
END
