#!/usr/bin/env python3
"""Runs the test suite of the core specification by `--run`, as far as it is about integers, memory, control and calls.

    tests/core_suite.py FOLDER [PROGRAM]    tries every .wast file below FOLDER, the suite's folder test/core
    tests/core_suite.py --self [PROGRAM]    tries tests/core_suite.wast, whose first lines say what has to come out

The suite isn't in the repository. Each module becomes an object, and each assertion a function of it without
parameters, which first makes the calls that changed the state of the module before. What is left out is counted by the
reason; a call that ends as `foreign`, or for want of fuel, is left out where the text shows that it may. The last line
is `N passed, M failed`. The program is the proved one unless another is named."""

import collections
import concurrent.futures
import dataclasses
import os
import pathlib
import subprocess
import sys
import tempfile

import counting
from run_objects import GLOBAL_INDEX, Code
from text_format import Fault, integer, is_integer, is_name, read_forms
from text_module import Module
from text_operators import LeftOut, kind_reason

ROOT = pathlib.Path(__file__).resolve().parent.parent
PROGRAM = ROOT / "crates" / "wildplan" / "out" / "wildplan"
OWN = ROOT / "tests" / "core_suite.wast"
# How the suite's words for a trap begin, and what the program calls that trap.
TRAPS = {
    "integer divide by zero": "DivideByZero",
    "integer overflow": "Overflow",
    "out of bounds memory access": "OutOfBounds",
    "undefined element": "OutOfBounds",
    "uninitialized element": "NullEntry",
    "indirect call type mismatch": "BadSignature",
    "unreachable": "Unreachable",
}
# What is asserted of modules, and isn't tried.
MODULES = {
    "assert_invalid": "modules that are invalid",
    "assert_malformed": "modules that are malformed",
    "assert_unlinkable": "modules that can't be linked",
    "assert_trap": "modules that trap",
}
FUEL = "more fuel than there is"
LOST = "state after what is left out"


@dataclasses.dataclass
class Test:
    """An assertion: how the program has to end, and for which other answers it is left out, by their first words."""

    line: int
    title: str
    wanted: str
    excuses: dict
    command: list = None


@dataclasses.dataclass
class Instance:
    """A module of a file with its object. `replayed` has the calls that changed its state; it is lost where something
    may have changed it that can't be done again."""

    module: Module
    object: object
    replayed: list = dataclasses.field(default_factory=list)
    is_lost: bool = False
    tests: list = dataclasses.field(default_factory=list)


@dataclasses.dataclass
class Call:
    """A call of a function of a module with integers, each a type and a number."""

    instance: Instance
    function: int
    arguments: list

    def results(self):
        """The types of its results."""
        module = self.instance.module
        return module.types[module.functions[self.function].type][1]

    def write(self, code):
        """Appends the call."""
        for kind, number in self.arguments:
            code.const(kind, number)
        code.call(self.function)


def shown(form):
    """A form as a text of at most a hundred letters."""
    if isinstance(form, bytes):
        return '"' + form.decode("utf-8", "backslashreplace") + '"'
    text = form if isinstance(form, str) else "(" + " ".join(map(shown, form)) + ")"
    return text if len(text) <= 100 else text[:97] + "..."


def number_of(form):
    """The type and the number of a constant, modulo its width."""
    head = form.head()
    if head in ("i32.const", "i64.const") and is_integer(form[1]):
        return head[:3], integer(form[1]) % (1 << int(head[1:3]))
    raise LeftOut("several answers" if head == "either" else kind_reason(head.partition(".")[0]) or "other values")


def trap_of(message):
    """What the program calls a trap."""
    for words, kind in TRAPS.items():
        if message.startswith(words) or message and words.startswith(message):
            return f"trap {kind}"
    raise LeftOut("other traps")


class Script:
    """The commands of a file."""

    def __init__(self, title):
        self.title = title
        self.instances, self.named, self.left_out = [], {}, collections.Counter()
        self.current = "no module"

    def leave_out(self, reason):
        """Counts an assertion that isn't tried."""
        self.left_out[reason] += 1

    def read(self, forms):
        """Reads all commands."""
        for form in forms:
            head = form.head()
            if head == "module":
                self.define(form)
            elif head in ("invoke", "get"):
                self.perform(form, None)
            elif head in ("assert_return", "assert_trap", "assert_exhaustion") and form[1].head() != "module":
                self.perform(form[1], form)
            elif head.startswith("assert_"):
                if form[1].head() == "module" and head in ("assert_trap", "assert_unlinkable"):
                    self.lose_all()
                self.leave_out(MODULES.get(head, head.replace("_", " ")))

    def define(self, form):
        """A module. What can't be an object is kept as the reason."""
        try:
            if len(form) > 1 and form[1] in ("binary", "quote", "definition", "instance"):
                raise LeftOut("modules that are binary, quoted or made twice")
            if len(form) > 2 and form[2] in ("binary", "quote"):
                raise LeftOut("modules that are binary, quoted or made twice")
            module = Module(form)
            self.current = Instance(module, module.object())
            self.instances.append(self.current)
        except LeftOut as left_out:
            self.lose_all()
            self.current = str(left_out)
        except (Fault, IndexError, TypeError, ValueError) as fault:
            print(f"{self.title}:{form.line}: the module isn't read: {fault}")
            self.lose_all()
            self.current = "modules that aren't read"
        if len(form) > 1 and is_name(form[1]):
            self.named[form[1]] = self.current

    def lose_all(self):
        """What isn't done may have changed the state of every module that others can import from."""
        for instance in self.instances:
            instance.is_lost = True

    def perform(self, action, assertion):
        """A call by itself, or one of which something is asserted."""
        try:
            instance, kind, index, given = self.target(action)
        except LeftOut as left_out:
            if assertion is not None:
                self.leave_out(str(left_out))
            return
        before = instance.is_lost
        try:
            call = Call(instance, index, [number_of(one) for one in given]) if kind == "func" else None
            if assertion is not None:
                self.assert_that(instance, call, index, assertion)
        except LeftOut as left_out:
            self.leave_out(str(left_out))
            call = None
        if kind == "func" and instance.module.changes(index):
            self.follow(instance, call, index, assertion, before)

    def follow(self, instance, call, function, assertion, was_lost):
        """What later calls have to do again, of a call that changes the state."""
        head = "assert_return" if assertion is None else assertion.head()
        if head == "assert_trap" and instance.module.traps_as_it_was(function):
            return
        if head == "assert_return" and call is not None and not was_lost:
            instance.replayed.append(call)
        else:
            instance.is_lost = True

    def target(self, action):
        """The module that an action is on, the kind and the index of what it names there, and what it gives."""
        words = list(action[1:])
        instance = self.named.get(words.pop(0)) if is_name(words[0]) else self.current
        if not isinstance(instance, Instance):
            raise LeftOut(instance or "no module")
        kind, index = instance.module.exports.get(words[0], ("nothing", 0))
        if kind != {"invoke": "func", "get": "global"}[action.head()]:
            raise LeftOut("other actions")
        return instance, kind, index, words[1:]

    def assert_that(self, instance, call, index, assertion):
        """Adds the test of an assertion, and its function."""
        head, module = assertion.head(), instance.module
        if head == "assert_exhaustion":
            raise LeftOut("depth of calls")
        if head == "assert_trap":
            wanted = trap_of(assertion[2].decode("utf-8", "replace"))
        else:
            wanted = " ".join(["done", *(str(number_of(one)[1]) for one in assertion[2:])])
        calls = []
        if call is not None and module.reason(index) is not None:
            raise LeftOut(module.reason(index))
        if call is None or module.touches(index):
            if instance.is_lost:
                raise LeftOut(LOST)
            calls = [*([Call(instance, module.start, [])] if module.start is not None else []), *instance.replayed]
        code = Code()
        for one in calls:
            one.write(code)
            code.put(b"\x1a" * len(one.results()))
        if call is None:
            results = [module.integer_global(index)]
            code.put(b"\x23").field(GLOBAL_INDEX, index)
        else:
            results = call.results()
            call.write(code)
            calls.append(call)
        self.add(instance, calls, Test(assertion.line, shown(assertion), wanted, {}), results, code)

    def add(self, instance, calls, test, results, code):
        """Adds a test, with what excuses another answer, unless a call reaches what isn't in the object."""
        module = instance.module
        for call in calls:
            reason = module.reason(call.function)
            if reason is not None:
                raise LeftOut(reason)
            for reason in sorted(module.foreign(call.function)):
                test.excuses.setdefault("foreign", reason)
            if module.is_long(call.function):
                test.excuses["fuel"] = FUEL
        name = f"test{len(instance.tests)}"
        instance.object.add(name, [], results, code)
        test.command = [*module.words(), f"--export={name}", f"--run={name}"]
        instance.tests.append(test)


def answer(program, command):
    """The line that the program writes, or how else it ends."""
    try:
        ended = subprocess.run([program, *command], stdin=subprocess.DEVNULL, capture_output=True, timeout=300)
    except subprocess.TimeoutExpired:
        return "no end in five minutes"
    if ended.returncode == 0 and not ended.stderr and ended.stdout.endswith(b"\n"):
        return ended.stdout[:-1].decode("utf-8", "replace")
    return f"status {ended.returncode}: {(ended.stdout + ended.stderr).decode('utf-8', 'replace').strip()}"


def summary(passed, failed, left_out):
    """How many assertions of a file passed, failed and were left out, and why."""
    reasons = ", ".join(f"{reason}: {count}" for reason, count in sorted(left_out.items()))
    return f"{passed} passed, {failed} failed, {sum(left_out.values())} left out" + f" ({reasons})" * bool(reasons)


def run_file(title, path, program, pool, counts):
    """Tries a file, prints what came out, and answers that line."""
    script = Script(title)
    try:
        script.read(read_forms(path.read_bytes().decode("utf-8", "surrogateescape")))
    except Fault as fault:
        print(f"{title}: not read: {fault}")
        script.leave_out("texts that aren't read")
    passed, failed = counts.passed, counts.failed
    with tempfile.TemporaryDirectory() as folder:
        tests = []
        for number, instance in enumerate(script.instances):
            made = pathlib.Path(folder) / f"{number}.o"
            if instance.tests:
                made.write_bytes(instance.object.content())
            tests += [(test, [*test.command, str(made)]) for test in instance.tests]
        answers = pool.map(lambda tried: answer(program, tried[1]), tests)
        for (test, _), got in zip(tests, answers):
            reason = test.excuses.get(got.split(" ")[0])
            if got != test.wanted and reason is not None:
                script.leave_out(reason)
            else:
                counts.note(f"{title}:{test.line}: {test.title}: wanted {test.wanted}, got {got}", got == test.wanted)
    line = f"{title}: {summary(counts.passed - passed, counts.failed - failed, script.left_out)}"
    print(line, flush=True)
    return line


def main():
    sys.setrecursionlimit(20000)
    words = sys.argv[1:]
    is_own = words[:1] == ["--self"]
    folder = pathlib.Path(words[0]) if words and not is_own else None
    if not is_own and (folder is None or not folder.is_dir()):
        print("skipped: the suite of the core specification, whose folder test/core isn't given")
        print("0 passed, 0 failed")
        return
    program = pathlib.Path(words[1] if words[1:] else PROGRAM).resolve()
    if not program.exists():
        sys.exit(f"there is no program {program}: 0 passed, 1 failed")
    counts = counting.Counts()
    with concurrent.futures.ThreadPoolExecutor(os.cpu_count()) as pool:
        if is_own:
            line = run_file(OWN.name, OWN, program, pool, counts)
            head = OWN.read_text().partition("\n\n")[0]
            wanted = " ".join(text.removeprefix(";; ") for text in head.splitlines())
            counts.note(f"wanted {OWN.name}: {wanted}", line == f"{OWN.name}: {wanted}")
        else:
            for path in sorted(folder.rglob("*.wast")):
                run_file(str(path.relative_to(folder)), path, program, pool, counts)
    counts.end()


if __name__ == "__main__":
    main()
