"""Makes objects of modules in the text format of the core specification.

What a module begins with is worked out here: the numbers that globals begin with, the bytes in memory, the functions in
the table. An object has no table of its own, and the slots of a link are numbered from 1, so an indirect call first
calls `slot_of`, which leads from the number of an entry to the slot of its function: 0, which holds no function, for an
empty entry, and the greatest number for one past the end of the table.
"""

import dataclasses

import run_objects
import text_body
from run_objects import Code
from text_format import Cursor, Fault, Form, integer, is_integer, is_name
from text_facts import Facts
from text_operators import LeftOut, kind_reason

PAGE, MOST_PAGES = 65536, 1024
KINDS = ("type", "func", "table", "memory", "global", "elem", "data")
# What the suite's own host module has besides a table and a memory: functions that only print, and constants.
PRINTS = {b"print", b"print_i32", b"print_i64", b"print_f32", b"print_f64", b"print_i32_f32", b"print_f64_f64"}
CONSTANTS = {b"global_i32": 666, b"global_i64": 666, b"global_f32": None, b"global_f64": None}


class Space:
    """The names of an index space."""

    def __init__(self):
        self.names, self.count = {}, 0

    def add(self, name):
        """The index of the next thing, which may have a name."""
        if name is not None:
            self.names[name] = self.count
        self.count += 1
        return self.count - 1

    def index(self, word):
        """The index that a name or a number stands for."""
        index = self.names.get(word) if is_name(word) else integer(word)
        if index is None or index >= self.count:
            raise Fault(f"{word} is not there")
        return index


def words_of(items):
    """All words of a form."""
    for item in items:
        if isinstance(item, Form):
            yield from words_of(item)
        elif isinstance(item, str):
            yield item


@dataclasses.dataclass
class Global:
    """A global: its value type, and the number that it begins with, or None where that is no integer."""

    kind: str
    first: int


@dataclasses.dataclass
class Table:
    """A table: its size, and the function of each entry that has one."""

    size: int
    entries: dict = dataclasses.field(default_factory=dict)


class Module(Facts):
    """A module that is read from a form. `exports` leads from a name to a kind and an index."""

    def __init__(self, form):
        super().__init__()
        self.spaces = {kind: Space() for kind in KINDS}
        self.types, self.globals, self.tables, self.segments = [], [], [], []
        self.exports, self.image = {}, bytearray()
        self.pages = self.maximum = self.start = self.table_reason = None
        self.later = {kind: [] for kind in KINDS}
        fields = [field for field in form[1:] if isinstance(field, Form)]
        for field in fields:
            if field.head() in ("type", "rec"):
                self.define_type(field)
        for field in fields:
            self.declare(field)
        self.functions += [None] * (self.spaces["func"].count - len(self.functions))
        for field in fields:
            self.settle(field)
        for kind in ("global", "table", "memory", "elem", "data", "func"):
            for index, cursor in self.later[kind]:
                getattr(self, f"read_{kind}")(index, cursor)

    def define_type(self, field):
        """A type that is written as a field."""
        cursor = Cursor(field, 1)
        name = cursor.name()
        if not cursor.at("func"):
            raise LeftOut("types that are no functions'")
        _, params, results, _ = self.signature(Cursor(cursor.take(), 1))
        self.spaces["type"].add(name)
        self.types.append((tuple(params), tuple(results)))

    def declare(self, field):
        """Numbers what a field defines or imports, and keeps what it says of it for later."""
        kind, cursor = field.head(), Cursor(field, 1)
        if kind == "import":
            origin, name, thing = field[1:]
            cursor = Cursor(thing, 1)
            index = self.number(thing.head(), cursor)
            return self.import_thing(thing.head(), index, (origin, name), cursor)
        if kind in ("type", "export", "start"):
            return None
        index = self.number(kind, cursor)
        while cursor.at("export"):
            self.exports[cursor.take()[1]] = (kind, index)
        if cursor.at("import"):
            return self.import_thing(kind, index, tuple(cursor.take()[1:]), cursor)
        return self.later[kind].append((index, cursor))

    def number(self, kind, cursor):
        """The index of the next thing of a kind, whose name may stand at the cursor."""
        if kind not in KINDS:
            raise LeftOut("other fields")
        return self.spaces[kind].add(cursor.name())

    def settle(self, field):
        """What fields say of things that others define: exports and the function at the start."""
        if field.head() == "export":
            kind, word = field[2]
            self.exports[field[1]] = (kind, self.spaces[kind].index(word) if kind in KINDS else 0)
        elif field.head() == "start":
            self.start = self.spaces["func"].index(field[1])

    def import_thing(self, kind, index, source, cursor):
        """Makes what the suite's host module would give; nothing else is imported."""
        origin, name = source
        if origin == b"spectest" and kind == "func" and name in PRINTS:
            self.functions.append(self.new_function(cursor)[0])
        elif origin == b"spectest" and kind == "global" and name in CONSTANTS:
            self.globals.append(Global(cursor.take(), CONSTANTS[name]))
        else:
            raise LeftOut("imports")

    # Types.

    def signature(self, cursor):
        """What the use of a type at the cursor says: the number of a type, or None, its parameters and results, and the
        names of the parameters."""
        index = self.spaces["type"].index(cursor.take()[1]) if cursor.at("type") else None
        params, results, names = [], [], []
        while cursor.at("param"):
            self.declared(cursor.take(), params, names)
        while cursor.at("result"):
            self.declared(cursor.take(), results, [])
        return index, params, results, names

    def declared(self, form, kinds, names):
        """Appends the value types of parameters, results or locals, and their names."""
        cursor = Cursor(form, 1)
        name = cursor.name()
        added = ["reference" if isinstance(kind, Form) else kind for kind in cursor.rest()]
        kinds += added
        names += [name] if name else [None] * len(added)

    def type_use(self, cursor):
        """The number of the type that is used at the cursor, and the names of its parameters."""
        index, params, results, names = self.signature(cursor)
        if index is None:
            wanted = (tuple(params), tuple(results))
            if wanted not in self.types:
                self.spaces["type"].add(None)
                self.types.append(wanted)
            index = self.types.index(wanted)
        return index, names or [None] * len(self.types[index][0])

    # What a module begins with.

    def value_of(self, items):
        """The number that a constant expression is."""
        stack = []
        self.evaluate(Cursor(items), stack)
        return stack[-1]

    def evaluate(self, cursor, stack):
        """Evaluates the constant expression that is left, onto the stack."""
        while not cursor.is_done():
            item = cursor.take()
            inner = Cursor(item, 1) if isinstance(item, Form) else cursor
            name = item[0] if isinstance(item, Form) else item
            given = inner.take() if name.endswith((".const", ".get", ".null", ".func")) else None
            if inner is not cursor:
                self.evaluate(inner, stack)
            stack.append(self.constant(name, given, stack))

    def constant(self, name, given, stack):
        """What an operator of a constant expression leaves."""
        kind, _, act = name.partition(".")
        width = 64 if kind == "i64" else 32
        if name in ("i32.const", "i64.const"):
            return integer(given) % (1 << width)
        if name == "global.get":
            first = self.globals[self.spaces["global"].index(given)].first
            if first is not None:
                return first
        if act in ("add", "sub", "mul"):
            right, left = stack.pop(), stack.pop()
            return {"add": left + right, "sub": left - right, "mul": left * right}[act] % (1 << width)
        raise LeftOut("other constant expressions")

    def read_global(self, index, cursor):
        """A global. One whose value is no integer is there, but no function of an object uses it."""
        kind = cursor.take()
        kind = kind[1] if isinstance(kind, Form) and kind.head() == "mut" else kind
        first = None
        if kind in ("i32", "i64"):
            try:
                first = self.value_of(cursor.rest())
            except LeftOut:
                pass
        self.globals.append(Global("reference" if isinstance(kind, Form) else kind, first))

    def integer_global(self, index):
        """The value type of a global that the object has."""
        one = self.globals[index]
        if one.first is None:
            raise LeftOut(kind_reason(one.kind) or "other constant expressions")
        return one.kind

    def read_memory(self, index, cursor):
        """A memory. Only the first is put in an object."""
        if index:
            return
        if cursor.peek() == "i64":
            raise LeftOut("memories of 64-bit addresses")
        if cursor.peek() == "i32":
            cursor.take()
        if cursor.at("data"):
            content = b"".join(cursor.take()[1:])
            self.pages = self.maximum = -(-len(content) // PAGE)
            self.spaces["data"].add(None)
            return self.place(0, content)
        self.pages = integer(cursor.take())
        self.maximum = integer(cursor.take()) if is_integer(cursor.peek()) else None
        if not cursor.is_done():
            raise LeftOut("other memories")
        if self.pages == 0:
            raise LeftOut("memories without a page")
        if self.pages > MOST_PAGES:
            raise LeftOut("memories of more than 64 MiB")

    def place(self, address, content):
        """An active segment: its bytes are there at the start, and none are left to be copied."""
        if address + len(content) > (self.pages or 0) * PAGE:
            raise LeftOut("modules that aren't instantiated")
        self.image += bytes(max(0, address + len(content) - len(self.image)))
        self.image[address : address + len(content)] = content
        self.segments.append((False, b""))

    def read_data(self, index, cursor):
        """A segment."""
        memory = self.spaces["memory"].index(cursor.take()[1]) if cursor.at("memory") else 0
        if not isinstance(cursor.peek(), Form):
            return self.segments.append((False, b"".join(cursor.rest())))
        expression = cursor.take()
        address = self.value_of(expression[1:] if expression.head() == "offset" else [expression])
        return self.place(address, b"".join(cursor.rest())) if memory == 0 else self.segments.append((False, b""))

    def read_table(self, index, cursor):
        """A table."""
        if cursor.peek() == "i64":
            self.table_reason = "tables of 64-bit indices"
            cursor.take()
        if is_integer(cursor.peek()):
            self.tables.append(Table(integer(cursor.take())))
            if is_integer(cursor.peek()):
                cursor.take()
        else:
            self.tables.append(Table(0))
        cursor.take()
        if cursor.at("elem"):
            entries = Cursor(cursor.take(), 1)
            self.spaces["elem"].add(None)
            self.tables[index].size = len(entries.rest())
            self.fill(index, 0, entries)
        elif not cursor.is_done():
            self.table_reason = "tables whose entries begin with a value"

    def read_elem(self, index, cursor):
        """A segment of a table. What isn't active has no effect on functions that an object can have."""
        table = self.spaces["table"].index(cursor.take()[1]) if cursor.at("table") else 0
        if is_integer(cursor.peek()):
            table = integer(cursor.take())
        if not isinstance(cursor.peek(), Form) or cursor.peek().head() == "ref":
            return
        expression = cursor.take()
        self.fill(table, self.value_of(expression[1:] if expression.head() == "offset" else [expression]), cursor)

    def fill(self, table, place, cursor):
        """Sets entries of a table from a place on to the functions that stand at the cursor."""
        for item in cursor.rest():
            if isinstance(item, Form) and item.head() == "item":
                item = item[1] if isinstance(item[1], Form) else Form(item[1:])
            if isinstance(item, Form) and item.head() not in ("ref.func", "ref.null"):
                if item.head() != "ref":
                    self.table_reason = "other constant expressions"
                continue
            word = item[1] if isinstance(item, Form) else item
            if not isinstance(item, Form) and not is_name(item) and not is_integer(item):
                continue
            if place >= self.tables[table].size:
                raise LeftOut("modules that aren't instantiated")
            is_empty = isinstance(item, Form) and item.head() == "ref.null"
            self.tables[table].entries[place] = None if is_empty else self.spaces["func"].index(word)
            place += 1

    # Functions.

    def new_function(self, cursor):
        """A function whose type stands at the cursor, and the names of its parameters."""
        index, names = self.type_use(cursor)
        function = text_body.Function(index)
        for kind in self.types[index][0]:
            function.foreign.add(kind_reason(kind))
        if not set(sum(self.types[index], ())) <= run_objects.VALUE_TYPES.keys():
            function.reason = "references"
        return function, names

    def read_func(self, index, cursor):
        """A function that the module defines."""
        function, names = self.new_function(cursor)
        self.functions[index] = function
        kinds = []
        while cursor.at("local"):
            self.declared(cursor.take(), kinds, names)
        function.foreign |= {kind_reason(kind) for kind in kinds}
        function.foreign.discard(None)
        try:
            if not set(kinds) <= run_objects.VALUE_TYPES.keys():
                raise LeftOut("references")
            function.code = text_body.Body(self, function, names).whole(cursor)
            function.locals = run_objects.runs_of(kinds)
        except LeftOut as left_out:
            function.reason, function.code = str(left_out), Code(b"\x00\x0b")
            function.operators = self.operators_of(list(words_of(cursor.items)))

    def operators_of(self, words):
        """Of all words of a function those that may be operators which change what others see: not where they set a
        global that no function of an object uses."""
        unused = {name for name, index in self.spaces["global"].names.items() if self.globals[index].first is None}
        unused |= {str(index) for index, one in enumerate(self.globals) if one.first is None}
        return [word for word, after in zip(words, [*words[1:], ""]) if word != "global.set" or after not in unused]

    # The object.

    def slots(self):
        """The code of `slot_of`. It takes the functions of the table in their order, so that neighbours have
        neighbouring slots where neither comes first as well, and goes by the stretches where that is so."""
        table = self.tables[0] if self.tables else Table(0)
        filled = [(place, function) for place, function in sorted(table.entries.items()) if function is not None]
        order = list(dict.fromkeys(function for _, function in filled))
        code = Code(b"\x02\x40", b"\x0c\x00")
        for function in order:
            code.put(b"\x41").field(run_objects.TABLE_INDEX, function).put(b"\x1a")
        code.put(b"\x0b")
        stretches = []
        for place, function in filled:
            ahead = place - order.index(function)
            if stretches and stretches[-1][2] == ahead and stretches[-1][0] + len(stretches[-1][1]) == place:
                stretches[-1][1].append(function)
            else:
                stretches.append((place, [function], ahead))
        for place, functions, _ in stretches:
            code.put(b"\x20\x00").const("i32", place).put(b"\x6b\x22\x01").const("i32", len(functions))
            code.put(b"\x49\x04\x40\x41").field(run_objects.TABLE_INDEX, functions[0]).put(b"\x20\x01\x6a\x0f\x0b")
        return code.const("i32", 0).const("i32", -1).put(b"\x20\x00").const("i32", table.size).put(b"\x49\x1b")

    def object(self):
        """The object of the module, to which further functions can be added."""
        made = run_objects.Object(pages=self.pages, segments=list(self.segments))
        for kinds in self.types:
            is_sound = set(sum(kinds, ())) <= run_objects.VALUE_TYPES.keys()
            made.types.append(kinds if is_sound else ((), ()))
        for place, function in enumerate(self.functions):
            named = run_objects.Function(f"function{place}", function.type, function.locals, function.code)
            made.functions.append(named)
        made.add("slot_of", ["i32"], ["i32"], self.slots(), [(1, "i32")])
        for one in self.globals:
            made.globals.append((one.kind, one.first) if one.first is not None else ("i32", 0))
        if self.image:
            made.segments.append((True, bytes(self.image)))
        return made

    def words(self):
        """The words of a link of the object: its data begin at the address 0."""
        words = ["--no-entry", "--stack-first", "-z", "stack-size=0"]
        return words if self.maximum is None else [*words, f"--max-memory={self.maximum * PAGE}"]
