"""Makes the code of functions in the text format, with a relocation for each index that a link changes."""

import dataclasses

import run_objects
import text_operators as known
from made_objects import leb128, listed
from run_objects import Code
from text_format import Cursor, Fault, Form, integer, is_integer, is_name
from text_operators import LeftOut


@dataclasses.dataclass
class Function:
    """A function: the number of its type, its locals and its code. `reason` says why it isn't in the object, `foreign`
    why something in it isn't run. `operators` has the names of its operators, in order."""

    type: int
    locals: list = dataclasses.field(default_factory=list)
    code: Code = dataclasses.field(default_factory=lambda: Code(b"\x0b"))
    reason: str = None
    foreign: set = dataclasses.field(default_factory=set)
    calls: set = dataclasses.field(default_factory=set)
    operators: list = dataclasses.field(default_factory=list)


class Body:
    """The code of a function of a module. `names` has the names of its parameters and locals, or None."""

    def __init__(self, module, function, names):
        self.module, self.function, self.names = module, function, names
        self.code, self.labels = Code(), []

    def whole(self, cursor):
        """The code of all that stands at the cursor."""
        self.sequence(cursor)
        if self.labels:
            raise Fault("a block has no end")
        return self.code.put(b"\x0b")

    def sequence(self, cursor):
        """Appends what is left."""
        while not cursor.is_done():
            item = cursor.take()
            if isinstance(item, Form):
                self.folded(Cursor(item))
            else:
                self.flat(item, cursor)

    def write(self, name, code):
        """Appends an operator."""
        self.function.operators.append(name)
        if "f32" in name or "f64" in name:
            self.function.foreign.add("floats")
        self.code.append(code)

    def flat(self, name, cursor):
        """Appends an operator whose operands stand before it."""
        if name in known.BLOCKS:
            self.open(name, cursor.name(), self.block_type(cursor))
        elif name == "else":
            cursor.name()
            self.code.put(b"\x05")
        elif name == "end":
            cursor.name()
            self.close()
        else:
            self.write(name, self.operator(name, cursor))

    def folded(self, cursor):
        """Appends an operator whose operands stand in its form."""
        name = cursor.take()
        if name in known.BLOCKS:
            label, kind = cursor.name(), self.block_type(cursor)
            while name == "if" and not cursor.at("then"):
                self.folded(Cursor(cursor.take()))
            self.open(name, label, kind)
            if name == "if":
                self.branches(cursor)
            else:
                self.sequence(cursor)
            self.close()
        else:
            code = self.operator(name, cursor)
            self.sequence(cursor)
            self.write(name, code)

    def branches(self, cursor):
        """Appends both ways of an `if`."""
        self.sequence(Cursor(cursor.take(), 1))
        if cursor.at("else"):
            self.code.put(b"\x05")
            self.sequence(Cursor(cursor.take(), 1))

    def open(self, name, label, kind):
        """Opens a block."""
        self.write(name, Code(known.BLOCKS[name]).append(kind))
        self.labels.append(label)

    def close(self):
        """Ends a block."""
        if not self.labels:
            raise Fault("an end is that of no block")
        self.labels.pop()
        self.code.put(b"\x0b")

    def block_type(self, cursor):
        """The type of a block."""
        index, params, results, _ = self.module.signature(Cursor(cursor.items, cursor.place))
        if index is None and not params and len(results) < 2:
            while cursor.at("param") or cursor.at("result"):
                cursor.take()
            return Code(self.value_type(results[0]) if results else b"\x40")
        return Code().field(run_objects.TYPE_INDEX, self.sound_type(cursor))

    def value_type(self, kind):
        """A value type as a byte."""
        if kind not in run_objects.VALUE_TYPES:
            raise LeftOut("references")
        return run_objects.VALUE_TYPES[kind]

    def sound_type(self, cursor):
        """The number of the type that is used at the cursor."""
        index, _ = self.module.type_use(cursor)
        for kinds in self.module.types[index]:
            for kind in kinds:
                self.value_type(kind)
        return index

    def operator(self, name, cursor):
        """The code of an operator, and of what follows its name."""
        if name in known.PLAIN:
            return Code(known.PLAIN[name])
        if name in known.LOADS_AND_STORES:
            return self.access(name, cursor)
        if name in known.OF_MEMORIES:
            memories, code = known.OF_MEMORIES[name]
            for _ in range(memories):
                self.memory(cursor)
            return Code(code)
        if name in known.BRANCHES:
            return Code(known.BRANCHES[name], self.label(cursor.take()))
        if name in known.OF_LOCALS:
            return Code(known.OF_LOCALS[name], self.local(cursor.take()))
        if name in known.OF_GLOBALS:
            return Code(known.OF_GLOBALS[name]).field(run_objects.GLOBAL_INDEX, self.global_index(cursor.take()))
        kind, _, act = name.partition(".")
        if act == "const" and kind in ("i32", "i64"):
            return Code().const(kind, integer(cursor.take()))
        if act == "const" and kind in ("f32", "f64"):
            cursor.take()
            return Code({"f32": b"\x43" + bytes(4), "f64": b"\x44" + bytes(8)}[kind])
        special = getattr(self, f"operator_{name.replace('.', '_')}", None)
        if special is None:
            raise LeftOut(known.reason_of(name))
        return special(cursor)

    def label(self, word):
        """A label, as a number."""
        if not is_name(word):
            return leb128(integer(word))
        if word not in self.labels:
            raise Fault(f"the label {word} is not there")
        return leb128(self.labels[::-1].index(word))

    def local(self, word):
        """A local, as a number."""
        if is_name(word) and word not in self.names:
            raise Fault(f"the local {word} is not there")
        return leb128(self.names.index(word) if is_name(word) else integer(word))

    def global_index(self, word):
        """The index of a global that the object has."""
        index = self.module.spaces["global"].index(word)
        self.module.integer_global(index)
        return index

    def memory(self, cursor):
        """Passes over the number of a memory, where one stands; it has to be the first."""
        if is_name(cursor.peek()) or is_integer(cursor.peek()):
            if self.module.spaces["memory"].index(cursor.take()):
                raise LeftOut("several memories")

    def access(self, name, cursor):
        """A load or a store."""
        self.memory(cursor)
        offset, alignment = 0, known.natural_alignment(name)
        while isinstance(cursor.peek(), str) and cursor.peek().startswith(("offset=", "align=")):
            what, _, number = cursor.take().partition("=")
            if what == "offset":
                offset = integer(number)
            else:
                alignment = integer(number).bit_length() - 1
        if offset >= 1 << 32:
            raise LeftOut("memories of 64-bit addresses")
        return Code(known.LOADS_AND_STORES[name], leb128(alignment), leb128(offset))

    # What follows the names of other operators. Each method is named after its operator.

    def operator_call(self, cursor):
        """The function that is called."""
        function = self.module.spaces["func"].index(cursor.take())
        self.function.calls.add(function)
        return Code().call(function)

    def operator_call_indirect(self, cursor):
        """A table, which has to be the first, and a type. The entry that is the operand becomes a slot before."""
        if is_name(cursor.peek()) or is_integer(cursor.peek()):
            if self.module.spaces["table"].index(cursor.take()):
                raise LeftOut("several tables")
        if self.module.table_reason:
            raise LeftOut(self.module.table_reason)
        kind = self.sound_type(cursor)
        slot_of = len(self.module.functions)
        return Code().call(slot_of).put(b"\x11").field(run_objects.TYPE_INDEX, kind).put(b"\x00")

    def operator_br_table(self, cursor):
        """The labels."""
        labels = []
        while is_name(cursor.peek()) or is_integer(cursor.peek()):
            labels.append(self.label(cursor.take()))
        return Code(b"\x0e", listed(labels[:-1]), labels[-1])

    def operator_select(self, cursor):
        """The type of its operands, or none."""
        if not cursor.at("result"):
            return Code(b"\x1b")
        _, _, results, _ = self.module.signature(cursor)
        self.function.foreign.add("select with a type")
        return Code(b"\x1c", listed([self.value_type(kind) for kind in results]))

    def operator_memory_init(self, cursor):
        """The number of a segment, after that of a memory where there are two."""
        words = [cursor.take()]
        while is_name(cursor.peek()) or is_integer(cursor.peek()):
            words.append(cursor.take())
        self.memory(Cursor(words[:-1]))
        return Code(b"\xfc\x08", leb128(self.module.spaces["data"].index(words[-1])), b"\x00")

    def operator_data_drop(self, cursor):
        """The number of a segment."""
        return Code(b"\xfc\x09", leb128(self.module.spaces["data"].index(cursor.take())))
