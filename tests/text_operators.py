"""The operators of the core specification by their names in the text format, and what is asked of them here."""


class LeftOut(Exception):
    """What isn't put in an object; the text is the reason."""


def numbered(first, prefix, names):
    """The operators of a prefix that have these names, with one byte each from the first on."""
    return {prefix + name: bytes([first + place]) for place, name in enumerate(names.split())}


INTEGER_COMPARISONS = "eqz eq ne lt_s lt_u gt_s gt_u le_s le_u ge_s ge_u"
FLOAT_COMPARISONS = "eq ne lt gt le ge"
INTEGER_OPERATORS = "clz ctz popcnt add sub mul div_s div_u rem_s rem_u and or xor shl shr_s shr_u rotl rotr"
FLOAT_OPERATORS = "abs neg ceil floor trunc nearest sqrt add sub mul div min max copysign"
CONVERSIONS = (
    "i32.wrap_i64 i32.trunc_f32_s i32.trunc_f32_u i32.trunc_f64_s i32.trunc_f64_u i64.extend_i32_s i64.extend_i32_u "
    "i64.trunc_f32_s i64.trunc_f32_u i64.trunc_f64_s i64.trunc_f64_u f32.convert_i32_s f32.convert_i32_u "
    "f32.convert_i64_s f32.convert_i64_u f32.demote_f64 f64.convert_i32_s f64.convert_i32_u f64.convert_i64_s "
    "f64.convert_i64_u f64.promote_f32 i32.reinterpret_f32 i64.reinterpret_f64 f32.reinterpret_i32 "
    "f64.reinterpret_i64 i32.extend8_s i32.extend16_s i64.extend8_s i64.extend16_s i64.extend32_s"
)
SATURATING = "i32.{0}f32_s i32.{0}f32_u i32.{0}f64_s i32.{0}f64_u i64.{0}f32_s i64.{0}f32_u i64.{0}f64_s i64.{0}f64_u"
ACCESSES = (
    "i32.load i64.load f32.load f64.load i32.load8_s i32.load8_u i32.load16_s i32.load16_u i64.load8_s i64.load8_u "
    "i64.load16_s i64.load16_u i64.load32_s i64.load32_u i32.store i64.store f32.store f64.store i32.store8 "
    "i32.store16 i64.store8 i64.store16 i64.store32"
)

# Operators with nothing after them.
PLAIN = {
    "unreachable": b"\x00",
    "nop": b"\x01",
    "return": b"\x0f",
    "drop": b"\x1a",
    **numbered(0x45, "i32.", INTEGER_COMPARISONS),
    **numbered(0x50, "i64.", INTEGER_COMPARISONS),
    **numbered(0x5B, "f32.", FLOAT_COMPARISONS),
    **numbered(0x61, "f64.", FLOAT_COMPARISONS),
    **numbered(0x67, "i32.", INTEGER_OPERATORS),
    **numbered(0x79, "i64.", INTEGER_OPERATORS),
    **numbered(0x8B, "f32.", FLOAT_OPERATORS),
    **numbered(0x99, "f64.", FLOAT_OPERATORS),
    **numbered(0xA7, "", CONVERSIONS),
    **{name: b"\xfc" + bytes([place]) for place, name in enumerate(SATURATING.format("trunc_sat_").split())},
}
# Operators with a memory argument.
LOADS_AND_STORES = numbered(0x28, "", ACCESSES)
# Operators with the numbers of memories after them, which are the first where they aren't written: how many, the code.
OF_MEMORIES = {
    "memory.size": (1, b"\x3f\x00"),
    "memory.grow": (1, b"\x40\x00"),
    "memory.fill": (1, b"\xfc\x0b\x00"),
    "memory.copy": (2, b"\xfc\x0a\x00\x00"),
}
BLOCKS = {"block": b"\x02", "loop": b"\x03", "if": b"\x04"}
BRANCHES = {"br": b"\x0c", "br_if": b"\x0d"}
OF_LOCALS = {"local.get": b"\x20", "local.set": b"\x21", "local.tee": b"\x22"}
OF_GLOBALS = {"global.get": b"\x23", "global.set": b"\x24"}

# What changes the state of a module, what looks at it besides, and what may trap.
CHANGES = {name for name in LOADS_AND_STORES if ".store" in name} | {
    "memory.grow", "memory.fill", "memory.copy", "memory.init", "data.drop", "global.set",
}
STATE = CHANGES | set(LOADS_AND_STORES) | {"memory.size", "global.get", "call_indirect"}
TRAPS = set(LOADS_AND_STORES) | {
    "unreachable", "call", "call_indirect", "memory.fill", "memory.copy", "memory.init",
} | {name for name in PLAIN if ".div_" in name or ".rem_" in name or ".trunc" in name}

# Why an operator isn't put in an object, by how its name begins.
REASONS = [
    (("table.", "elem."), "operators on tables"),
    (("ref.", "struct.", "array.", "i31.", "any.", "extern.", "call_ref", "br_on_", "return_call_ref"), "references"),
    (("v128", "i8x16", "i16x8", "i32x4", "i64x2", "f32x4", "f64x2"), "vectors"),
    (("throw", "try", "catch", "rethrow", "delegate"), "exceptions"),
    (("return_call",), "tail calls"),
]


def natural_alignment(name):
    """The exponent of the alignment that a load or a store has where none is written."""
    kind, _, access = name.partition(".")
    digits = access.lstrip("loadstre").partition("_")[0]
    return (int(digits or kind[1:]) // 8).bit_length() - 1


def reason_of(name):
    """Why an operator isn't put in an object."""
    return next((reason for begins, reason in REASONS if name.startswith(begins)), "other operators")


def kind_reason(kind):
    """Why a function with a parameter or a local of this type isn't run, or None where it is."""
    return {"i32": None, "i64": None, "f32": "floats", "f64": "floats", "v128": "vectors"}.get(kind, "references")
