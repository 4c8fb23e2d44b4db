#!/usr/bin/env python3
"""Runs small C programs by wildplan's --run, and compares their results with those of the same C, built natively.

    tests/run_programs.py PROGRAM

Each program is two files that clang compiles to objects for wasm32. Its function `answer` returns a number, which the
native build prints. Where clang doesn't know wasm32, or cc is missing, nothing is tried. The last line is
`N passed, M failed`."""

import pathlib
import shutil
import subprocess
import sys
import tempfile

import counting

# What begins each file: the types of C, with no header of a C library.
HEAD = """
typedef unsigned int u32;
typedef unsigned long long u64;
typedef unsigned char u8;
"""
# What the native build adds.
MAIN = """
#include <stdio.h>
unsigned int answer(void);
int main(void) { printf("done %u\\n", answer()); return 0; }
"""

# Programs, each of two files: what calls, and what is called.
PROGRAMS = {
    "sorting": (
        """
void sort(u32 *first, u32 count);
static u32 numbers[64];
u32 answer(void) {
    u32 seed = 1, sum = 0;
    for (u32 i = 0; i < 64; i++) {
        seed = seed * 1103515245u + 12345u;
        numbers[i] = seed >> 16;
    }
    sort(numbers, 64);
    for (u32 i = 0; i < 64; i++) sum = sum * 31 + numbers[i];
    return sum;
}
""",
        """
void sort(u32 *first, u32 count) {
    for (u32 i = 1; i < count; i++) {
        u32 one = first[i], place = i;
        while (place > 0 && first[place - 1] > one) {
            first[place] = first[place - 1];
            place--;
        }
        first[place] = one;
    }
}
""",
    ),
    "a checksum": (
        """
u32 checksum(const u8 *text, u32 length);
const u8 text[] = "Each field of a relocation takes its number.";
u32 answer(void) { return checksum(text, sizeof text - 1) ^ checksum(text + 5, 17); }
""",
        """
static u32 table[256];
static int made;
static void make(void) {
    for (u32 i = 0; i < 256; i++) {
        u32 word = i;
        for (int bit = 0; bit < 8; bit++) word = word & 1 ? word >> 1 ^ 0xedb88320u : word >> 1;
        table[i] = word;
    }
    made = 1;
}
u32 checksum(const u8 *text, u32 length) {
    u32 sum = 0xffffffffu;
    if (!made) make();
    for (u32 i = 0; i < length; i++) sum = sum >> 8 ^ table[(sum ^ text[i]) & 0xff];
    return ~sum;
}
""",
    ),
    "an allocator": (
        """
void *take(u32 size);
void give(void *place, u32 size);
struct node { struct node *next; u32 value; };
u32 answer(void) {
    struct node *list = 0;
    u32 sum = 0;
    for (u32 round = 0; round < 20; round++) {
        for (u32 i = 0; i < 8; i++) {
            struct node *one = take(sizeof *one);
            if (!one) return 1;
            one->next = list;
            one->value = round * 8 + i;
            list = one;
        }
        for (u32 i = 0; i < 7; i++) {
            struct node *one = list;
            list = one->next;
            sum = sum * 7 + one->value;
            give(one, sizeof *one);
        }
    }
    for (; list; list = list->next) sum += list->value;
    return sum;
}
""",
        """
struct room { struct room *next; };
static u8 store[2048] __attribute__((aligned(16)));
static u32 used;
static struct room *rooms;
void *take(u32 size) {
    if (rooms) {
        struct room *room = rooms;
        rooms = room->next;
        return room;
    }
    size = (size + 15) & ~15u;
    if (used + size > sizeof store) return 0;
    used += size;
    return store + used - size;
}
void give(void *place, u32 size) {
    struct room *room = place;
    (void)size;
    room->next = rooms;
    rooms = room;
}
""",
    ),
    "a function that calls itself": (
        """
u32 moves(u32 discs, u32 from, u32 to);
u32 paths(u32 right, u32 down);
u32 answer(void) { return moves(9, 1, 3) * 1000003u + paths(6, 5); }
""",
        """
u32 moves(u32 discs, u32 from, u32 to) {
    if (!discs) return 0;
    u32 other = 6 - from - to;
    return moves(discs - 1, from, other) * 2 + from * to + moves(discs - 1, other, to);
}
u32 paths(u32 right, u32 down) {
    return right && down ? paths(right - 1, down) + paths(right, down - 1) : 1;
}
""",
    ),
    "a switch": (
        """
u32 run(const u8 *code);
const u8 code[] = {0, 7, 1, 2, 0, 9, 3, 4, 5, 2, 6, 6, 1, 7, 0, 200, 8, 9};
u32 answer(void) { return run(code); }
""",
        """
u32 run(const u8 *code) {
    u32 value = 1, other = 0;
    for (;;) {
        switch (*code++) {
        case 0: value += *code++; break;
        case 1: other = value; break;
        case 2: value *= 3; break;
        case 3: value ^= other; break;
        case 4: value = value << 5 | value >> 27; break;
        case 5: value -= other * 11; break;
        case 6: other += 0x1234567; break;
        case 7: { u32 kept = value; value = other; other = kept; break; }
        case 8: value = ~value; break;
        default: return value ^ other;
        }
    }
}
""",
    ),
    "calls by pointers": (
        """
typedef u32 (*step)(u32);
extern const step steps[4];
u32 fold(step const *first, u32 count, u32 value);
static u32 twice(u32 n) { return n * 2; }
u32 answer(void) {
    step own[3] = {twice, steps[1], twice};
    volatile u32 begin = 17;
    return fold(own, 3, fold(steps, 4, begin));
}
""",
        """
typedef u32 (*step)(u32);
static u32 more(u32 n) { return n + 12345; }
static u32 turned(u32 n) { return n << 7 | n >> 25; }
static u32 mixed(u32 n) { return (n ^ n >> 13) * 0x5bd1e995u; }
const step steps[4] = {more, mixed, turned, more};
u32 fold(step const *first, u32 count, u32 value) {
    for (u32 i = 0; i < count; i++) value = first[i](value);
    return value;
}
""",
    ),
    "numbers of 64 bits": (
        """
u64 power(u64 base, u64 exponent, u64 modulus);
static u64 seed = 0x123456789abcdefull;
u32 answer(void) {
    u64 sum = 0;
    for (int i = 0; i < 5; i++) {
        seed = seed * 6364136223846793005ull + 1442695040888963407ull;
        sum += power(seed >> 40, seed >> 56, 1000003);
    }
    return (u32)(sum ^ sum >> 32) + (u32)((long long)seed / -1000003 % 65537);
}
""",
        """
u64 power(u64 base, u64 exponent, u64 modulus) {
    u64 result = 1;
    for (base %= modulus; exponent; exponent >>= 1) {
        if (exponent & 1) result = result * base % modulus;
        base = base * base % modulus;
    }
    return result;
}
""",
    ),
    "constructors": (
        """
u32 order(void);
static u32 begun = 5;
__attribute__((constructor)) static void first(void) { begun = begun * 3 + 1; }
u32 answer(void) { return begun * 100 + order(); }
""",
        """
static u32 seen;
__attribute__((constructor(200))) static void late(void) { seen = seen * 10 + 2; }
__attribute__((constructor(150))) static void early(void) { seen = seen * 10 + 1; }
u32 order(void) { return seen; }
""",
    ),
}
# How clang is asked to compile: as it does by itself, and for code that is fast, and small.
LEVELS = ("-O0", "-O2", "-Os")

counts = counting.Counts()


def compiles(clang, folder):
    """Whether clang makes objects for wasm32."""
    source = folder / "empty.c"
    source.write_text("int none;\n")
    asked = [clang, "--target=wasm32", "-c", source, "-o", folder / "empty.o"]
    return subprocess.run(asked, capture_output=True).returncode == 0


def natively(sources, folder):
    """What the program prints that cc builds."""
    main, built = folder / "main.c", folder / "native"
    main.write_text(MAIN)
    subprocess.run(["cc", "-O1", "-w", *sources, main, "-o", built], check=True)
    return subprocess.run([built], check=True, capture_output=True, text=True).stdout


def by_wildplan(program, clang, level, sources, folder):
    """What wildplan writes of a run of the same files, as objects."""
    objects = []
    for source in sources:
        objects.append(folder / f"{source.stem}{level}.o")
        asked = [clang, "--target=wasm32", "-ffreestanding", "-w", level, "-c", source, "-o", objects[-1]]
        subprocess.run(asked, check=True)
    asked = [program, "--entry", "answer", "--run", "answer", *objects]
    ran = subprocess.run(asked, capture_output=True, text=True)
    return ran.stdout if ran.returncode == 0 else ran.stderr


def main():
    program = pathlib.Path(sys.argv[1]).resolve()
    clang = shutil.which("clang")
    with tempfile.TemporaryDirectory(prefix="wildplan-run-") as name:
        folder = pathlib.Path(name)
        if not clang or not shutil.which("cc") or not compiles(clang, folder):
            print("clang for wasm32 and cc are needed: nothing was tried")
            counts.end()
        for title, texts in PROGRAMS.items():
            sources = []
            for number, text in enumerate(texts):
                sources.append(folder / f"{title.replace(' ', '_')}_{number}.c")
                sources[-1].write_text(HEAD + text)
            wanted = natively(sources, folder)
            for level in LEVELS:
                got = by_wildplan(program, clang, level, sources, folder)
                counts.note(f"{title} {level}: {got.strip()}, and natively {wanted.strip()}", got == wanted)
    counts.end()


if __name__ == "__main__":
    main()
