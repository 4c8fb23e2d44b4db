#!/usr/bin/env python3
"""Sees that each example worked out by hand is a test: a row of tests/rows.txt, a test of wl_tests, or a case of
another script.

    tests/worked_rows.py

The last line is `N passed, M failed`."""

import pathlib
import re

import counting

ROOT = pathlib.Path(__file__).resolve().parent.parent
ROWS = ROOT / "tests" / "rows.txt"
TESTS = ROOT / "crates" / "wl_tests" / "src"

# Words that many examples have.
KEPT = "--no-entry"
WHOLE = "--no-gc-sections --no-entry"
SHARED = f"{WHOLE} --shared-memory --no-check-features"

# Examples that go through the program: what each shows, and the headings in tests/rows.txt under which it stands. The
# words before a heading stand there too, since one example may be tried with several.
THROUGH_THE_PROGRAM = {
    "no sections": [(KEPT, "What no chain of references leads to is left out")],
    "seven bytes of a header": [
        (KEPT, "Seven bytes are no header"),
        ("", "The entry is judged once all objects are read"),
        (WHOLE, "An object that is cut off has a plan only where a section has just ended and the "
         "rest fits together"),
    ],
    "features of two objects": [
        (KEPT, "A feature that one object uses twice and another once is listed once"),
        (KEPT, "A feature that one object uses and another disallows"),
    ],
    "features that end too early": [(WHOLE, "A list of features ends before its count")],
    "a stack of 1000 bytes": [
        (f"{WHOLE} -z stack-size=1000", "The size of the stack is a multiple of 16"),
    ],
    "a memory of one page, which doesn't hold the stack": [
        ("--no-entry --initial-memory 65536", "A first page alone doesn't hold the stack after the data"),
    ],
    "the end of the heap": [
        (f"{WHOLE} --export __heap_end", "The heap ends where the memory does at the start"),
    ],
    "a number of a segment that gets longer, and the field after it": [
        (WHOLE, "A field after such a number moves with it"),
        (WHOLE, "The number of a segment takes as many bytes as it needs"),
    ],
    "a padded number of a segment": [
        (WHOLE, "A padded number of a segment is written in its shortest form"),
    ],
    "a weak function and a strong one": [
        (WHOLE, "A strong function is called in place of a weak one; without collection both are "
         "kept"),
    ],
    "a stub": [
        (WHOLE, "A weak function that nothing defines has a stub, and its slot is 0"),
    ],
    "one name of two modules": [
        (f"{WHOLE} --allow-undefined", "Two functions of the host with one name, of two modules, have "
         "two slots"),
    ],
    "data that nothing defines": [
        (WHOLE, "Data that nothing defines has no address: 0, or the distance from where memory "
         "begins"),
    ],
    "the block of a thread": [
        (SHARED, "The block of a thread is zeros, and over them "
         "its template"),
    ],
    "shared memory with one segment": [
        (SHARED, "one segment that all threads have in common"),
    ],
    "a call of what nothing defines": [
        ("--entry caller", "A function that is kept calls what nothing defines"),
        (WHOLE, "Without collection each call asks for what it calls"),
        (KEPT, "A dropped function may call what nothing defines"),
    ],
    "words without an object": [
        ("", "No word names an object"),
        ("--entry", "The name of the entry is missing"),
    ],
    "two functions, of which the first calls the second": [
        (WHOLE, "An object that is cut off has a plan only where a section has just ended and the "
         "rest fits together"),
        ("--entry b", "The entry is a function that an object defines, and is exported after the memory"),
    ],
    "an object as clang writes it": [
        ("", "An object as compilers write it: its stack pointer has no name, and its numbers are padded"),
    ],
    "one object twice": [
        ("", "Two objects define the same functions"),
        (WHOLE, "No two symbols that other objects see have one name, and the earliest that "
         "repeats one is reported"),
    ],
    "generated objects": [
        ("--generate 3", "One line says how many objects were made, and what became of them"),
        ("--generate 1", "A single object calls nothing"),
        ("--no-gc-sections --generate 3", "Without collection nothing is dropped"),
        ("--generate 0", "No objects can't be made"),
        ("--generate 10000", "As many objects as can be made"),
    ],
    "a file that isn't there": [(WHOLE, "A file that isn't there can't be read")],
    "sections that are skipped, and debug sections": [
        (WHOLE, "Debug sections are kept, other custom sections skipped"),
    ],
    "one import under two types": [
        ("--allow-undefined --no-gc-sections --no-entry", "Two imports of one name have two types"),
        ("--allow-undefined --no-gc-sections --no-entry", "The same of imports that no symbol names"),
    ],
    "a number of a segment where there is none": [
        (WHOLE, "A body with 0xfc is decoded, and its numbers of segments name segments"),
    ],
    "two aligned segments": [(WHOLE, "Segments stand at multiples of their alignments")],
    "data of one thread": [
        (WHOLE, "Where there is one thread its data stands after all other"),
    ],
    "constructors of two objects": [
        (WHOLE, "Constructors of two objects are called by priority, and their results dropped"),
    ],
    "bodies that aren't operators": [
        (WHOLE, "A kept body is operators that are known"),
        (KEPT, "A dropped function may have a body that is no sequence of operators"),
    ],
    "bad objects: magic, order, framing": [
        (WHOLE, "The first eight bytes are fixed"),
        (WHOLE, "Section ids end at 13, and the standard sections have an order"),
        (WHOLE, "The frame is judged before any section, and in it the bytes of a section before "
         "its order"),
    ],
    "bad objects: numbers, names, bytes too many": [
        (WHOLE, "A number may be padded to five bytes, of which the last has four bits"),
        (WHOLE, "Names are UTF-8, those of skipped sections too"),
        (WHOLE, "Bytes after a section's items are too many"),
    ],
    "bad objects: types, symbols, versions": [
        (WHOLE, "Types are those of functions, of seven value types"),
        (WHOLE, "The type of a function is there"),
        (WHOLE, "A symbol's kind is judged before its flags, and what it stands for is there"),
        (WHOLE, "The linking section is of version 2, and of each subsection that is read there is "
         "one"),
    ],
    "bad objects: relocations": [
        (WHOLE, "A section of relocations is for the code or the data, of which each has one, "
         "wherever it stands"),
        (WHOLE, "A relocation's type is judged before its offset, and what it names is there"),
        (WHOLE, "A field lies in one body, has the form of its type, and shares no byte with "
         "another"),
    ],
    "a function that is declared with another type": [
        (WHOLE, "A function is known under another type than the one that it has."),
        (KEPT, "Where nothing keeps the call, nobody looks at its type."),
    ],
    "absolute symbols": [
        (WHOLE, "An absolute symbol has the address that it gives"),
        (WHOLE, "An absolute address below the data of threads has no place in it"),
    ],
    "types that are used, and one that nothing uses": [
        (WHOLE, "Of the types of an object the output has those that are used"),
        (WHOLE, "A type that data names by its number is used"),
    ],
    "why one function is kept": [("--entry b --why", "A kept function has a cause, and the others are named")],
    "the sizes of two functions": [(f"{WHOLE} --map", "Sizes of functions, and of the sections")],
    "a run of one function": [("--entry a --run a", "A function runs that calls another")],
    "runs after the one that lays the shared segment": [
        (f"{SHARED} --run segment_word", "The function at the start lays the segment that all threads have in common"),
        (f"{SHARED} --run segment_word", "Called again, that function changes nothing"),
        (f"{SHARED} --run flag_word", "And it leaves that it is done"),
        (f"{SHARED} --run flag_word", "The flag says so after a second call too"),
    ],
    "features of a payload, and one that ends too early": [
        (WHOLE, "Features are read"),
        (WHOLE, "A list of features ends before its count"),
    ],
    "addresses of the names that the linker makes": [
        (f"{WHOLE} --export __data_end --export __global_base --export __dso_handle --export __wasm_first_page_end "
         "--export __heap_base --export __heap_end", "Names that the linker makes stand for addresses"),
    ],
    "the base of the heap and the stack pointer, where the stack comes first": [
        (f"{WHOLE} --stack-first -z stack-size=1048576 --export=__data_end --export=__heap_base",
         "Where the stack comes first it ends where data begins, and the heap begins at a multiple of 16 after "
         "the data"),
        (f"{WHOLE} --stack-first --initial-memory=65536", "A first page holds the stack before the data"),
    ],
    "bodies of calls and of wrappers": [
        (WHOLE, "Constructors of two objects are called by priority, and their results dropped"),
        ("--no-entry --export=f", "A wrapper hands on its parameters, and keeps the result"),
        ("--allow-undefined --no-gc-sections --no-entry",
         "A constructor is called by its index after the imports, and its result dropped"),
        ("--allow-undefined --no-gc-sections --no-entry --export=f", "A wrapper calls by indices after the imports"),
    ],
    "sizes of bodies and of segments": [
        (f"{WHOLE} --map", "A section counts its bytes and their count, and nothing where it is empty"),
        (f"{WHOLE} --map", "An active segment has its address, a passive one has none"),
        (f"{WHOLE} --map", "A passive segment is its kind, its length and its bytes"),
    ],
    "a body with another number of a segment": [(WHOLE, "A field after such a number moves with it")],
    "a padded number in a body": [(WHOLE, "A padded number of a segment is written in its shortest form")],
    "the value of an address that there is not": [
        (WHOLE, "Data that nothing defines has no address: 0, or the distance from where memory "
         "begins"),
    ],
    "the value of an absolute address": [
        (WHOLE, "An absolute symbol has the address that it gives"),
        (WHOLE, "An absolute address below the data of threads has no place in it"),
    ],
    "the body that fills a thread's block": [
        (SHARED, "The block of a thread is zeros, and over them "
         "its template"),
    ],
    "the body that lays shared segments": [(SHARED, "one segment that all threads have in common")],
    "what words ask for": [
        ("--export-if-defined foo --export=bar --export-if-defined=baz --extra-features=a --import-memory=foo,bar "
         "--keep-section=a --keep-section name --strip-all -z stack-size=0064 --no-entry -e=main --no-gc-sections",
         "Each word asks for what it says, and of two that speak of one thing the last counts"),
        ("--no-entry -", "A dash alone is an object, the first one here"),
        (f"{WHOLE} --export=bar", "A name that has to be there"),
        (f"{WHOLE} --extra-features=a --extra-features=b,,c", "The last list of features counts, without empty names"),
        (f"{WHOLE} --extra-features=a --extra-features=", "It may be empty"),
        (f"{WHOLE} --import-memory=foo", "A name of the memory alone is one of env"),
        (f"{WHOLE} --strip-all --keep-section=a -keep-section=target_features",
         "Sections are kept by their names, the debug sections left out"),
        (f"{WHOLE} --strip-all --keep-section=a --keep-section target_features --keep-section c",
         "The name may be the next word"),
        (f"{WHOLE} --strip-all --keep-section=a --keep-section name", "Sections of other names are left out"),
    ],
    "a listing that is compared with that of the plan": [
        (f"{WHOLE} --check {{a calls b}}", "A text is the listing of the plan"),
        (f"{WHOLE} --check={{a calls b, where a has another type}}", "A text is another listing, by one number"),
        (f"{WHOLE} --check {{a calls b, with a number of two zeros}}", "A number is written in one way"),
        (f"{WHOLE} --check {{no line}}", "A text without a line is a listing, of no plan"),
    ],
    "an object that is replaced": [
        (f"{WHOLE} --replace 0:{{an empty module}}", "The plan is that of what is in the place of an object"),
        (f"{WHOLE} --replace 0:{{an empty module}}", "An object has to be one, although it is replaced"),
    ],
    "an object that seven bytes replace": [
        (f"{WHOLE} --replace 0:{{seven bytes}}", "What replaces an object has to be one, and has its number"),
        (f"{WHOLE} --replace 0:{{seven bytes}} --replace 0:{{an empty module}}",
         "What replaces an object has to be one, although it is replaced again"),
    ],
    "an object that is replaced twice": [
        (f"{WHOLE} --replace 0:{{two functions}} --replace 0:{{an empty module}}", "Of two in one place the last counts"),
    ],
    "one object twice, of which the second is replaced": [
        (f"{WHOLE} --replace 1:{{an empty module}}",
         "Two objects that define the same functions have a plan once one of them is replaced"),
    ],
    "files in the places of objects that can't be read": [
        (f"{WHOLE} --replace 0:{{an empty module}} --replace 0:no/such/file",
         "Files in the places of objects count after the objects, and are read before an object is judged"),
        (f"{WHOLE} --check no/such/file --replace 0:{{an empty module}}",
         "The file that is compared is read after those in the places of objects"),
    ],
    "modes of objects that are replaced": [
        ("--entry b --why --replace 0:{two functions}", "What is kept is what is in the place of an object"),
        (f"{WHOLE} --map --replace 0:{{two functions}}", "Sizes are those of what is in the place of an object"),
        ("--entry f --run f --replace 0:{a function f that returns 127}",
         "A function runs that is in the place of an object"),
        (f"{WHOLE} --check {{nothing}} --replace 0:{{an empty module}}",
         "A text is the listing of the plan after the replacement"),
    ],
    "a replacement of an object that there is not": [
        (f"{WHOLE} --replace 0:{{an empty module}}", "Without an object there is none that could be replaced"),
        (f"{WHOLE} --replace 1:{{an empty module}}", "There is no object of this number"),
        ("--generate 3 --replace 0:{an empty module}", "Generated objects aren't replaced"),
    ],
}

# Examples at a call: what each shows, and the tests of wl_tests, as FILE/FUNCTION.
AT_CALLS = {
    "the base of the heap behind data, where the stack comes first": ["data/heap_begins_behind_the_data"],
    "pages that hold the data and the stack": ["data/memory_holds_the_stack", "data/heap_begins_behind_the_data"],
    "addresses of the names that the linker makes, without an end of the heap": ["data/names_of_the_linker_have_addresses"],
    "the stack pointer, where the stack comes first and where it comes last": ["data/the_stack_begins_at_its_high_end"],
    "steps of a search through generated objects": ["search_steps/steps_are_kept_units_and_what_they_refer_to"],
    "each call of a file that fails": ["files/each_failing_call_of_a_file_is_a_fault"],
    "each write that fails": ["files/each_failing_write_leaves_a_front", "files/a_stream_that_takes_nothing_is_a_fault"],
    "a file with a limit": ["files/a_file_has_a_limit", "files/a_file_may_have_as_many_bytes_as_the_limit"],
    "the third call of a file, which fails": ["files/the_read_that_finds_the_end_may_fail"],
    "a payload of two features, and one that is cut off": ["features/features_are_listed_with_their_prefixes"],
    "sections that are kept where the rest is stripped": ["words/sections_are_kept_by_their_names"],
    "generated objects, byte by byte": ["generated/makes_both_objects_of_a_chain"],
    "certificates that aren't valid": ["why/certificates_are_valid_or_not"],
    "fuel of a run": ["load/fuel_is_a_step_for_each_operator"],
    "names of objects that are replaced": ["session/a_name_follows_replacements"],
    "plans of objects that are replaced": ["plan/plans_follow_replacements"],
    "objects that a session refuses": ["plan/a_refused_object_changes_nothing"],
    "one object twice in a session, of which the second is replaced": ["plan/a_replaced_object_defines_nothing_more"],
}

# Examples that stand in another script: what each shows, the script, and the function or the title of the case there.
IN_SCRIPTS = {
    "each read of the program that fails": ("failing_streams.py", "wrong_reads"),
    "each write of the program that fails": ("failing_streams.py", "wrong_writes"),
    "an object that is read byte by byte": ("failing_streams.py", "byte_by_byte"),
    "a listing that is written 16 bytes at a time": ("failing_streams.py", "piece_by_piece"),
    "an output that takes no byte": ("failing_streams.py", "nothing_is_taken"),
    "each allocation of the program that is refused": ("out_of_memory.py", "refuse_each"),
    "a refused allocation, with a kept entry": ("out_of_memory.py", "a kept entry"),
    "a refused allocation, of an object as clang writes it": ("out_of_memory.py", "an object as compilers write it"),
    "a refused allocation, where threads share the memory": ("out_of_memory.py", "shared memory"),
    "a refused allocation of generated objects": ("out_of_memory.py", "generated objects"),
    "objects that are changed while a plan of them lives": ("misuse.py", "changed_under_a_plan"),
    "words that ask for replacements": ("cli.py", "replacements"),
    "a replaced object, with each allocation refused": ("out_of_memory.py", "a replaced object"),
    "streams that take nothing": ("cli.py", "writes"),
    "what operators on integers compute, load and store": ("cli.py", "numbers"),
    "texts that are no listings": ("listing_grammar.py", "texts_by_hand"),
    "files that can't be read to their end": ("cli.py", "reads"),
}

counts = counting.Counts()
note = counts.note


def headings():
    """The headings of tests/rows.txt that have a row, each with the words before it."""
    found, words, heading = set(), "", None
    for line in ROWS.read_text().splitlines():
        kind, _, rest = line.partition(" ")
        if kind == "words":
            words = rest
        elif kind == "##":
            heading = rest
        elif heading and " = " in line and not line.startswith((">", "#")):
            found.add((words, heading))
    return found


def tests_of(path):
    """The tests of a file of wl_tests, where lib.rt names it."""
    named = f"mod {path.stem};" in (TESTS / "lib.rt").read_text()
    return set(re.findall(r"#\[test\]\s+fn (\w+)\(", path.read_text())) if named and path.is_file() else set()


def main():
    rows = headings()
    for shown, places in THROUGH_THE_PROGRAM.items():
        for place in places:
            note(f"{shown}: no row {' '.join(place)}", place in rows)
    for shown, places in AT_CALLS.items():
        for place in places:
            file, name = place.split("/")
            note(f"{shown}: no test {place}", name in tests_of(TESTS / f"{file}.rt"))
    for shown, (script, name) in IN_SCRIPTS.items():
        text = (ROOT / "tests" / script).read_text()
        stands = any(form in text for form in (f"def {name}(", f"fn {name}(", f'yield "{name}"'))
        note(f"{shown}: no {name} in {script}", stands)
    counts.end()


if __name__ == "__main__":
    main()
