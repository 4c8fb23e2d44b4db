#!/usr/bin/env python3
"""Tests what `make install` installs: the program, the man page and the completions, and that `make uninstall`
removes all of it. What isn't installed on this machine (make, man, groff, bash, zsh, fish) is said to be skipped.

    tests/install.py PROGRAM

The last line is `N passed, M failed`."""

import os
import pathlib
import shutil
import subprocess
import sys
import tempfile

ROOT = pathlib.Path(__file__).resolve().parent.parent
sys.path.insert(0, str(ROOT / "tools"))

import counting  # noqa: E402
import make_pages  # noqa: E402

COMPLETIONS = {
    "bash": "share/bash-completion/completions/wildplan",
    "zsh": "share/zsh/site-functions/_wildplan",
    "fish": "share/fish/vendor_completions.d/wildplan.fish",
}
PAGE = "share/man/man1/wildplan.1"
LICENCES = ["LICENSE-MIT", "LICENSE-APACHE", "NOTICE"]

counts = counting.Counts()
note = counts.note


def is_there(program):
    """Whether a program is installed. Where it isn't, that is said."""
    if shutil.which(program):
        return True
    print(f"skipped: what needs {program}, which isn't installed")
    return False


def output_of(command, **given):
    """What a command prints."""
    ended = subprocess.run(command, stdin=subprocess.DEVNULL, capture_output=True, text=True, timeout=60, **given)
    return ended.stdout + ended.stderr


def make(target, prefix, program):
    """Runs make: its status, and what it said."""
    words = ["make", "-s", target, "PREFIX=/usr", f"DESTDIR={prefix}", f"PROGRAM={program}"]
    ended = subprocess.run(words, cwd=ROOT, stdin=subprocess.DEVNULL, capture_output=True, text=True)
    return ended.returncode, ended.stderr


def man_page(page):
    """The page is sound, and has every option and every line."""
    if is_there("mandoc"):
        reported = output_of(["mandoc", "-Tlint", "-Wwarning", page])
        note(f"the man page: {reported}", not reported)
    if is_there("groff"):
        environment = {**os.environ, "GROFF_NO_SGR": "1"}
        reported = output_of(["groff", "-man", "-Tascii", "-rLL=200n", page], env=environment)
        text = "".join(reported[k] for k in range(len(reported)) if "\b" not in reported[k : k + 2])
        for option in make_pages.options():
            for name in option.names:
                note(f"the man page lacks {name}", name in text)
        for rows in make_pages.rows_under("ERRORS.md", "line", "cause", "way out"):
            for line, *_ in rows:
                note(f"the man page lacks {line}", line.split("`")[1] in text)
        reported = output_of(["groff", "-man", "-ww", "-z", page])
        note(f"groff warns: {reported}", not reported)


def completed(shell, script, words):
    """What a shell completes the last of these words to, given the script with the completions."""
    line = " ".join(words)
    if shell == "bash":
        marked = " ".join(f"'{word}'" for word in words)
        code = f"source {script}; COMP_WORDS=({marked}); COMP_CWORD={len(words) - 1}; _wildplan; " \
            'printf "%s\\n" "${COMPREPLY[@]}"'
        return output_of(["bash", "--norc", "-c", code]).splitlines()
    reported = output_of(["fish", "--no-config", "-c", f"source {script}; complete -C '{line}'"])
    return [row.split("\t")[0] for row in reported.splitlines()]


def completions(shell, script, folder):
    """A shell completes options and the names of files."""
    (folder / "some file.o").write_bytes(b"")
    names = [name for option in make_pages.options() for name in option.names if name.startswith("--")]
    got = {word.rstrip("=") for word in completed(shell, script, ["wildplan", "--"])}
    note(f"{shell} completes `--` to {got ^ set(names)}", got == set(names))
    for name in names:
        note(f"{shell} completes {name}", name in {w.rstrip("=") for w in completed(shell, script, ["wildplan", name])})
    note(f"{shell} completes -z", completed(shell, script, ["wildplan", "-z", ""]) == ["stack-size="])
    front = f"{folder}/some"
    got = completed(shell, script, ["wildplan", front])
    note(f"{shell} completes a file to {got}", [word.replace("\\", "") for word in got] == [f"{folder}/some file.o"])


def zsh(script):
    """Zsh reads the script, and `_arguments` takes each row of it."""
    note("zsh can't read the completions", not output_of(["zsh", "-f", "-n", script]))
    code = f"_arguments() {{ print -rl -- $@ }}; source {script}"
    rows = output_of(["zsh", "-f", "-c", code]).splitlines()
    names = [name for option in make_pages.options() for name in option.names]
    got = [row.lstrip("*").split("[")[0].rstrip("=-") for row in rows if "[" in row]
    note(f"zsh has {set(got) ^ set(names)}", got == [name.rstrip("=-") for name in names])


def installed(folder, program):
    """What is installed works from where it is, and is removed. A program that is older than a source isn't
    installed."""
    prefix = folder / "to"
    place = prefix / "usr"
    os.utime(program, (0, 0))
    status, reported = make("install", prefix, program)
    note(f"an old program is installed: {reported}", status and "a source is newer" in reported and not place.exists())
    os.utime(program)
    status, reported = make("install", prefix, program)
    note(f"make install: {reported}", status == 0)
    reported = output_of([place / "bin" / "wildplan"])
    note(f"the installed program says {reported}", reported == "error: BadWords NoInputs\n")
    man_page(place / PAGE)
    for shell in ["bash", "fish"]:
        if is_there(shell):
            completions(shell, place / COMPLETIONS[shell], folder)
    if is_there("zsh"):
        zsh(place / COMPLETIONS["zsh"])
    for name in LICENCES:
        note(f"{name} isn't installed", (place / "share" / "doc" / "wildplan" / name).exists())
    status, reported = make("uninstall", prefix, program)
    note(f"make uninstall: {reported}", status == 0)
    left = [path for path in prefix.rglob("*") if not path.is_dir()]
    note(f"left: {left}", not left)


def main():
    if len(sys.argv) != 2:
        sys.exit(__doc__)
    if is_there("make"):
        with tempfile.TemporaryDirectory() as name:
            folder = pathlib.Path(name)
            installed(folder, shutil.copy(sys.argv[1], folder / "program"))
    counts.end()


if __name__ == "__main__":
    main()
