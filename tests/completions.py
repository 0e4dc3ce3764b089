#!/usr/bin/env python3
"""Compares the completions of bash and fish with the help texts of the built command.

The subcommands and the options of each must be the same. Without fish its cases are skipped.
"""
import os
import re
import shutil
import subprocess
import sys
import tempfile

sys.dont_write_bytecode = True
from support import TOP, Cases, parser

LIMIT = 60
FILE = "stream.recordio"

# Calls the completion function with the words of a line, and prints its results.
ASK_BASH = """
source "$1"
shift
COMP_WORDS=("$@")
COMP_CWORD=$(($# - 1))
read -r _ _ function _ < <(complete -p mesosev)
"$function" mesosev "${COMP_WORDS[COMP_CWORD]}" "${COMP_WORDS[COMP_CWORD - 1]}"
printf '%s\\n' "${COMPREPLY[@]}"
"""
ASK_FISH = "source $argv[1]; complete -C $argv[2]"


def listed(text):
    return sorted({line for line in text.splitlines() if line})


class Bash:
    """Completes the last word of a line by bash."""

    name = "bash"

    def __init__(self, run):
        self.run, self.file = run, os.path.join(TOP, "completions/mesosev.bash")

    def complete(self, line):
        # bash splits a line at blanks, at `<` and at `=`.
        words = re.findall(r"[<=]|[^\s<=]+", line) + ([""] if line.endswith((" ", "=")) else [])
        return listed(self.run(["bash", "--norc", "-c", ASK_BASH, "bash", self.file, *words]))


class Fish:
    """Completes the last word of a line by fish. Drops the descriptions."""

    name = "fish"

    def __init__(self, run):
        self.run, self.file = run, os.path.join(TOP, "completions/mesosev.fish")

    def complete(self, line):
        return listed(re.sub(r"\t.*", "", self.run(["fish", "--no-config", "-c", ASK_FISH, self.file, line])))


class Tests(Cases):
    """A folder with a file, and a folder with the program as mesosev."""

    def __init__(self, folder, program, word):
        super().__init__(word)
        self.home = folder
        self.programs, self.folder = os.path.join(folder, "programs"), os.path.join(folder, "files")
        os.mkdir(self.programs)
        os.mkdir(self.folder)
        os.symlink(program, os.path.join(self.programs, "mesosev"))
        with open(os.path.join(self.folder, FILE), "wb"):
            pass

    def run(self, command):
        """Returns what a command prints on both outputs, in the folder with the file."""
        path = self.programs + os.pathsep + os.environ.get("PATH", os.defpath)
        environment = os.environ | {"PATH": path, "HOME": self.home}
        pipes = {"stdin": subprocess.DEVNULL, "stdout": subprocess.PIPE, "stderr": subprocess.STDOUT}
        ran = subprocess.run(command, cwd=self.folder, env=environment, timeout=LIMIT, check=False, **pipes)
        return ran.stdout.decode(errors="backslashreplace")

    def help(self, command):
        """Returns the help text of a subcommand, or of mesosev for an empty name."""
        return self.run(["mesosev", command, "--help"] if command else ["mesosev", "--help"])

    def commands(self):
        """Returns the subcommands that the help text lists."""
        block = self.help("").split("\nCommands:\n")[-1].split("\n\n")[0]
        return sorted(re.findall(r"^  ([a-z]+)\b", block, re.MULTILINE))

    def options(self, command):
        """Returns the options of a subcommand, short and long, and those that take a value."""
        if command == "help":
            return [], []
        block = self.help(command).split("\nOptions:\n")[-1].split("\n\n")[0]
        rows = re.findall(r"^ +(-\w)?(?:, | *)(--[a-z-]+)(?: (<\w+>))?", block, re.MULTILINE)
        names = {name for row in rows for name in row[:2] if name}
        return sorted(names), sorted(row[1] for row in rows if row[2])

    def compare(self, shell):
        """Compares what a shell completes with the help texts, in both directions."""
        commands = self.commands()
        self.expect_of("the help text has commands", True, lambda: len(commands) > 1)
        self.expect_of(f"{shell.name}: the subcommands", commands, lambda: [word for word in shell.complete("mesosev ") if word[0] != "-"])
        self.expect_of(f"{shell.name}: help", commands, shell.complete, "mesosev help ")
        self.expect_of(f"{shell.name}: help of one", [], shell.complete, "mesosev help check ")
        self.expect_of(f"{shell.name}: a part of a name", ["relog", "replay"], shell.complete, "mesosev re")
        for command in ["", *commands]:
            self.compare_options(shell, command)
        for line in ["check ", "check --chunked ", "serve ", "help "]:
            self.expect_of(f"{shell.name}: no file: {line}", False, lambda: FILE in shell.complete("mesosev " + line))
        for line in ["check <", "check < ", "check --chunked <str", "check --chunked < str"]:
            self.expect_of(f"{shell.name}: a file: {line}", [FILE], shell.complete, "mesosev " + line)

    def compare_options(self, shell, command):
        line = f"mesosev {command} " if command else "mesosev "
        names, valued = self.options(command)
        self.expect_of(f"options of {line.strip()}", command != "help", lambda: "--help" in names)
        self.expect_of(f"{shell.name}: {line}-", names, shell.complete, line + "-")
        self.expect_of(f"{shell.name}: {line}--", [name for name in names if name[:2] == "--"], shell.complete, line + "--")
        for name in valued:
            for start in [" ", "="]:
                self.expect_of(f"{shell.name}: {line}{name}{start}", [], shell.complete, line + name + start)


def main():
    arguments = parser(__doc__, "tests/completions.py $(tools/built checked) -k serve", "program").parse_args()
    with tempfile.TemporaryDirectory(prefix="mesosev-completions-") as folder:
        tests = Tests(folder, os.path.abspath(arguments.program), arguments.word)
        tests.compare(Bash(tests.run))
        if shutil.which("fish"):
            tests.compare(Fish(tests.run))
        else:
            tests.skip("fish", "it is not installed")
    return tests.end()


if __name__ == "__main__":
    sys.exit(main())
