#!/usr/bin/env python3
"""Checks that everything which ./install and packaging/build install works, and is removed completely.

The Debian packages are installed in a fresh Debian from debootstrap, which later runs take from the
folder CACHE. A test that cannot run here prints 'skipped: NAME: why'. The names for -k are those of
the functions that `test_all` calls, with blanks in place of `_`.
"""
import filecmp
import glob
import json
import os
import re
import shlex
import shutil
import subprocess
import sys
import tarfile
import tempfile
import zipfile
import zlib

sys.dont_write_bytecode = True
from support import TOP, Cases, parser

PROVED, CHECKED, LIBRARY = "crates/mesosev/out/mesosev", "crates/mesosev/out/checked/mesosev", "crates/mesosev_c/out/libmesosev_c.a"
PROGRAM_FILES = {
    "bin/mesosev",
    "share/man/man1/mesosev.1",
    "share/bash-completion/completions/mesosev",
    "share/fish/vendor_completions.d/mesosev.fish",
}
LIBRARY_FILES = {
    "include/mesosev.h",
    "include/mesosev.hpp",
    "lib/libmesosev.a",
    "lib/libmesosev.so",
    "lib/libmesosev.so.0",
    "lib/pkgconfig/mesosev.pc",
    "lib/python/mesosev.py",
}
SUITE, MIRROR = "bookworm", "http://deb.debian.org/debian"
# Packages of the fresh Debian in addition to the required ones. With them the packages under test need no download.
BASE = ["bash-completion", "gcc", "libc6-dev", "man-db", "pkg-config", "python3"]
# The time limit of a step that makes the fresh Debian, in seconds.
LIMIT = 600
# The environment inside the fresh Debian.
CLEAN = {"PATH": "/usr/sbin:/usr/bin:/sbin:/bin", "LC_ALL": "C.UTF-8", "HOME": "/root", "DEBIAN_FRONTEND": "noninteractive"}
NAMES = "import mesosev, sys; print(*[event.name for event in mesosev.events(sys.stdin.buffer)])"
COMPLETIONS = "complete -p mesosev && COMP_WORDS=(mesosev sub) COMP_CWORD=1 && _mesosev && echo ${COMPREPLY[@]}"
COMPLETED = "complete -F _mesosev mesosev\nsubscribe\n"


def read(path):
    with open(path, "rb") as file:
        return file.read()


def write(path, text, mode=0o644):
    os.makedirs(os.path.dirname(path), exist_ok=True)
    with open(path, "w", encoding="utf-8") as file:
        file.write(text)
    os.chmod(path, mode)


def files_under(folder):
    """Returns the paths of all files, links and empty folders below a folder, relative to it."""
    found = set()
    for here, folders, names in os.walk(folder):
        links = [name for name in folders if os.path.islink(os.path.join(here, name))]
        if here != folder and not folders and not names:
            names = [""]
        found.update(os.path.relpath(os.path.join(here, name), folder) for name in names + links)
    return found


def types_of(records):
    """Returns the types of the events of a stream, by Python's own JSON parser."""
    types = []
    while records:
        size, rest = records.split(b"\n", 1)
        types.append(json.loads(rest[: int(size)])["type"])
        records = rest[int(size) :]
    return types


def types_of_lines(lines):
    """Returns the types of the events that examples/reader.c printed, and other lines unchanged."""
    return [json.loads(line)["type"] if line.startswith("{") else line for line in lines.splitlines()]


STREAM = read(f"{TOP}/examples/stream.recordio")
TYPES = types_of(STREAM)
VERSION = re.search(r'^pub const VERSION: &str = "(.*)";$', read(f"{TOP}/crates/mesosev_args/src/args.rt").decode(), re.M)[1]


class Tests(Cases):
    def __init__(self, folder, cache, word):
        super().__init__(word)
        self.folder, self.cache = folder, cache

    def run(self, args, data=b"", **environment):
        """Runs a command, and returns its status and its two outputs."""
        try:
            ran = subprocess.run(args, input=data, capture_output=True, env=dict(os.environ, **environment))
        except OSError as error:
            return 127, "", str(error)
        return ran.returncode, ran.stdout.decode(errors="surrogateescape"), ran.stderr.decode(errors="surrogateescape")

    def expect_output(self, name, expected, args, data=b"", **environment):
        status, output, error = self.run(args, data, **environment)
        self.expect(name, (0, expected), (status, output) if status == 0 else (status, output + error), data or None)

    def expect_refused(self, name, expected, args, target, **environment):
        """Expects status 1, these texts on standard error, and no change below a folder."""
        before = files_under(target)
        status, output, error = self.run(args, **environment)
        self.expect(name, (1, "", []), (status, output, [text for text in expected if text not in error]))
        self.expect(f"{name}: nothing written", before, files_under(target))

    def expect_usage(self, command, *usage_errors):
        """Expects --help to print the usage, and each usage error to print it on standard error."""
        status, usage, error = self.run([command, "--help"])
        self.expect(f"{command} --help", (0, True, ""), (status, usage.startswith("usage: "), error))
        for args in usage_errors:
            self.expect(f"{command} {args}", (2, "", usage), self.run([command, *args]))

    def program(self, name, path):
        """Checks that a program reads the example."""
        self.expect_output(f"{name}: the version", f"mesosev {VERSION}\n", [path, "--version"])
        self.expect_output(f"{name}: check", f"events {len(TYPES)} bytes {len(STREAM)}\n", [path, "check"], STREAM)

    def tree(self, name, prefix):
        """Checks everything under a prefix, as a user of the program, of C and of Python would."""
        self.program(name, f"{prefix}/bin/mesosev")
        if shutil.which("man"):
            page = self.run(["man", "-P", "cat", f"{prefix}/share/man/man1/mesosev.1"])[1]
            self.expect(f"{name}: the manual page", True, page.startswith("MESOSEV(1)") and "EXIT STATUS" in page)
        load = f"source {shlex.quote(f'{prefix}/share/bash-completion/completions/mesosev')} && {COMPLETIONS}"
        self.expect_output(f"{name}: completions", COMPLETED, ["bash", "-c", load])
        self.python(name, sys.executable, PYTHONPATH=f"{prefix}/lib/python")
        self.c_program(name, prefix)

    def python(self, name, python, **environment):
        self.expect_output(f"{name}: python", " ".join(TYPES) + "\n", [python, "-B", "-c", NAMES], STREAM, **environment)
        command = [python, "-B", "-m", "mesosev", f"{TOP}/examples/stream.recordio"]
        self.expect_output(f"{name}: python -m mesosev", f"events {len(TYPES)} bytes {len(STREAM)}\n", command, **environment)

    def c_program(self, name, prefix):
        if not shutil.which("cc") or not shutil.which("pkg-config"):
            self.skip(f"{name}: reader.c", "there is no C compiler or no pkg-config")
            return
        paths = {"PKG_CONFIG_PATH": f"{prefix}/lib/pkgconfig", "LD_LIBRARY_PATH": f"{prefix}/lib"}
        status, flags, error = self.run(["pkg-config", "--cflags", "--libs", "mesosev"], **paths)
        self.expect(f"{name}: pkg-config", (0, ""), (status, error))
        reader = f"{self.folder}/reader"
        args = ["cc", f"{TOP}/examples/reader.c", *shlex.split(flags), "-o", reader]
        self.expect_output(f"{name}: compiling reader.c", "", args)
        _, texts, _ = self.run([reader], STREAM, **paths)
        self.expect(f"{name}: reader.c", TYPES, types_of_lines(texts))


def built(top, kind):
    """Returns the path of a build, or an empty text."""
    return subprocess.run([f"{top}/tools/built", kind], stdout=subprocess.PIPE).stdout.decode().strip()


def plant(copy, path, output):
    """Writes a build that prints a line into a copy of the sources."""
    write(f"{copy}/{path}", f"#!/bin/sh\necho '{output}'\n", 0o755)


def test_install_refusals(tests, copy):
    """Runs ./install without a build, and for a prefix that it cannot write."""
    target = f"{tests.folder}/refused"
    os.mkdir(target)
    args = [f"{copy}/install", "--prefix", f"{target}/prefix é"]
    tests.expect_refused("no build", ["./mesosev --version", "./prove "], args, target)
    plant(copy, PROVED, "proved")
    tests.expect_refused("no library", ["./prove mesosev_c"], [*args, "--library"], target)
    write(f"{target}/file", "")
    os.makedirs(f"{target}/taken/share/man/man1/mesosev.1")
    tests.expect_refused("a file as prefix", ["not a folder"], [f"{copy}/install", "--prefix", f"{target}/file"], target)
    tests.expect_refused("a folder as file", ["is a folder"], [f"{copy}/install", "--prefix", f"{target}/taken"], target)
    if os.getuid() != 0:
        os.mkdir(f"{target}/closed", 0o555)
        tests.expect_refused("a closed folder", ["cannot be written"], [f"{copy}/install", "--prefix", f"{target}/closed"], target)
    tests.expect_refused("no home", ["--prefix DIR"], [f"{copy}/install"], target, HOME="")
    tests.expect_usage(f"{copy}/install", ["--bogus"], ["prefix"], ["--prefix"], ["--prefix", ""], ["--library", "x"])
    shutil.rmtree(target)


def test_full_disk(tests, copy):
    """Checks that a file system with room for only some of the files gets none of them."""
    mount = f"{tests.folder}/small"
    os.mkdir(mount)
    plant(copy, PROVED, "proved")
    script = 'mount -t tmpfs -o size=24k none "$1" && "$2" --prefix "$1"; echo $?; find "$1" -mindepth 1'
    status, output, error = tests.run(["unshare", "--mount", "sh", "-c", script, "sh", mount, f"{copy}/install"])
    if "unshare" in error or "mount:" in error:
        tests.skip("a full disk", error.strip().splitlines()[-1])
    else:
        tests.expect("a full disk", "1\n", output)


def test_install_choice(tests, copy):
    """Checks which build ./install takes, where it installs the files, and which files --uninstall leaves."""
    home = f"{tests.folder}/home é"
    prefix = f"{home}/.local"
    shutil.rmtree(f"{copy}/crates/mesosev/out", ignore_errors=True)
    for path, kind in ((CHECKED, "the checked build, which is not proved,"), (PROVED, "the proved build")):
        plant(copy, path, kind)
        status, output, error = tests.run([f"{copy}/install"], HOME=home)
        tests.expect(f"installing {kind}", (0, "", f"install: installed {kind} under {prefix}"), (status, output, error.split("\n")[0]))
        tests.expect(f"installed {kind}", PROGRAM_FILES, files_under(prefix))
        tests.expect_output(f"running {kind}", f"{kind}\n", [f"{prefix}/bin/mesosev"])
    os.utime(f"{copy}/{PROVED}", (0, 0))
    tests.expect("a proved build that is stale", True, "the checked build" in tests.run([f"{copy}/install"], HOME=home)[2])
    write(f"{prefix}/share/man/man1/other.1", "")
    tests.expect("--uninstall", 0, tests.run([f"{copy}/install", "--uninstall"], HOME=home)[0])
    tests.expect("--uninstall leaves other files", {"share/man/man1/other.1"}, files_under(prefix))
    tests.expect("--uninstall of nothing", 0, tests.run([f"{copy}/install", "--uninstall", "--prefix", f"{home}/none"])[0])


def test_install(tests):
    """Installs the builds of this checkout under a prefix with spaces and non-ASCII letters."""
    prefix = f"{tests.folder}/päth with späces"
    args = [f"{TOP}/install", "--prefix", prefix]
    kind = "proved" if built(TOP, "proved") else "checked"
    if not built(TOP, kind):
        tests.skip("installing the program", "there is no build of it")
        return
    tests.expect("installing the program", (0, True), ((ran := tests.run(args))[0], f"the {kind} build" in ran[2]))
    tests.expect("the program's files", PROGRAM_FILES, files_under(prefix))
    tests.program("./install", f"{prefix}/bin/mesosev")
    if built(TOP, "library"):
        tests.expect("installing the library", 0, tests.run([*args, "--library"])[0])
        tests.expect("all files", PROGRAM_FILES | LIBRARY_FILES, files_under(prefix))
        tests.tree("./install --library", prefix)
        test_destdir(tests)
    else:
        tests.skip("installing the library", "there is no proved build of it")
    tests.expect("uninstalling", 0, tests.run([*args, "--uninstall"])[0])
    tests.expect("uninstalled", set(), files_under(prefix))


def test_destdir(tests):
    """Checks that DESTDIR is put before each path that is written, and into no file."""
    staged, prefix = f"{tests.folder}/staged é", f"{tests.folder}/never written"
    args = [f"{TOP}/install", "--prefix", prefix, "--library"]
    tests.expect("installing with DESTDIR", 0, tests.run(args, DESTDIR=staged)[0])
    tests.expect("files with DESTDIR", PROGRAM_FILES | LIBRARY_FILES, files_under(staged + prefix))
    tests.expect("DESTDIR in no file", [], [path for path in files_under(staged) if staged.encode() in read(f"{staged}/{path}")])
    tests.expect("DESTDIR alone is written", False, os.path.exists(prefix))
    tests.expect("uninstalling with DESTDIR", 0, tests.run([*args, "--uninstall"], DESTDIR=staged)[0])
    tests.expect("uninstalled with DESTDIR", set(), files_under(staged + prefix))


def test_build_refusals(tests, copy):
    """Runs packaging/build without proved builds, without a tool, and with usage errors."""
    target = f"{tests.folder}/no packages"
    args = [f"{copy}/packaging/build", "--out", target]
    shutil.rmtree(f"{copy}/crates/mesosev/out", ignore_errors=True)
    plant(copy, CHECKED, "checked")
    tests.expect_refused("packages of a checked build", ["(./prove)", "(./prove mesosev_c)"], args, target)
    plant(copy, PROVED, "proved")
    tests.expect_refused("packages without the library", ["(./prove mesosev_c)"], args, target)
    write(f"{copy}/{LIBRARY}", "an archive")
    # Every tool but debhelper.
    tools = f"{tests.folder}/tools"
    os.mkdir(tools)
    for path in glob.glob("/usr/bin/*") + glob.glob("/bin/*"):
        name = os.path.basename(path)
        if not os.path.lexists(f"{tools}/{name}") and name not in ("dh", "dh_python3"):
            os.symlink(path, f"{tools}/{name}")
    tests.expect_refused("packages without debhelper", ["packaging/build: needs debhelper", "apt-get install "], args, target, PATH=tools)
    tests.expect_usage(f"{copy}/packaging/build", ["--bogus"], ["--out"], ["--out", ""], ["--out", "x", "y"])


def build_packages(tests):
    """Builds the packages twice. Returns their folder, or nothing if there are none."""
    if not built(TOP, "proved") or not built(TOP, "library"):
        tests.skip("packages", "there is no proved build of the program and the library")
        return None
    out, again = f"{tests.folder}/packages é", f"{tests.folder}/again"
    # Neither the umask nor the time zone may reach the packages.
    for folder, umask, zone in ((out, "022", "UTC"), (again, "077", "Asia/Tokyo")):
        args = ["sh", "-c", f'umask {umask} && exec "$0" "$@"', f"{TOP}/packaging/build", "--out", folder]
        status, output, error = tests.run(args, TZ=zone)
        if ": needs " in error:
            tests.skip("packages", error.strip())
            return None
        tests.expect("packaging/build", (0, ""), (status, error))
        tests.expect("the paths of the packages", sorted(glob.glob(f"{folder}/*")), sorted(output.splitlines()))
    names = sorted(files_under(out))
    wheels = [name for name in names if re.fullmatch(rf"mesosev-{re.escape(VERSION)}-py3-none-manylinux_2_\d+_x86_64\.whl", name)]
    debs = {f"mesosev_{VERSION}_amd64.deb", f"libmesosev-dev_{VERSION}_amd64.deb", f"python3-mesosev_{VERSION}_all.deb"}
    others = {f"mesosev-{VERSION}-linux-amd64.tar.gz", *debs}
    tests.expect("packages", (1, others), (len(wheels), set(names) - set(wheels)))
    tests.expect("packages that differ if they are built again", [], filecmp.cmpfiles(out, again, names, shallow=False)[1])
    return out if len(wheels) == 1 and len(names) == 5 else None


def test_lintian(tests, debs):
    if shutil.which("lintian"):
        # It leaves files in the folder for temporary files.
        tests.expect("lintian", "", tests.run(["lintian", "--tag-display-limit", "0", *debs], TMPDIR=tests.folder)[1])
    else:
        tests.skip("lintian", "it is not installed")


def test_archive(tests, out):
    name = f"mesosev-{VERSION}-linux-amd64"
    folder = f"{tests.folder}/unpacked é"
    with tarfile.open(f"{out}/{name}.tar.gz") as archive:
        members = archive.getmembers()
        archive.extractall(folder)
    tests.expect("the archive's order", sorted(member.name for member in members), [member.name for member in members])
    tests.expect("the archive's owners", {(0, 0, "", "")}, {(member.uid, member.gid, member.uname, member.gname) for member in members})
    tests.expect("the archive's times", 1, len({member.mtime for member in members}))
    tests.expect("the archive's files", PROGRAM_FILES | LIBRARY_FILES | {"README", "COPYRIGHT"}, files_under(f"{folder}/{name}"))
    tests.tree("the archive", f"{folder}/{name}")


def test_wheel(tests, wheel):
    with zipfile.ZipFile(wheel) as archive:
        symbols = set(map(int, re.findall(rb"\0GLIBC_2\.(\d+)", archive.read("mesosev/libmesosev.so"))))
        tests.expect("the wheel has the marker of PEP 561", True, "mesosev/py.typed" in archive.namelist())
    tests.expect("the wheel's platform", f"manylinux_2_{max(symbols | {5})}_x86_64.whl", wheel.rsplit("-", 1)[1])
    venv = f"{tests.folder}/venv"
    status, _, error = tests.run([sys.executable, "-m", "venv", venv])
    if status:
        tests.skip("the wheel", f"there is no venv: {error.strip()}")
        return
    pip = [f"{venv}/bin/python", "-m", "pip", "--disable-pip-version-check"]
    tests.expect("installing the wheel", 0, tests.run([*pip, "install", "--no-index", wheel])[0])
    tests.python("the wheel", f"{venv}/bin/python")
    tests.expect("removing the wheel", 0, tests.run([*pip, "uninstall", "--yes", "mesosev"])[0])
    tests.expect("files of the wheel that are left", [], [path for path in files_under(venv) if "mesosev" in path])


class Debian:
    """A fresh Debian below a folder."""

    def __init__(self, tests, root):
        self.tests, self.root = tests, root

    def command(self, *args):
        """Returns the command that runs a command in this Debian. Its mounts and processes end with it."""
        script = 'mount -t proc proc "$0/proc" && exec chroot "$0" "$@"'
        return ["unshare", "--mount", "--pid", "--fork", "--kill-child", "sh", "-c", script, self.root, *args]

    def run(self, *args, data=b""):
        ran = subprocess.run(self.command(*args), input=data, stdout=subprocess.PIPE, stderr=subprocess.STDOUT, env=CLEAN)
        return ran.returncode, ran.stdout.decode()

    def expect(self, name, expected, *args, data=b""):
        self.tests.expect(f"Debian: {name}", (0, expected), self.run(*args, data=data))

    def apt_get(self, *args):
        """Runs apt-get, and returns whether it succeeded."""
        status, output = self.run("apt-get", "--yes", "--no-install-recommends", *args)
        self.tests.expect(f"Debian: apt-get {args[0]}", 0, status)
        if status:
            print(output)
        return status == 0

    def state(self):
        """Returns the packages, the files that dpkg lists, and all files except logs and caches, as a set of lines."""
        lines = set(self.run("dpkg-query", "--show")[1].splitlines())
        for path in glob.glob(f"{self.root}/var/lib/dpkg/info/*.list"):
            lines.update(f"{os.path.basename(path)}: {line}" for line in read(path).decode().splitlines())
        kept = re.compile(r"(?!var/(log|cache)/|tmp(/|$)|var/lib/dpkg/.*-old$)")
        return lines | {path for path in files_under(self.root) if kept.match(path)}


def debian_image(tests):
    """Returns the path of an archive of a fresh Debian, or nothing if none can be made here."""
    image = f"{tests.cache}/{SUITE}-{zlib.crc32(' '.join(BASE).encode()):08x}.tar"
    if os.getuid() != 0 or not shutil.which("debootstrap"):
        tests.skip("packages in a fresh Debian", "it needs root and debootstrap")
        return None
    os.makedirs(tests.cache, exist_ok=True)
    with tempfile.TemporaryDirectory(dir=tests.cache) as root:
        debian = Debian(tests, root)
        steps = [
            ["unshare", "--mount", "debootstrap", "--variant=minbase", SUITE, root, MIRROR],
            debian.command("apt-get", "install", "--yes", "--no-install-recommends", *BASE),
            debian.command("apt-get", "clean"),
            ["tar", "--create", "--file", f"{image}.new", "--directory", root, "."],
            ["mv", f"{image}.new", image],
        ]
        for args in steps if not os.path.exists(image) else []:
            # A mirror that does not respond must not stop the other tests.
            limited = ["timeout", "--kill-after=10", str(LIMIT), *args]
            ran = subprocess.run(limited, stdout=subprocess.PIPE, stderr=subprocess.STDOUT, stdin=subprocess.DEVNULL, env=CLEAN)
            if ran.returncode:
                tests.skip("packages in a fresh Debian", f"{args[:4]}: status {ran.returncode}: {ran.stdout.decode().strip()[-200:]}")
                return None
    return image


def test_debian(tests, debs):
    image = debian_image(tests)
    if not image:
        return
    with tempfile.TemporaryDirectory(dir=tests.cache) as root:
        debian = Debian(tests, root)
        unpacked = subprocess.run(["tar", "--extract", "--file", image, "--directory", root], capture_output=True)
        status, output = debian.run("true") if unpacked.returncode == 0 else (unpacked.returncode, unpacked.stderr.decode())
        if status:
            # A container can forbid devices, mounts or chroot, even to root.
            tests.skip("packages in a fresh Debian", output.strip()[-200:])
            return
        before = debian.state()
        for deb in debs:
            shutil.copy(deb, f"{root}/tmp")
        if debian.apt_get("install", *(f"/tmp/{os.path.basename(deb)}" for deb in debs)):
            use_program(debian)
            use_library(debian)
        debian.apt_get("purge", "mesosev", "libmesosev-dev", "python3-mesosev")
        tests.expect("Debian: packages and files that are new or gone", set(), before ^ debian.state())
        for deb in debs:
            os.remove(f"{root}/tmp/{os.path.basename(deb)}")
        tests.expect("Debian: paths of mesosev that are left", set(), {path for path in files_under(root) if "mesosev" in path})


def use_program(debian):
    """Uses the package mesosev as a user would."""
    debian.expect("the version", f"mesosev {VERSION}\n", "mesosev", "--version")
    debian.expect("check", f"events {len(TYPES)} bytes {len(STREAM)}\n", "mesosev", "check", data=STREAM)
    page = debian.run("man", "-P", "cat", "mesosev")[1]
    debian.tests.expect("Debian: the manual page", True, page.startswith("MESOSEV(1)") and "EXIT STATUS" in page)
    load = f". /usr/share/bash-completion/bash_completion && _completion_loader mesosev; {COMPLETIONS}"
    debian.expect("completions", COMPLETED, "bash", "-c", load)
    debian.expect("completions of fish", "", "test", "-s", "/usr/share/fish/vendor_completions.d/mesosev.fish")


def use_library(debian):
    """Uses the packages of the library as a user of C and of Python would."""
    debian.expect("python", " ".join(TYPES) + "\n", "python3", "-c", NAMES, data=STREAM)
    debian.expect("pkg-config", "-lmesosev \n", "pkg-config", "--cflags", "--libs", "mesosev")
    shutil.copy(f"{TOP}/examples/reader.c", f"{debian.root}/tmp")
    for name, flags in (("shared", "-lmesosev"), ("static", "-Wl,-Bstatic -lmesosev -Wl,-Bdynamic")):
        debian.expect(f"compiling reader.c, {name}", "", "gcc", "/tmp/reader.c", *flags.split(), "-o", "/tmp/reader")
        texts = debian.run("/tmp/reader", data=STREAM)[1]
        debian.tests.expect(f"Debian: reader.c, {name}", TYPES, types_of_lines(texts))


def test_packages(tests):
    """Builds the packages, and tests each of them."""
    out = build_packages(tests)
    if out:
        debs = sorted(glob.glob(f"{out}/*.deb"))
        test_lintian(tests, debs)
        test_archive(tests, out)
        test_wheel(tests, *glob.glob(f"{out}/*.whl"))
        test_debian(tests, debs)


def test_all(tests):
    copy = f"{tests.folder}/cöpy of it"
    shutil.copytree(TOP, copy, symlinks=True, ignore=shutil.ignore_patterns("out", ".git", "__pycache__"))
    tests.run_chosen(test_install_refusals, test_full_disk, test_install_choice, test_build_refusals, arguments=[tests, copy])
    tests.run_chosen(test_install, test_packages, arguments=[tests])


def main():
    arguments = parser(__doc__, 'tests/packages.py -k "install choice"', cache="/var/tmp/mesosev-packages").parse_args()
    # These would replace the files under test.
    for name in ("DESTDIR", "MESOSEV_LIBRARY", "PYTHONPATH"):
        os.environ.pop(name, None)
    with tempfile.TemporaryDirectory() as folder:
        tests = Tests(folder, os.path.abspath(arguments.cache), arguments.word)
        test_all(tests)
    return tests.end()


if __name__ == "__main__":
    sys.exit(main())
