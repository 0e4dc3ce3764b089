"""The tests of the C library in other languages over it: C++, Go and Rust. tests/c_library.py runs them."""
import os
import re
import shutil
import subprocess

from support import TOP, Cases

CXX = os.environ.get("CXX", "c++")
VALGRIND = ["valgrind", "-q", "--error-exitcode=9", "--leak-check=full", "--show-leak-kinds=all", "--errors-for-leak-kinds=all"]


class Languages(Cases):
    """Tests of a program and of a C library that is installed in a folder `prefix`."""

    def __init__(self, program, folder, word):
        super().__init__(word)
        self.program, self.folder = program, folder
        self.prefix = os.path.join(folder, "prefix")
        self.environment = dict(os.environ, PKG_CONFIG_PATH=f"{self.prefix}/lib/pkgconfig", LD_LIBRARY_PATH=f"{self.prefix}/lib")

    def run(self, args, data=b""):
        return subprocess.run(args, input=data, stdout=subprocess.PIPE, stderr=subprocess.PIPE, env=self.environment)

    def compile(self, name, args):
        """Builds a program. Returns its path, or None on failure."""
        path = os.path.join(self.folder, name)
        ran = self.run([*args, "-o", path])
        self.expect(f"building {name}", (0, ""), (ran.returncode, ran.stderr.decode()))
        return path if ran.returncode == 0 else None

    def compile_sanitized(self, name, command):
        """Builds a program with the address sanitizer. Returns its path, or None if this compiler has none."""
        path = os.path.join(self.folder, f"sanitized_{name}")
        flags = ["-fsanitize=address,undefined", "-fno-sanitize-recover=all"]
        ran = self.run([*command, *flags, f"-I{self.prefix}/include", f"{self.prefix}/lib/libmesosev.a", "-o", path])
        return path if ran.returncode == 0 else None

    def cpp(self):
        """Runs tests/cpp_session.cc with the static library, under valgrind and sanitized, and the scheduler."""
        if not shutil.which(CXX):
            self.skip("C++", f"{CXX} is not installed")
            return
        command = [CXX, "-std=c++17", "-g", "-Wall", "-Wextra", "-Wpedantic", "-Wconversion", "-Wshadow"]
        source, scheduler = f"{TOP}/tests/cpp_session.cc", f"{TOP}/examples/scheduler.cc"
        links = [f"-I{self.prefix}/include", f"{self.prefix}/lib/libmesosev.a"]
        static = self.compile("cpp_session", [*command, "-fno-exceptions", "-fno-rtti", source, *links])
        if static:
            self.counted("tests/cpp_session.cc", [static, f"{TOP}/examples"])
            if shutil.which("valgrind"):
                self.counted("tests/cpp_session.cc under valgrind", [*VALGRIND, static, f"{TOP}/examples"])
        sanitized = self.compile_sanitized("cpp_session", [*command, source])
        if sanitized:
            self.counted("tests/cpp_session.cc with the address sanitizer", [sanitized, f"{TOP}/examples"])
        path = self.compile("cpp_scheduler", [*command, scheduler, *links])
        if path:
            self.scheduler("examples/scheduler.cc", [path])

    def go(self):
        """Runs the tests of lib/go/mesosev, with the race detector, and the scheduler."""
        if not shutil.which("go"):
            self.skip("lib/go/mesosev", "go is not installed")
            return
        copy, cache = os.path.join(self.folder, "go_package"), os.path.join(self.folder, "go_package_cache")
        shutil.copytree(f"{TOP}/lib/go/mesosev", copy)
        self.environment.update(GOFLAGS="-mod=mod", GOPROXY="off", GOCACHE=cache, MESOSEV=self.program, MESOSEV_EXAMPLES=f"{TOP}/examples")
        for words in (["vet", "."], ["test", "-count=1", "-race", "."]):
            ran = subprocess.run(["go", *words], cwd=copy, env=self.environment, stdout=subprocess.PIPE, stderr=subprocess.STDOUT)
            self.count(f"lib/go/mesosev: go {words[0]}", ran.returncode == 0, f"\n{ran.stdout.decode()}")
        path = os.path.join(self.folder, "go_scheduler")
        built = subprocess.run(["go", "build", "-o", path, f"{TOP}/examples/scheduler.go"], cwd=copy, env=self.environment)
        self.expect("building examples/scheduler.go", 0, built.returncode)
        if built.returncode == 0:
            self.scheduler("examples/scheduler.go", [path])

    def rust(self):
        """Runs the tests of lib/rust, and its scheduler."""
        if not shutil.which("cargo"):
            self.skip("lib/rust", "cargo is not installed")
            return
        self.environment.update(CARGO_TARGET_DIR=os.path.join(self.folder, "target"), MESOSEV_LIB_DIR=f"{self.prefix}/lib", MESOSEV=self.program)
        manifest = ["--offline", "--manifest-path", f"{TOP}/lib/rust/Cargo.toml"]
        ran = self.run(["cargo", "test", *manifest])
        results = re.findall(r"test result: \S+ (\d+) passed; (\d+) failed", ran.stdout.decode())
        self.passed += sum(int(passed) for passed, _ in results)
        self.failed += sum(int(failed) for _, failed in results)
        self.count("lib/rust: cargo test", ran.returncode == 0, f"\n{ran.stdout.decode()}{ran.stderr.decode()}")
        self.expect("building the scheduler of lib/rust", 0, self.run(["cargo", "build", *manifest, "--example", "scheduler"]).returncode)
        self.scheduler("the scheduler of lib/rust", [f"{self.folder}/target/debug/examples/scheduler"])

    def counted(self, name, command):
        """Runs a program whose last line is 'N passed, M failed', and adds its counts."""
        ran = self.run(command)
        counts = re.search(r"(\d+) passed, (\d+) failed\n$", ran.stdout.decode())
        self.count(name, bool(counts) and ran.returncode == 0, f"\n{ran.stdout.decode()[-2000:]}{ran.stderr.decode()[-2000:]}")
        self.passed += int(counts[1]) if counts else 0

    def scheduler(self, name, command):
        """Runs a scheduler against `mesosev master`. It must launch a task, acknowledge its updates and tear down."""
        words = [self.program, "master", "--port", "0", "--once", "--seconds", "60"]
        with open(f"{TOP}/examples/offers.recordio", "rb") as offers:
            master = subprocess.Popen(words, stdin=offers, stdout=subprocess.PIPE)
        address = master.stdout.readline().decode().split("listening on ")[-1].split()[0]
        ran = self.run(["timeout", "60", *command, address])
        printed, calls = ran.stdout.decode(), master.communicate(timeout=90)[0].decode()
        self.expect(f"{name}: the states", "TASK_STARTING\nTASK_RUNNING\n", printed)
        self.expect(f"{name}: standard error", "", ran.stderr.decode())
        found = [line for line in calls.splitlines() if line.startswith("202 ")]
        self.expect(f"{name}: the calls", ["202 ACCEPT", "202 ACKNOWLEDGE", "202 ACKNOWLEDGE", "202 TEARDOWN"], [it for it in found if it != "202 DECLINE"])
