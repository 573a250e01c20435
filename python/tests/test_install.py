"""What ./install puts under a prefix serves: commands, header, both libraries, pkg-config; and pip installs the package."""
from __future__ import annotations

import os
import platform
import shutil
import subprocess
import sys
import tempfile
import unittest
from pathlib import Path

from .helping import PANEL_SHEET, RECORDINGS, ROOT, ran


class Installed(unittest.TestCase):
    @classmethod
    def setUpClass(cls) -> None:
        cls.folder = Path(tempfile.mkdtemp())
        cls.addClassCleanup(shutil.rmtree, cls.folder, ignore_errors=True)
        cls.prefix = cls.folder / "pre fix"
        cls.done = ran(ROOT / "install", cls.prefix)
        cls.compiler = ran(ROOT / "tools/clib", "--compiler").stdout.decode().strip()

    def test_says_so(self) -> None:
        self.assertEqual(self.done.returncode, 0, self.done.stderr.decode())
        self.assertIn(b"installed under", self.done.stdout)
        self.assertEqual(ran(ROOT / "install").returncode, 2)
        self.assertEqual(ran(ROOT / "install", "--help").returncode, 0)
        self.assertEqual(ran(ROOT / "install", "/dev/null/x").returncode, 2)
        self.assertEqual([path for path in self.prefix.rglob("*.half")], [])

    def test_commands(self) -> None:
        elsewhere = {"cwd": self.folder, "env": {"PATH": "/usr/bin:/bin", "LC_ALL": "C"}}
        done = ran(self.prefix / "bin/rulesheet", RECORDINGS / "panel.pla", **elsewhere)
        self.assertEqual((done.returncode, done.stdout), (0, PANEL_SHEET))
        done = ran(sys.executable, self.prefix / "bin/ntekuzino", "sheet", RECORDINGS / "panel.pla", **elsewhere)
        self.assertEqual((done.returncode, done.stdout), (0, PANEL_SHEET), done.stderr)
        done = ran(self.prefix / "bin/ntekuzino-desk", input=(ROOT / "desk/examples.in").read_bytes())
        self.assertEqual(done.stdout, (ROOT / "desk/examples.out").read_bytes())

    def linked(self, name: str, *flags: str) -> subprocess.CompletedProcess[bytes]:
        """The example for C, by the flags that pkg-config tells, run where the library stands."""
        variables = {"pcfiledir": str(self.prefix / "lib/pkgconfig")}
        told = {}
        for line in (self.prefix / "lib/pkgconfig/ntekuzino.pc").read_text().splitlines():
            for key, value in variables.items():
                line = line.replace("${" + key + "}", value)
            if "=" in line.split(":")[0]:
                key, value = line.split("=", 1)
                variables[key] = value
            elif ": " in line:
                key, value = line.split(": ", 1)
                told[key] = value
        words = [part for key in ("Cflags", "Libs") for part in self.words(told[key])]
        program = self.folder / name
        subprocess.run([self.compiler, "-std=c11", *flags, ROOT / "examples/learn.c", *words, "-o", program], check=True)
        return ran(ROOT / "tools/clib", "--run", *self.loader(flags), program, env={**os.environ, "LD_LIBRARY_PATH": str(self.prefix / "lib")})

    def words(self, flags: str) -> list[str]:
        """`-I` and `-L` with a path that may hold blanks."""
        return [f"-{part.strip()}" for part in f" {flags}".split(" -")[1:]]

    def loader(self, flags: tuple[str, ...]) -> list[str]:
        """On another processor the emulator must be told where x86-64's C library stands."""
        if "-static" in flags or platform.machine() == "x86_64":
            return []
        return ["-L", "/usr/x86_64-linux-gnu", "-E", f"LD_LIBRARY_PATH={self.prefix / 'lib'}"]

    def test_both_libraries(self) -> None:
        expected = (ROOT / "examples/learn.out").read_bytes()
        for name, flags in (("static", ["-static"]), ("shared", [])):
            done = self.linked(name, *flags)
            self.assertEqual((done.returncode, done.stdout), (0, expected), (name, done.stderr))

    def test_symbols(self) -> None:
        tool = self.compiler.replace("gcc", "nm") if "gcc" in self.compiler else "nm"
        symbols = ran(tool, "-D", "--defined-only", self.prefix / "lib/libntekuzino.so").stdout.decode().split()
        functions = {name for name in symbols if name.startswith("ntekuzino_")}
        header = (self.prefix / "include/ntekuzino.h").read_text()
        self.assertGreaterEqual(len(functions), 12)
        for name in functions:
            self.assertIn(f" {name}(", header)
        self.assertEqual({name for name in symbols[2::3]}, functions)

    @unittest.skipUnless(shutil.which("g++"), "no g++")
    def test_cplusplus(self) -> None:
        source = self.folder / "client.cc"
        source.write_text('#include "ntekuzino.h"\nstatic_assert(NTEKUZINO_INPUT_ROOM == 13, "");\nint main() { ntekuzino_answer a{}; return (int)a.code; }\n')
        subprocess.run(["g++", "-std=c++11", "-Wall", "-Wextra", "-Werror", "-fsyntax-only", f"-I{self.prefix / 'include'}", source], check=True)

    def test_pkg_config(self) -> None:
        if not shutil.which("pkg-config"):
            self.skipTest("no pkg-config")
        env = {**os.environ, "PKG_CONFIG_PATH": str(self.prefix / "lib/pkgconfig")}
        done = ran("pkg-config", "--modversion", "--print-errors", "ntekuzino", env=env)
        self.assertEqual(done.returncode, 0, done.stderr)
        self.assertIn(b"-lntekuzino", ran("pkg-config", "--libs", "ntekuzino", env=env).stdout)

    def test_pip(self) -> None:
        """From the folder, with nothing fetched; it finds the installed desk on the PATH."""
        if ran(sys.executable, "-m", "pip", "--version").returncode != 0:
            self.skipTest("no pip")
        target = self.folder / "packages"
        done = ran(sys.executable, "-m", "pip", "install", "--no-index", "--quiet", "--disable-pip-version-check", "--target", target, ROOT / "python")
        self.assertEqual(done.returncode, 0, done.stderr.decode())
        self.assertTrue((target / "ntekuzino/py.typed").exists() and (self.prefix / "lib/ntekuzino/ntekuzino/py.typed").exists())
        env = {"PATH": f"{self.prefix / 'bin'}:/usr/bin:/bin", "PYTHONPATH": str(target)}
        code = "import ntekuzino; print(ntekuzino.__file__, ntekuzino.apply(3, [2048, 1053696, 2097153], 5).state)"
        done = ran(sys.executable, "-c", code, env=env, cwd=self.folder)
        self.assertEqual((done.returncode, done.stdout.decode()), (0, f"{target / 'ntekuzino/__init__.py'} 2\n"), done.stderr.decode())
        self.assertEqual(ran("git", "-C", ROOT, "status", "--porcelain", "--ignored", "python/build").stdout, b"")
