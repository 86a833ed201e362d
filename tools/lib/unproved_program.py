"""The program of the sources as they are, without a proof: its module as text, and what the kit's compiler makes of that."""
import os
import re
import shutil
import subprocess
import sys

from scripts import script

TOP = os.path.realpath(f"{__file__}/../../..")
TO_TEXT = ["--target=x86_64-unknown-linux-gnu", "-x", "ir", "-S", "-emit-llvm"]


def run(words, **options):
    name = os.path.basename(sys.argv[0])
    try:
        return subprocess.run(words, check=True, stdin=subprocess.DEVNULL, stderr=subprocess.PIPE, **options)
    except FileNotFoundError:
        sys.exit(f"{name}: there is no {words[0]}")
    except subprocess.CalledProcessError as fault:
        sys.exit(f"{name}: {words[0]} ended with {fault.returncode}:\n{fault.stderr.decode(errors='replace')[-2000:]}")


class Module:
    """The program's module as text, as a trial makes it, but without what stops a trial whose tests fail. It is made in an empty folder,
    by the parts of tools/dev/compile."""

    def __init__(self, folder):
        if not shutil.which("rt"):
            sys.exit(f"{os.path.basename(sys.argv[0])}: there is no rt on the PATH, the command of the Rattle toolchain")
        rtlib, compile = script(os.path.realpath(shutil.which("rt"))).rtlib, script(f"{TOP}/tools/dev/compile")
        self.folder, self.kit, self.clang = folder, rtlib.KIT, f"{rtlib.KIT}/toolchain/bin/clang"
        trial, tried = compile.begin_trial(rtlib, rtlib.Crate(f"{TOP}/crates/{compile.CRATE}", TOP, {}), f"{folder}/trial")
        around, framed = compile.begin_frame(rtlib, f"{folder}/frame")
        compile.module_of(around, framed, self.clang)
        text = compile.module_of(trial, tried, self.clang)
        self.words = f"{framed}.words"
        self.text = re.sub(r"^.*call void @llvm\.trap\(\).*\n", "", text, flags=re.MULTILINE).replace(" sanitize_address", "")

    def change(self, *options):
        """Lets the compiler change the module by these options."""
        self.write("module.ll")
        run([self.clang, *TO_TEXT, *options, "module.ll", "-o", "changed.ll"], cwd=self.folder)
        with open(f"{self.folder}/changed.ll", encoding="utf-8") as file:
            self.text = file.read()

    def write(self, name):
        with open(f"{self.folder}/{name}", "w", encoding="utf-8") as file:
            file.write(self.text)

    def link(self, place, *sources):
        """Compiles the module as a proved program is compiled, and links it with what the C compiler makes of these words."""
        self.write("module.bc")
        with open(self.words, encoding="utf-8") as file:
            run([self.clang, *file.read().splitlines()], cwd=self.folder)
        libraries = [f"{self.kit}/c/libos_c.a", f"{self.kit}/c/liblibc_c.a"]
        run(["cc", "-pie", f"{self.folder}/module.o", *sources, *libraries, "-Wl,--gc-sections", "-o", place])
