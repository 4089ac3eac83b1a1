#!/usr/bin/env python3
"""What scripts/build-library and scripts/release share: the library of a node where a program looks for it, and the try of it.

`install` puts three files under a folder: lib/libzomtagi.a, which is libnode_export.a and what that needs of the toolchain, in
one; include/zomtagi.h; and lib/pkgconfig/zomtagi.pc, which goes by the folder that it stands in, so that all may be moved.
"""
import os
import re
import shlex
import shutil
import subprocess
import tempfile

TOP = os.path.dirname(os.path.dirname(os.path.abspath(__file__)))
KIT = os.path.dirname(os.path.dirname(os.path.realpath(shutil.which("rt") or "/")))
LIBC = f"{KIT}/c/liblibc_c.a"
PACKAGE = """prefix=${pcfiledir}/../..
libdir=${prefix}/lib
includedir=${prefix}/include

Name: zomtagi
Description: A node of the cluster metadata store zomtagi
Version: %s
Cflags: -I${includedir}
Libs: -L${libdir} -lzomtagi
"""


def text_of(file):
    with open(f"{TOP}/{file}", encoding="utf-8") as it:
        return it.read()


def version():
    """Returns the version of the bindings."""
    return re.search(r'^version = "(.*)"$', text_of("bindings/rust/Cargo.toml"), re.M)[1]


def is_there(program):
    """Returns whether there is such a program that says its version."""
    return bool(shutil.which(program)) and subprocess.run([program, "--version"], capture_output=True, check=False).returncode == 0


def runs(*words, **how):
    """Runs a command, prints what it wrote if it fails, and returns whether it passed."""
    ran = subprocess.run(words, stdout=subprocess.PIPE, stderr=subprocess.STDOUT, text=True, check=False, **how)
    if ran.returncode:
        print(ran.stdout)
    return ran.returncode == 0


def bare_environment():
    """Returns the environment without the toolchain, and without what names a library or a folder for builds."""
    names = ("ZOMTAGI_LIB", "RATTLE_KIT", "CARGO_TARGET_DIR", "PKG_CONFIG_PATH")
    path = os.pathsep.join(it for it in os.environ["PATH"].split(os.pathsep) if not os.path.exists(f"{it}/rt"))
    return {**{name: it for name, it in os.environ.items() if name not in names}, "PATH": path}


def install(library, prefix):
    """Puts the library, its header and what pkg-config reads under the folder, and returns whether it could."""
    for folder in ("include", "lib/pkgconfig"):
        os.makedirs(f"{prefix}/{folder}", exist_ok=True)
    with tempfile.TemporaryDirectory(prefix="library-") as room:
        if not runs(f"{KIT}/toolchain/bin/llvm-ar", "qcsL", f"{room}/libzomtagi.a", library, LIBC):
            return False
        shutil.copyfile(f"{room}/libzomtagi.a", f"{prefix}/lib/libzomtagi.a")
    shutil.copyfile(f"{TOP}/bindings/c/zomtagi.h", f"{prefix}/include/zomtagi.h")
    with open(f"{prefix}/lib/pkgconfig/zomtagi.pc", "w", encoding="utf-8") as it:
        it.write(PACKAGE % version())
    return True


def flags(prefix):
    """Returns the words with which a program in C is compiled: those of pkg-config, or what it would say if there is none."""
    if not is_there("pkg-config"):
        return [f"-I{prefix}/include", f"-L{prefix}/lib", "-lzomtagi"]
    env = {**os.environ, "PKG_CONFIG_PATH": f"{prefix}/lib/pkgconfig"}
    asked = subprocess.run(["pkg-config", "--cflags", "--libs", "zomtagi"], env=env, stdout=subprocess.PIPE, text=True, check=True)
    return shlex.split(asked.stdout)


def c_is_well(source, words, room, **how):
    """Compiles the example in C with these words behind it, and compares what it prints with the text of its page."""
    example = f"{room}/example"
    if not runs("cc", "-std=gnu11", "-Wall", "-Wextra", "-Werror", source, *words, "-o", example, **how):
        return False
    wanted = re.search(r"```text\n(.*?)```", text_of("bindings/c/README.md"), re.S)[1]
    printed = subprocess.run([example], capture_output=True, text=True, check=False, **how).stdout
    if printed != wanted:
        print(f"bindings/c/example.c prints {printed!r}, and not what its page says")
    return printed == wanted
