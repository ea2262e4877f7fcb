"""The C program c/calls.c, linked with the library: the compiler, the archive, the program, and a run of it."""

import os
import shlex
import shutil
import subprocess
import sys
from collections import namedtuple
from pathlib import Path

ROOT = Path(__file__).resolve().parent.parent
SANITIZERS = ["-fsanitize=address,undefined", "-fno-sanitize-recover=all"]
BOUND = ["-Wl,-z,now"]      # memcpy and the like are not found at their first use, which takes stack
FLAGS = ["-std=c11", "-O1", "-g", "-Wall", "-Wextra", "-Werror"]
LONGEST_RUN = 300       # seconds


def fail(why):
    sys.exit("tests/%s: %s" % (Path(sys.argv[0]).name, why))


def compiler():
    """The words of the compiler's command."""
    words = shlex.split(os.environ.get("CC", "")) or ["cc"]
    if shutil.which(words[0]) is None:
        fail("there is no C compiler %s; install one (Debian: the packages gcc and libc6-dev), or name one in CC" % words[0])
    return words


def compiles(words, folder):
    """Whether a small program compiles, links and runs with these words."""
    source, program = folder / "small.c", folder / "small"
    source.write_text("#include <stdio.h>\nint main(void) { return puts(\"small\") < 0; }\n")
    if subprocess.run([*words, str(source), "-o", str(program)], capture_output=True).returncode:
        return False
    return subprocess.run([program], capture_output=True).returncode == 0


def tested_compiler(folder):
    words = compiler()
    if not compiles(words, folder):
        fail("the C compiler %s does not make a program; is the C library's development package there (Debian: libc6-dev)?" % words[0])
    if not compiles([*words, *SANITIZERS], folder):
        fail("the C compiler %s lacks the address or the undefined-behaviour sanitizer (Debian: libasan and libubsan of the package "
             "libgcc-12-dev, which gcc-12 brings)" % words[0])
    return words


def library():
    """The archive that the repository's sources make."""
    if shutil.which("rt") is None:
        fail("rt is not on the PATH")
    built = subprocess.run([ROOT / "tests" / "archive"], cwd=ROOT, capture_output=True, text=True)
    if built.returncode:
        fail("the library is not built\n" + built.stdout + built.stderr)
    return ROOT / "target" / "staticlib" / "libfv.a"


# The program with the sanitizers, and without them, for what each call takes of the stack.
Programs = namedtuple("Programs", "watched bare")


def program(words, archive, made):
    """Compiles and links the program by these words of a command. Answers its path."""
    linking = subprocess.run([*words, *FLAGS, "-I", str(ROOT / "include"), str(ROOT / "tests" / "c" / "calls.c"), str(archive), "-o", str(made)],
                             capture_output=True, text=True)
    if linking.returncode:
        fail("c/calls.c is not compiled or not linked\n" + linking.stdout + linking.stderr)
    return made


def programs(folder, archive=None):
    """Both programs, with the archive, the library's own unless one is named."""
    words = tested_compiler(folder)
    archive = archive.resolve() if archive else library()
    if not archive.is_file():
        fail("%s is not there" % archive)
    return Programs(program([*words, *SANITIZERS], archive, folder / "calls"), program([*words, *BOUND], archive, folder / "bare_calls"))


def run(program, script, *arguments):
    """The lines that the program prints, and how it ended where not well."""
    options = dict(os.environ, ASAN_OPTIONS="detect_leaks=0")
    try:
        ran = subprocess.run([program, *arguments], input=script, capture_output=True, env=options, timeout=LONGEST_RUN)
    except subprocess.TimeoutExpired as cut:
        return (cut.stdout or b"").decode().split("\n")[:-1], "not at the end after %d seconds" % LONGEST_RUN
    ending = "status %d: %s" % (ran.returncode, ran.stderr.decode(errors="replace")[-1500:].strip()) if ran.returncode else ""
    return ran.stdout.decode().split("\n")[:-1], ending
