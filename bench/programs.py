"""The programs of the benchmark: the proved ones and the one in plain C, how they are run, and how their instructions are counted.

All are compiled for x86-64. On such a processor they run as they are, and valgrind counts their instructions. On any other they run under
the Rattle kit's emulator, which counts them by a log that has a line for each.
"""
import os
import platform
import re
import resource
import shutil
import subprocess
import sys
import tempfile

ROOT = os.path.normpath(os.path.join(os.path.dirname(os.path.abspath(__file__)), ".."))
NATIVE = platform.machine() == "x86_64"
# Tells the C library not to copy and fill two kilobytes and more by instructions that repeat themselves: the emulator goes byte by byte
# through those, and each repetition would be counted.
NO_REPEATS = {"GLIBC_TUNABLES": ":".join(f"glibc.cpu.x86_rep_{name}_threshold=1000000" for name in ("movsb", "stosb"))}


def say(*words):
    print(*words, flush=True)


def fail(message):
    say("bench:", message)
    sys.exit(2)


def toolchain():
    """The folder of the kit that has its linker, its C library and its emulator, by the kit's command on the PATH."""
    rt = shutil.which("rt")
    if not rt:
        fail("the Rattle kit's command rt is not on the PATH")
    kit = os.environ.get("RATTLE_HOME") or os.path.dirname(os.path.dirname(os.path.realpath(rt)))
    return os.path.join(kit, "toolchain") if NATIVE else os.path.join(kit, "on", platform.machine(), "toolchain")


def runnable(program):
    """The words by which a program is run, and the environment that it runs in."""
    if NATIVE:
        return [program], dict(os.environ)
    tools = toolchain()
    words = [os.path.join(tools, "bin", "qemu-x86_64"), os.path.join(tools, "lib", "ld-linux-x86-64.so.2"), "--library-path", os.path.join(tools, "lib")]
    return words + [program], dict(os.environ, **NO_REPEATS)


def rattle_program(name):
    """A proved program; rt proves it anew where a source of it was changed. rt then runs it too, on no sheets and no input."""
    toolchain()
    crate = os.path.join(ROOT, "crates", name)
    program = os.path.join(crate, "out", name)
    proved = subprocess.run(["rt", "run"], cwd=crate, stdin=subprocess.DEVNULL, stdout=subprocess.DEVNULL, check=False)
    if proved.returncode != 0 or not os.path.exists(program):
        fail(f"rt run built no proved program {name}")
    return runnable(program)


def done(words):
    if subprocess.run(words, check=False).returncode != 0:
        fail("this failed: " + " ".join(words))


def made_by_clang(source, program, options):
    """The C program by a clang that knows x86-64, linked as the kit links its own. The headers are this machine's: the program uses nothing in
    them that differs from one processor to another."""
    lib = os.path.join(toolchain(), "lib")
    done(["clang", "--target=x86_64-linux-gnu", "-O2", "-fPIE", "-isystem", f"/usr/include/{platform.machine()}-linux-gnu", *options, "-c", "-o", program + ".o", source])
    parts = [os.path.join(lib, name) for name in ("Scrt1.o", "crti.o", "crtbeginS.o")] + [program + ".o"]
    parts += [os.path.join(lib, name) for name in ("libc.so.6", "libc_nonshared.a", "libgcc.a", "crtendS.o", "crtn.o")]
    done([os.path.join(toolchain(), "bin", "ld.lld"), "-pie", "-dynamic-linker", "/lib64/ld-linux-x86-64.so.2", "-o", program, *parts])
    return runnable(program)


def c_program(folder, name, *options):
    """bench/panel.c compiled at -O2 and with these options, and by what; None where there is no compiler for it."""
    source, program = os.path.join(ROOT, "bench", "panel.c"), os.path.join(folder, name)
    compiler = "cc" if NATIVE else "x86_64-linux-gnu-gcc"
    if shutil.which(compiler):
        done([compiler, "-O2", *options, "-o", program, source, *([] if NATIVE else ["-static"])])
        words, environment = runnable(program)
        return ([*words[:1], program] if not NATIVE else words, environment), compiler
    if not NATIVE and shutil.which("clang"):
        return made_by_clang(source, program, options), "clang"
    return None, compiler


# ---- The times

def used():
    """The processor time of the programs that have ended, in seconds."""
    usage = resource.getrusage(resource.RUSAGE_CHILDREN)
    return usage.ru_utime + usage.ru_stime


def run(program, arguments, folder):
    """The processor time of a run in seconds, and what it writes."""
    words, environment = program
    before = used()
    text = subprocess.run(words + arguments, cwd=folder, env=environment, stdout=subprocess.PIPE, check=True).stdout
    return used() - before, text


# ---- The instructions

def counted_by_valgrind(words, environment, folder):
    """How many instructions a run has, and what it writes."""
    tool = ["valgrind", "--tool=callgrind", "--callgrind-out-file=/dev/null"]
    done = subprocess.run(tool + words, cwd=folder, env=environment, stdout=subprocess.PIPE, stderr=subprocess.PIPE, check=False)
    told = re.search(r"Collected *: *(\d+)", done.stderr.decode())
    if done.returncode != 0 or not told:
        fail("valgrind counted nothing: " + done.stderr.decode().strip())
    return int(told.group(1)), done.stdout


def counted_by_emulator(words, environment, folder):
    """The same by the emulator's log, which has a line for each instruction."""
    log, end = os.pipe()
    options = ["-one-insn-per-tb", "-d", "exec,nochain", "-D", f"/dev/fd/{end}"]
    with tempfile.TemporaryFile() as text:
        with subprocess.Popen([words[0], *options, *words[1:]], cwd=folder, env=environment, stdout=text, pass_fds=[end]) as process:
            os.close(end)
            with os.fdopen(log, "rb") as lines:
                counted = sum(line.startswith(b"Trace") for line in lines)
        if process.returncode != 0 or counted == 0:
            fail("the emulator counted nothing")
        text.seek(0)
        return counted, text.read()


def counter():
    """What counts instructions here; None where nothing does."""
    if not NATIVE:
        return counted_by_emulator
    return counted_by_valgrind if shutil.which("valgrind") else None


def instructions(program, arguments, folder):
    words, environment = program
    return counter()(words + arguments, dict(environment, **NO_REPEATS), folder)
