#!/usr/bin/env python3
"""Runs programs that nobody here wrote, from Debian's sources, on the machine and in qemu-riscv32, and compares what they print and write.

usage: bench/real.py [--fetch] [NAME ..]

--fetch gets the sources that aren't in bench/sources yet (sdk/libc/fetch). Each program is compiled once and linked twice (foreign.py). On
the machine its files are on the disk with files; in qemu they lie in a folder. A line says for each program how many steps the rounds had
that passed until it ended, those of waiting included, the processor seconds of both, and whether all is the same; the last line counts. No
part of the gate."""
import argparse
import dataclasses
import glob
import os
import re
import resource
import struct
import subprocess
import sys
import tempfile

import foreign
from program import built

BENCH = os.path.dirname(os.path.abspath(__file__))
SOURCES = os.path.join(BENCH, "sources")
EXAMPLES = os.path.join(BENCH, "..", "examples")
STEPS = 20000
ROUND = f"step {STEPS}\ntx 300\ndisk1 100\ntick 1\n"
ROUNDS = 5000
BLOCKS = 1200

# the archives, each with its sum
ARCHIVES = {
    "lua5.4": ("lua5.4_5.4.4.orig.tar.gz", "164c7849653b80ae67bec4b7473b884bf5cc8d2dca05653475ec2ed27b9ebf61"),
    "tinyscheme": ("tinyscheme_1.42.svn.2020.06.04.orig.tar.xz", "95d1a25e4e8427bbd47a737b112a07f472224ea9ba59d682659450b61c476356"),
    "mujs": ("mujs_1.3.2.orig.tar.xz", "4886593fc688b0cdccd31e5ecbe5afe7ad1bee23aa69e667b871afd5dfc640c3"),
    "zlib": ("zlib_1.2.13.dfsg.orig.tar.bz2", "71feb7947e3c00ef125f83b79a4e529bde31171e5babe48b391f06758d1ab0a1"),
    "bzip2": ("bzip2_1.0.8.orig.tar.gz", "ab5a03176ee106d3f0fa90e381da478ddae405918153cca248e682cd0c4a2269"),
    "lz4": ("lz4_1.9.4.orig.tar.gz", "0b0e3aa07c8c063ddf40b082bdf7e37a1562bda40a0ff5272957f3e987e0e54b"),
    "cjson": ("cjson_1.7.15.orig.tar.gz", "5308fd4bd90cef7aa060558514de6a1a4a0819974a26e6ed13973c5f624c24b2"),
    "mbedtls": ("mbedtls_2.28.3.orig.tar.gz", "3b4953aa55a681e084d31892d9904cc5328d6b4958ea57b90ae4b4f94ae69a8d"),
}

SCRIPT = """// sorts, matches, counts and prints
var words = "processes semaphores messages ports buffers console disk files".split(" ");
words.sort(function (a, b) { return a.length - b.length || (a < b ? -1 : 1); });
print(words.join(" "));
print(JSON.stringify({ pi: Math.PI, list: [1, 2.5, "x"], none: null }));
print("the kernel 2026".replace(/(\\w+) (\\w+) (\\d+)/, "$3 $2 $1"));
var primes = [];
for (var n = 2; primes.length < 200; n++)
    if (primes.every(function (p) { return n % p; })) primes.push(n);
print(primes.length, primes[199], primes.reduce(function (a, b) { return a + b; }));
try { null.x } catch (e) { print(e); }
"""

# the parts of mbedTLS whose self tests are run, and the tests' own names of them
PARTS = ["MD5", "RIPEMD160", "ARC4", "DES", "BASE64", "CHACHA20", "POLY1305", "CHACHAPOLY"]
CONFIGURED = '-DMBEDTLS_CONFIG_FILE="few.h" -I{place}'
SUITES = "md5 ripemd160 arc4 des base64 chacha20 poly1305 chacha20-poly1305"


@dataclasses.dataclass
class Program:
    """A program: what it is made of, and how it is run."""

    package: str
    sources: str  # patterns, seen from the folder of its source; one with ! before it leaves out
    arguments: str = ""
    options: str = ""
    heap: int = 100000
    stack: int = 32768
    files: dict = dataclasses.field(default_factory=dict)  # what is on its disk: a path, or bytes
    writes: str = ""  # the file that it writes


PROGRAMS = {
    "lua": Program("lua5.4", "src/*.c !src/luac.c", "test.lua", heap=300000, stack=65536, files={"test.lua": f"{EXAMPLES}/lua/test.lua"},
                   writes="notes"),
    "scheme": Program("tinyscheme", "scheme.c", "test.scm", "-D_POSIX_C_SOURCE=200809L", heap=600000,
                      files={"init.scm": "init.scm", "test.scm": f"{EXAMPLES}/scheme/test.scm"}, writes="note"),
    "mujs": Program("mujs", "main.c one.c", "test.js", heap=400000, stack=65536, files={"test.js": SCRIPT.encode()}),
    "zlib": Program("zlib", "*.c test/example.c", "foo.gz", "-DHAVE_UNISTD_H -I{}", heap=400000, writes="foo.gz"),
    "bzip2": Program("bzip2", "blocksort.c bzlib.c compress.c crctable.c decompress.c huffman.c randtable.c dlltest.c",
                     "-d sample1.bz2 out", heap=600000, files={"sample1.bz2": "sample1.bz2"}, writes="out"),
    "lz4": Program("lz4", "lib/lz4.c lib/lz4hc.c lib/xxhash.c tests/roundTripTest.c", "text", "-I{}/lib", heap=500000, stack=65536,
                   files={"text": b"".join(b"line %d of a text\n" % (k * k) for k in range(400))}),
    "cjson": Program("cjson", "cJSON.c test.c"),
    "mbedtls": Program("mbedtls", "library/*.c programs/test/selftest.c", SUITES, "-I{}/include -I{}/library " + CONFIGURED, heap=60000),
}


def folder_of(package):
    """Where the source of a package lies."""
    return os.path.join(SOURCES, package)


def fetch(package):
    """Gets the source of a package, unless it is there."""
    archive, total = ARCHIVES[package]
    os.makedirs(SOURCES, exist_ok=True)
    if not os.path.isdir(folder_of(package)):
        subprocess.run([os.path.join(foreign.LIBC, "fetch"), package, archive, total, package], cwd=SOURCES, check=True)


def parts(it):
    """The paths of the sources of a program."""
    patterns = it.sources.split()
    found = {path for pattern in patterns if pattern[0] != "!" for path in glob.glob(os.path.join(folder_of(it.package), pattern))}
    return sorted(found - {os.path.join(folder_of(it.package), pattern[1:]) for pattern in patterns if pattern[0] == "!"})


def options_of(it, place, tested):
    """The options by which a program is compiled; what mbedTLS is to have of it is written to the folder."""
    with open(os.path.join(place, "few.h"), "w", encoding="ascii") as file:
        file.write("#define MBEDTLS_SELF_TEST\n" + "".join(f"#define MBEDTLS_{name}_C\n" for name in tested))
    return it.options.replace("{place}", place).replace("{}", folder_of(it.package)).split()


def self_tests(place):
    """The paths of real.c for the machine and for qemu, and of an image file of it, which the plain C interpreter takes."""
    it = PROGRAMS["mbedtls"]
    options = [*options_of(it, place, ["SHA256", "SHA512", "AES"]), "-fno-builtin-printf"]
    sources = [os.path.join(folder_of("mbedtls"), "library", name + ".c") for name in ("sha256", "sha512", "aes", "platform_util")]
    objects = [foreign.compiled(path, os.path.join(place, f"{k}.o"), options) for k, path in enumerate(sources)]
    source, endings = os.path.join(BENCH, "real.c"), {"real9.o": 9, "real93.o": 93}
    ours, theirs = (foreign.compiled(source, os.path.join(place, name), [*options, f'-DEXIT="{n}"']) for name, n in endings.items())
    program = foreign.linked([ours, *objects], os.path.join(place, "real.elf"), 0, it.heap)
    raw, image = os.path.join(place, "real.raw"), os.path.join(place, "real.xim")
    foreign.make([foreign.COMPILER[:-3] + "objcopy", "-O", "binary", program, raw])
    with open(raw, "rb") as file:
        content = file.read()
    with open(image, "wb") as file:
        file.write(struct.pack("<4sIIIIII", b"XIMG", 1, 0, len(content), 0, 20, 1024) + content)
    return program, foreign.linked_for_qemu([theirs, *objects], os.path.join(place, "real"), it.heap), image


def build(name, it, place):
    """The paths of a program for the machine and for qemu."""
    options = options_of(it, place, PARTS)
    objects = [foreign.compiled(path, os.path.join(place, f"{k}.o"), options) for k, path in enumerate(parts(it))]
    glue = foreign.glue(os.path.join(place, "glue"), it.stack, [name, *it.arguments.split()])
    ours = foreign.linked([*glue, *objects], os.path.join(place, name + ".elf"), 0, it.heap)
    return ours, foreign.linked_for_qemu([*foreign.linux_glue(os.path.join(place, "linux")), *objects], os.path.join(place, name), it.heap)


def contents(it):
    """The files of a program's disk, by their names."""
    for name, what in it.files.items():
        if isinstance(what, str):
            with open(os.path.join(folder_of(it.package), what), "rb") as file:
                what = file.read()
        yield name, what


def timed(words, **more):
    """What a command printed, its status, and its processor seconds."""
    before = resource.getrusage(resource.RUSAGE_CHILDREN)
    ran = subprocess.run(words, check=False, stdin=subprocess.DEVNULL, stdout=subprocess.PIPE, stderr=subprocess.STDOUT, **more)
    after = resource.getrusage(resource.RUSAGE_CHILDREN)
    return ran.stdout, ran.returncode, after.ru_utime + after.ru_stime - before.ru_utime - before.ru_stime


def in_qemu(program, it, place):
    """What a program prints in qemu, how it ends, what it writes, and its processor seconds."""
    os.makedirs(place)
    for name, what in contents(it):
        with open(os.path.join(place, name), "wb") as file:
            file.write(what)
    printed, status, seconds = timed([foreign.QEMU, program, *it.arguments.split()], cwd=place)
    written = b""
    if it.writes:
        with open(os.path.join(place, it.writes), "rb") as file:
            written = file.read()
    return (printed, f"exit {status}", written), seconds


def on_the_machine(program, it, place):
    """The same on the machine, and how many steps the rounds had that passed."""
    xinu = built("xinu_run")
    os.makedirs(place)
    paths = {name: os.path.join(place, name) for name in ("disk", "after", "file", "schedule")}
    foreign.make([xinu, "disk", "mkfs", str(BLOCKS), "--out", paths["disk"]])
    for name, what in contents(it):
        with open(paths["file"], "wb") as file:
            file.write(what)
        foreign.make([xinu, "disk", "put", paths["disk"], name, paths["file"], "--out", paths["after"]])
        os.replace(paths["after"], paths["disk"])
    with open(paths["schedule"], "w", encoding="ascii") as file:
        file.write("type 04\n" + ROUND * ROUNDS)
    words = [xinu, "run", "--schedule", paths["schedule"], "--disk1", paths["disk"], "--out1", paths["after"]]
    transcript, _, seconds = timed([*words, program])
    transcript = transcript.decode()
    printed, _, _ = timed([*words, "--plain", program])
    written = b""
    if it.writes:
        foreign.run([xinu, "disk", "get", paths["after"], it.writes, "--out", paths["file"]])
        with open(paths["file"], "rb") as file:
            written = file.read()
    ticks = re.findall(r"^now (\d+) ", transcript, re.M)
    steps = int(ticks[0]) * STEPS if ticks else 0
    return (printed.replace(b"\r\n", b"\n"), foreign.ends(transcript).get("1", "doesn't end"), written), seconds, steps


def main():
    parser = argparse.ArgumentParser(usage=__doc__.split("usage: ")[1], add_help=False)
    parser.add_argument("--fetch", action="store_true")
    parser.add_argument("name", nargs="*", default=list(PROGRAMS))
    words = parser.parse_args()
    same, missing = 0, 0
    for name in words.name:
        it = PROGRAMS[name]
        if words.fetch:
            fetch(it.package)
        if not os.path.isdir(folder_of(it.package)):
            print(f"{name:8} its source isn't here: --fetch gets it")
            missing += 1
            continue
        with tempfile.TemporaryDirectory() as place:
            ours, theirs = build(name, it, place)
            wanted, theirs_seconds = in_qemu(theirs, it, os.path.join(place, "qemu"))
            got, seconds, steps = on_the_machine(ours, it, os.path.join(place, "machine"))
        what = [kind for kind, a, b in zip(("what it prints", "how it ends", "what it writes"), got, wanted) if a != b]
        same += not what
        verdict = f"{wanted[1]}, {len(wanted[0])} bytes: " + ("DIFFERS in " + ", ".join(what) if what else "the same")
        print(f"{name:8} {steps / 1e6:7.1f} million steps {seconds:7.2f} s, qemu {theirs_seconds:5.2f} s; {verdict}")
    print(f"{same} of {len(words.name)} programs are the same as in {foreign.QEMU}, {len(words.name) - same - missing} differ")
    sys.exit(1 if same < len(words.name) else 0)


if __name__ == "__main__":
    main()
