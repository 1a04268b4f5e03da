#!/usr/bin/env python3
"""Times rings, signatures, chains and walks as ratios, in one run.

With the word `keys` or `chains`, only those. The programs that are timed are bench/keys.txt and
bench/kernels.txt. They are proved and built in a scratch copy of the repository, since they are no
crates of it.
"""
import os
import shutil
import subprocess
import sys
import tempfile

TOP = os.path.dirname(os.path.dirname(os.path.abspath(__file__)))
KEY_CRATES = ["gen_types", "sha_lanes", "gen_ots", "gen_tree"]
CHAIN_CRATES = KEY_CRATES + ["gen_net", "gen_walks", "gen_chain"]
KEYS_ON = "gen_tree gen_ots gen_types sha_lanes sha2 anyhow"
CHAINS_ON = "gen_walks gen_chain gen_tree gen_ots gen_net gen_types anyhow"

# OpenSSL's SHA-256, a message after another: nanoseconds a message of 33 bytes, and a block of long input.
BESIDE = r"""
#define OPENSSL_SUPPRESS_DEPRECATED
#include <openssl/sha.h>
#include <stdio.h>
#include <time.h>
static unsigned char input[12334 * 64], digest[32];
static double now(void) {
    struct timespec t;
    clock_gettime(CLOCK_MONOTONIC, &t);
    return t.tv_sec * 1e9 + t.tv_nsec;
}
static void hash(size_t length) {
    SHA256_CTX c;
    SHA256_Init(&c);
    SHA256_Update(&c, input, length);
    SHA256_Final(digest, &c);
    input[0] = digest[0];
}
int main(void) {
    double message = 1e18, block = 1e18;
    for (int run = 0; run < 40; run++) {
        double start = now();
        for (int i = 0; i < 8192; i++) hash(33);
        double middle = now();
        hash(sizeof input);
        double end = now();
        if ((middle - start) / 8192 < message) message = (middle - start) / 8192;
        if ((end - middle) / 12334 < block) block = (end - middle) / 12334;
    }
    printf("%f %f\n", message, block);
}
"""

# What keeps OpenSSL from using a processor's instructions for SHA, which nothing here uses; and from AVX and AVX2 too, for
# which the kit doesn't build.
WITHOUT_SHA = {"OPENSSL_ia32cap": ":~0x20000000"}
WITHOUT_AVX = {"OPENSSL_ia32cap": "~0x1000000000000000:~0x20000020"}

RUNS = 10


def built(scratch, source, crates, stands_on, proofs=()):
    """The path of the program, built in a scratch repository, with these files, each a path and a source, as its proofs."""
    with open(os.path.join(TOP, "crates.txt")) as listed:
        lines = [line for line in listed if line.split(":")[0] in crates]
    for name in crates:
        shutil.copytree(os.path.join(TOP, "crates", name), os.path.join(scratch, "crates", name))
    speed = os.path.join(scratch, "crates", "speed")
    os.makedirs(os.path.join(speed, "src"))
    shutil.copy(os.path.join(TOP, "bench", source), os.path.join(speed, "src", "main.rt"))
    for path, proof in proofs:
        target = os.path.join(speed, "proofs", path)
        os.makedirs(os.path.dirname(target))
        shutil.copy(os.path.join(TOP, "bench", proof), target)
    shutil.copy(os.path.join(TOP, "HANDLES"), scratch)
    with open(os.path.join(scratch, "crates.txt"), "w") as listed:
        listed.write("".join(lines) + f"speed: {stands_on}\n")
    subprocess.run(["rt", "run"], cwd=speed, check=True, capture_output=True)
    return os.path.join(speed, "out", "speed")


def built_unread(scratch, *given):
    """The same of a program that refuses to be run without an input, as building runs it once."""
    try:
        return built(scratch, *given)
    except subprocess.CalledProcessError:
        program = os.path.join(scratch, "crates", "speed", "out", "speed")
        if not os.path.exists(program):
            raise
        return program


def rebuilt(program, level):
    """The same program, built for processors of this level."""
    speed = os.path.dirname(os.path.dirname(program))
    subprocess.run(["rt", "run", f"--cpu={level}"], cwd=speed, check=True, capture_output=True)
    return program


def has_level_3():
    """Whether this processor is of the level x86-64-v3, which has AVX2."""
    try:
        with open("/proc/cpuinfo") as told:
            flags = next((line.split() for line in told if line.startswith("flags")), [])
    except OSError:
        return False
    return {"avx2", "bmi1", "bmi2", "fma", "f16c", "movbe"} <= set(flags)


def least(program):
    """The least time of each kernel over several runs, in nanoseconds."""
    times = {}
    for _ in range(RUNS):
        printed = subprocess.run([program], check=True, capture_output=True, text=True).stdout
        for name, taken in (line.split() for line in printed.splitlines()):
            times[name] = min(int(taken), times.get(name, int(taken)))
    return times


def openssl(scratch):
    """OpenSSL's times without instructions for SHA, without AVX either, and with what the processor has; None without it."""
    source, program = os.path.join(scratch, "beside.c"), os.path.join(scratch, "beside")
    with open(source, "w") as written:
        written.write(BESIDE)
    try:
        made = subprocess.run(["cc", "-O2", source, "-o", program, "-lcrypto"], capture_output=True)
    except FileNotFoundError:
        return None
    if made.returncode != 0:
        return None
    found = []
    for setting in (WITHOUT_SHA, WITHOUT_AVX, {}):
        runs = [
            subprocess.run([program], check=True, capture_output=True, text=True, env={**os.environ, **setting})
            for _ in range(RUNS)
        ]
        found.append([min(column) for column in zip(*(map(float, run.stdout.split()) for run in runs))])
    return found


def shown(goal):
    """A goal, or blanks where there is none."""
    return f"{goal:5.2f}" if goal else " " * 5


def keys():
    """Rings and signatures, to the same number of compressions."""
    with tempfile.TemporaryDirectory() as scratch:
        program = built(scratch, "keys.txt", KEY_CRATES, KEYS_ON)
        times = least(program)
        wide = least(rebuilt(program, "x86-64-v3")) if has_level_3() else None
        beside = openssl(scratch)
    # Messages of 33 bytes, other blocks, and the goals to sha2 and to OpenSSL.
    rows = [
        ("a ring of 16", "ring", 16 * 512, 16 * 257 + 30, None, 0.65),
        ("a ring of 64", "ring_of_64", 64 * 512, 64 * 257 + 126, 1.25, None),
        ("verifying", "verify", 256, 257 + 8, None, 0.85),
        ("verifying, in all lanes", "verify_lanes", 256, 257 + 8, None, 0.85),
        ("taking and signing", "sign", 256, 0, None, 1.05),
    ]
    print(f"{'':23} {'':9} {'':8} {'':5} {'to OpenSSL':>20} {'for x86-64-v3':>31}")
    titles = f"{'us':>9} {'to sha2':>8} {'goal':>5} {'with AVX':>9} {'without':>10}"
    print(f"{'kernel':23} {titles} {'us':>9} {'to OpenSSL with AVX':>21} {'goal':>5} {'with SHA instructions':>22}")
    for name, kernel, messages, blocks, to_own, to_plain in rows:
        own = times["sha2_blocks"] / 12334 * (messages + blocks)
        line = f"{name:23} {times[kernel] / 1000:9.1f} {times[kernel] / own:8.2f} {shown(to_own)}"
        if beside:
            plain, held, best = (messages * m + blocks * b for m, b in beside)
            line += f" {times[kernel] / plain:9.2f} {times[kernel] / held:10.2f}"
            line += f" {wide[kernel] / 1000:9.1f} {wide[kernel] / plain:21.2f}" if wide else " " * 32
            line += f" {shown(to_plain)} {times[kernel] / best:22.2f}"
        print(line.rstrip())


def chains():
    """Chains, to their signatures and bytes, and walks."""
    with tempfile.TemporaryDirectory() as scratch:
        times = least(built(scratch, "kernels.txt", CHAIN_CRATES, CHAINS_ON))
    rows = [
        ("verifying a chain of 16, to 16 signatures", "chain_verifies", "chain_each", 1.1),
        ("reading a chain of 16, to a copy", "chain_read", "chain_copied", 3.0),
        ("writing a chain of 16, to a copy", "chain_written", "chain_copied", 3.0),
    ]
    print(f"{'kernel':42} {'ratio':>7} {'goal':>6} {'us':>10}")
    for name, kernel, beside, goal in rows:
        print(f"{name:42} {times[kernel] / times[beside]:7.2f} {goal:6.2f} {times[kernel] / 1000:10.1f}")
    for name, kernel in [("walks of 16 in a line", "walks_line"), ("walks of 16, all edges", "walks_complete")]:
        print(f"{name:42} {'':7} {'':6} {times[kernel] / 1000:10.1f}")


if __name__ == "__main__":
    if sys.argv[1:] != ["chains"]:
        keys()
    if sys.argv[1:] != ["keys"]:
        chains()
