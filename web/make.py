"""Makes the page with the program in it; web/make.sh says how. Each step is one function of `main`, in order."""
import base64
import json
import lzma
import os
import re
import shutil
import subprocess
import sys
import tempfile

HERE = os.path.dirname(os.path.abspath(__file__))
TOP = os.path.dirname(HERE)
MOST = 1_500_000
# Pointers have 64 bits in both, so that the module's types keep their sizes.
LAYOUT = "e-m:e-p:64:64-p10:8:8-p20:8:8-i64:64-i128:128-n32:64-S128-ni:1:10:20"
TARGET = "wasm64-unknown-unknown"
STACK = 8 << 20
# Longer searches make the page smaller, and cost the browser nothing. web/unpack.js knows lc, lp and pb.
PACKING = [{"id": lzma.FILTER_LZMA1, "dict_size": 1 << 24, "lc": 3, "lp": 0, "pb": 0, "mode": lzma.MODE_NORMAL, "nice_len": 273,
            "mf": lzma.MF_BT4, "depth": 1000}]


def main():
    kit = os.path.dirname(run([os.environ.get("RT", "rt"), "doc"]).strip())
    room = os.environ.get("KEEP") or tempfile.mkdtemp()
    os.makedirs(room, exist_ok=True)
    module = os.path.join(room, "module.bc")
    if not os.path.exists(module):
        keep_module(kit, room, module)
    wasm = os.path.join(room, "afx.wasm")
    link(kit, retargeted(kit, room, module), room, wasm)
    check_imports(wasm)
    page = os.environ.get("PAGE") or os.path.join(TOP, "release", "play.html")
    write_page(wasm, page)
    if not os.environ.get("KEEP"):
        shutil.rmtree(room)


def run(words, **more):
    return subprocess.run(words, check=True, stdout=subprocess.PIPE, text=True, **more).stdout


# ---- the module that the proof is about

def crates():
    """The crates that afx stands on, lowest first, and the libraries of the kit that each names."""
    uses = {}
    for line in open(os.path.join(TOP, "crates.txt")):
        line = line.split("#")[0].strip()
        if ":" in line:
            head, tail = line.split(":")
            uses[head.split()[0]] = tail.split()
    order = []

    def visit(name):
        for below in uses[name]:
            if below in uses and below not in order:
                visit(below)
        if name not in order:
            order.append(name)

    visit("afx")
    return order, uses


def keep_module(kit, room, module):
    """Builds afx with a compiler that only keeps the module which the build hands it. The build ends there."""
    toolchain = os.path.join(room, "toolchain")
    shutil.rmtree(toolchain, ignore_errors=True)
    shutil.copytree(os.path.join(kit, "toolchain"), toolchain, symlinks=True)
    clang = os.path.join(toolchain, "bin", "clang")
    os.remove(clang)
    with open(clang, "w") as file:
        file.write('#!/bin/sh\nfor word; do case $word in *.bc | *.ll) cp "$word" "%s" ;; esac; done\nexit 1\n' % module)
    os.chmod(clang, 0o755)
    order, uses = crates()
    libraries = os.environ.get("LIBRARIES", TOP)
    words = ["rattle", "build", "--crate-name", "afx", os.path.join(TOP, "crates", "afx", "src", "main.rt"),
             "--extern", f"std={kit}/rlibs/std.rlib", "-L", f"dependency={kit}/rlibs"]
    for name in order[:-1]:
        built = os.path.join(libraries, "crates", name, "out", "rlib")
        if name in uses["afx"]:
            words += ["--extern", f"{name}={built}/{name}.rlib"]
        words += ["-L", f"dependency={built}"]
    words += ["--antt-project", f"{kit}/rattle/logic/antt-project.json", "--logic-built", f"{kit}/logic_built",
              "--incremental", os.path.join(room, "incremental"), "--toolchain", toolchain, "--backend", "llvm",
              "--cpu", "x86-64", "-o", os.path.join(room, "afx.o")]
    said = subprocess.run(words, stdout=subprocess.PIPE, stderr=subprocess.STDOUT, text=True,
                          env={**os.environ, "PATH": f"{kit}/bin:" + os.environ["PATH"]}).stdout
    if not os.path.exists(module):
        sys.exit(said + "\nweb: the build kept no module")
    print("\n".join(line for line in said.split("\n") if line.startswith("logic=")) or "web: no line of a proof")


# ---- the same module for wasm64

def retargeted(kit, room, module):
    """Changes the layout, the target and the processor of the module, and compiles it."""
    clang = f"{kit}/toolchain/bin/clang"
    text, changed = os.path.join(room, "module.ll"), os.path.join(room, "changed.ll")
    run([clang, "-x", "ir", "-S", "-emit-llvm", "-Xclang", "-disable-llvm-passes", module, "-o", text])
    with open(text) as lines, open(changed, "w") as file:
        for line in lines:
            file.write(for_wasm(line))
    os.remove(text)
    return compiled(clang, changed, os.path.join(room, "module.o"), os.environ.get("LEVEL", "-O1"))


def for_wasm(line):
    """A line of the module, for wasm64."""
    if line.startswith("target datalayout"):
        return f'target datalayout = "{LAYOUT}"\n'
    if line.startswith("target triple"):
        return f'target triple = "{TARGET}"\n'
    if line.startswith("attributes #"):
        line = line.replace("{ ", "{ nounwind ", 1)
        line = re.sub(r'"target-cpu"="x86-64[-v0-9]*"', '"target-cpu"="lime1"', line)
        for mark in ('"probe-stack"="inline-asm"', '"stack-probe-size"="3072"', '"frame-pointer"="all"', "sanitize_address"):
            line = line.replace(mark, "")
        return line
    if "call void @llvm.x86.sse2.pause()" in line:
        return ""  # a hint to the processor
    return line


def compiled(clang, source, to, level="-O2"):
    run([clang, f"--target={TARGET}", "-mcpu=lime1", "-mllvm", "-expand-div-rem-bits=64", "-mllvm",
         "-expand-fp-convert-bits=64", "-mllvm", "-trap-unreachable", "-ffunction-sections", "-fdata-sections",
         "--no-default-config", "-Wno-override-module", level, "-c", "-x", "ir", source, "-o", to])
    return to


def link(kit, module, room, wasm):
    """Links it with the arithmetic of 128 bits. Functions of C stay open: web/host.js has them."""
    arithmetic = compiled(f"{kit}/toolchain/bin/clang", os.path.join(HERE, "arithmetic.ll"), os.path.join(room, "arithmetic.o"))
    linker = os.path.join(room, "wasm-ld")
    if not os.path.lexists(linker):
        os.symlink(f"{kit}/toolchain/bin/ld.lld", linker)
    run([linker, "-mwasm64", "--no-entry", "--export=main", "--export=__heap_base", "--import-undefined", "--stack-first",
         "-z", f"stack-size={STACK}", "--gc-sections", "--strip-all", "-O2", module, arithmetic, "-o", wasm])
    print(f"web: module of {os.path.getsize(wasm)} bytes")


# ---- the page

def number_at(data, at):
    """A number of the format of WebAssembly, and the position after it."""
    value = shift = 0
    while True:
        byte = data[at]
        at += 1
        value |= (byte & 127) << shift
        shift += 7
        if byte < 128:
            return value, at


def imports(data):
    """The names of the functions that a module imports."""
    at, names = 8, []
    while at < len(data):
        kind, at = data[at], at + 1
        size, at = number_at(data, at)
        if kind == 2:
            here = at
            count, here = number_at(data, here)
            for _ in range(count):
                parts = []
                for _ in range(2):
                    length, here = number_at(data, here)
                    parts.append(data[here:here + length].decode())
                    here += length
                assert data[here] == 0, "only functions are imported"
                _, here = number_at(data, here + 1)
                names.append(parts[1])
        at += size
    return names


def check_imports(wasm):
    """Each function that the module asks for stands in web/host.js."""
    with open(wasm, "rb") as file:
        wanted = imports(file.read())
    with open(os.path.join(HERE, "host.js")) as file:
        given = set(re.findall(r"^    (\w+)\(", file.read(), re.M))
    missing = sorted(set(wanted) - given)
    print(f"web: {len(wanted)} functions are asked of the page")
    if missing:
        sys.exit("web/host.js lacks " + ", ".join(missing))


def read(*path):
    with open(os.path.join(*path)) as file:
        return file.read()


def examples():
    """The programs of examples/ with their inputs, in the groups of the cookbook."""
    programs, inputs = {}, {}
    for folder in ("examples", os.path.join("examples", "refused")):
        for file in sorted(os.listdir(os.path.join(TOP, folder))):
            name, kind = os.path.splitext(file)
            if kind == ".afx":
                programs[name] = read(TOP, folder, file)
            elif kind == ".json":
                inputs[name] = read(TOP, folder, file)
    patterns, kernels, refused = read(TOP, "docs", "COOKBOOK.md").split("\n## ")[1:4]
    groups = [["First", ["race", "two_arrays", "nested_tasks", "doubling"]],
              ["Patterns", re.findall(r"^### .*: `(\w+)`$", patterns, re.M)],
              ["Kernels", re.findall(r"`(\w+)`", "".join(re.findall(r"^\| (`.*?) \|", kernels, re.M)))],
              ["Refused", re.findall(r"^\| `(\w+)` \|", refused, re.M)]]
    groups = [[title, [name for name in names if name in programs]] for title, names in groups]
    grouped = {name for _, names in groups for name in names}
    groups.append(["Others", [name for name in programs if name not in grouped]])
    return {"programs": programs, "inputs": inputs, "groups": groups}


def commit():
    """The last commit that changed the program."""
    clone = os.environ.get("LIBRARIES", TOP)
    return run(["git", "log", "-1", "--format=%h", "--abbrev=12", "--", "crates", "crates.txt", "HANDLES"], cwd=clone).strip()


def write_page(wasm, page):
    with open(wasm, "rb") as file:
        plain = file.read()
    letters = base64.b64encode(lzma.compress(plain, format=lzma.FORMAT_RAW, filters=PACKING)).decode()
    worker = read(HERE, "host.js") + read(HERE, "unpack.js") + read(HERE, "work.js")
    parts = {
        "/*STYLE*/": read(HERE, "page.css"),
        "/*WORKER*/": worker.replace("</", "<\\/"),
        "/*PAGE*/": read(HERE, "text.js") + read(HERE, "page.js"),
        "/*EXAMPLES*/": json.dumps(examples()).replace("<", "\\u003c"),
        "/*MODULE*/": f"{len(plain)}:{letters}",
        "@COMMIT@": commit(),
    }
    whole = read(HERE, "page.html")
    for mark, part in parts.items():
        assert whole.count(mark) == 1, mark
        whole = whole.replace(mark, part)
    assert len(whole.encode()) <= MOST, f"the page has {len(whole.encode())} bytes"
    with open(page, "w") as file:
        file.write(whole)
    print(f"web: {page}, {len(whole.encode())} bytes")


if __name__ == "__main__":
    main()
