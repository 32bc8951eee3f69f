"""The library as a WebAssembly module with a 64-bit memory, of these sources, without running the proofs.

It is the module of library.py for x86-64 with the data layout, the target and the processor's words of WebAssembly in their place: both have the same
sizes and alignments. The kit has no proved build of it, since it can't call a C library's heap there; so page/heap.c is that heap. Nothing says that
this way of compiling keeps the meaning but the tests (docs/PAGE.md).
"""
import re

import library
import unproved

MODULE = "mt.wasm"
TARGET = "wasm64-unknown-unknown"
LAYOUT = "e-m:e-p:64:64-p10:8:8-p20:8:8-i64:64-i128:128-n32:64-S128-ni:1:10:20"
PROCESSOR = re.compile(r' "(?:target-cpu|target-features|tune-cpu|probe-stack|frame-pointer|stack-probe-size)"="[^"]*"')
STACK = 1 << 20  # bytes, below all other data, so that a stack that is too deep ends the run
HEAP = "page/heap.c"


def for_wasm(lines):
    """The lines of the library for x86-64 as those for WebAssembly."""
    kept = []
    for line in lines:
        if line.startswith("target datalayout"):
            line = f'target datalayout = "{LAYOUT}"'
        elif line.startswith("target triple"):
            line = f'target triple = "{TARGET}"'
        elif line.startswith("attributes"):
            line = PROCESSOR.sub("", line).replace("{ }", "{ nounwind }")
        kept.append(line)
    return kept


def build_in(room, top, stage):
    """Makes the module of the sources in a folder, in a room that is empty; each stage is told as it begins."""
    own = unproved.kit()
    stage("1 of 3: compiling the sources")
    lines = for_wasm(library.module_of(top, own, room))
    (room / "wasm.ll").write_text("\n".join(lines) + "\n")
    stage("2 of 3: compiling the module")
    clang = [own / "toolchain/bin/clang", f"--target={TARGET}", "-mbulk-memory", "--no-default-config", "-w"]
    sections = ["-mllvm", "-no-trap-after-noreturn", "-ffunction-sections"]
    unproved.done("the module isn't compiled", [*clang, *sections, "-O3", "-c", "-x", "ir", room / "wasm.ll", "-o", room / "wasm.o"], room)
    alone = ["-O2", "-ffreestanding", "-fno-builtin", "-nostdlib"]
    unproved.done("the module's heap isn't compiled", [*clang, *alone, "-c", top / HEAP, "-o", room / "heap.o"], room)
    stage("3 of 3: making the module")
    exports = [f"--export={it}" for it in [*library.EXPORTS, "malloc", "free"]]
    words = ["-flavor", "wasm", "-mwasm64", "--no-entry", "--gc-sections", *exports, "-z", f"stack-size={STACK}", "--stack-first"]
    unproved.done("there is no module", [own / "toolchain/bin/ld.lld", *words, room / "wasm.o", room / "heap.o", "-o", room / MODULE], room)
