"""The guard of the page's maker against masks of more than 16 lanes (docs/LLVM.md).

The smallest case that LLVM 22 compiles wrongly for WebAssembly, cases/mask.ll, is compiled as the maker compiles the page, but
without the guard, and asked by Node. A line says whether this compiler has the fault. Whether it has or not, the maker has to
refuse the case, and the guard each line with such a mask and no other.
"""
import importlib.util
import os
import subprocess
import tempfile

HERE = os.path.dirname(os.path.abspath(__file__))
CASE = os.path.join(HERE, "cases", "mask.ll")
# Where two texts differ: nowhere, in bytes 2 and 3, in those that the wrong mask passes over, in one byte, in all.
PLACES = [(), (2, 3), (0, 1, 2, 3, 5, 15), *((at,) for at in range(32)), tuple(range(32))]
# Texts that the guard refuses, and texts that it lets pass.
WIDE = ["%m = bitcast <32 x i1> %d to i32", "%m = bitcast <64 x i1> %d to i64", "%m = bitcast <17 x i1> %d to i17"]
WIDE += ["%m = bitcast <128 x i1> %d to i128", "%m = call i1 @llvm.vector.reduce.or.v32i1(<32 x i1> %d)"]
WIDE += ["%m = tail call i1 @llvm.vector.reduce.and.v64i1(<64 x i1> %d)", "ret i32 bitcast (<32 x i1> zeroinitializer to i32)"]
WIDE += ["%v = call <32 x i8> @llvm.masked.load.v32i8.p0(ptr align 1 %p, <32 x i1> %d, <32 x i8> %v)"]
NARROW = ["%m = bitcast <16 x i1> %d to i16", "%m = bitcast <8 x i1> %d to i8", "%d = icmp ne <32 x i8> %a, %b", "%m = add i32 1, 2"]
NARROW += ["%m = call i1 @llvm.vector.reduce.or.v16i1(<16 x i1> %d)", "%v = load <32 x i8>, ptr %p", "%s = sext <32 x i1> %d to <32 x i8>"]
NARROW += ["%m = bitcast <32 x i8> %a to i256", "%m = call i8 @llvm.vector.reduce.or.v32i8(<32 x i8> %a)"]


def maker():
    """The page's maker, embed/page/make_page.py, as a module."""
    path = os.path.join(os.path.dirname(HERE), "embed", "page", "make_page.py")
    told = importlib.util.spec_from_file_location("make_page", path)
    made = importlib.util.module_from_spec(told)
    told.loader.exec_module(made)
    return made


def refusal(made, step):
    """Why a step of the maker refuses what it is given; no text if it takes it."""
    try:
        step()
    except made.Refused as why:
        return str(why)
    return ""


def masks_by(node, module):
    """The masks that a module of the case has for all places."""
    words = [",".join(map(str, places)) or "-" for places in PLACES]
    told = subprocess.run([*node, os.path.join(HERE, "page_mask.mjs"), module, *words], capture_output=True, text=True, check=True)
    return list(map(int, told.stdout.split()))


def try_case(node, made, tally):
    """The case compiled as the page is, with what the guard says of it."""
    kit = made.kit_folder()[0]
    clang = f"{kit}/toolchain/bin/clang"
    with tempfile.TemporaryDirectory() as scratch:
        said = refusal(made, lambda: made.compiled(kit, CASE, scratch))
    tally.hold("the maker, on the case", None if "mask of more than 16 lanes" in said else said or "it lets the case pass")
    with tempfile.TemporaryDirectory() as scratch:
        best = made.optimized(clang, made.retargeted(made.read(CASE).decode()), scratch)
        made.choose(clang, best, scratch)
        made.write(f"{scratch}/mask.wasm", made.linked(["mask", "room"], scratch))
        masks = masks_by(node, f"{scratch}/mask.wasm")
    wanted = [sum(1 << at for at in places) for places in PLACES]
    wrong = [(places, mask) for places, mask, right in zip(PLACES, masks, wanted) if mask != right]
    told = "; ".join(f"bytes {list(places)} differ, and the mask is {mask:#x}" for places, mask in wrong[:2])
    tally.hold("an answer for all places", None if len(masks) == len(PLACES) else f"{len(masks)} masks")
    tally.note(f"this compiler makes wrong masks for WebAssembly, so the guard is needed: {told}" if wrong else
               "this compiler makes right masks for WebAssembly: for it the guard is not needed")


def try_guard(node, tally):
    """The guard on lines of a module's text, and the case that it is there for."""
    made = maker()
    looked = lambda line: refusal(made, lambda: made.look_for_masks(f"define void @f() {{\n  {line}\n}}\n"))
    for line in WIDE:
        tally.hold(f"the guard, {line}", None if looked(line) else "it lets this pass")
    for line in NARROW:
        tally.hold(f"the guard, {line}", looked(line) or None)
    try_case(node, made, tally)
