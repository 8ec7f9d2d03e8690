#!/usr/bin/env python3
"""to_wasm.py ARM.ll WASM.ll: the proved library in LLVM's text, from 64-bit ARM to 64-bit WebAssembly.

Of ARM are in that text the layout and the name of the target, attributes of functions that say how code for it is
made, and one operation. All else is LLVM's own, and means the same for both: both have the least byte first, pointers
and sizes of 64 bits, and the alignments of the types that the library has. If anything else of ARM is there, this stops.
"""

import re
import sys

LAYOUT = "e-m:e-p:64:64-p10:8:8-p20:8:8-i64:64-i128:128-n32:64-S128"
# How ARM's stack is probed, and its frames are kept: WebAssembly's engine sees to both.
PROBES = ('"probe-stack"="inline-asm" ', '"stack-probe-size"="3072" ', '"frame-pointer"="non-leaf" ')
FEATURES = "+simd128,+bulk-memory,+nontrapping-fptoint,+sign-ext,+mutable-globals"
# The sums of neighbours in two vectors, the first's and then the second's (ADDP): by it a mask of lanes is made.
ADDP = "@llvm.aarch64.neon.addp.v16i8"


def lanes(first: int) -> str:
    """Every second lane of two vectors of 16, from this one on."""
    return ", ".join(f"i32 {lane}" for lane in range(first, 32, 2))


SUMS = f"""
define internal <16 x i8> @sums_of_neighbours(<16 x i8> %a, <16 x i8> %b) alwaysinline {{
  %even = shufflevector <16 x i8> %a, <16 x i8> %b, <16 x i32> <{lanes(0)}>
  %odd = shufflevector <16 x i8> %a, <16 x i8> %b, <16 x i32> <{lanes(1)}>
  %sums = add <16 x i8> %even, %odd
  ret <16 x i8> %sums
}}
"""


def changed(text: str) -> str:
    """The text for WebAssembly."""
    text, layouts = re.subn(r'target datalayout = "[^"]*"', f'target datalayout = "{LAYOUT}"', text)
    text, triples = re.subn(r'target triple = "[^"]*"', 'target triple = "wasm64-unknown-unknown"', text)
    if (layouts, triples) != (1, 1):
        sys.exit("the text has not one layout and one target")
    for probe in PROBES:
        text = text.replace(probe, "")
    text = text.replace('"target-cpu"="generic"', f'"target-cpu"="generic" "target-features"="{FEATURES}"')
    text = re.sub(rf"^declare [^@\n]*{re.escape(ADDP)}\([^\n]*\n", "", text, flags=re.M)
    text = text.replace(ADDP, "@sums_of_neighbours") + SUMS
    left = re.findall(r"[^\n]*(?:aarch64|neon|\basm )[^\n]*", text)
    if left:
        sys.exit("this is of ARM, and left: " + left[0])
    return text


if __name__ == "__main__":
    given, to = sys.argv[1:]
    with open(given, encoding="utf-8") as file:
        made = changed(file.read())
    with open(to, "w", encoding="utf-8") as file:
        file.write(made)
