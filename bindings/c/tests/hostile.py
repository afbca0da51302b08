"""A hundred formats that somebody might write who means harm, one a line, over some names.

usage: hostile.py NAME..
"""

import random
import sys

# `N` stands for a name.
BY_HAND = [
    "{N:>500.2}", "{N:>4294967290.2}", "{N:>18446744073709551615}", "{N:.4294967290}", "{N:65535}",
    "{N:>65536}", "{N:.65535}", "{N:.65536}", "{N:0999999}", "{N:+08.1}", "{N:*^+30.2}",
    "{N:\U0001F600^300}", "{N:\u0301<9.0}", "{N:<0500.399}", "{N:->99}", "{N:}>9}", "{N:{>9}", "{N:#010.3?}",
    "{N:e}", "{N:.3E}", "{N:x?}", "{N:#X?}", "{N:p}", "{N:i}", "{N:i({})(,)}", "{N:9i#({:>99999})#}",
    "{N:i-9223372036854775808..9223372036854775807({})}", "{N", "N}", "}", "{", "{{", "}}", "{{{N}}}", "{}",
    "{:}", "{N:", "{N:>", "{N:.", "{N:.}", "{N:0}", "{N:-}", "{N:+-}", "{N:>>>}", "{ N }", "{N }",
    "{N:99999999999999999999999}", "{N:.99999999999999999999999}", "%s%n%x{N}%*.*f", "a\tb\r{N}\x01",
    "{N}" * 3000, "{" * 9000, "}" * 9000, "{N:>300}" * 50, "x" * 100000 + "{N}", "{N:i(" * 100, "{N:i#({:i(" * 40,
    "{N:>" + "9" * 5000 + "}", "\u202e{N}\ufeff", "",
]
RAW = [b"\xff{N}", b"{\xc3}", b"{N:\xed\xa0\x80>9}", b"\xf4\x90\x80\x80", b"{N:\xff<9}"]
PARTS = ["{", "}", "N", ":", ">", "<", "^", "+", "-", "#", "0", "9", ".", "?", "x", "e", "i", "(", ")", "é", " "]


def formats(names):
    """The formats, as bytes."""
    chance = random.Random(1)
    for text in BY_HAND:
        yield text.replace("N", chance.choice(names)).encode()
    for text in RAW:
        yield text.replace(b"N", chance.choice(names).encode())
    for _ in range(100 - len(BY_HAND) - len(RAW)):
        spec = "".join(chance.choice(PARTS[3:]) for _ in range(chance.randrange(9)))
        text = "{N:" + spec + "}" + "".join(chance.choice(PARTS) for _ in range(chance.randrange(30)))
        yield text.replace("N", chance.choice(names)).encode()


sys.stdout.buffer.write(b"\n".join(formats(sys.argv[1:])) + b"\n")
