"""deep.py FOLDER: files that a hostile sender would choose, always the same ones: worst-*.

The judge keeps 0062 in a search tree. A reference is two numbers, its first seven octets and the others, each behind a 1; the way to it goes down by
the bits of the two in turn, lowest first, from one of 4,021 roots (for an input of this size) that their sum picks. References that end alike and have
the same root share the way: each new one is compared with one on every level of it.
"""
import sys

MOST, ROOTS = 65535, 4021
SIGNS = [b for b in [*range(0x21, 0x7F), *range(0xA0, 0x100)] if b not in b":+?*'"]
UNB = b"UNB+UNOC:4+A+B+20240105:0700+R'"


def number(octets):
    return int.from_bytes(b"\1" + octets, "big")


def root(ref):
    return (number(ref[:7]) + number(ref[7:])) % ROOTS


def with_root(ref, k):
    """The reference with the octet at k that gives it root 0, where there is one."""
    half = ref[:7] if k < 7 else ref[7:]
    weight = pow(256, len(half) - 1 - k % 7, ROOTS)
    octet = (ref[k] - root(ref) * pow(weight, -1, ROOTS)) % ROOTS
    return ref[:k] + bytes([octet]) + ref[k + 1:] if octet in SIGNS else None


def first(n):
    """References of n octets with one root, alike but for the first three and the highest bit of the fourth."""
    made = (with_root(bytes([a, b, 65, d]) + b"A" * (n - 4), 2) for d in (0x41, 0xC1) for a in SIGNS for b in SIGNS)
    return [ref for ref in made if ref]


def first_of_each():
    """The same of 14 octets, that differ in the first two and in the first of the other seven."""
    made = (with_root(bytes([a, b]) + b"A" * 12, 7) for a in SIGNS for b in SIGNS)
    return [ref for ref in made if ref]


def interchange(refs, shown=lambda ref: ref):
    room, messages = MOST - len(UNB) - len(b"UNZ+9999+R'"), []
    for ref in refs:
        message = b"UNH+" + shown(ref) + b"+X'UNT+2+" + ref + b"'"
        room -= len(message)
        if room < 0:
            break
        messages.append(message)
    return UNB + b"".join(messages) + b"UNZ+%d+R'" % len(messages)


def released(ref):
    return b"".join(bytes([63, b]) for b in ref)


def padded(ref):
    """As the weighbridges pad it: to fourteen places."""
    return ref.ljust(14)


def acknowledgement(same, shown=lambda ref: ref):
    """AUTACK with nine headers whose references differ in their last octet only, or in the last before spaces; each USY names the last one."""
    refs = [shown(same + b"%d" % k) for k in range(1, 10)]
    usy = b"USY+" + refs[8] + b"+1'"
    tail = b"".join(b"UST+" + r + b"+2'" for r in refs)
    head = UNB + b"UNH+1+AUTACK'" + b"".join(b"USH+1+" + r + b"+F01'" for r in refs) + b"USB+1'USX+R'"
    n = (MOST - len(head + tail) - 30) // len(usy)
    return head + usy * n + tail + b"UNT+%d+1'UNZ+1+R'" % (n + 22)


def main(folder):
    files = {f"deep-{n}": interchange(first(n)) for n in (4, 5, 6, 7, 8, 10, 12, 14)}
    files["deep-halves"] = interchange(first_of_each())
    files["deep-8-freed"] = interchange(first(8), released)
    files["deep-5-padded"] = interchange(first(5), padded)
    files["autack"] = acknowledgement(b"A" * 13)
    files["autack-padded"] = acknowledgement(b"A" * 6, padded)
    for name, octets in files.items():
        assert len(octets) <= MOST
        with open(f"{folder}/worst-{name}", "wb") as f:
            f.write(octets)


main(sys.argv[1])
