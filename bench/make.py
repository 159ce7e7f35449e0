"""make.py FOLDER: the files to time, always the same ones: deliveries, small, p."""
import sys

MOST = 65535
UNB = "UNB+UNOC:4+PITA:14+ROYALT:14+20240105:0700+R1'"


def interchange(messages):
    return (UNB + "".join(messages) + f"UNZ+{len(messages)}+R1'").encode("latin-1")


def tonnes(grams):
    return f"{grams // 10**6}.{grams % 10**6:06}".rstrip("0").rstrip(".")


def header(ref, scope, certificates):
    group = [f"USH+1+{ref}+{scope}+1+2+1++++1:20240105:070015:01", "USA+1:16:1:16:1"]
    for k in range(certificates):
        group += [f"USC+CERT{k}+3:PITA:::::{k}+1", "USA+6:16:1:10:1+12:3F0D+13:010001", f"USR+1:{'0F3A9C51' * 16}"]
    return group


def trailer(ref, group, value):
    return [f"UST+{ref}+{len(group) + 2}", f"USR+1:{value}"]


def delivery(number, lines):
    """A despatch advice with a seal of scope 1 and one of scope 2."""
    inner, outer = header(f"A{number}", 1, 1), header(f"B{number}", 2, 2)
    body = [f"BGM+351+DA{number:06}+9", "DTM+137:20240105:102", "DTM+11:202401051430:203", "RFF+ON:4500117",
            "NAD+BY+4012345000009::9++Pita und Söhne+Hafenstraße 11+Bremen++28195+DE", "NAD+DP+4012345000016::9", "TDT+20++30+31"]
    total = 0
    for k in range(1, lines + 1):
        grams = (k * 7919 + number * 104729) % 31_000_000 * 10
        body += [f"LIN+{k}++40123450{k * 37 % 100000:05}:SRV", "PIA+1+SK-2201-7:SA", "IMD+F++:::Rundstahl 12 mm, Güte S235?'JR",
                 f"QTY+21:{k * 13 % 97 + 1}:PCE"]
        if k % 3:
            body.append(f"QTY+12:{grams // 1000}.{grams % 1000:03}:KGM")
        else:
            grams -= grams % 10
            body.append(f"QTY+12:{tonnes(grams)}:TNE")
        total += grams
        body += [f"RFF+AAK:LS{number}{k:04}", "MEA+PD+LN+MTR:6", "DTM+361:20250105:102"]
    body += ["CNT+2:" + str(lines), f"CNT+1:{tonnes(total)}:TNE"]
    segments = [f"UNH+M{number}+DESADV:D:01B:UN:EAN005"] + inner + outer + body
    segments += trailer(f"A{number}", inner, "9C51" * 64) + trailer(f"B{number}", outer, "E07B" * 64)
    segments.append(f"UNT+{len(segments) + 1}+M{number}")
    return "".join(x + "'" for x in segments)


def small():
    """As many messages as fit, with the shortest references first."""
    signs = [chr(b) for b in range(0x30, 0x7F) if chr(b).isalnum()]
    refs = signs + [a + b for a in signs for b in signs]
    messages, room = [], MOST - len(UNB) - len("UNZ+9999+R1'")
    for ref in refs:
        message = f"UNH+{ref}+X'UNT+2+{ref}'"
        room -= len(message)
        if room < 0:
            break
        messages.append(message)
    return interchange(messages)


P = b"UNB+UNOC:4+PITA+ROYALT+20240105:0700+R1'UNH+M1+DESADV:D:01B:UN'QTY+12:30000:KGM'QTY+12:27.34:TNE'CNT+1:57.34:TNE'UNT+5+M1'UNZ+1+R1'"

for name, octets in ("deliveries", interchange([delivery(n, 34) for n in range(1, 9)])), ("small", small()), ("p", P):
    assert len(octets) <= MOST
    with open(f"{sys.argv[1]}/{name}", "wb") as f:
        f.write(octets)
