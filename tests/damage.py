"""Texts that tests/hostile damages, and the ways in which it damages bytes."""
import re

# Texts with each node and each slot of the grammar, and the tokens that replace each of their tokens.
UNIT = b'LENGTHUNIT["m",1,ID["U",1]]'
GEODETIC = (
    b'GEODCRS["G",ENSEMBLE["E",MEMBER["M",ID["A",1]],ELLIPSOID["S",6378137,298.25,' + UNIT + b',ID["S",1]],ENSEMBLEACCURACY[2],ID["E",1]],'
    b'PRIMEM["P",0,ANGLEUNIT["d",0.5],ID["P",1]],CS[ellipsoidal,3,ID["C",1]],AXIS["a",north,ORDER[1],ANGLEUNIT["d",0.5],ID["L",1]],'
    b'AXIS["b",east,ORDER[2],ANGLEUNIT["d",0.5]],AXIS["c",up,ORDER[3],' + UNIT + b'],USAGE[SCOPE["s"],AREA["a"],BBOX[-1,-2,3,4],'
    b'VERTICALEXTENT[-5,6,' + UNIT + b']],ID["X",1,"v",CITATION["c"],URI["u"]],REMARK["r"]]'
)
PROJECTED = (
    b'PROJCRS["P",BASEGEODCRS["B",DATUM["D",ELLIPSOID["S",1,0],ANCHOR["n"],ID["D",1]],PRIMEM["P",0],UNIT["d",1],ID["B",1]],'
    b'CONVERSION["C",METHOD["M",ID["M",1]],PARAMETER["p",1,SCALEUNIT["u",1],ID["P",1]],ID["C",1]],CS[Cartesian,2],'
    b'AXIS["n",north,MERIDIAN[90,UNIT["d",1]],ORDER[1]],AXIS["e",east,ORDER[2]],' + UNIT + b',ID["X",2]]'
)
VERTICAL = (
    b'VERTCRS["V",ENSEMBLE["E",MEMBER["M"],ENSEMBLEACCURACY[1]],CS[vertical,1],AXIS["h",up],' + UNIT + b',GEOIDMODEL["G",ID["G",1]],'
    b'GEOIDMODEL["H"],USAGE[SCOPE["s"],VERTICALEXTENT[0,1]],ID["X",3]]'
)
COMPOUND = b'COMPOUNDCRS["C",PROJCRS["P",BASEGEOGCRS["B",DATUM["D",ELLIPSOID["S",1,0]]],CONVERSION["C",METHOD["M"]],CS[Cartesian,2],AXIS["e",east],AXIS["n",north],' + UNIT + b'],' + VERTICAL + b',USAGE[SCOPE["s"]],ID["X",4],REMARK["r"]]'
WIDER = {"geodetic": GEODETIC, "projected": PROJECTED, "vertical": VERTICAL, "compound": COMPOUND}
OTHERS = [b'"t"', b"7", b"-1E40", b"up", b"vertical", b"ID", b"AXIS", b"GEOIDMODEL", b"[", b"]", b"(", b")", b",", b""]
HEIGHT = b'VERTCRS["H",VDATUM["D"],CS[vertical,1],AXIS["height (H)",up],LENGTHUNIT["metre",1],ID["X",7]]'


def damaged(data):
    """The bytes truncated at each length, and with each byte set to 0, to 255 and to its neighbours."""
    for n in range(len(data)):
        yield data[:n]
    for at, byte in enumerate(data):
        for other in {0, 255, (byte + 1) % 256, (byte - 1) % 256} - {byte}:
            yield data[:at] + bytes([other]) + data[at + 1:]


def stretched(data):
    """The bytes with each run of the length of a field repeated, removed, and swapped with the next."""
    for width in (1, 4, 20):
        for at in range(len(data) - width + 1):
            yield data[:at + width] + data[at:]
            yield data[:at] + data[at + width:]
        for at in range(len(data) - 2 * width + 1):
            yield data[:at] + data[at + width:at + 2 * width] + data[at:at + width] + data[at + 2 * width:]


def large_counts(data):
    """The bytes with each four of them set to the greatest count, and to one more than a file may have."""
    for at in range(len(data) - 3):
        for count in (b"\xff\xff\xff\xff", b"\x04\x00\x00\x01", b"\x00\x01\x00\x01"):
            yield data[:at] + count + data[at + 4:]


def retold(text, others):
    """A text with each token removed, repeated, swapped with the next, and replaced by each of the others."""
    tokens = re.findall(rb'"[^"]*"|[A-Za-z]\w*|[-+.\dEe]+|.', text, re.S)
    for at, token in enumerate(tokens):
        front, rest = b"".join(tokens[:at]), b"".join(tokens[at + 1:])
        yield front + rest
        yield front + token + token + rest
        if at + 1 < len(tokens):
            yield front + tokens[at + 1] + token + b"".join(tokens[at + 2:])
        for other in others:
            yield front + other + rest
