"""What the tests with other programs share: a folder, runs in it, registers for these programs, and the count of what holds."""
import csv
import io
import os
import re
import shutil
import subprocess
import sys
import tempfile
from pathlib import Path

from program import ROOT, program_of

PROGRAM = program_of(*sys.argv[1:2])
FOLDER = Path(tempfile.mkdtemp(prefix="crsreg-"))
OFFICE = "00000000-0000-4000-8000-00000000000a"
CODES = "2056 3035 4258 4326 4979 5514 21781 25832 25833 26918 27700 28992 31370 31467 32633".split()
NAME = Path(sys.argv[0]).name
counts = {True: 0, False: 0}


def holds(claim, is_so, more=""):
    """Counts whether the claim is true."""
    counts[bool(is_so)] += 1
    if not is_so:
        print(f"tests/{NAME}: not so: {claim} {more}".rstrip())


def tried(*words, given=None, **more):
    """The finished run of a command in the folder."""
    kept = {name: value for name, value in os.environ.items() if not name.startswith("CRSREG_")}
    kept |= {"CRSREG_PROGRAM": PROGRAM, **more}
    return subprocess.run([str(word) for word in words], cwd=FOLDER, env=kept, input=given, capture_output=True, check=False)


def shared(name, *words, **more):
    """The finished run of a script of share/."""
    return tried(ROOT / "share" / name, *words, **more)


def crsreg(*words, given=None):
    """What the program prints."""
    run = tried(PROGRAM, *words, given=given)
    if run.returncode:
        sys.exit(f"tests/{NAME}: {words} ended with {run.returncode}: {run.stderr.decode()}")
    return run.stdout.decode()


def quoted(text):
    return '"' + text.replace('"', '""') + '"'


def by_hand(name, authority, code, box="-10,-20,30.5,40"):
    """A geographic system with this name and key."""
    return (
        f'GEOGCRS[{quoted(name)},DATUM["D",ELLIPSOID["E",6378137,298.25,LENGTHUNIT["metre",1]]],CS[ellipsoidal,2],AXIS["latitude",north],'
        f'AXIS["longitude",east],ANGLEUNIT["degree",0.0174532925199433],USAGE[SCOPE["S"],AREA[{quoted(name)}],BBOX[{box}]],'
        f"ID[{quoted(authority)},{quoted(code)}]]"
    )


def height(number, frame="D", axis="height (H)", unit='LENGTHUNIT["metre",1]'):
    return f'VERTCRS["Height {number}",VDATUM["{frame}"],CS[vertical,1],AXIS["{axis}",up],{unit},ID["H",{number}]]'


def compound(number, **more):
    """A plain system with a height."""
    part, other = (re.sub(r",(USAGE|ID)\[.*", "]", one) for one in (by_hand("a system", "H", "0"), height(number, **more)))
    return f'COMPOUNDCRS["Compound {number}",{part},{other},ID["H",{number}]]'


def own_texts(codes=CODES):
    """Systems of EPSG, with their own identifier in the authority OFFICE."""
    for code in codes:
        run = subprocess.run(["projinfo", f"EPSG:{code}", "-o", "WKT2:2019", "--single-line", "-q"], capture_output=True, check=False)
        if run.returncode == 0:
            yield re.sub(r'ID\["EPSG",(\d+)\]\]$', r'ID["OFFICE",\1]]', run.stdout.decode().strip())


def rows_of(register):
    """The rows of its entries."""
    return list(csv.DictReader(io.StringIO(crsreg("report", register, "entries"), newline="")))


def made(register, texts):
    """The rows of a new register with these texts."""
    crsreg("new", register)
    crsreg("import", register, "-", "--as", OFFICE, "--out", register, given="\n".join(texts).encode())
    return rows_of(register)


def texts_of(register, rows):
    return {row["entry"]: crsreg("wkt", register, row["entry"]) for row in rows}


def run_parts(parts):
    """Runs each part whose tools are installed, or only those that the command line names, and prints the last line; the status."""
    for part, tools in parts:
        if sys.argv[2:] and part.__name__ not in sys.argv[2:]:
            continue
        missing = [tool for tool in tools if not shutil.which(tool)]
        if missing:
            print(f"skipped: {part.__name__}: needs {missing[0]}")
        else:
            part()
    shutil.rmtree(FOLDER, ignore_errors=True)
    print(f"{counts[True]} passed, {counts[False]} failed")
    return 1 if counts[False] else 0
