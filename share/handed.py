"""What the scripts of this folder share: their help, the texts of a register, as crsreg exports them, and PROJ's library."""
import ctypes
import ctypes.util
import os
import re
import signal
import subprocess
import sys
import tempfile
from pathlib import Path

PIECE = re.compile(r'"(?:[^"]|"")*"|[\[\](),]|[^"\[\](),]+')
VERTICAL = ("VERTCRS", "VERTICALCRS")


# ---- the command line

def arguments(about, least):
    """The arguments of the script. With --help it prints what it is about and ends; with fewer than this it prints its usage and ends."""
    given = sys.argv[1:]
    if given[:1] in (["--help"], ["-h"]):
        signal.signal(signal.SIGPIPE, signal.SIG_DFL)  # (for `| head`)
        print(about.strip())
        sys.exit(0)
    if len(given) < least:
        wrong_usage(about)
    return given


def wrong_usage(about):
    """Prints the line of usage, and ends."""
    print(next(line for line in about.splitlines() if line.startswith("usage: ")), file=sys.stderr)
    sys.exit(2)


# ---- texts

def parts(text):
    """The keyword of a text, and its arguments, unchanged."""
    depth, keyword, args, part = 0, "", [], ""
    for piece in PIECE.findall(text.strip()):
        if piece in "[(":
            depth += 1
            if depth == 1:
                keyword, part = part, ""
                continue
        elif piece in "])":
            depth -= 1
            if depth == 0:
                return keyword, args + [part]
        elif piece == "," and depth == 1:
            args.append(part)
            part = ""
            continue
        part += piece
    raise ValueError("a text that does not end")


def unquoted(arg):
    """The text of a quoted argument, or the argument."""
    return arg[1:-1].replace('""', '"') if arg.startswith('"') else arg


def is_identifier(arg):
    return re.match(r"id[\[(]", arg, re.IGNORECASE) is not None


class System:
    """A reference system of a register: its text, keyword, arguments, name, and key."""

    def __init__(self, text):
        self.text = text.strip()
        keyword, self.args = parts(text)
        own = next(arg for arg in self.args if is_identifier(arg))
        self.keyword, self.name = keyword.upper(), unquoted(self.args[0])
        self.authority, self.code = (unquoted(arg) for arg in parts(own)[1][:2])
        self.key = f"{self.authority}:{self.code}"
        self.is_of_epsg = self.authority.upper() == "EPSG"

    def without_identifier(self):
        return f"{self.keyword}[{','.join(arg for arg in self.args if not is_identifier(arg))}]"


def export(register, *options, **more):
    """The finished run of crsreg export."""
    program = os.environ.get("CRSREG_PROGRAM") or "crsreg"
    try:
        return subprocess.run([program, "export", os.path.abspath(register), *options], check=False, **more)
    except FileNotFoundError:
        sys.exit(f"{Path(sys.argv[0]).name}: there is no {program}")


def exported(register, options, **more):
    """The systems that crsreg export hands on with these options, by key, and its status; no list if it wrote nothing."""
    with tempfile.TemporaryDirectory() as folder:
        texts = Path(folder) / "texts"
        status = export(register, "--into", str(texts), *options, **more).returncode
        # With --keep-going the status is 1 too, and the folder is there.
        if status > 1 or not texts.is_dir():
            return None, status or 1
        systems = [System(file.read_text(encoding="utf-8")) for file in texts.iterdir()]
    return sorted(systems, key=lambda one: (one.authority, numeral(one.code) or sys.maxsize, one.code)), status


def numeral(code):
    """The positive number that a code spells without more than its digits; none if it spells none."""
    return int(code) if re.fullmatch(r"[1-9][0-9]*", code) else None


def left_out(key, reason):
    print(f"left out: {key}: {reason}", file=sys.stderr)


# ---- PROJ

class Proj:
    """PROJ's library and its database."""

    WKT2_2019, WKT1_GDAL, PROJ_4 = 2, 4, 1
    CRS_CATEGORY, CRS_TYPE = 3, 8

    def __init__(self):
        # What is asked for is in PROJ's own database.
        os.environ.pop("PROJ_AUX_DB", None)
        name = ctypes.util.find_library("proj")
        if name is None:
            sys.exit(f"{Path(sys.argv[0]).name}: PROJ's library is not installed (Debian's proj-bin)")
        self.library = ctypes.CDLL(name)
        for function in ("proj_context_create", "proj_create", "proj_create_from_database"):
            getattr(self.library, function).restype = ctypes.c_void_p
        for function in ("proj_as_wkt", "proj_as_proj_string", "proj_context_get_database_path"):
            getattr(self.library, function).restype = ctypes.c_char_p
        self.library.proj_get_codes_from_database.restype = ctypes.POINTER(ctypes.c_char_p)
        self.context = ctypes.c_void_p(self.library.proj_context_create())
        self.library.proj_log_level(self.context, 0)

    def database(self):
        """The path of its database."""
        return os.fsdecode(self.library.proj_context_get_database_path(self.context))

    def codes(self, authority):
        """The codes of all reference systems of an authority, deprecated ones too."""
        found = self.library.proj_get_codes_from_database(self.context, authority.encode(), self.CRS_TYPE, 1)
        codes, at = [], 0
        while found and found[at] is not None:
            codes.append(found[at].decode())
            at += 1
        self.library.proj_string_list_destroy(found)
        return sorted(codes, key=lambda code: (numeral(code) or sys.maxsize, code))

    def spelled(self, made, *forms):
        """A system, by its pointer, in each of these forms; none if PROJ cannot write it so."""
        one, none, spelled = ctypes.c_void_p(made), ctypes.c_void_p(None), []
        options = (ctypes.c_char_p * 2)(b"MULTILINE=NO", None)
        for write, form in forms:
            text = getattr(self.library, write)(self.context, one, form, options if write == "proj_as_wkt" else none)
            spelled.append(None if text is None else text.decode())
        self.library.proj_destroy(one)
        return spelled

    def text_of(self, authority, code):
        """The text of a system of its database, in the form WKT2:2019."""
        key, none = (authority.encode(), code.encode()), ctypes.c_void_p(None)
        made = self.library.proj_create_from_database(self.context, *key, self.CRS_CATEGORY, 0, none)
        return self.spelled(made, ("proj_as_wkt", self.WKT2_2019))[0] if made else None

    def older_forms(self, text):
        """A text in the form of WKT 1 that GDAL writes, and as a string of PROJ 4."""
        made = self.library.proj_create(self.context, text.encode())
        if not made:
            return None, None
        wkt, string = self.spelled(made, ("proj_as_wkt", self.WKT1_GDAL), ("proj_as_proj_string", self.PROJ_4))
        return wkt, None if string is None else string.replace(" +type=crs", "")


def with_older_forms(systems, proj, with_epsg):
    """Each plain or compound system that has a text of WKT 1, with this text and its string of PROJ 4. It lists the others."""
    for system in systems:
        if system.is_of_epsg and not with_epsg:
            continue
        if system.keyword in VERTICAL:
            left_out(system.key, "a height alone is no system for a table or a layer")
            continue
        wkt, string = (None, None) if "\0" in system.text else proj.older_forms(system.text)
        if wkt is None:
            left_out(system.key, "PROJ writes no WKT 1 for it")
        else:
            yield system, wkt, string or ""
    of_epsg = sum(system.is_of_epsg for system in systems)
    if of_epsg and not with_epsg:
        print(f"left out: {of_epsg} of EPSG, which are there already: --all writes them, too", file=sys.stderr)
