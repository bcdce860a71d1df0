# Variables and functions for the command lines in this folder.
A=00000000-0000-4000-8000-00000000000a
B=00000000-0000-4000-8000-00000000000b
C=00000000-0000-4000-8000-00000000000c

# height NAME CODE: prints a height of 93 bytes for the name H and the code 7.
height() { printf 'VERTCRS["%s",VDATUM["D"],CS[vertical,1],AXIS["height (H)",up],LENGTHUNIT["metre",1],ID["X",%s]]' "$1" "$2"; }

# bytes HEX..: prints these bytes.
bytes() { printf "$(tr -d ' \n' <<<"$*" | sed 's/../\\x&/g')"; }

# put FILE OFFSET HEX..: writes these bytes over those of the file from the offset on.
put() { bytes "${@:3}" | dd of="$1" bs=1 seek="$2" conv=notrunc status=none; }

# size FILE: prints its number of bytes.
size() { stat -c %s "$1"; }

# repeat N TEXT: prints the text so many times.
repeat() { printf "%0$1d" 0 | sed "s/0/$2/g"; }

# single VERSION LETTER COUNT: prints the file of a register that has one operation, of the office of this letter, up to its kind.
single() { bytes 43525352 "$1" 01 00000001 "0000000000004000800000000000000$2" 00000001 "$3" "$3" 00000001 "0000000000004000800000000000000$2" "$3"; }

# office_of UUID: prints the office file of an office that has made nothing.
office_of() { printf '%s:0\n0\n' "$1"; bytes 43525352 02 01 00000000 00000000; }

# orders WORD..: prints the words in each order, one a line.
orders() { python3 -c 'import itertools, sys; [print(*each) for each in itertools.permutations(sys.argv[1:])]' "$@"; }

# many LETTER COUNT: prints the file of a register with so many entries of the office of this letter, of 65,536 bytes each.
many() {
    python3 - "$1" "$2" <<'END'
import sys
letter, count = sys.argv[1], int(sys.argv[2])
four = lambda n: n.to_bytes(4, "big")
uuid = bytes.fromhex("0000000000004000800000000000000" + letter)
out = [b"CRSR\2\1", four(1), uuid, four(1), four(1), four(count), four(count)]
for k in range(1, count + 1):
    text = b'VERTCRS["H",VDATUM["D"],CS[vertical,1],AXIS["height (H)",up],LENGTHUNIT["metre",1],ID["X",%d],REMARK["' % k
    text += b"r" * (65536 - len(text) - 3) + b'"]]'
    out += [uuid, four(k), b"\1\0", four(len(text)), text]
sys.stdout.buffer.write(b"".join(out))
END
}

# entry FILE: prints the register file with one entry of the office A, whose text is the one in this file.
entry() { single 02 a 00000001; bytes 01 00 "$(printf %08x "$(size "$1")")"; cat "$1"; }

# full VERSION: prints the file of a register of the office A that has as many bytes as a file may have: 1,023 entries of 65,536 bytes
# each, and one that fills the rest.
full() {
    python3 - "$1" <<'END_OF_PROGRAM'
import sys
version = int(sys.argv[1])
four = lambda n: n.to_bytes(4, "big")
uuid = bytes.fromhex("0000000000004000800000000000000a")
note = b"\0" if version == 2 else b""
left = 67_108_864 - 42
out = [b"CRSR", bytes([version, 1]), four(1), uuid, four(1), four(1), four(1024), four(1024)]
for k in range(1, 1025):
    size = min(65_536, left - 25 - len(note))
    text = b'VERTCRS["H",VDATUM["D"],CS[vertical,1],AXIS["height (H)",up],LENGTHUNIT["metre",1],ID["X",%d],REMARK["' % k
    text += b"r" * (size - len(text) - 3) + b'"]]'
    out += [uuid, four(k), b"\1", note, four(len(text)), text]
    left -= 25 + len(note) + size
sys.stdout.buffer.write(b"".join(out))
END_OF_PROGRAM
}

# flat NAME USAGES CODE: prints a geographic system with these usages.
flat() { printf 'GEOGCRS["%s",DATUM["D",ELLIPSOID["E",6378137,298.25]],CS[ellipsoidal,2],AXIS["latitude (Lat)",north],AXIS["longitude (Lon)",east],ANGLEUNIT["degree",0.0174532925199433],%sID["X",%s]]' "$@"; }

# base NAME: prints such a system without usages and identifier, as a component.
base() { flat "$1" '' 1 | sed 's/,ID\["X",1\]]$/]/'; }

# up NAME FRAME AXIS DIRECTION UNIT FACTOR: prints a vertical system up to the unit; keyed TEXT AUTHORITY CODE ends it.
up() { printf 'VERTCRS["%s",VDATUM["%s"],CS[vertical,1],AXIS["%s",%s],LENGTHUNIT["%s",%s]' "$@"; }
keyed() { printf '%s,ID["%s",%s]]' "$@"; }

# usage SCOPE AREA BOX: prints a usage with a bounding box; AREA is empty, or an AREA and a comma.
usage() { printf 'USAGE[SCOPE["%s"],%sBBOX[%s]],' "$@"; }

# geometries BOX: prints the geometry of a system with this box, from the empty register new.crs.
geometries() { flat F "$(usage s '' "$1")" 7 >d; crsreg enter new.crs --as $A --text d --out g.crs >/dev/null; crsreg export g.crs --geojson | grep -o '"type":"[MP][^}]*'; }

# terminal COMMAND..: runs the command with a terminal as its standard error, and copies what it prints there.
terminal() {
    python3 -c '
import os, pty, subprocess, sys, tty
here, there = pty.openpty()
tty.setraw(there)
run = subprocess.Popen(sys.argv[1:], stderr=there)
os.close(there)
try:
    while part := os.read(here, 4096):
        sys.stderr.buffer.write(part)
except OSError:
    pass  # The other end is closed.
sys.stderr.buffer.flush()
sys.exit(run.wait())' "$@"
}

# cut_at N COMMAND..: runs the command with an output that takes N bytes, and says if these are not the first N of its output.
cut_at() {
    "${@:2}" >whole
    (trap '' XFSZ; prlimit --fsize="$1" "${@:2}" >part)
    local status=$?
    head -c "$1" whole | cmp - part || return
    return $status
}
