#!/usr/bin/env python3
"""Makes two register files, and two tables of the same rows: make_registers.py FOLDER OPERATIONS.

Each register has OPERATIONS operations, and half of them are in both. Nine of ten enter a projected system of some 560 bytes, the
others retire an entry of the same register. The layout of the files is that of docs/FORMATS.md.
"""
import sqlite3
import struct
import sys
from pathlib import Path

TEXT = (
    'PROJCRS["Example / UTM zone 31N",BASEGEOGCRS["Example",DATUM["Example frame",ELLIPSOID["GRS 1980",6378137,'
    '298.257222101,LENGTHUNIT["metre",1]]]],CONVERSION["UTM zone 31N",METHOD["Transverse Mercator",ID["EPSG",9807]],'
    'PARAMETER["Latitude of natural origin",0,ANGLEUNIT["degree",0.0174532925199433]],'
    'PARAMETER["Longitude of natural origin",3,ANGLEUNIT["degree",0.0174532925199433]],'
    'PARAMETER["False easting",500000,LENGTHUNIT["metre",1]]],CS[Cartesian,2],'
    'AXIS["(E)",east,ORDER[1],LENGTHUNIT["metre",1]],AXIS["(N)",north,ORDER[2],LENGTHUNIT["metre",1]],ID["X",%d]]'
)
BOTH, ONE, OTHER = (bytes(15) + bytes([last]) for last in (0x0A, 0x0B, 0x0C))


def operations(replica, count):
    """The operations of a replica: id, kind, entry, text."""
    for number in range(1, count + 1):
        name = replica + struct.pack(">I", number)
        if number % 10:
            yield name, 1, None, TEXT % number
        else:
            yield name, 3, replica + struct.pack(">I", number - 1), None


def encoded(name, kind, entry, text):
    """The operation's bytes, with an empty note."""
    if kind == 1:
        return name + b"\x01\x00" + struct.pack(">I", len(text)) + text.encode()
    return name + b"\x03\x00" + entry


def make(folder, name, replicas):
    rows = [row for replica, count in replicas for row in operations(replica, count)]
    with open(folder / f"{name}.crs", "wb") as file:
        file.write(b"CRSR\x02\x01" + struct.pack(">I", len(replicas)))
        for replica, count in replicas:
            file.write(replica + struct.pack(">III", 1, 1, count))
        file.write(struct.pack(">I", len(rows)))
        file.writelines(encoded(*row) for row in rows)
    table = sqlite3.connect(folder / f"{name}.db")
    table.execute("CREATE TABLE operations(id BLOB PRIMARY KEY, kind INTEGER, entry BLOB, text TEXT) WITHOUT ROWID")
    table.executemany("INSERT INTO operations VALUES(?, ?, ?, ?)", rows)
    table.commit()
    table.close()


def main():
    folder, count = Path(sys.argv[1]), int(sys.argv[2])
    half = count // 2
    make(folder, "one", [(BOTH, half), (ONE, count - half)])
    make(folder, "other", [(BOTH, half), (OTHER, count - half)])


main()
