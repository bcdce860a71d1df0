#!/usr/bin/env python3
"""Runs a program with keys in the place of ids: tests/with_keys.py PROGRAM ARGUMENT.. runs `PROGRAM ARGUMENT..`, but gives each entry of
a command that takes -k by its key, if that key has this one entry that is not retired. What the command does stays the same.

If the environment variable SWAPPED names a file, a line is added to it for each word that was replaced.
"""
import csv
import os
import re
import subprocess
import sys

# Of this command a key means all entries with it, so that an id and its key differ.
OTHER_KEYS = "log"
ID = re.compile(r"[0-9A-Fa-f-]{36}:[1-9][0-9]{0,9}")


def help_of(program, command):
    """The help of the command, or nothing if there is no such command."""
    asked = subprocess.run([program, command, "--help"], stdin=subprocess.DEVNULL, capture_output=True, check=False)
    return asked.stdout.decode(errors="replace")


def places_of_words(arguments, with_value):
    """The indices of the arguments that are neither options nor their values."""
    places, skips = [], False
    for at, word in enumerate(arguments):
        if skips:
            skips = False
        elif word in with_value:
            skips = True
        elif not word.startswith("-"):
            places.append(at)
    return places


def keys_of(program, register, is_shelf):
    """The key of each entry that alone has it among the entries that are not retired."""
    command = [program, "find", register, "--status", "live"] + ["--shelf"] * is_shelf
    found = subprocess.run(command, stdin=subprocess.DEVNULL, capture_output=True, check=False)
    try:
        rows = list(csv.DictReader(found.stdout.decode().splitlines(keepends=True)))
    except UnicodeDecodeError:
        return {}
    keys = [f"{row['authority']}:{row['code']}" for row in rows]
    fold = lambda key: key.partition(":")[0].lower() + ":" + key.partition(":")[2]
    folded = [fold(key) for key in keys]
    return {row["entry"]: key for row, key in zip(rows, keys) if folded.count(fold(key)) == 1}


def swapped(program, arguments):
    """The arguments with keys, or as they are if there is nothing to replace."""
    if not any(ID.fullmatch(it) for it in arguments) or {"-k", "--keys"} & set(arguments):
        return arguments
    asked = help_of(program, arguments[0])
    with_value = set(re.findall(r"^ +(?:-\w, )?(--[a-z-]+) <", asked, re.MULTILINE))
    places = places_of_words(arguments, with_value)
    if len(places) < 3 or places[0] != 0 or "-k, --keys" not in asked or arguments[0] == OTHER_KEYS:
        return arguments
    register = arguments[places[1]]
    if not os.path.isfile(register) or not any(ID.fullmatch(arguments[at]) for at in places[2:]):
        return arguments
    keys = keys_of(program, register, "--shelf" in arguments)
    given = list(arguments)
    for at in places[2:]:
        given[at] = keys.get(arguments[at].lower(), arguments[at])
    if given == arguments:
        return arguments
    if "SWAPPED" in os.environ:
        with open(os.environ["SWAPPED"], "a", encoding="utf-8") as file:
            file.writelines(f"{old} {new}\n" for old, new in zip(arguments, given) if old != new)
    return given + ["-k"]


def main():
    program, *arguments = sys.argv[1:]
    os.execv(program, ["crsreg", *swapped(program, arguments)])


main()
