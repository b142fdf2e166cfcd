#!/usr/bin/env python3
"""bad_word.py NAME WORD..: names the first word of a command line that HeapSafe does not understand; NAME is how it was called.

It says nothing where there is none: a status of 120 may be a program's own."""

import re
import sys

OF_A_RUN = ["--heap", "--stack", "--steps", "--leaks", "--explain", "--json"]
OPTIONS = {"run": OF_A_RUN, "exec": OF_A_RUN, "mean": ["--heap", "--steps", "--explain", "--json"]}
# how many words each command takes at most beside its options
COMMANDS = {"run": 64, "mean": 64, "print": 1, "layout": 64, "list": 64, "live": 64, "compile": 64, "exec": 1, "self": 1}
# what the launcher answers by itself: alone, and with a folder behind it
ANSWERED = ["--version", "--install"]
RANGES = {"--heap": (0, 268_435_456), "--stack": (0, 67_108_864), "--steps": (1, 1_000_000_000), "self": (1, 2_000)}


def number_fault(word, name):
    """What is wrong with a number, if anything is."""
    least, most = RANGES[name]
    if re.fullmatch("[0-9]{1,18}", word) and least <= int(word) <= most:
        return None
    return f"'{word}' is no number from {least} to {most}"


def option_fault(words, word, seen):
    """What is wrong with an option, whose value may be taken off the words after it."""
    name, equals, value = word.partition("=")
    if name in seen:
        return f"'{name}' stands twice"
    seen.append(name)
    if name not in RANGES:
        return f"'{name}' takes no value" if equals else None
    if not equals and not words:
        return f"a number is missing after '{name}'"
    return number_fault(value if equals else words.pop(0), name)


def operand_fault(command, word, operands):
    """What is wrong with a word that is a file, or the number of `self`."""
    if len(operands) == COMMANDS[command]:
        return f"'{word}' is one word too many"
    if command == "self":
        return number_fault(word, "self")
    return f"'{word}' is no file's name" if not word or word.startswith("-") else None


def fault(words):
    """The first fault of a command line, if there is one."""
    if not words:
        return "a command is missing"
    command = words.pop(0)
    if command in ANSWERED:
        return f"'{words[-1]}' is one word too many" if words else f"a folder is missing after '{command}'"
    if command not in COMMANDS:
        return f"'{command}' is no command"
    operands, seen, has_options = [], [], True
    while words:
        word, found = words.pop(0), None
        if has_options and word == "--":
            has_options = False
        elif has_options and word.partition("=")[0] in OPTIONS.get(command, []):
            found = option_fault(words, word, seen)
        elif has_options and word.startswith("-"):
            found = f"'{word}' is no option of '{command}'"
        else:
            found = operand_fault(command, word, operands)
            operands.append(word)
        if found:
            return found
    return None if operands else f"{'a number' if command == 'self' else 'a file'} is missing after '{command}'"


def main():
    name, words = sys.argv[1], sys.argv[2:]
    found = fault(words)
    if found:
        print(f"heapsafe: {found}; see {name} --help")


if __name__ == "__main__":
    main()
