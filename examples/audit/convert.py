#!/usr/bin/env python3
"""convert.py [HISTORY]: writes a Jepsen history of versioned registers as a report, which `./hx audit` judges.

A line of the history is an operation in EDN, as Jepsen's tests of etcd record it: its :value is [key [version value]],
of a :cas [key [version [old new]]], with nil for what isn't known yet. The number of a line is its time. Where :info
leaves open whether a write was made, it stands at the version at which somebody read its value.
"""

import re
import sys

TOKEN = re.compile(r'[\s,]*([{}\[\]]|"(?:\\.|[^"\\])*"|[^\s,{}\[\]"]+)')


def read(tokens):
    """Returns the value that the tokens begin with: a map, a list, a text, a number, a keyword or None."""
    token = next(tokens)
    if token in "[{":
        parts = []
        while (part := read(tokens)) not in ("]", "}"):
            parts.append(part)
        return parts if token == "[" else dict(zip(parts[::2], parts[1::2]))
    return None if token == "nil" else token.strip('"') if token[0] == '"' else token


def said(call):
    """Returns the call as a script has it, and the value that it leaves."""
    key, (_, value) = call["invoked"]
    if call["f"] == ":read":
        return f'get "{key}"', None
    if call["f"] == ":cas":
        return f'cput "{key}" if v="{value[0]}" set v="{value[1]}"', value[1]
    return f'put "{key}" v="{value}"', value


def calls_of(lines):
    """Returns the calls in the order of their begins."""
    calls, open_calls = [], {}
    for time, line in enumerate(lines, 1):
        op = read(match[1] for match in TOKEN.finditer(line))
        process = int(op[":process"])
        if op[":type"] == ":invoke":
            number = 1 + sum(call["session"] == process + 1 for call in calls)
            call = {"session": process + 1, "number": number, "begin": time, "end": "-", "f": op[":f"], "invoked": op[":value"]}
            calls.append(call)
            open_calls[process] = call
        else:
            open_calls.pop(process).update(end=time if op[":type"] != ":info" else "-", type=op[":type"], told=op[":value"])
    return calls


def history_of(calls):
    """Returns a key's items in the order of the store: each version's write, then what was read of it."""
    items = [(int(call["told"][1][0] or 0), call["f"] == ":read", call) for call in calls if call.get("type") == ":ok"]
    written = {version for version, is_read, _ in items if not is_read}
    seen = {version: call["told"][1][1] for version, is_read, call in items if is_read and version not in written}
    for version, value in sorted(seen.items()):
        found = (call for call in calls if call["end"] == "-" and said(call)[1] == value and all(call is not it[2] for it in items))
        items += [(version, False, call) for call in [next(found, None)] if call]
    return sorted(items, key=lambda item: (*item[:2], item[2]["end"] if item[2]["end"] != "-" else 0))


def main():
    calls = calls_of(line for line in open(sys.argv[1]) if line.strip()) if sys.argv[1:] else calls_of(sys.stdin)
    print("report 1\nspace registers\nkey k 1\nstring v\nservers 1\ntolerate 0")
    for call in sorted(calls, key=lambda call: (call["session"], call["number"])):
        version, value = (call.get("told") or [None, [None, None]])[1]
        if call.get("type") == ":fail":
            answer = "refused region 0 epoch 1"
        elif call.get("type") != ":ok":
            answer = "open"
        elif call["f"] == ":read":
            answer = f'found version {version} v="{value}"' if version else "notfound version 0"
        else:
            answer = f"done version {version}"
        print(f'call u{call["session"]}.{call["number"]} begin {call["begin"]} end {call["end"]} {said(call)[0]} -> {answer}')
    for key in sorted({call["invoked"][0] for call in calls}):
        items = history_of([call for call in calls if call["invoked"][0] == key])
        if items:
            print(f'history "{key}"')
        for version, is_read, call in items:
            value = call["told"][1][1] if is_read else said(call)[1]
            word = "done" if not is_read else "found" if version else "notfound"
            print(f'item {version} u{call["session"]}.{call["number"]} {word}', f'present v="{value}"' if version else "absent")
    print("end")


main()
