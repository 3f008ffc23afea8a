"""pyahocorasick, what one picks without leaving Python. It runs in a process of its own, on what `contest dump` wrote.

    peer_python.py check DIR            are its records those of c-tuned?
    peer_python.py small DIR ROUNDS     ns an event of the 32 KiB logs, records as a list of tuples
    peer_python.py compile DIR ROUNDS   us to build from the book's words
"""
import pathlib
import struct
import sys
import time

import ahocorasick

NAME = "pyahocorasick"


def words_of(path):
    """(text, (state, mark, length)) of each word; one character an event."""
    words = []
    for line in path.read_text().splitlines():
        state, mark, events = line.split()
        text = bytes.fromhex(events).decode("latin-1")
        words.append((text, (int(state), int(mark), len(text))))
    return words


def built(words):
    automaton = ahocorasick.Automaton()
    for text, value in words:
        automaton.add_word(text, value)
    automaton.make_automaton()
    return automaton


def records(automaton, text):
    return [(end + 1, value[2], value[1]) for end, value in automaton.iter(text)]


def full_list(automaton, text):
    """The list as document 01 has it: at each end the shortest word of each state, longer ones first."""
    ends = {}
    for end, (state, mark, length) in automaton.iter(text):
        at = ends.setdefault(end + 1, {})
        if state not in at or length < at[state][0]:
            at[state] = (length, mark)
    return b"".join(
        struct.pack("<IHBB", end, length, mark, 0)
        for end in sorted(ends)
        for length, mark in sorted(ends[end].values(), reverse=True)
    )


def timed(call):
    start = time.thread_time()
    call()
    return time.thread_time() - start


def main():
    part, folder = sys.argv[1], pathlib.Path(sys.argv[2])
    rounds = int(sys.argv[3]) if part != "check" else 0
    differences = 0
    for path in sorted(folder.glob("*.words")):
        words = words_of(path)
        automaton = built(words)
        text = path.with_suffix(".ev").read_bytes().decode("latin-1")
        if part == "check" and full_list(automaton, text) != path.with_suffix(".list").read_bytes():
            print(f"{path.stem}: {NAME} gives OTHER RECORDS")
            differences += 1
        if part == "small":
            print(f"memory\t{path.stem}\t{NAME}\t{automaton.get_stats()['total_size']}")
        for turn in range(rounds):
            if part == "small":
                took = timed(lambda: records(automaton, text)) / len(text) * 1e9
            else:
                took = timed(lambda: built(words)) * 1e6
            print(f"{path.stem}\t{NAME}\t{turn}\t{took:.5g}", flush=True)
    if part == "check":
        print(f"{NAME}: " + (f"{differences} differences" if differences else "all the same"))
    return 1 if differences else 0


if __name__ == "__main__":
    sys.exit(main())
