#!/usr/bin/env python3
"""Writes crates/limits_main/stdout: what each public call must answer at both sides of each limit, and at lengths 0 and 1.

It states docs/SCOPE.md's table by itself and runs none of our code: the numbers of the refusals, in the order of their tests,
and that a refused call leaves the buffer as it was (`kept`), while answer 0 has written it whole (`written`).
"""
import itertools, os

KEYS = [0, 1, 15, 16, 17, 24, 31, 32, 33]
SCHEDULES = [0, 1, 87, 88, 89, 119, 120, 121]
INPUTS = [0, 1, 15, 16, 17, 31, 32, 33, 47, 48, 63, 64, 65, 80, 65520, 65535, 65536, 65537, 65552]
ZERO_KEYS = range(41)  # keys of zeros
DIRECTIONS = [0, 1, 2, 0xffffffff]
WORDS_FOR = {16: 88, 32: 120}  # the schedule's words for a key of so many bytes


def first(*refusals):
    """The first number whose test applies, or 0."""
    return next((number for number, applies in refusals if applies), 0)


def lengths():
    """(an input's length, an output's): a block less, as many bytes, a block more."""
    return [(given, max(given + more, 0)) for given in INPUTS for more in (-16, 0, 16)]


def whole(given):
    return 16 <= given <= 65536 and given % 16 == 0


def calls():
    """(the call with its lengths, its answer), in the program's order."""
    for bits in (32, 64):
        for key, words in itertools.product(KEYS, SCHEDULES):
            yield f"expand{bits} key {key} schedule {words}", first((1, key not in WORDS_FOR), (2, words != WORDS_FOR.get(key)))
        for key, words in itertools.product(ZERO_KEYS, SCHEDULES):
            yield f"expand{bits} zero key {key} schedule {words}", first((1, key not in WORDS_FOR), (6, True))
        for name in ("encrypt", "decrypt"):
            for words, (given, taken) in itertools.product(SCHEDULES, lengths()):
                yield f"{name}{bits} schedule {words} input {given} output {taken}", first(
                    (2, words not in WORDS_FOR.values()), (3, not whole(given)), (4, taken != given))
        for words, taken in itertools.product(SCHEDULES, range(5)):
            yield f"check_value{bits} schedule {words} output {taken}", first((2, words not in WORDS_FOR.values()), (4, taken != 3))
    for direction, key, (given, taken) in itertools.product(DIRECTIONS, KEYS, lengths()):
        yield f"locker_aes direction {direction} key {key} input {given} output {taken}", first(
            (1, key not in WORDS_FOR), (3, not whole(given)), (4, taken != given), (5, direction not in (0, 1)))
    for key, direction, given, taken in itertools.product(ZERO_KEYS, (0, 2), (63, 64), (64, 65)):
        yield f"locker_aes direction {direction} zero key {key} input {given} output {taken}", first((1, key not in WORDS_FOR), (6, True))


def main():
    lines = [f"{call} -> {number} {'kept' if number else 'written'}\n" for call, number in calls()]
    path = os.path.join(os.path.dirname(os.path.abspath(__file__)), "../crates/limits_main/stdout")
    with open(path, "w") as file:
        file.writelines(lines)
    print(f"ok limits: {len(lines)} calls in crates/limits_main/stdout")


main()
