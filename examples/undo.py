#!/usr/bin/env python3
"""undo.py PREFIX: the library from Python, by the shared object that `./gulberzan install PREFIX` leaves. Python must be for x86-64."""
import ctypes
import os
import sys

u64 = ctypes.c_uint64
Queue, Answer, Ticket = u64 * 92, u64 * 5, u64 * 3
WORK = 2


class Refused(Exception):
    pass


class Library:
    """Each call by its name: numbers are ints, words are ctypes arrays, and a refusal is an exception with its name."""

    def __init__(self, prefix):
        self.shared = ctypes.CDLL(os.path.join(prefix, 'lib', 'libgulberzan_c.so'))

    def __getattr__(self, name):
        function = getattr(self.shared, 'gulberzan_' + name)
        function.restype = u64

        def call(*words):
            result = function(*(u64(word) if isinstance(word, int) else word for word in words))
            if result:
                raise Refused(self.name_of(result))
            return result

        return call

    def name_of(self, result):
        text = ctypes.create_string_buffer(24)
        self.shared.gulberzan_result_text(u64(result), text)
        return text.value.decode()


def main():
    library = Library(sys.argv[1])
    queue, answer = Queue(), Answer()
    library.open_scope(queue, 5, 0)
    for number in (71, 72):
        library.register(queue, number, answer)
    try:
        library.register(queue, 0, answer)
    except Refused as refusal:
        print('register 0:', refusal)
    while True:
        library.pop(queue, answer)
        if answer[0] != WORK:
            break
        print('undo', answer[4])
        library.complete(queue, Ticket(*answer[1:4]), 0, 0, answer)


main()
