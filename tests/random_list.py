"""Performs a random list of calls by the Python module, writes it to a file as call items, and each answer as a line of `replay`.

usage: random_list.py FILE CALLS
"""
import random
import struct
import sys

import nqabelihu as n

EDGES = (0, 1, 2, 3, 4, 5, 127, 128, 254, 255, 256, 511, 512, 1023, 1024, 65535, 65536, 1048575, 1048576, 0x7FFFFFFF, 0xFFFFFFFF)
number = random.Random(429).random


def below(limit):
    return int(number() * limit)


def one_of(choices):
    return choices[below(len(choices))]


def address():
    """On a register, beside one, between two or past the last."""
    first, further = one_of(((0x111C, 0x100), (0x1120, 0x100), (0x0810, 0x10), (0x80000, 0x1000), (0x90000, 0x1000), (0x1000, 4)))
    return first + further * below(13 if below(4) == 0 else 4) + one_of((0, 0, 0, 4, 0x3FC, 0x400, 0x7FC, 0x800, 1))


def item(turn):
    op = one_of((below(12), 32 + below(13), 64 + below(13), 128 + below(30), 128 + below(30), 128, 128, 129, 138, 138, 133, 135, 160 + below(3), 161))
    if turn % 400 == 0 or (op == 1 and below(20) != 0):
        op = 1 if turn % 400 == 0 else 5
    channel = one_of(EDGES) if below(12) == 0 else 1 + below(4)
    a = 1 + below(12) if op == 1 and below(8) != 0 else one_of(EDGES) if below(3) == 0 else below(3)
    if op in (128, 133, 134) and below(2) == 0:
        a = below(2**32)
    if op == 39:
        a = below(3)
    if op in (160, 161):
        a = address()
    b = one_of((0x1000, 0x2000, 0x3001, 0x4000, 0x5000, 0x6000, 0x7000, 0)) if op == 139 else one_of(EDGES) if below(3) == 0 else below(3)
    return op, channel, a, b


def named_calls():
    """The calls by name and the fields of a word, once through."""
    module = n.Module(1)
    module.write_setting(1, n.SETTING_RECEIVER, 1)
    assert module.read_setting(1, n.SETTING_RECEIVER) == 1
    assert module.arrive(1, 0x6000012B) == n.OUTCOME_APPENDED
    entry = module.read_receive_fifo(1)
    assert entry == n.Entry(0, 0x6000012B, 0) and n.label(entry.word) == 0o324 and n.sdi(entry.word) == 1
    assert n.index_of_label(0o324, 1) == n.index_of_word(entry.word) == 0x12B and n.low_byte(0o324) == 0x2B
    assert n.sign_status(entry.word) == 3 and n.data_bits(entry.word) == 0 and n.with_odd_parity(0) == 0x80000000
    assert module.read_counts(1).receive_read == 1 and n.op_text(75) == "read transmit rate"
    assert module.write_register(0x111C, 99) == 0 and module.read_register(0x111C) == module.read_setting(1, n.SETTING_RATE) == 99
    assert module.write_register(0x1000, 0b11) == 0b11 and module.write_register(0x1008, 0b11) == 0b10
    assert ".".join(str(n.version() // k % 100) for k in (10000, 100, 1)) == n.VERSION
    for wrong, refused in (
        (lambda: module.read_receive_fifo(1), 7),
        (lambda: module.write_setting(n.SETTING_RATE, 1, 4), 42),
        (lambda: module.read_register(0x111D), 30),
        (lambda: module.read_register(0x1D1C), 31),
        (lambda: module.write_register(0x0810, 0), 32),
    ):
        try:
            wrong()
            raise AssertionError("not refused")
        except n.Refused as refusal:
            assert refusal.number == refused and n.refusal_text(refused) in str(refusal)
    try:
        module.arrive(1, -1)
        raise AssertionError("-1 is taken for a word")
    except ValueError:
        pass


named_calls()
module = n.Module(12, power_up=False)
with open(sys.argv[1], "wb") as items:
    for turn in range(int(sys.argv[2])):
        call = item(turn)
        items.write(struct.pack("<4I", *call))
        answer = module.perform(*call)
        print(answer.number, *answer.values)
