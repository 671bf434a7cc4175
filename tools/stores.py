#!/usr/bin/env python3
"""Writes what `store_cases` has to print: the same operations as the program makes, on a model that
keeps each record as a list. Usage: tools/stores.py > crates/store_cases/stdout"""

RECORDS, CELLS = 5, 12


class Dice:
    def __init__(self, state):
        self.state = state

    def roll(self, sides):
        self.state = (self.state * 1664525 + 1013904223) % 2**32
        return self.state // 65536 % sides


class Model:
    def __init__(self):
        self.records = []

    def cells_left(self):
        return CELLS - sum(len(cells) for _, cells in self.records)

    def cells_of(self, record):
        """The cells of a record by its number, from 1; none if there is no such record."""
        return self.records[record - 1][1] if 1 <= record <= len(self.records) else []

    def clear(self):
        self.records = []
        return "done"

    def create(self, cls, cells):
        if len(self.records) == RECORDS or cells > self.cells_left():
            return "refused"
        self.records.append((cls, [None] * cells))
        return str(len(self.records))

    def class_of(self, record):
        return str(self.records[record - 1][0]) if 1 <= record <= len(self.records) else "refused"

    def read(self, record, cell):
        cells = self.cells_of(record)
        if cell >= len(cells):
            return "refused"
        return "null" if cells[cell] is None else f"int {cells[cell]}"

    def write(self, record, cell, value):
        cells = self.cells_of(record)
        if cell >= len(cells):
            return "refused"
        cells[cell] = value
        return "done"


def operation(dice, model):
    kind = dice.roll(64)
    if kind == 0:
        return model.clear()
    if kind <= 12:
        return model.create(dice.roll(32), dice.roll(5))
    if kind <= 18:
        return model.class_of(dice.roll(6))
    if kind <= 40:
        return model.read(dice.roll(6), dice.roll(3))
    return model.write(dice.roll(6), dice.roll(3), dice.roll(1000))


def main():
    dice, model = Dice(2026), Model()
    for _ in range(800):
        answer = operation(dice, model)
        print(answer, answer)


main()
