#!/usr/bin/env python3
"""Books of both kinds by documents 01 and 02, computed plainly and sharing nothing with the crates.

    python3 tools/book.py

works out a larger book of capacity 1, with sheet F of document 01 as a larger sheet, and prints its bytes in decimal, array by array.

A call gives the number of a refusal, which changes no byte, or its result. Each sentence of the documents stands above what does it, with
its document's number.
"""
import sys
from collections import namedtuple

sys.dont_write_bytecode = True
from sheet import LARGER_SHEET, STANDARD_SHEET, answer, said, sheet_of

# How many bytes stand before the capacity, how many the capacity and the count have each, the largest capacity, the bytes of a sheet.
Layout = namedtuple("Layout", "lead width largest sheet")

# 01: "capacity c (2 bytes, 1 to 1,000), count n (2 bytes)"
STANDARD = Layout(0, 2, 1_000, STANDARD_SHEET)
# 02: "The larger book starts with two zero bytes, then capacity and count in four bytes each, then the two arrays. Its capacity runs to
# 100,000" and "The sheet's line number grows to four bytes and the sheet to 26."
LARGER = Layout(2, 4, 100_000, LARGER_SHEET)
# 01: "The answer: 8 bytes"
ANSWER = 8


def kind(book):
    """The layout of a book."""
    # 02: "The new reader takes both kinds by their first two bytes"
    return LARGER if bytes(book[:2]) == bytes(2) else STANDARD


def borders(layout, capacity):
    """Where the sheet slots begin, where the answer slots begin, and where the book ends."""
    # 01: "Sizes first, then two parallel arrays: [...] c sheet slots, c answer slots."
    sheets = layout.lead + 2 * layout.width
    answers = sheets + capacity * layout.sheet
    return sheets, answers, answers + capacity * ANSWER


def slots(layout, capacity, entry):
    """The places of an entry's sheet and of its answer."""
    sheets, answers, _ = borders(layout, capacity)
    at, beside = sheets + entry * layout.sheet, answers + entry * ANSWER
    return slice(at, at + layout.sheet), slice(beside, beside + ANSWER)


def size_places(layout):
    """The places of the capacity and of the count."""
    lead, width = layout.lead, layout.width
    return slice(lead, lead + width), slice(lead + width, lead + 2 * width)


def sizes(layout, book):
    """The capacity and the count."""
    # 01: "All files are big-endian."
    return [int.from_bytes(book[place], "big") for place in size_places(layout)]


def misfit(layout, book, capacity):
    """Whether bytes of that length cannot be a book of that capacity, or no book can have it."""
    # 01: "31: under 4 bytes, c outside 1 to 1,000, or length not 4 + 32c."
    # 02: "over a lent buffer of 10 + 34c bytes" and "with 31 and 32 restated for the larger sizes"
    sheets, _, end = borders(layout, capacity)
    return len(book) < sheets or not 1 <= capacity <= layout.largest or len(book) != end


def fault(layout, book):
    """The first of the refusals 31 and 32 that holds, or None."""
    capacity, count = sizes(layout, book)
    if misfit(layout, book, capacity):
        return 31
    # 01: "32: n above c."
    if count > capacity:
        return 32
    return None


def make(layout, book, capacity):
    """Makes a new book out of lent bytes; None where it is made."""
    # 01: "Making a new book has this refusal only; c is then the capacity wanted."
    if misfit(layout, book, capacity):
        return 31
    # 01: "A new book is all zero but for c."
    at_capacity, _ = size_places(layout)
    book[:] = bytes(len(book))
    book[at_capacity] = capacity.to_bytes(layout.width, "big")
    return None


def file(book, sheet):
    """Files a sheet in a book of either kind; the answer."""
    layout = kind(book)
    refused = fault(layout, book)
    if refused:
        return refused
    # 01: "34: filing, n = c."
    capacity, count = sizes(layout, book)
    if count == capacity:
        return 34
    # 01: "These come before 11 to 18." 02: "11 for 26 bytes in the larger book"
    result = answer(sheet, layout.sheet)
    if isinstance(result, int):
        return result
    # 01: "Filing writes slot n in both arrays, raises n by one, returns the answer and changes nothing else."
    at_sheet, at_answer = slots(layout, capacity, count)
    _, at_count = size_places(layout)
    book[at_sheet] = sheet
    book[at_answer] = bytes(result)
    book[at_count] = (count + 1).to_bytes(layout.width, "big")
    return bytes(result)


def read(book, entry, layout=None):
    """Reads an entry of a book of either kind, or, as an old reader does, of the standard layout alone; the sheet and the answer."""
    layout = layout or kind(book)
    refused = fault(layout, book)
    if refused:
        return refused
    # 01: "entry e (0 to n − 1)" and "33: reading, e not below n."
    capacity, count = sizes(layout, book)
    if entry not in range(count):
        return 33
    # 01: "works the sheet out again" and "35: reading, the stored sheet is refused or its answer differs from the stored eight bytes."
    sheet, stored = (bytes(book[place]) for place in slots(layout, capacity, entry))
    result = answer(sheet, layout.sheet)
    if isinstance(result, int) or bytes(result) != stored:
        return 35
    # 01: "and returns the stored sheet with the stored answer."
    return sheet, stored


def show(name, book):
    """Prints a larger book array by array."""
    sheets, answers, end = borders(LARGER, sizes(LARGER, book)[0])
    print(name)
    for part, begin, to in (("sizes", 0, sheets), ("sheets", sheets, answers), ("answers", answers, end)):
        print(f"  {part}: {said(book[begin:to])}")


def main():
    # 01: "Sheet F: goal 2, service 1, line 7, D 12,000, t 1,300, ta 200, L 400, α 800, aim 800."
    fields = dict(goal=2, service=1, D=12_000, t=1_300, ta=200, L=400, alpha=800, f=0, tau=0, P=0, S=0, aim=800)
    larger, standard = sheet_of(100_000, LARGER_SHEET, **fields), sheet_of(7, **fields)
    new, book, small = bytearray(44), bytearray(44), bytearray(36)
    make(LARGER, new, 1)
    make(LARGER, book, 1)
    make(STANDARD, small, 1)
    print(f"sheet F, line 100,000: {said(larger)}")
    show("a new book of capacity 1", new)
    print(f"filing F: {said(file(book, larger))}")
    show("the book then", book)
    print("reading entry 0")
    for part, held in zip(("sheet", "answer"), read(book, 0)):
        print(f"  {part}: {said(held)}")
    print(f"reading entry 1: {said(read(book, 1))}")
    print(f"filing F again: {said(file(book, larger))}")
    print(f"reading entry 0 as an old reader: {said(read(book, 0, STANDARD))}")
    print(f"filing the 24 bytes of F in a new larger book: {said(file(new, standard))}")
    print(f"filing the 26 bytes of F in a new standard book: {said(file(small, larger))}")


if __name__ == "__main__":
    main()
