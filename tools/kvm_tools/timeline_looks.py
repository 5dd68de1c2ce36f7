"""How each kind of mark and span looks: colours that stay apart for a colour-blind eye, and a form beside the colour.

The colours are those of Okabe and Ito's palette, with lighter ones of them, black and greys. Of several marks in one place
the one that stands last here is drawn. A form is an SVG path from the middle of the row's top; a letter stands for it in a
terminal.
"""
from __future__ import annotations

from typing import NamedTuple


class Look(NamedTuple):
    colour: str
    form: str
    letter: str
    words: str


#: The height of a row, in pixels.
ROW = 15

UP, MIDDLE, DOWN = "m0 1v7", "m0 1v12", "m0 6v7"
TICKED, CROSSED = "m-4 7l3 4 6-8", "m-4 3l8 8m-8 0l8-8"

MARKS = {
    "report": Look("#767676", "m0 8v5", "r", "report of the peripheral"),
    "reply": Look("#56B4E9", DOWN, "y", "reply of the peripheral"),
    "ask": Look("#0072B2", UP, "?", "order to the peripheral"),
    "on": Look("#000000", "m0 1v12m-4-8l4-4 4 4", "^", "power on"),
    "off": Look("#000000", "m0 1v12m-4-4l4 4 4-4", "v", "power off"),
    "attached": Look("#000000", "m-4 11l4-8 4 8z", "+", "attached"),
    "detached": Look("#000000", "m-4 3l4 8 4-8z", "-", "detached"),
    "nak": Look("#767676", "m0 9v4", "n", "NAK"),
    "ack": Look("#56B4E9", DOWN, "a", "ACK"),
    "data": Look("#0072B2", MIDDLE, "D", "DATA"),
    "silent": Look("#000000", "m0 4v2m0 3v2", ".", "SILENT"),
    "reset": Look("#000000", "m-4 7l4-5 4 5-4 5z", "R", "bus reset"),
    "stall": Look("#882255", "m0 1v5m0 2v5", "S", "STALL"),
    "passed": Look("#00A878", TICKED, "p", "check passed"),
    "failed": Look("#000000", CROSSED, "x", "check failed, case opened"),
    "note": Look("#000000", MIDDLE, "i", "line of the log"),
    "leave": Look("#767676", MIDDLE, "l", "port left"),
    "select": Look("#0072B2", MIDDLE, "s", "port selected"),
    "alive": Look("#00A878", MIDDLE, "A", "alive"),
    "dark": Look("#000000", MIDDLE, "#", "dark"),
    "accepted": Look("#00A878", TICKED, "o", "let in"),
    "refused": Look("#D55E00", CROSSED, "X", "refused"),
}

#: Of several in one column of the text the last wins.
SPANS = {
    "self-test": Look("#D0D0D0", "", "~", "self-test: nobody is answered"),
    "selected": Look("#F0E442", "", "=", "port selected"),
    "routed": Look("#CC79A7", "", "t", "the token is this port's"),
    "held": Look("#56B4E9", "", "_", "button held"),
    "asked": Look("#BFE0FF", "", ":", "has power, is asked"),
    "let-in": Look("#5DBFA2", "", "=", "has power, is let in"),
    "refused": Look("#F0A77A", "", "!", "refused, till detached"),
    "dark": Look("#777777", "", "#", "dark: nobody is answered any more"),
}
