"""Objects of RSVP messages (RFC 2205, 3.1 and appendix A), for the tools that look into a message.

A look into a message takes the first object of a class whose length fits, whatever else the message has: what is wrong with a message is
for `rsvpd show` to say. Addresses are numbers.

It is imported by tools in this folder, and does nothing by itself.
"""
import collections
import struct

PATH, RESV, PATH_ERR, RESV_ERR, PATH_TEAR, RESV_TEAR, RESV_CONF = range(1, 8)
SESSION, HOP, ERROR, TEMPLATE = 1, 3, 6, 11
ALERTED = (PATH, PATH_TEAR, RESV_CONF)  # sent with the Router Alert option: each router on the way takes them

Session = collections.namedtuple("Session", "group protocol port")
Sender = collections.namedtuple("Sender", "address port")


# ---- reading
def kind_of(message):
    """The type of a message; None where it has no header."""
    return message[1] if len(message) >= 8 else None


def objects_of(message):
    """Class, C-Type and contents of each object, up to the first whose length does not fit."""
    at = 8
    while at + 4 <= len(message):
        size, number, form = struct.unpack(">HBB", message[at:at + 4])
        if size < 4 or size % 4 or at + size > len(message):
            return
        yield number, form, message[at + 4:at + size]
        at += size


def first_of(message, number, size):
    """The contents of the first object of a class, of C-Type 1 and so many bytes; None where there is none."""
    for found, form, contents in objects_of(message):
        if (found, form, len(contents)) == (number, 1, size):
            return contents
    return None


def session_of(message):
    contents = first_of(message, SESSION, 8)
    return contents and Session(*struct.unpack(">IBxH", contents))


def hop_of(message):
    """The address of the hop that sent the message, as its RSVP_HOP has it."""
    contents = first_of(message, HOP, 8)
    return contents and int.from_bytes(contents[:4], "big")


def error_node_of(message):
    contents = first_of(message, ERROR, 8)
    return contents and int.from_bytes(contents[:4], "big")


def sender_of(message):
    contents = first_of(message, TEMPLATE, 8)
    return contents and Sender(*struct.unpack(">IxxH", contents))
