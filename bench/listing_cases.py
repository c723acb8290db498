#!/usr/bin/env python3
"""Writes what the program listing is run on, and the lines that it must print.

The lines come from how the input is built: each message stands here with its kind and refusal, the malformed one with the
place in it. Nothing is read.
"""
import os

TOP = os.path.dirname(os.path.dirname(os.path.abspath(__file__)))
GUID = b"0a1b2c3d-0000-4000-8000-00000000beef"
MESSAGE = 65536


def attributes(**given):
    return b"".join(b' %s="%s"' % (n.encode(), v.encode()) for n, v in given.items())


def message(inner, root=b"", before=b"", after=b"", shut=b"", declaration=b""):
    return declaration + b"<Hermes" + root + b">" + before + inner + after + b"</Hermes" + shut + b">"


def alive(size):
    """A CheckAlive of so many bytes, filled up with glue."""
    inner = b"<CheckAlive%s/>"
    return message(inner % (b" " * (size - len(message(inner % b"")))))


def nested(names):
    text = b"<%s/>" % names[-1]
    for n in reversed(names[:-1]):
        text = b"<%s>%s</%s>" % (n, text, n)
    return text


def counted(n):
    return b"".join(b" a%d='%d'" % (i, i) for i in range(n))


BOARD = b'<BoardAvailable BoardId="%s" BoardIdCreatedBy="%s" FailedBoard="0" FlippedBoard="1"%s/>'

GOOD = [
    # bytes, kind, refusal
    (message(b'<MachineReady FailedBoard="0"/>'), 5, 0),
    (message(b"<Foo/>"), 0, 0),
    (message(b'<ServiceDescription MachineId="Printer 2" LaneId="1" Version="1.6"><SupportedFeatures><FeatureBoardForecast/></SupportedFeatures></ServiceDescription>'), 1, 0),
    (message(b'<ServiceDescription MachineId="" LaneId="65535" Version="001.000"><SupportedFeatures/></ServiceDescription>'), 1, 0),
    (message(b'<ServiceDescription MachineId="x" LaneId="1" Version="1.6"/>'), 1, 4),
    (message(b'<ServiceDescription MachineId="x" LaneId="65536" Version="1.6"><SupportedFeatures/></ServiceDescription>'), 1, 6),
    (message(b'<Notification NotificationCode=" +01 " Severity="4" Description=""/>'), 2, 0),
    (message(b'<Notification NotificationCode="1" Severity="5" Description=""/>'), 2, 6),
    (message(b'<Notification NotificationCode="1" Severity="1"/>'), 2, 4),
    (message(b'<Notification NotificationCode="1" Severity="1" Description="%s"/>' % (b"d" * 254)), 2, 0),
    (message(b'<Notification NotificationCode="1" Severity="1" Description="%s"/>' % (b"d" * 255)), 2, 5),
    (message(BOARD % (GUID, b"m", b' Length="160.50" Width=".5"')), 3, 0),
    (message(BOARD % (GUID, b"m", b' Length="0"')), 3, 6),
    (message(BOARD % (GUID, b"", b"")), 3, 6),
    (message(BOARD % (GUID, b"y" * 80, b"")), 3, 0),
    (message(BOARD % (GUID, b"y" * 81, b"")), 3, 5),
    (message(b"<RevokeBoardAvailable/>"), 4, 0),
    (message(b"<MachineReady/>"), 5, 4),
    (message(b"<MachineReady FailedBoard='3'/>"), 5, 6),
    (message(b"<RevokeMachineReady />"), 6, 0),
    (message(b'<StartTransport BoardId="%s"/>' % GUID), 7, 0),
    (message(b'<StartTransport BoardId="%s"/>' % GUID.replace(b"f", b"F")), 7, 6),
    (message(b'<StartTransport BoardId="%s" ConveyorSpeed="1.0000000"/>' % GUID.replace(b"-", b"&#45;")), 7, 0),
    (message(b'<StopTransport TransferState="3" BoardId="%s"></StopTransport>' % GUID), 8, 0),
    (message(b'<TransportFinished BoardId="%s" TransferState="1"/>' % GUID), 9, 0),
    (message(b'<TransportFinished TransferState="0"/>'), 9, 6),
    (message(b"<CheckAlive/>", declaration=b'<?xml version="1.0" encoding="UTF-8"?>\r\n'), 10, 0),
    (message(b"<CheckAlive Type='1' Id='%s'/>" % (b"i" * 80)), 10, 0),
    (message(b"<CheckAlive Type='1' Id='%s'/>" % (b"i" * 81)), 10, 5),
    (message(b"<CheckAlive Id='%s'/>" % (b"&amp;" * 80)), 10, 0),
    (message(b"<CheckAlive Id='%s'/>" % (b"&amp;" * 81)), 10, 5),
    (message(b"<CheckAlive Type='9'/>", root=b' Timestamp="never"'), 10, 6),
    (message(nested([b"X", b"Hermes"])), 0, 0),
    (message(b"<X><Hermes></Hermes></X>"), 0, 0),
    (message(nested([b"a", b"b", b"c", b"d", b"e"])), 0, 0),
    (message(b"<Foo%s/>" % counted(32)), 0, 0),
    (message(b"<%s %s='1'/>" % (b"N" * 64, b"n" * 64)), 0, 0),
    (message(b"<checkalive Type='9'/>", before=b"\n\t", after=b" ", shut=b"\r\n"), 0, 0),
    (alive(MESSAGE), 10, 0),
    (message(b'<MachineReady FailedBoard="0" ForecastId="%s"/>' % (b"f" * 80)), 5, 0),
    (message(b'<MachineReady FailedBoard="0" ForecastId="%s"/>' % (b"f" * 81)), 5, 5),
    (message(b'<BoardForecast ForecastId="F 7" TimeUntilAvailable="12.5" FailedBoard="0" FlippedBoard="1"/>'), 11, 0),
    (message(b"<BoardForecast/>"), 11, 4),
]

# a malformed message, and the place in it
SEVEN = message(nested([b"a", b"b", b"c", b"d", b"e", b"f"])), 24

GLUE = [b"", b"\n", b"\r\n", b" ", b"\t \n"]


def lines(parts, end):
    """The input of glue and messages, its lines, and the last one."""
    text, out = b"", []
    for glue, (m, kind, refusal) in parts:
        text += glue
        out.append(b"%d %d %d %d\n" % (len(text), len(text) + len(m), kind, refusal))
        text += m
    glue, rest, place, answer = end
    text += glue
    out.append(b"end %d %d\n" % (len(text) + place, answer))
    return text + rest, b"".join(out)


def mixed(n):
    """Messages in turn, with glue in turn, the large one left out."""
    small = GOOD[:-1]
    return [(GLUE[i % len(GLUE)], small[i * 7 % len(small)]) for i in range(n)]


def long_stream():
    parts = [(b"", GOOD[0]), (b"\n", GOOD[1])] + mixed(600)
    parts += [(b" " * 200000, GOOD[2]), (b"\n", GOOD[-1])] + mixed(300) + [(b"", GOOD[-1])] + mixed(40)
    return lines(parts, (b"\n", SEVEN[0], SEVEN[1], 2))


def write(name, data):
    with open(os.path.join(TOP, "crates", name), "wb") as f:
        f.write(data)


text, out = long_stream()
write("listing/stdin", text)
write("listing/stdout", out)
