#!/usr/bin/env python3
"""Reads the messages that the cases `write` with expat, and compares them with what they were meant to say.

Usage: python3 outside/written.py FILE, where FILE holds the output of `cases`. The line behind one that starts with `write 6` is a message, unless it was refused.
Every name, value, child and their order is compared with the list below, which is in plain characters. Prints each disagreement, then a count."""

import sys
from xml.parsers import expat

ZEROS = "00000000-0000-0000-0000-000000000000"
MIXED = "01234567-89ab-cdef-0123-456789abcdef"
LAST = "ffffffff-ffff-ffff-ffff-ffffffffffff"

FORECAST = "FeatureBoardForecast"
QUERY = "FeatureQueryBoardInfo"
SEND = "FeatureSendBoardInfo"

TAB, LF, CR = "\N{CHARACTER TABULATION}", "\N{LINE FEED}", "\N{CARRIAGE RETURN}"
DEL, NEL = "\N{DELETE}", "\N{NEXT LINE}"
LINE, PARAGRAPH = "\N{LINE SEPARATOR}", "\N{PARAGRAPH SEPARATOR}"


def service(machine, lane, version, features):
    attributes = [("MachineId", machine), ("LaneId", lane), ("Version", version)]
    children = [(name, [], []) for name in features]
    return ("ServiceDescription", attributes, [("SupportedFeatures", [], children)])


def bare(name, *attributes):
    return (name, list(attributes), [])


def notification(code, severity, description):
    return bare("Notification", ("NotificationCode", code), ("Severity", severity), ("Description", description))


def forecast(*attributes):
    """A BoardForecast with these in front of what it must have."""
    return bare("BoardForecast", *attributes, ("FailedBoard", "0"), ("FlippedBoard", "1"))


def board(*attributes, by="M"):
    """A BoardAvailable with these behind what it must have."""
    return bare("BoardAvailable", ("BoardId", MIXED), ("BoardIdCreatedBy", by), ("FailedBoard", "0"), ("FlippedBoard", "0"), *attributes)


def start(speed):
    return bare("StartTransport", ("BoardId", MIXED), ("ConveyorSpeed", speed))


MOST = "9999999.999999"

MEANT = [
    service("Löt ≥ 3 \N{MUSICAL SYMBOL G CLEF}", "1", "1.6", [FORECAST, QUERY, SEND]),
    service("", "65535", "123.456", [FORECAST, SEND]),
    service("  it's M ", "10", "001.0", [QUERY]),
    service("M", "42", "1.0", []),
    notification("1", "1", "&<>\"'" + TAB + LF + CR),
    notification("65535", "4", DEL + NEL + LINE + PARAGRAPH),
    notification("10", "2", "&amp; &#10; &#x41; ]]> --" + CR),
    notification("900", "3", "".join(map(chr, [0x80, 0x7FF, 0x800, 0xD7FF, 0xE000, 0xFFFD, 0x10000, 0x10FFFF]))),
    notification("2", "1", ""),
    notification("3", "1", '"' * 254),
    bare(
        "BoardAvailable",
        ("BoardId", MIXED),
        ("BoardIdCreatedBy", "O'Brien & \"Söhne\" <Co>"),
        ("FailedBoard", "0"),
        ("ProductTypeId", "&amp;&quot;&#9;"),
        ("FlippedBoard", "2"),
        ("TopBarcode", "a" + TAB + "b" + LF + "c" + CR + "d"),
        ("BottomBarcode", "  two before, two behind  "),
        ("Length", "160.5"),
        ("Width", "0.5"),
        ("Thickness", "1"),
        ("ConveyorSpeed", "0.000001"),
        ("TopClearanceHeight", "9999999.999999"),
        ("BottomClearanceHeight", "9999999"),
        ("Weight", "10.01"),
        ("WorkOrderId", TAB + LF + CR + " "),
    ),
    bare(
        "BoardAvailable",
        ("BoardId", ZEROS),
        ("BoardIdCreatedBy", ">"),
        ("FailedBoard", "2"),
        ("FlippedBoard", "0"),
    ),
    bare(
        "BoardAvailable",
        ("BoardId", LAST),
        ("BoardIdCreatedBy", "&"),
        ("FailedBoard", "1"),
        ("FlippedBoard", "1"),
        ("TopBarcode", ""),
        ("Width", "1000000"),
        ("ConveyorSpeed", "0.100001"),
        ("BottomClearanceHeight", "0.1"),
        ("WorkOrderId", "123456789".join(["", ">", "<", "'", '"', TAB, LF, CR, "x"])),
    ),
    bare("RevokeBoardAvailable"),
    bare("MachineReady", ("FailedBoard", "0")),
    bare("MachineReady", ("FailedBoard", "2")),
    bare("RevokeMachineReady"),
    bare("StartTransport", ("BoardId", MIXED), ("ConveyorSpeed", "123.456")),
    bare("StartTransport", ("BoardId", ZEROS)),
    bare("StopTransport", ("TransferState", "1"), ("BoardId", MIXED)),
    bare("StopTransport", ("TransferState", "3"), ("BoardId", LAST)),
    bare("TransportFinished", ("TransferState", "1"), ("BoardId", ZEROS)),
    bare("TransportFinished", ("TransferState", "3"), ("BoardId", MIXED)),
    bare("CheckAlive"),
    bare("CheckAlive", ("Type", "1")),
    bare("CheckAlive", ("Type", "2"), ("Id", "&" * 80)),
    bare("CheckAlive", ("Id", "")),
    bare(
        "BoardForecast",
        ("ForecastId", "F7"),
        ("TimeUntilAvailable", "12.5"),
        ("BoardId", MIXED),
        ("BoardIdCreatedBy", ""),
        ("FailedBoard", "2"),
        ("ProductTypeId", "p"),
        ("FlippedBoard", "0"),
        ("TopBarcode", "t"),
        ("BottomBarcode", "b"),
        ("Length", "160.5"),
        ("Width", "1"),
        ("Thickness", "2"),
        ("ConveyorSpeed", "3"),
        ("TopClearanceHeight", "4"),
        ("BottomClearanceHeight", "5"),
        ("Weight", "6"),
        ("WorkOrderId", "w"),
    ),
    forecast(),
    forecast(("ForecastId", 'a"&')),
    forecast(("ForecastId", "")),
    forecast(("ForecastId", "f" * 80)),
    bare("MachineReady", ("FailedBoard", "0"), ("ForecastId", "F7")),
    bare("MachineReady", ("FailedBoard", "0"), ("ForecastId", "")),
    bare("MachineReady", ("FailedBoard", "0"), ("ForecastId", "f" * 80)),
    bare(
        "BoardForecast",
        ("ForecastId", '"' * 80),
        ("TimeUntilAvailable", MOST),
        ("BoardId", MIXED),
        ("BoardIdCreatedBy", '"' * 80),
        ("FailedBoard", "0"),
        ("ProductTypeId", '"' * 254),
        ("FlippedBoard", "0"),
        ("TopBarcode", '"' * 254),
        ("BottomBarcode", '"' * 254),
        ("Length", MOST),
        ("Width", MOST),
        ("Thickness", MOST),
        ("ConveyorSpeed", MOST),
        ("TopClearanceHeight", MOST),
        ("BottomClearanceHeight", MOST),
        ("Weight", MOST),
        ("WorkOrderId", '"' * 80),
    ),
    board(("Route", "0")),
    board(("Route", "900"), ("BatchId", 'a"&')),
    board(("WorkOrderId", "W"), ("Route", "65535"), ("BatchId", "")),
    board(("BatchId", "b" * 80), by="b"),
    bare(
        "BoardAvailable",
        ("BoardId", MIXED),
        ("BoardIdCreatedBy", '"' * 80),
        ("FailedBoard", "0"),
        ("ProductTypeId", '"' * 254),
        ("FlippedBoard", "0"),
        ("TopBarcode", '"' * 254),
        ("BottomBarcode", '"' * 254),
        ("Length", MOST),
        ("Width", MOST),
        ("Thickness", MOST),
        ("ConveyorSpeed", MOST),
        ("TopClearanceHeight", MOST),
        ("BottomClearanceHeight", MOST),
        ("Weight", MOST),
        ("WorkOrderId", '"' * 80),
        ("Route", "65535"),
        ("BatchId", '"' * 80),
    ),
    start("160.00"),
    start("160"),
    start("0.5"),
    start("0.500"),
    start("1.000000"),
    start("1.234567"),
    start("9999999.000000"),
    forecast(("TimeUntilAvailable", "12.0")),
    board(
        ("Length", "160.00"),
        ("Width", "100.0"),
        ("Thickness", "1.600"),
        ("ConveyorSpeed", "250"),
        ("TopClearanceHeight", "0.500000"),
        ("BottomClearanceHeight", "0.000001"),
        ("Weight", "82.25"),
    ),
]


def tree(line):
    """The elements that expat finds: name, attributes in order, children. Text between tags counts as a child."""
    top = []
    inside = [top]

    def start(name, flat):
        element = (name, list(zip(flat[::2], flat[1::2])), [])
        inside[-1].append(element)
        inside.append(element[2])

    def end(name):
        inside.pop()

    def other(data):
        inside[-1].append(data)

    parser = expat.ParserCreate()
    parser.ordered_attributes = True
    parser.StartElementHandler = start
    parser.EndElementHandler = end
    parser.DefaultHandler = other
    parser.Parse(line, True)
    return top


def compare(number, line, meant):
    """The disagreements of a message, each as a sentence."""
    try:
        found = tree(line)
    except expat.ExpatError as error:
        return [f"message {number}: expat says {error}"]
    whole = [("Hermes", [], [meant])]
    if found == whole:
        return []
    return [f"message {number}: found {found!r}, meant {whole!r}"]


def main():
    with open(sys.argv[1], "rb") as file:
        every = file.read().split(b"\n")
    lines = [line for call, line in zip(every, every[1:]) if call.startswith(b"write 6") and line.startswith(b"<Hermes>")]
    passed = 0
    wrong = []
    for number, (line, meant) in enumerate(zip(lines, MEANT), 1):
        said = compare(number, line, meant)
        passed += not said
        wrong += said
    if len(lines) != len(MEANT):
        wrong.append(f"{len(lines)} messages, {len(MEANT)} meant")
    for sentence in wrong:
        print(sentence)
    print(f"{passed} passed, {len(wrong)} failed")
    sys.exit(1 if wrong else 0)


main()
