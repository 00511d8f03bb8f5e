"""The messages of card.py, and their replies, as bytes on each protocol's line."""
import os
import sys
from collections import namedtuple

from card import ALL, ANOTHER, ROWS, US

sys.path.append(os.path.dirname(os.path.dirname(os.path.abspath(__file__))))
from bad_frames.make import ascii_message, crc

EXCEPTION = {2: 2, 3: 2, 4: 3, 5: 4, 6: 4, 7: 4}
# ADI 19 and register 0258h are no E numbers; the registers beside 0258h, and 19 itself, are no row's
NO_E, NO_REGISTER = [0x0013, 0x0258], [0x0257, 0x0259, 0x0013]


def modbus_unit(draw, message):
    """The data unit of a request: 03 or 04, 06 or 16."""
    register = ROWS[message.name].register if message.name in ROWS else draw.one_of(NO_REGISTER)
    place = register.to_bytes(2, "big")
    if message.number is None:
        return bytes([draw.one_of([3, 4])]) + place + b"\x00\x01"
    word = (message.number % 65536).to_bytes(2, "big")
    return draw.one_of([b"\x06" + place + word, b"\x10" + place + b"\x00\x01\x02" + word])


def modbus_answer(unit, outcome, number):
    """The data unit of the reply."""
    if outcome:
        return bytes([0x80 | unit[0], EXCEPTION[outcome]])
    return unit[:5] if number is None else bytes([unit[0], 2]) + number.to_bytes(2, "big")


def rtu_frame(address, unit):
    body = bytes([address]) + unit
    return body + crc(body)


def ascii_text(address, unit):
    return ascii_message(bytes([address]) + unit)


def with_bcc(body):
    total = 0
    for byte in body:
        total ^= byte
    return b"\x02" + body + bytes([total])


def nfo_unit(draw, message):
    """What follows ADR in an ENQUIRY or a SELECT."""
    parameter = b"E%04X" % (ROWS[message.name].e if message.name in ROWS else draw.one_of(NO_E))
    return parameter + b"\x05" if message.number is None else with_bcc(parameter + b"=%04X\x03" % (message.number % 65536))


def nfo_answer(unit, outcome, number):
    """What follows ADR in a REPLY, an ACK or a NAK."""
    if outcome:
        return b"\x15"
    return b"\x06" if number is None else with_bcc(unit[:5] + b"=%04X\x03" % number)


def nfo_request(address, unit):
    return bytes([0x04, address + 32]) + unit


def nfo_reply(address, answer):
    return bytes([address + 32]) + answer


# whose address is whose; how a request and a reply are written; the longest reply buffer that is too short
Port = namedtuple("Port", "addresses unit answer request reply short")
MODBUS = {US: [1], ALL: [0], ANOTHER: range(2, 248)}
SERIAL = {US: [0, 1], ALL: [95], ANOTHER: range(2, 95)}
PORTS = {
    "rtu": Port(MODBUS, modbus_unit, modbus_answer, rtu_frame, rtu_frame, 255),
    "ascii": Port(MODBUS, modbus_unit, modbus_answer, ascii_text, ascii_text, 512),
    "nfo": Port(SERIAL, nfo_unit, nfo_answer, nfo_request, nfo_reply, 18),
}
