"""Makes morning.nfo, the bytes that the card at address 1 hears one morning: the office's queue, with losses and damage.

Usage: make.py > morning.nfo. The bytes are the same every time.
"""
import sys


def enquiry(address, parameter):
    return bytes([0x04, address + 32]) + parameter.encode() + b"\x05"


def select(address, parameter, value):
    body = parameter.encode() + b"=%04X\x03" % (value % 65536)
    bcc = 0
    for byte in body:
        bcc ^= byte
    return bytes([0x04, address + 32, 0x02]) + body + bytes([bcc])


def without(message, place):
    return message[:place] + message[place + 1:]


def damaged(message, place):
    return message[:place] + bytes([message[place] ^ 0x01]) + message[place + 1:]


QUEUE = [
    enquiry(1, "E00E9"),                      # how is the pump? MODE 1: 24, 0018h
    enquiry(2, "E00E9"),                      # the neighbour's question is not ours
    without(enquiry(1, "E00B6"), 4),          # a byte is lost on the radio ..
    enquiry(1, "E00B6"),                      # .. and the office asks again
    select(1, "E001D", 147),                  # Accel 14.7 s: its BCC is 04, like the start of a message
    enquiry(1, "E001D"),
    damaged(select(1, "E001C", 200), 11),     # a damaged write is never taken ..
    enquiry(1, "E001C"),                      # .. so Retard is still 50, 0032h
    b"\x7f\x00\xff hiss \x04",                # noise, that ends like a beginning
    select(1, "E0019", 100),                  # no such parameter: NAK
    select(1, "E0008", 20000),                # P-Nom goes to 10000 only: NAK
    select(1, "E0029", 3),                    # MODE 3, bus control
    select(1, "E00AD", 129),                  # run: but DIN1 is inactive, so NAK
    select(95, "E001D", 60),                  # to all: acts without reply
    enquiry(1, "E001D"),                      # Accel is 60 now, 003Ch
    enquiry(1, "E00E9"),                      # standing at MODE 3: 37, 0025h
    enquiry(1, "E00A9")[:5],                  # the rest of this one never comes
]

if __name__ == "__main__":
    sys.stdout.buffer.write(b"".join(QUEUE))
