"""XDR (RFC 4506) and NDMP records, for the scripts beside this one. Lines are those of 004, the NDMP version 4 draft."""
import os
import struct
import sys

# what is written goes below crates/, or below the folder that is named
ROOT = sys.argv[1] if len(sys.argv) > 1 else os.path.join(os.path.dirname(os.path.abspath(__file__)), '..', 'crates')


def word(*values):
    """Words: u_long, u_short, short, u_char and enum are each one word (RFC 4506, 4.1 to 4.3)."""
    return b''.join(struct.pack('>I', v) for v in values)


def quad(*values):
    """ndmp_u_quad (line 12961): the high word, then the low one."""
    return b''.join(word(v >> 32, v & 0xFFFFFFFF) for v in values)


def opaque(data, fill=b'\0\0\0'):
    """opaque<> or string<> (RFC 4506, 4.10 and 4.11): the length, the bytes, and fill to a whole word."""
    return word(len(data)) + data + fill[:-len(data) % 4]


def listed(items):
    """A variable-length array (RFC 4506, 4.13): the count, then the elements."""
    return word(len(items)) + b''.join(items)


def header(sequence, time, kind, message, echo, error):
    """ndmp_header (line 13096)."""
    return word(sequence, time, kind, message, echo, error)


def marked(data, top=0x80000000, length=None):
    """A record's mark (RFC 5531, 11): the top bit of the last fragment and the length of what follows."""
    return word(top + (len(data) if length is None else length)) + data


def write(path, data):
    full = os.path.join(ROOT, path)
    os.makedirs(os.path.dirname(full), exist_ok=True)
    with open(full, 'wb') as f:
        f.write(data)


def text(lines):
    return ''.join(line + '\n' for line in lines).encode('ascii')
