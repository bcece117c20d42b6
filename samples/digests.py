#!/usr/bin/env python3
"""Writes what the program run_md5 is to print: the test suite of RFC 1321, appendix A.5, as it stands there; messages about the end of a block,
and logins, by Python's own MD5; and a login that a real client made. The string of a login is the one that 004 draws in 3.1.2.
"""
import hashlib

from wire import text, write

SUITE = [
    'MD5 test suite:',
    'MD5 ("") = d41d8cd98f00b204e9800998ecf8427e',
    'MD5 ("a") = 0cc175b9c0f1b6a831c399e269772661',
    'MD5 ("abc") = 900150983cd24fb0d6963f7d28e17f72',
    'MD5 ("message digest") = f96b697d7cb7938d525a2f31aaf161d0',
    'MD5 ("abcdefghijklmnopqrstuvwxyz") = c3fcd3d76192e4007dfb496cca67e13b',
    'MD5 ("ABCDEFGHIJKLMNOPQRSTUVWXYZabcdefghijklmnopqrstuvwxyz0123456789") = d174ab98d277d9f5a5611c2c9f419d9f',
    'MD5 ("12345678901234567890123456789012345678901234567890123456789012345678901234567890") = 57edf4a22be3c955ac49da2e2107b67a',
]

CHALLENGE = '0123456789ABCDEFGHIJKLMNOPQRSTUVWXYZabcdefghijklmnopqrstuvwxyz-+'

# What ndmjob, a client that others wrote, sent for the challenge that stands in the program.
CLIENT = 'login ("ndmp") = 5da7ac7324b97caf774d6ea4927f57d0'


def md5(message):
    return hashlib.md5(message.encode('ascii')).hexdigest()


def login(password):  # password, zeros up to 128 bytes in all, challenge, password
    zeros = '\0' * (128 - len(CHALLENGE) - 2 * len(password))
    return f'login ("{password}") = {md5(password + zeros + CHALLENGE + password)}'


def main():
    lengths = [f'MD5 of {n} bytes = {md5("m" * n)}' for n in (55, 56, 63, 64, 119, 120, 128)]
    logins = [login(p) for p in ('a', 'moss', '0123456789abcdef0123456789ABCDEF')]
    logins.append(CLIENT)
    write('run_md5/stdout', text(SUITE + lengths + logins))
    print(f'run_md5: {len(SUITE) - 1 + len(lengths) + len(logins)} digests')


main()
