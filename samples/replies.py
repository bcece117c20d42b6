#!/usr/bin/env python3
"""Writes what the program run_replies is to print: replies and notices as they are sent.

The bodies are built from 004's layouts (Appendix C, by the lines named) with the values that papers 01 and 02 give; none is taken from the
program. Of each there is a line with its name and length, then its bytes, seven words to a line: the mark and the header, then the
body. The word aaaaaaaa behind it is the output as it was before.
"""
import struct

from wire import header, listed, marked, opaque, quad, text, word, write


def reply(sequence, time, message, echo, body, error=0):
    return marked(header(sequence, time, 1, message, echo, error) + body)


def notice(sequence, time, message, body):
    return marked(header(sequence, time, 0, message, 0, 0) + body)


LOCAL = word(0)  # ndmp_addr, line 13591: NDMP_ADDR_LOCAL 0, nothing more


def tcp(addresses):  # the same: NDMP_ADDR_TCP 1, then tcp_addr<>
    return word(1) + listed(addresses)


def tcp_addr(address, port, pairs):  # ndmp_tcp_addr, line 13579: ip_addr, port, addr_env<>
    env = [opaque(name) + opaque(value) for name, value in pairs]
    return bytes(int(part) for part in address.split('.')) + word(port) + listed(env)


NONE, MD5 = 0, 2  # ndmp_auth_type, line 13116
CHALLENGE = b'ABCDEFGHIJKLMNOPQRSTUVWXYZabcdefghijklmnopqrstuvwxyz0123456789+/'  # 64 bytes, no two alike


# ---- bodies, by their structures in Appendix C
def error_only(error):  # lines 13111 and 13768, and all others with an error alone
    return word(error)


def listen(error, address):  # lines 13634 and 13790
    return word(error) + address


def connection_type(error, types):  # line 13222
    return word(error) + listed([word(t) for t in types])


def server_info(error, vendor, product, revision, auth_types):  # line 13205
    return word(error) + opaque(vendor) + opaque(product) + opaque(revision) + listed([word(t) for t in auth_types])


def auth_attr(error, kind, challenge=b''):  # line 13233; ndmp_auth_attr, line 13155: behind MD5 opaque challenge[64]
    return word(error, kind) + challenge


def scsi_state(error, controller, device, lun):  # line 13392
    return word(error, controller, device, lun)


def execute_cdb(error, status, out_len, data_in, sense):  # line 13417
    return word(error, status, out_len) + opaque(data_in) + opaque(sense)


def tape_state(unsupported, error, flags, file_num, soft_errors, block_size, blockno, total, remain):  # line 13470
    return word(unsupported, error, flags, file_num, soft_errors, block_size, blockno) + quad(total, remain)


def mtio(error, residue):  # line 13510
    return word(error, residue)


def tape_write(error, count):  # line 13521
    return word(error, count)


def tape_read(error, data):  # line 13533
    return word(error) + opaque(data)


def data_state(unsupported, error, operation, state, reason, processed, est_bytes, est_time, address, offset, length):  # line 13605
    return word(unsupported, error, operation, state, reason) + quad(processed, est_bytes) + word(est_time) + address + quad(offset, length)


def get_env(error, pairs):  # line 13702; a pair is ndmp_pval, line 12955: name and value
    return word(error) + listed([opaque(name) + opaque(value) for name, value in pairs])


def mover_state(error, mode, state, pause, halt, size, number, moved, seek, left, offset, length, address):  # line 13816
    return word(error, mode, state, pause, halt, size, number) + quad(moved, seek, left, offset, length) + address


def halted(reason):  # lines 13862 and 13881
    return word(reason)


def connection_status(reason, version, why):  # line 13874
    return word(reason, version) + opaque(why)


def mover_paused(reason, seek):  # line 13886
    return word(reason) + quad(seek)


# paper 01: "the sense .. With none pending, bytes 2 and 12 are 0."
SENSE = bytes.fromhex('70 00 05 00 00 00 00 0A 00 00 00 00 20 00 00 00 00 00')
NO_SENSE = bytes.fromhex('70 00 00 00 00 00 00 0A 00 00 00 00 00 00 00 00 00 00')



def sense(code, qualifier):  # paper 02, 7: the same with another code and a qualifier
    return SENSE[:12] + bytes([code, qualifier]) + SENSE[14:]


# ---- SMC's READ ELEMENT STATUS: types 1 transport, 2 storage, 4 data transfer; Full is bit 0, Access bit 3
def element(address, flags):  # 12 bytes, no volume tags, no source
    return struct.pack('>H', address) + bytes([flags]) + bytes(9)


def page(kind, elements):
    return bytes([kind, 0, 0, 12]) + word(12 * len(elements)) + b''.join(elements)


def status(first, count, pages):
    return struct.pack('>HH', first, count) + word(sum(map(len, pages))) + b''.join(pages)


TRANSPORT = page(1, [element(0, 0)])
# 9 in the drive, 3 in slot 17, 7 in slot 23
DRIVE = page(4, [element(1, 0x09)])
SLOTS = [element(16, 0x08), element(17, 0x09), element(18, 0x08), element(19, 0x08), element(20, 0x08), element(21, 0x08), element(22, 0x08),
         element(23, 0x09)]
ALL = status(0, 10, [TRANSPORT, DRIVE, page(2, SLOTS)])  # 152 bytes

SAMPLES = [
    # "An unknown message's 1, and 18, stand in the header with no body"
    ('header_unknown', reply(1, 1001, 0x40B, 501, b'', error=1)),
    ('header_bad', reply(4294967295, 0, 0x300, 4294967294, b'', error=18)),
    ('plain', reply(3, 1003, 0x900, 503, error_only(0))),
    ('plain_refused', reply(4, 1004, 0xA05, 504, error_only(26))),
    ('listening', reply(5, 1005, 0x409, 505, listen(0, LOCAL))),
    ('listening_refused', reply(6, 1006, 0xA01, 506, listen(19, LOCAL))),
    # paper 02: "Connection types lists 0 and 1"; refused, the list is empty
    ('connection_types', reply(7, 1007, 0x102, 507, connection_type(0, [0, 1]))),
    ('connection_types_refused', reply(8, 1008, 0x102, 508, connection_type(4, []))),
    # "empty strings before auth, then `vault`, `tape`, `1`"; paper 02: "Server info lists 1 and 2", and later: "Auth type 1 is
    # refused and leaves the server info list"
    ('server_info_before_auth', reply(9, 1009, 0x108, 509, server_info(0, b'', b'', b'', [MD5]))),
    ('server_info', reply(10, 1010, 0x108, 510, server_info(0, b'vault', b'tape', b'1', [MD5]))),
    ('scsi_state', reply(11, 1011, 0x202, 511, scsi_state(0, 0, 0, 0))),
    ('scsi_state_refused', reply(12, 1012, 0x202, 512, scsi_state(6, 0, 0, 0))),
    ('cdb', reply(13, 1013, 0x206, 513, execute_cdb(0, 0, 0, b'', b''))),
    ('cdb_refused', reply(14, 1014, 0x206, 514, execute_cdb(9, 0, 0, b'', b''))),
    # "status 2, and the sense .. is returned as the extended sense, with no data-in; 03h returns it as data-in, with status 0"
    ('check', reply(15, 1015, 0x206, 515, execute_cdb(0, 2, 0, b'', SENSE))),
    ('sense', reply(16, 1016, 0x206, 516, execute_cdb(0, 0, 0, SENSE, b''))),
    ('sense_none', reply(17, 1017, 0x206, 517, execute_cdb(0, 0, 0, NO_SENSE, b''))),
    ('sense_4', reply(18, 1018, 0x206, 518, execute_cdb(0, 0, 0, SENSE[:4], b''))),
    ('sense_13', reply(19, 1019, 0x206, 519, execute_cdb(0, 0, 0, SENSE[:13], b''))),
    ('sense_0', reply(20, 1020, 0x206, 520, execute_cdb(0, 0, 0, b'', b''))),
    # "for TAPE only file number .. and block number .."
    ('tape_state', reply(21, 1021, 0x302, 521, tape_state(0, 0, 0, 2, 0, 0, 3, 0, 0))),
    ('tape_state_refused', reply(22, 1022, 0x302, 522, tape_state(0, 7, 0, 0, 0, 0, 0, 0, 0))),
    ('mtio', reply(23, 1023, 0x303, 523, mtio(0, 0))),
    ('mtio_mark', reply(24, 1024, 0x303, 524, mtio(12, 2))),
    ('wrote', reply(25, 1025, 0x304, 525, tape_write(0, 32768))),
    ('wrote_refused', reply(26, 1026, 0x304, 526, tape_write(13, 0))),
    # of the image abcdefghijkl: five bytes from 3, eight from 4, none
    ('read_5', reply(27, 1027, 0x305, 527, tape_read(0, b'defgh'))),
    ('read_8', reply(28, 1028, 0x305, 528, tape_read(0, b'efghijkl'))),
    ('read_nothing', reply(29, 1029, 0x305, 529, tape_read(0, b''))),
    ('read_refused', reply(30, 1030, 0x305, 530, tape_read(12, b''))),
    # "DATA's two estimates are marked unsupported" (bits 1 and 2, lines 13602 and 13603); refused, all but the error is zero
    ('data_state', reply(31, 1031, 0x400, 531, data_state(1 + 2, 0, 2, 1, 0, 0xFEDCBA9876543210, 0, 0, LOCAL, 0, 0))),
    ('data_state_halted', reply(32, 1032, 0x400, 532, data_state(1 + 2, 0, 1, 2, 4, 3000, 0, 0, LOCAL, 0, 0))),
    ('data_state_refused', reply(33, 1033, 0x400, 533, data_state(0, 4, 0, 0, 0, 0, 0, 0, LOCAL, 0, 0))),
    ('mover_state', reply(34, 1034, 0xA00, 534, mover_state(
        0, 1, 3, 5, 0, 32768, 0x87654321, 0x0123456789ABCDEF, 2**64 - 2, 2**32, 2**64 - 2048, 2**32 - 1024, LOCAL))),
    ('mover_state_refused', reply(35, 1035, 0xA00, 535, mover_state(4, 0, 0, 0, 0, 0, 0, 0, 0, 0, 0, 0, LOCAL))),
    # "A notice is type 0 with reply sequence 0."
    ('connected', notice(1, 1049155200, 0x502, connection_status(0, 4, b''))),
    ('data_halted', notice(37, 1037, 0x501, halted(4))),
    ('mover_halted', notice(38, 1038, 0x503, halted(5))),
    ('mover_paused', notice(39, 1039, 0x504, mover_paused(3, 0x0123456789ABCDEF))),
    # "one reply, then its notices: data first, mover second"
    ('answer', reply(40, 1040, 0x403, 540, error_only(0)) + notice(41, 1040, 0x501, halted(2)) + notice(42, 1040, 0x503, halted(1))),
    # refusals of the layouts that are not above: "other reply fields are zero or empty"
    ('server_info_refused', reply(43, 1043, 0x108, 543, server_info(4, b'', b'', b'', []))),
    ('tape_mtio_refused', reply(44, 1044, 0x303, 544, mtio(19, 0))),
    ('tape_write_refused', reply(45, 1045, 0x304, 545, tape_write(19, 0))),
    ('tape_read_refused', reply(46, 1046, 0x305, 546, tape_read(19, b''))),
    # paper 02: "A listen by TCP answers the XDR list that the host lends with its call; get state gives the type, until
    # stop, with no addresses"
    ('listening_tcp', reply(47, 1047, 0x409, 547, listen(0, tcp([
        tcp_addr('10.0.0.1', 10000, [(b'A', b'1')]), tcp_addr('192.168.1.1', 65535, [])])))),
    ('listening_local_lent_a_list', reply(48, 1048, 0xA01, 548, listen(0, LOCAL))),
    ('data_state_tcp', reply(49, 1049, 0x400, 549, data_state(1 + 2, 0, 1, 1, 0, 0, 0, 0, tcp([]), 0, 0))),
    ('mover_state_tcp', reply(50, 1050, 0xA00, 550, mover_state(
        0, 0, 2, 0, 0, 10240, 7, 71680, 0, 0, 0, 2**64 - 1, tcp([])))),
    # paper 02: "Answer 0x404 from it .., with PATHNAME_SEPARATOR as `/` added, last, when the client gave none"
    ('environment_none', reply(51, 1051, 0x404, 551, get_env(0, [(b'PATHNAME_SEPARATOR', b'/')]))),
    ('environment', reply(52, 1052, 0x404, 552, get_env(
        0, [(b'TYPE', b'tar'), (b'FILESYSTEM', b'/home'), (b'', b''), (b'PATHNAME_SEPARATOR', b'/')]))),
    ('environment_named', reply(53, 1053, 0x404, 553, get_env(0, [(b'PATHNAME_SEPARATOR', b':'), (b'TYPE', b'tar')]))),
    ('environment_refused', reply(54, 1054, 0x404, 554, get_env(19, []))),
    # paper 02: "the auth attribute request (0x103), which gives a 64-byte challenge that the host lends"; "9 for type 1, at
    # 0x103 too", and for all others but MD5
    ('auth_attr_md5', reply(56, 1056, 0x103, 556, auth_attr(0, MD5, CHALLENGE))),
    ('auth_attr_refused', reply(57, 1057, 0x103, 557, auth_attr(9, NONE))),
    # paper 02: "status 2 with sense 05h/24h/00h for a CDB under 12 bytes and, moving, 05h/21h/01h .., 05h/3Bh/0Dh .., 05h/3Bh/0Eh .., 05h/53h/02h .."
    ('check_short', reply(58, 1058, 0x206, 558, execute_cdb(0, 2, 0, b'', sense(0x24, 0x00)))),
    ('check_element', reply(59, 1059, 0x206, 559, execute_cdb(0, 2, 0, b'', sense(0x21, 0x01)))),
    ('check_full', reply(60, 1060, 0x206, 560, execute_cdb(0, 2, 0, b'', sense(0x3B, 0x0D)))),
    ('check_empty', reply(61, 1061, 0x206, 561, execute_cdb(0, 2, 0, b'', sense(0x3B, 0x0E)))),
    ('check_held', reply(62, 1062, 0x206, 562, execute_cdb(0, 2, 0, b'', sense(0x53, 0x02)))),
    ('sense_full_14', reply(63, 1063, 0x206, 563, execute_cdb(0, 0, 0, sense(0x3B, 0x0D)[:14], b''))),
    # "12-byte descriptors by rising address from any start, .. access bits 1 but at the transport; cut to allocation and data-in length"
    ('status_all', reply(64, 1064, 0x206, 564, execute_cdb(0, 0, 0, ALL, b''))),
    ('status_cut_101', reply(65, 1065, 0x206, 565, execute_cdb(0, 0, 0, ALL[:101], b''))),
    ('status_cut_8', reply(66, 1066, 0x206, 566, execute_cdb(0, 0, 0, ALL[:8], b''))),
    ('status_cut_0', reply(67, 1067, 0x206, 567, execute_cdb(0, 0, 0, b'', b''))),
    ('status_drive', reply(68, 1068, 0x206, 568, execute_cdb(0, 0, 0, status(1, 1, [DRIVE]), b''))),
    ('status_from_22', reply(69, 1069, 0x206, 569, execute_cdb(0, 0, 0, status(22, 2, [page(2, SLOTS[6:])]), b''))),
    ('status_none', reply(70, 1070, 0x206, 570, execute_cdb(0, 0, 0, status(0, 0, []), b''))),
    # "10 (no tape loaded) at tape open, after 3"; MTIO 6 is answered as `mtio` above
    ('tape_open_not_loaded', reply(71, 1071, 0x300, 571, error_only(10))),
]


def lines(own, data):
    shown = data + b'\xaa' * 4
    words = [shown[i:i + 4].hex() for i in range(0, len(shown), 4)]
    return [f'{own} {len(data)}'] + [' '.join(words[i:i + 7]) for i in range(0, len(words), 7)]


def main():
    write('run_replies/stdout', text(line for own, data in SAMPLES for line in lines(own, data)))
    print(f'run_replies: {len(SAMPLES)} records')


main()
