#!/usr/bin/env python3
"""Writes records as a host may lend them, two lines for each: its name and its bytes in hex; then = and what it is read as, which the program
run_requests passes over and is to print.

The bodies are built from 004's layouts (Appendix C, by the lines named). Every expected line is written by hand beside its record, from
004 and paper 01; none is taken from the program. A line has the sequence number and the request: numbers in decimal; a text as its
place in the body + its length, and = its bytes where they are at most 32; the pairs of a start request as the place of the first + their number.
"""
import struct

from wire import header, listed, marked, opaque, quad, text, word, write

TIME = 1049155200  # 1 April 2003, in seconds


def request(sequence, message, body=b''):
    return marked(header(sequence, TIME, 0, message, 0, 0) + body)


# ---- bodies of requests, by their structures in Appendix C
def connect_open(version):  # line 13106
    return word(version)


def auth_text(name, password):  # lines 13144 and 13132: NDMP_AUTH_TEXT 1, which is withdrawn
    return word(1) + opaque(name) + opaque(password)


def auth_md5(name, digest):  # lines 13144 and 13138: NDMP_AUTH_MD5 2; a digest of 16 bytes has no length word
    return word(2) + opaque(name) + digest


def auth_attr(kind):  # line 13228
    return word(kind)


def scsi_open(device):  # line 13377
    return opaque(device)


def execute_cdb(flags, timeout, room, cdb, out):  # line 13408
    return word(flags, timeout, room) + opaque(cdb) + opaque(out)


def cdb(room, data):  # the same, with a time of a minute and nothing sent
    return execute_cdb(1, 60000, room, data, b'')


def move_medium(source, to, transport=0, flags=b'\0\0\0\0', lun=0):  # SMC's MOVE MEDIUM, 12 bytes: addresses of two bytes from byte 2 on
    return bytes([0xA5, lun]) + struct.pack('>HHH', transport, source, to) + flags


def element_status(kind, start, count, room, options=0, end=b'\0\0'):  # SMC's READ ELEMENT STATUS, 12 bytes: an allocation of three bytes from byte 7 on
    return bytes([0xB8, kind]) + struct.pack('>HH', start, count) + bytes([options]) + struct.pack('>I', room)[1:] + end


def tape_open(device, mode):  # line 13442
    return opaque(device) + word(mode)


def mtio(op, count):  # line 13504
    return word(op, count)


def tape_write(data):  # line 13516
    return opaque(data)


def tape_read(count):  # line 13528
    return word(count)


def pair(name, value):  # ndmp_pval, line 12955
    return opaque(name) + opaque(value)


def name(path, to, own, other, node, info):  # ndmp_name, line 13661
    return opaque(path) + opaque(to) + opaque(own) + opaque(other) + quad(node, info)


def start_backup(method, pairs):  # line 13650
    return opaque(method) + listed(pairs)


def start_recover(pairs, names, method):  # line 13680
    return listed(pairs) + listed(names) + opaque(method)


def local():  # ndmp_addr, line 13591: NDMP_ADDR_LOCAL 0, nothing more
    return word(0)


def address(ip, port, pairs):  # ndmp_tcp_addr, line 13579
    return word(ip, port) + listed(pairs)


def tcp(addresses):  # line 13591: NDMP_ADDR_TCP 1, a list of addresses
    return word(1) + listed(addresses)


def ipc(data):  # lines 13591 and 13586: NDMP_ADDR_IPC 3
    return word(3) + opaque(data)


def data_listen(kind):  # line 13629
    return word(kind)


def data_connect(address):  # line 13640
    return address


def mover_listen(mode, kind):  # line 13784
    return word(mode, kind)


def mover_connect(mode, address):  # line 13773
    return word(mode) + address


def set_window(offset, length):  # line 13762
    return quad(offset, length)


def mover_read(offset, length):  # line 13805
    return quad(offset, length)


def set_record_size(length):  # line 13752
    return word(length)


P = pair(b'E', b'1')  # 16 bytes
N = name(b'a', b'b', b'', b'', 1, 2)  # 40 bytes
A = address(0xC0000201, 10000, [])  # 12 bytes: 192.0.2.1
AP = address(0xC0000202, 10001, [P])  # 28 bytes
W = bytes(i % 251 for i in range(36837))
DIGEST = bytes(range(16))
CLOSE = header(1, TIME, 0, 0x902, 0, 0)  # a request with no body

# name, record, expected
HANDLED = [
    # every handled message (004, line 13015, the numbers) with a good body
    ('connect_open', request(1, 0x900, connect_open(4)), '1 CONNECT_OPEN version 4'),
    ('connect_client_auth', request(2, 0x901, auth_md5(b'vault', DIGEST)),
     '2 CONNECT_CLIENT_AUTH id 8+5=7661756c74 digest 16+16=000102030405060708090a0b0c0d0e0f'),
    ('connect_close', request(3, 0x902), '3 CONNECT_CLOSE'),
    ('config_get_connection_type', request(4, 0x102), '4 CONFIG_GET_CONNECTION_TYPE'),
    ('config_get_auth_attr', request(308, 0x103, auth_attr(2)), '308 CONFIG_GET_AUTH_ATTR type 2'),
    ('config_get_server_info', request(5, 0x108), '5 CONFIG_GET_SERVER_INFO'),
    ('scsi_open', request(6, 0x200, scsi_open(b'changer0')), '6 SCSI_OPEN device 4+8=6368616e67657230'),
    ('scsi_close', request(7, 0x201), '7 SCSI_CLOSE'),
    ('scsi_get_state', request(8, 0x202), '8 SCSI_GET_STATE'),
    ('scsi_reset_device', request(9, 0x204), '9 SCSI_RESET_DEVICE'),
    ('scsi_execute_cdb', request(10, 0x206, execute_cdb(1, 60000, 18, b'\x03\0\0\0\x12\0', b'')),
     '10 SCSI_EXECUTE_CDB cdb 16+6=030000001200 datain_len 18'),
    ('tape_open', request(11, 0x300, tape_open(b'tape0', 1)), '11 TAPE_OPEN device 4+5=7461706530 mode 1'),
    ('tape_close', request(12, 0x301), '12 TAPE_CLOSE'),
    ('tape_get_state', request(13, 0x302), '13 TAPE_GET_STATE'),
    ('tape_mtio', request(14, 0x303, mtio(2, 3)), '14 TAPE_MTIO op 2 count 3'),
    ('tape_write', request(15, 0x304, tape_write(b'hello')), '15 TAPE_WRITE data 4+5=68656c6c6f'),
    ('tape_read', request(16, 0x305, tape_read(1024)), '16 TAPE_READ count 1024'),
    ('data_get_state', request(17, 0x400), '17 DATA_GET_STATE'),
    ('data_start_backup', request(18, 0x401, start_backup(b'dump', [pair(b'FILESYSTEM', b'/vol'), pair(b'LEVEL', b'0')])),
     '18 DATA_START_BACKUP method 4+4=64756d70 pairs 12+2'),
    ('data_start_recover', request(19, 0x402, start_recover([pair(b'HIST', b'y')], [name(b'/a/b', b'/r', b'b', b'', 5, 6)], b'dump')),
     '19 DATA_START_RECOVER method 72+4=64756d70 pairs 4+1'),
    ('data_abort', request(20, 0x403), '20 DATA_ABORT'),
    ('data_get_env', request(293, 0x404), '293 DATA_GET_ENV'),
    ('data_stop', request(21, 0x407), '21 DATA_STOP'),
    ('data_listen', request(22, 0x409, data_listen(0)), '22 DATA_LISTEN address 0'),
    ('data_connect', request(23, 0x40A, data_connect(local())), '23 DATA_CONNECT address 0 addresses 0'),
    ('mover_get_state', request(24, 0xA00), '24 MOVER_GET_STATE'),
    ('mover_listen', request(25, 0xA01, mover_listen(1, 0)), '25 MOVER_LISTEN mode 1 address 0'),
    ('mover_continue', request(26, 0xA02), '26 MOVER_CONTINUE'),
    ('mover_abort', request(27, 0xA03), '27 MOVER_ABORT'),
    ('mover_stop', request(28, 0xA04), '28 MOVER_STOP'),
    ('mover_set_window', request(29, 0xA05, set_window(2048, 1024)), '29 MOVER_SET_WINDOW offset 2048 length 1024'),
    ('mover_read', request(30, 0xA06, mover_read(512, 1536)), '30 MOVER_READ offset 512 length 1536'),
    ('mover_close', request(31, 0xA07), '31 MOVER_CLOSE'),
    ('mover_set_record_size', request(32, 0xA08, set_record_size(1024)), '32 MOVER_SET_RECORD_SIZE len 1024'),
    ('mover_connect', request(33, 0xA09, mover_connect(1, local())), '33 MOVER_CONNECT mode 1 address 0 addresses 0'),
]

# paper 01: "Length, without the mark, 24 to 36,864. A record that breaks this, or whose length plus 4 isn't the lent input's, closes"
FRAMES = [
    ('input_empty', b'', 'broken'),
    ('input_3', b'\x80\0\0', 'broken'),
    ('input_4', marked(b''), 'broken'),
    ('length_23', marked(CLOSE[:23]), 'broken'),
    ('length_23_in_28', marked(CLOSE, length=23), 'broken'),
    ('length_24', marked(CLOSE), '1 CONNECT_CLOSE'),
    ('length_25_in_28', marked(CLOSE, length=25), 'broken'),
    ('input_27', marked(CLOSE)[:27], 'broken'),
    ('input_29', marked(CLOSE) + b'\0', 'broken'),
    ('input_two_records', marked(CLOSE) + marked(CLOSE), 'broken'),
    ('length_0_in_28', marked(CLOSE, length=0), 'broken'),
    ('mark_no_top_bit', marked(CLOSE, top=0), 'broken'),
    ('mark_all_ones', marked(CLOSE, length=0x7FFFFFFF), 'broken'),
    # the body of 36,840 bytes: a length word and 36,836 bytes
    ('length_36864', request(40, 0x304, tape_write(W[:36836])), '40 TAPE_WRITE data 4+36836'),
    ('length_36865', request(41, 0x304, tape_write(W[:36836]) + b'\0'), 'broken'),
    ('length_36864_in_36869', request(42, 0x304, tape_write(W[:36836])) + b'\0', 'broken'),
    # "Type other than 0: ignored"; the frame comes first
    ('type_1', marked(header(43, TIME, 1, 0x900, 1, 0) + word(0)), 'not a request'),
    ('type_7', marked(header(44, TIME, 7, 0x900, 0, 0) + connect_open(4)), 'not a request'),
    ('type_all_ones', marked(header(45, TIME, 0xFFFFFFFF, 0x900, 0, 0) + connect_open(4)), 'not a request'),
    ('type_256', marked(header(46, TIME, 256, 0x900, 0, 0) + connect_open(4)), 'not a request'),
    ('type_1_unknown_odd', marked(header(47, TIME, 1, 0x405, 0, 0) + b'\x01'), 'not a request'),
    ('type_1_no_top_bit', marked(header(48, TIME, 1, 0x900, 1, 0), top=0), 'broken'),
    # "Request sequence numbers are echoed, not judged"; so are time stamp, reply sequence and error
    ('sequence_0', marked(header(0, 0, 0, 0x108, 0, 0)), '0 CONFIG_GET_SERVER_INFO'),
    ('header_unjudged', marked(header(4294967295, 4294967295, 0, 0x108, 7, 9)), '4294967295 CONFIG_GET_SERVER_INFO'),
]

# "message number not listed above as handled"
UNKNOWN = [
    ('unknown_data_405', request(50, 0x405), '50 unknown 0x405'),
    ('unknown_notify_data_halted', request(51, 0x501, word(1)), '51 unknown 0x501'),
    ('unknown_notify_connection_status', request(52, 0x502, word(0, 4, 0)), '52 unknown 0x502'),
    ('unknown_notify_mover_halted', request(53, 0x503, word(1)), '53 unknown 0x503'),
    ('unknown_notify_mover_paused', request(54, 0x504, word(1) + quad(0)), '54 unknown 0x504'),
    ('unknown_connect_server_auth', request(55, 0x903, word(0)), '55 unknown 0x903'),
    ('unknown_config_get_host_info', request(56, 0x100), '56 unknown 0x100'),
    ('unknown_config_set_ext_list', request(57, 0x109, word(0)), '57 unknown 0x109'),
    ('unknown_scsi_203', request(58, 0x203), '58 unknown 0x203'),
    ('unknown_scsi_205', request(59, 0x205), '59 unknown 0x205'),
    ('unknown_tape_execute_cdb', request(60, 0x307), '60 unknown 0x307'),
    ('unknown_data_408', request(61, 0x408), '61 unknown 0x408'),
    ('unknown_data_recover_filehist', request(62, 0x40B), '62 unknown 0x40b'),
    ('unknown_mover_a0a', request(63, 0xA0A), '63 unknown 0xa0a'),
    ('unknown_0', request(64, 0), '64 unknown 0x000'),
    ('unknown_10900', request(65, 0x10900, connect_open(4)), '65 unknown 0x10900'),
    ('unknown_all_ones', request(66, 0xFFFFFFFF), '66 unknown 0xffffffff'),
    ('unknown_odd', request(67, 0x406, b'\x01\x02\x03'), '67 unknown 0x406'),
]

# "Bytes left over make error 18, except after an address type other than 0 or an auth type other than 1: there the rest is not read."
# (paper 02, 14: "type 1 no longer leaves bytes unread", of address types; 2: "9 for a type other than 1 and 2, its rest unread"; and 10: "9 for type
# 1, at 0x103 too, its rest unread")
CONNECT = [
    ('open_65540', request(70, 0x900, connect_open(65540)), '70 CONNECT_OPEN version 65540'),
    ('open_all_ones', request(71, 0x900, connect_open(4294967295)), '71 CONNECT_OPEN version 4294967295'),
    ('open_empty', request(72, 0x900), '72 bad'),
    ('open_3', request(73, 0x900, connect_open(4)[:3]), '73 bad'),
    ('open_5', request(74, 0x900, connect_open(4) + b'\0'), '74 bad'),
    ('open_8', request(75, 0x900, connect_open(4) + word(0)), '75 bad'),
    ('auth_none', request(76, 0x901, word(0)), '76 CONNECT_CLIENT_AUTH other'),
    ('auth_none_rubbish', request(77, 0x901, word(0) + b'\xff'), '77 CONNECT_CLIENT_AUTH other'),
    ('auth_md5', request(78, 0x901, auth_md5(b'admin', DIGEST)),
     '78 CONNECT_CLIENT_AUTH id 8+5=61646d696e digest 16+16=000102030405060708090a0b0c0d0e0f'),
    ('auth_md5_bare', request(79, 0x901, word(2)), '79 bad'),
    ('auth_md5_rubbish', request(80, 0x901, word(2) + b'\xff\xff\xff\xff\xff'), '80 bad'),
    ('auth_type_all_ones', request(81, 0x901, word(4294967295)), '81 CONNECT_CLIENT_AUTH other'),
    ('auth_empty', request(82, 0x901), '82 bad'),
    ('auth_type_cut', request(83, 0x901, word(2)[:3]), '83 bad'),
    ('auth_text', request(337, 0x901, auth_text(b'admin', b'secret')), '337 CONNECT_CLIENT_AUTH other'),
    ('auth_text_bare', request(84, 0x901, word(1)), '84 CONNECT_CLIENT_AUTH other'),
    ('auth_text_no_password', request(85, 0x901, word(1) + opaque(b'admin')), '85 CONNECT_CLIENT_AUTH other'),
    ('auth_text_password_cut', request(86, 0x901, word(1) + opaque(b'admin') + word(6) + b'secr'), '86 CONNECT_CLIENT_AUTH other'),
    ('auth_text_password_no_fill', request(87, 0x901, auth_text(b'admin', b'secret')[:-2]), '87 CONNECT_CLIENT_AUTH other'),
    ('auth_text_left_over', request(88, 0x901, auth_text(b'admin', b'secret') + word(0)), '88 CONNECT_CLIENT_AUTH other'),
    ('auth_text_left_over_1', request(338, 0x901, auth_text(b'admin', b'secret') + b'\0'), '338 CONNECT_CLIENT_AUTH other'),
    ('auth_text_empty_texts', request(89, 0x901, auth_text(b'', b'')), '89 CONNECT_CLIENT_AUTH other'),
    ('auth_text_rubbish', request(339, 0x901, word(1) + b'\xff\xfe\xfd'), '339 CONNECT_CLIENT_AUTH other'),
    ('auth_text_length_all_ones', request(340, 0x901, word(1, 0xFFFFFFFF)), '340 CONNECT_CLIENT_AUTH other'),
    ('auth_text_cut', request(341, 0x901, word(1)[:3]), '341 bad'),
    ('auth_any_bytes', request(90, 0x901, auth_md5(b'a\0b', b'\xff\x80\n\0' * 4)),
     '90 CONNECT_CLIENT_AUTH id 8+3=610062 digest 12+16=ff800a00ff800a00ff800a00ff800a00'),
    # paper 02, 6: "Fill bytes that are not zero, after any string or opaque field we read, shall not decode."
    ('auth_fill_not_zero', request(91, 0x901, word(2) + opaque(b'admin', b'\xff\xff\xff') + DIGEST), '91 bad'),
]

# a body on a message without arguments
BARE = [
    ('body_on_connect_close', request(100, 0x902, b'\0'), '100 bad'),
    ('word_on_connect_close', request(101, 0x902, word(0)), '101 bad'),
    ('body_on_connection_type', request(102, 0x102, b'\0'), '102 bad'),
    ('body_on_server_info', request(103, 0x108, b'\0'), '103 bad'),
    ('body_on_scsi_close', request(104, 0x201, b'\0'), '104 bad'),
    ('body_on_scsi_get_state', request(105, 0x202, b'\0'), '105 bad'),
    ('body_on_scsi_reset_device', request(106, 0x204, b'\0'), '106 bad'),
    ('body_on_tape_close', request(107, 0x301, b'\0'), '107 bad'),
    ('body_on_tape_get_state', request(108, 0x302, b'\0'), '108 bad'),
    ('body_on_data_get_state', request(109, 0x400, b'\0'), '109 bad'),
    ('body_on_data_abort', request(110, 0x403, b'\0'), '110 bad'),
    ('body_on_data_get_env', request(294, 0x404, b'\0'), '294 bad'),
    ('word_on_data_get_env', request(295, 0x404, word(0)), '295 bad'),
    ('body_on_data_stop', request(111, 0x407, b'\0'), '111 bad'),
    ('body_on_mover_get_state', request(112, 0xA00, b'\0'), '112 bad'),
    ('body_on_mover_continue', request(113, 0xA02, b'\0'), '113 bad'),
    ('body_on_mover_abort', request(114, 0xA03, b'\0'), '114 bad'),
    ('body_on_mover_stop', request(115, 0xA04, b'\0'), '115 bad'),
    ('body_on_mover_close', request(116, 0xA07, b'\0'), '116 bad'),
]

SCSI = [
    ('text_no_fill', request(120, 0x200, word(5) + b'tape0'), '120 bad'),
    ('text_fill_short', request(121, 0x200, word(5) + b'tape0\0\0'), '121 bad'),
    ('text_fill_not_zero', request(122, 0x200, opaque(b'tape0', b'\xff\xff\xff')), '122 bad'),
    ('text_left_over_1', request(123, 0x200, scsi_open(b'tape0') + b'\0'), '123 bad'),
    ('text_left_over_4', request(124, 0x200, scsi_open(b'tape0') + word(0)), '124 bad'),
    ('text_empty', request(125, 0x200, scsi_open(b'')), '125 SCSI_OPEN device 4+0='),
    ('text_missing', request(126, 0x200), '126 bad'),
    ('text_length_cut', request(127, 0x200, word(0)[:3]), '127 bad'),
    # filled up to whole words these lengths are 2^32, or 2^32 with the length word: 0 in 32 bits
    ('text_length_all_ones', request(128, 0x200, word(0xFFFFFFFF)), '128 bad'),
    ('text_length_all_ones_more', request(129, 0x200, word(0xFFFFFFFF) + b'changer0'), '129 bad'),
    ('text_length_less_4', request(130, 0x200, word(0xFFFFFFFC)), '130 bad'),
    ('text_length_less_4_more', request(131, 0x200, word(0xFFFFFFFC) + b'changer0'), '131 bad'),
    ('text_length_2_31', request(132, 0x200, word(0x80000000) + b'changer0'), '132 bad'),
    ('text_length_one_more', request(133, 0x200, word(9) + b'changer0'), '133 bad'),
    ('cdb_out', request(134, 0x206, execute_cdb(2, 0, 0, b'\x1b', b'abc')), '134 SCSI_EXECUTE_CDB cdb 16+1=1b datain_len 0'),
    ('cdb_empty', request(135, 0x206, execute_cdb(0, 0, 4294967295, b'', b'')), '135 SCSI_EXECUTE_CDB cdb 16+0= datain_len 4294967295'),
    ('cdb_17', request(136, 0x206, execute_cdb(0, 0, 0, bytes(range(17)), b'')),
     '136 SCSI_EXECUTE_CDB cdb 16+17=000102030405060708090a0b0c0d0e0f10 datain_len 0'),
    ('cdb_no_room', request(137, 0x206, word(0, 0)), '137 bad'),
    ('cdb_no_cdb', request(138, 0x206, word(0, 0, 0)), '138 bad'),
    ('cdb_no_out', request(139, 0x206, word(0, 0, 0) + opaque(b'\0' * 6)), '139 bad'),
    ('cdb_no_fill', request(140, 0x206, word(0, 0, 0, 6) + b'\0' * 6), '140 bad'),
    ('cdb_left_over', request(141, 0x206, execute_cdb(0, 0, 0, b'\0' * 6, b'') + word(0)), '141 bad'),
    ('cdb_out_too_long', request(142, 0x206, word(0, 0, 0) + opaque(b'\0' * 6) + word(5) + b'abcd'), '142 bad'),
]

TAPE = [
    ('tape_open_mode_7', request(150, 0x300, tape_open(b'other', 7)), '150 TAPE_OPEN device 4+5=6f74686572 mode 7'),
    ('tape_open_no_mode', request(151, 0x300, opaque(b'tape0')), '151 bad'),
    ('tape_open_mode_cut', request(152, 0x300, tape_open(b'tape0', 1)[:-1]), '152 bad'),
    ('tape_open_no_fill', request(153, 0x300, word(5) + b'tape0' + word(1)), '153 bad'),
    ('tape_open_left_over', request(154, 0x300, tape_open(b'tape0', 1) + word(0)), '154 bad'),
    ('mtio_all_ones', request(155, 0x303, mtio(4294967295, 4294967295)), '155 TAPE_MTIO op 4294967295 count 4294967295'),
    ('mtio_4', request(156, 0x303, word(4)), '156 bad'),
    ('mtio_7', request(157, 0x303, mtio(4, 0)[:7]), '157 bad'),
    ('mtio_12', request(158, 0x303, mtio(4, 0) + word(0)), '158 bad'),
    ('write_nothing', request(159, 0x304, tape_write(b'')), '159 TAPE_WRITE data 4+0='),
    ('write_33', request(160, 0x304, tape_write(W[:33])), '160 TAPE_WRITE data 4+33'),
    ('write_no_length', request(161, 0x304), '161 bad'),
    ('write_short', request(162, 0x304, word(8) + b'abcd'), '162 bad'),
    ('write_32769', request(163, 0x304, tape_write(W[:32769])), '163 TAPE_WRITE data 4+32769'),
    ('read_all_ones', request(164, 0x305, tape_read(4294967295)), '164 TAPE_READ count 4294967295'),
    ('read_2', request(165, 0x305, b'\0\0'), '165 bad'),
    ('read_8', request(166, 0x305, tape_read(0) + word(0)), '166 bad'),
]

# "At most 64 environment pairs and 64 names in a start request; more is error 18."
DATA = [
    ('backup_no_pairs', request(170, 0x401, start_backup(b'tar', [])), '170 DATA_START_BACKUP method 4+3=746172 pairs 12+0'),
    ('backup_64_pairs', request(171, 0x401, start_backup(b'dump', [P] * 64)), '171 DATA_START_BACKUP method 4+4=64756d70 pairs 12+64'),
    ('backup_65_pairs', request(172, 0x401, start_backup(b'dump', [P] * 65)), '172 bad'),
    ('backup_count_65_only', request(173, 0x401, opaque(b'dump') + word(65)), '173 bad'),
    ('backup_count_all_ones', request(174, 0x401, opaque(b'dump') + word(4294967295)), '174 bad'),
    ('backup_64_of_65', request(175, 0x401, opaque(b'dump') + word(64) + P * 65), '175 bad'),
    ('backup_63_of_64', request(176, 0x401, opaque(b'dump') + word(64) + P * 63), '176 bad'),
    ('backup_no_value', request(177, 0x401, opaque(b'dump') + word(1) + opaque(b'E')), '177 bad'),
    ('backup_no_list', request(178, 0x401, opaque(b'dump')), '178 bad'),
    ('backup_empty', request(179, 0x401), '179 bad'),
    ('backup_pair_fill_not_zero', request(180, 0x401, opaque(b'dump') + word(1) + opaque(b'E', b'abc') + opaque(b'1', b'def')), '180 bad'),
    ('backup_pair_no_fill', request(181, 0x401, opaque(b'dump') + word(1) + opaque(b'E') + word(1) + b'1'), '181 bad'),
    ('backup_pair_length_all_ones', request(182, 0x401, opaque(b'dump') + word(1) + opaque(b'E') + word(0xFFFFFFFF)), '182 bad'),
    ('backup_pair_length_less_4', request(183, 0x401, opaque(b'dump') + word(1) + word(0xFFFFFFFC) + word(0)), '183 bad'),
    ('recover_no_names', request(184, 0x402, start_recover([], [], b'dump')), '184 DATA_START_RECOVER method 12+4=64756d70 pairs 4+0'),
    # 4 + 64 * 16 and 4 + 64 * 40 stand before the method's length
    ('recover_64_64', request(185, 0x402, start_recover([P] * 64, [N] * 64, b'dump')),
     '185 DATA_START_RECOVER method 3596+4=64756d70 pairs 4+64'),
    ('recover_65_pairs', request(186, 0x402, start_recover([P] * 65, [N], b'dump')), '186 bad'),
    ('recover_65_names', request(187, 0x402, start_recover([P], [N] * 65, b'dump')), '187 bad'),
    ('recover_count_65_only', request(188, 0x402, word(0, 65)), '188 bad'),
    ('recover_count_all_ones', request(189, 0x402, word(0, 4294967295)), '189 bad'),
    ('recover_63_names_of_64', request(190, 0x402, listed([P]) + word(64) + N * 63), '190 bad'),
    ('recover_name_cut', request(191, 0x402, word(0, 1) + N[:-4]), '191 bad'),
    ('recover_name_three_texts', request(192, 0x402, word(0, 1) + opaque(b'a') * 3 + quad(1, 2) + opaque(b'dump')), '192 bad'),
    ('recover_no_method', request(193, 0x402, listed([P]) + listed([N])), '193 bad'),
    ('recover_method_no_fill', request(194, 0x402, listed([P]) + listed([N]) + word(3) + b'tar'), '194 bad'),
    ('recover_left_over', request(195, 0x402, start_recover([P], [N], b'dump') + b'\0'), '195 bad'),
    ('recover_empty', request(196, 0x402), '196 bad'),
    ('data_listen_tcp', request(197, 0x409, data_listen(1)), '197 DATA_LISTEN address 1'),
    ('data_listen_tcp_rubbish', request(198, 0x409, data_listen(1) + b'\xff\xfe\xfd'), '198 bad'),
    ('data_listen_left_over', request(199, 0x409, data_listen(0) + word(0)), '199 bad'),
    ('data_listen_left_over_1', request(200, 0x409, data_listen(0) + b'\0'), '200 bad'),
    ('data_listen_empty', request(201, 0x409), '201 bad'),
    ('data_connect_tcp', request(202, 0x40A, data_connect(tcp([A]))), '202 DATA_CONNECT address 1 addresses 1'),
    ('data_connect_tcp_rubbish', request(203, 0x40A, word(1) + b'\xff\xff\xff\xff\xff'), '203 bad'),
    ('data_connect_ipc', request(204, 0x40A, data_connect(ipc(b'abc'))), '204 DATA_CONNECT address 3 addresses 0'),
    ('data_connect_all_ones', request(205, 0x40A, word(4294967295)), '205 DATA_CONNECT address 4294967295 addresses 0'),
    ('data_connect_left_over', request(206, 0x40A, data_connect(local()) + word(0)), '206 bad'),
    ('data_connect_cut', request(207, 0x40A, local()[:3]), '207 bad'),
]

MOVER = [
    ('mover_listen_tcp', request(210, 0xA01, mover_listen(9, 1)), '210 MOVER_LISTEN mode 9 address 1'),
    ('mover_listen_tcp_rubbish', request(211, 0xA01, mover_listen(0, 1) + b'\xff'), '211 bad'),
    ('mover_listen_left_over', request(212, 0xA01, mover_listen(0, 0) + word(0)), '212 bad'),
    ('mover_listen_no_address', request(213, 0xA01, word(1)), '213 bad'),
    ('mover_listen_address_cut', request(214, 0xA01, mover_listen(0, 1)[:7]), '214 bad'),
    ('mover_listen_empty', request(215, 0xA01), '215 bad'),
    ('mover_connect_tcp', request(216, 0xA09, mover_connect(0, tcp([AP]))), '216 MOVER_CONNECT mode 0 address 1 addresses 1'),
    ('mover_connect_tcp_rubbish', request(217, 0xA09, mover_connect(2, word(1)) + b'\xff\xff'), '217 bad'),
    ('mover_connect_left_over', request(218, 0xA09, mover_connect(0, local()) + b'\0'), '218 bad'),
    ('mover_connect_no_address', request(219, 0xA09, word(0)), '219 bad'),
    ('window_high', request(220, 0xA05, set_window(18446744073709549568, 1024)),
     '220 MOVER_SET_WINDOW offset 18446744073709549568 length 1024'),
    ('window_all_ones', request(221, 0xA05, set_window(18446744073709551615, 18446744073709551615)),
     '221 MOVER_SET_WINDOW offset 18446744073709551615 length 18446744073709551615'),
    ('window_high_words', request(222, 0xA05, set_window(4294967296, 8589934593)),
     '222 MOVER_SET_WINDOW offset 4294967296 length 8589934593'),
    ('window_12', request(223, 0xA05, word(0, 0, 0)), '223 bad'),
    ('window_15', request(224, 0xA05, set_window(0, 1024)[:15]), '224 bad'),
    ('window_20', request(225, 0xA05, set_window(0, 1024) + word(0)), '225 bad'),
    ('mover_read_high_words', request(226, 0xA06, mover_read(18446744073709551614, 4294967295)),
     '226 MOVER_READ offset 18446744073709551614 length 4294967295'),
    ('mover_read_8', request(227, 0xA06, quad(1024)), '227 bad'),
    ('mover_read_17', request(228, 0xA06, mover_read(0, 1024) + b'\0'), '228 bad'),
    ('record_size_all_ones', request(229, 0xA08, set_record_size(4294967295)), '229 MOVER_SET_RECORD_SIZE len 4294967295'),
    ('record_size_empty', request(230, 0xA08), '230 bad'),
    ('record_size_8', request(231, 0xA08, set_record_size(1024) + word(0)), '231 bad'),
]

CDB = b'\x03\0\0\0\x12\0'


def recover_of(*texts):  # a recover of one name, by its four texts
    return listed([]) + listed([b''.join(texts) + quad(1, 2)]) + opaque(b'dump')


# paper 02, 6: one byte of fill set, in each field that is read and in each place; where the rest is not read, neither is its fill
FILL = [
    ('fill_auth_id_last_of_three', request(232, 0x901, word(2) + opaque(b'admin', b'\0\0\1') + DIGEST), '232 bad'),
    ('fill_auth_id_of_one', request(233, 0x901, word(2) + opaque(b'adm', b'\1') + DIGEST), '233 bad'),
    ('fill_scsi_device_of_one', request(234, 0x200, opaque(b'changer', b'\1')), '234 bad'),
    ('fill_cdb_first_of_two', request(235, 0x206, word(1, 2, 18) + opaque(CDB, b'\1\0') + opaque(b'')), '235 bad'),
    ('fill_cdb_data_out_middle_of_three', request(236, 0x206, word(1, 2, 18) + opaque(CDB) + opaque(b'x', b'\0\1\0')), '236 bad'),
    ('fill_tape_device', request(237, 0x300, opaque(b'tape0', b'\1\0\0') + word(1)), '237 bad'),
    ('fill_tape_write_of_one', request(238, 0x304, opaque(b'abc', b'\1')), '238 bad'),
    ('fill_tape_write_last_of_two', request(239, 0x304, opaque(b'ab', b'\0\1')), '239 bad'),
    ('fill_tape_write_last_of_three', request(240, 0x304, opaque(b'abcde', b'\0\0\1')), '240 bad'),
    ('fill_backup_method', request(241, 0x401, opaque(b'dumps', b'\0\0\1') + listed([])), '241 bad'),
    ('fill_backup_pair_name', request(242, 0x401, start_backup(b'dump', [opaque(b'A', b'\1\0\0') + opaque(b'BC')])), '242 bad'),
    ('fill_recover_pair_value', request(243, 0x402, start_recover([opaque(b'A') + opaque(b'BC', b'\0\1')], [], b'dump')), '243 bad'),
    ('fill_recover_name_first', request(244, 0x402, recover_of(opaque(b'a', b'\0\1\0'), word(0, 0, 0))), '244 bad'),
    ('fill_recover_name_second', request(245, 0x402, recover_of(word(0), opaque(b'ab', b'\1\0'), word(0, 0))), '245 bad'),
    ('fill_recover_name_third', request(246, 0x402, recover_of(word(0, 0), opaque(b'abc', b'\1'), word(0))), '246 bad'),
    ('fill_recover_name_fourth', request(247, 0x402, recover_of(word(0, 0, 0), opaque(b'abcde', b'\0\0\1'))), '247 bad'),
    ('fill_recover_method', request(248, 0x402, listed([]) + listed([]) + opaque(b'dum', b'\1')), '248 bad'),
    ('fill_behind_auth_type_unread', request(249, 0x901, word(3) + opaque(b'admin', b'\0\0\1')), '249 CONNECT_CLIENT_AUTH other'),
    ('fill_of_auth_text_id_unread', request(342, 0x901, word(1) + opaque(b'admin', b'\0\0\1') + opaque(b'noon')), '342 CONNECT_CLIENT_AUTH other'),
    ('fill_of_auth_text_password_unread', request(343, 0x901, word(1) + opaque(b'admin') + opaque(b'secret', b'\0\1')),
     '343 CONNECT_CLIENT_AUTH other'),
    ('fill_behind_address_type_unread', request(250, 0x409, data_listen(3) + opaque(b'a', b'\0\0\1')), '250 DATA_LISTEN address 3'),
]


def with_port(port):
    return tcp([A, address(0xC0000201, port, [])])


def with_pairs(count):
    return tcp([address(0xC0000201, 10000, [P] * count), A])


# paper 02, 14: "lists of up to 16 addresses, each with up to 64 environment pairs (more, or a port above 65,535, is 18)"; "type 1 no longer leaves
# bytes unread". An empty list decodes.
TCP = [
    ('data_listen_tcp_left_over_1', request(251, 0x409, data_listen(1) + b'\0'), '251 bad'),
    ('data_listen_tcp_left_over_4', request(252, 0x409, data_listen(1) + word(0)), '252 bad'),
    ('data_listen_tcp_addresses', request(253, 0x409, tcp([A])), '253 bad'),
    ('data_listen_2_rubbish', request(254, 0x409, data_listen(2) + b'\xff\xfe\xfd'), '254 DATA_LISTEN address 2'),
    ('data_connect_tcp_0', request(255, 0x40A, data_connect(tcp([]))), '255 DATA_CONNECT address 1 addresses 0'),
    ('data_connect_tcp_16', request(256, 0x40A, data_connect(tcp([A] * 16))), '256 DATA_CONNECT address 1 addresses 16'),
    ('data_connect_tcp_17', request(257, 0x40A, data_connect(tcp([A] * 17))), '257 bad'),
    ('data_connect_tcp_count_17_only', request(258, 0x40A, word(1, 17)), '258 bad'),
    ('data_connect_tcp_count_all_ones', request(259, 0x40A, word(1, 4294967295) + A), '259 bad'),
    ('data_connect_tcp_15_of_16', request(260, 0x40A, word(1, 16) + A * 15), '260 bad'),
    ('data_connect_tcp_16_of_17', request(261, 0x40A, word(1, 16) + A * 17), '261 bad'),
    ('data_connect_tcp_64_pairs', request(262, 0x40A, data_connect(with_pairs(64))), '262 DATA_CONNECT address 1 addresses 2'),
    ('data_connect_tcp_65_pairs', request(263, 0x40A, data_connect(with_pairs(65))), '263 bad'),
    ('data_connect_tcp_count_65_pairs', request(264, 0x40A, word(1, 1, 0, 0, 65)), '264 bad'),
    ('data_connect_tcp_16_of_64_pairs', request(265, 0x40A, data_connect(tcp([address(1, 1, [P] * 64)] * 16))), '265 DATA_CONNECT address 1 addresses 16'),
    ('data_connect_tcp_port_65535', request(266, 0x40A, data_connect(with_port(65535))), '266 DATA_CONNECT address 1 addresses 2'),
    ('data_connect_tcp_port_65536', request(267, 0x40A, data_connect(with_port(65536))), '267 bad'),
    ('data_connect_tcp_port_all_ones', request(268, 0x40A, data_connect(with_port(4294967295))), '268 bad'),
    ('data_connect_tcp_port_0_host_all_ones', request(269, 0x40A, data_connect(tcp([address(4294967295, 0, [])]))), '269 DATA_CONNECT address 1 addresses 1'),
    ('data_connect_tcp_left_over_1', request(270, 0x40A, data_connect(tcp([A])) + b'\0'), '270 bad'),
    ('data_connect_tcp_left_over_4', request(271, 0x40A, data_connect(tcp([A])) + word(0)), '271 bad'),
    ('data_connect_tcp_bare', request(272, 0x40A, word(1)), '272 bad'),
    ('data_connect_tcp_no_pairs_word', request(273, 0x40A, word(1, 1, 0xC0000201, 10000)), '273 bad'),
    ('data_connect_tcp_no_port', request(274, 0x40A, word(1, 1, 0xC0000201)), '274 bad'),
    ('data_connect_tcp_pair_cut', request(275, 0x40A, data_connect(tcp([AP]))[:-8]), '275 bad'),
    ('data_connect_tcp_fill', request(276, 0x40A, tcp([address(1, 1, [opaque(b'E', b'\0\0\1') + opaque(b'1')])])), '276 bad'),
    ('mover_listen_tcp_left_over_1', request(277, 0xA01, mover_listen(0, 1) + b'\0'), '277 bad'),
    ('mover_listen_tcp_left_over_4', request(278, 0xA01, mover_listen(0, 1) + word(0)), '278 bad'),
    ('mover_listen_tcp_addresses', request(279, 0xA01, word(0) + tcp([A])), '279 bad'),
    ('mover_listen_2_rubbish', request(280, 0xA01, mover_listen(1, 2) + b'\xff'), '280 MOVER_LISTEN mode 1 address 2'),
    ('mover_connect_tcp_0', request(281, 0xA09, mover_connect(0, tcp([]))), '281 MOVER_CONNECT mode 0 address 1 addresses 0'),
    ('mover_connect_tcp_16', request(282, 0xA09, mover_connect(1, tcp([AP] * 16))), '282 MOVER_CONNECT mode 1 address 1 addresses 16'),
    ('mover_connect_tcp_17', request(283, 0xA09, mover_connect(1, tcp([A] * 17))), '283 bad'),
    ('mover_connect_tcp_64_pairs', request(284, 0xA09, mover_connect(7, with_pairs(64))), '284 MOVER_CONNECT mode 7 address 1 addresses 2'),
    ('mover_connect_tcp_65_pairs', request(285, 0xA09, mover_connect(7, with_pairs(65))), '285 bad'),
    ('mover_connect_tcp_port_65535', request(286, 0xA09, mover_connect(0, with_port(65535))), '286 MOVER_CONNECT mode 0 address 1 addresses 2'),
    ('mover_connect_tcp_port_65536', request(287, 0xA09, mover_connect(0, with_port(65536))), '287 bad'),
    ('mover_connect_tcp_left_over_1', request(288, 0xA09, mover_connect(0, tcp([A])) + b'\0'), '288 bad'),
    ('mover_connect_tcp_left_over_4', request(289, 0xA09, mover_connect(0, tcp([A])) + word(0)), '289 bad'),
    ('mover_connect_tcp_bare', request(290, 0xA09, mover_connect(0, word(1))), '290 bad'),
    ('mover_connect_tcp_fill', request(291, 0xA09, mover_connect(0, tcp([address(1, 1, [opaque(b'E') + opaque(b'1', b'\1\0\0')])]))), '291 bad'),
    ('mover_connect_2_rubbish', request(292, 0xA09, mover_connect(1, word(2)) + b'\xff\xff'), '292 MOVER_CONNECT mode 1 address 2 addresses 0'),
]

EMPTY = pair(b'', b'')  # 8 bytes
FULL = pair(b'A', W[:16363])  # a count, four words and these texts are 16,384 bytes
OVER = pair(b'A', W[:16364])

# paper 02, 3: the environment that a start request gives. Whether it fits the store is no question of what it is read as.
ENVIRONMENT = [
    ('backup_1_pair', request(296, 0x401, start_backup(b'dump', [P])), '296 DATA_START_BACKUP method 4+4=64756d70 pairs 12+1'),
    ('backup_method_0_pair', request(297, 0x401, start_backup(b'', [P])), '297 DATA_START_BACKUP method 4+0= pairs 8+1'),
    ('backup_method_5_pairs', request(298, 0x401, start_backup(b'dumps', [P, P])), '298 DATA_START_BACKUP method 4+5=64756d7073 pairs 16+2'),
    ('backup_empty_texts', request(299, 0x401, start_backup(b'dump', [EMPTY] * 3)), '299 DATA_START_BACKUP method 4+4=64756d70 pairs 12+3'),
    ('backup_separator', request(300, 0x401, start_backup(b'dump', [pair(b'PATHNAME_SEPARATOR', b'/')])),
     '300 DATA_START_BACKUP method 4+4=64756d70 pairs 12+1'),
    ('backup_full', request(301, 0x401, start_backup(b'dump', [FULL])), '301 DATA_START_BACKUP method 4+4=64756d70 pairs 12+1'),
    ('backup_one_too_much', request(302, 0x401, start_backup(b'dump', [OVER])), '302 DATA_START_BACKUP method 4+4=64756d70 pairs 12+1'),
    # 4 + 64 * 16 + 63 * 2 bytes stand before the last pair's texts
    ('backup_64_full', request(303, 0x401, start_backup(b'dump', [P] * 63 + [pair(b'E', W[:15229])])),
     '303 DATA_START_BACKUP method 4+4=64756d70 pairs 12+64'),
    ('recover_1_pair', request(304, 0x402, start_recover([P], [], b'dump')), '304 DATA_START_RECOVER method 28+4=64756d70 pairs 4+1'),
    ('recover_empty_texts', request(305, 0x402, start_recover([EMPTY] * 64, [], b'dump')),
     '305 DATA_START_RECOVER method 524+4=64756d70 pairs 4+64'),
    # 4 + 8 + 4 + 16,364 with the fill, and the names' count, stand before the method's length
    ('recover_full', request(306, 0x402, start_recover([FULL], [], b'dump')), '306 DATA_START_RECOVER method 16388+4=64756d70 pairs 4+1'),
    ('recover_no_pairs_64_names', request(307, 0x402, start_recover([], [N] * 64, b'dump')),
     '307 DATA_START_RECOVER method 2572+4=64756d70 pairs 4+0'),
]

# paper 02, 2: a login by MD5, whose digest is an opaque[16] with no length before it, and the auth type that 0x103 asks about; 10: nothing behind type 1
# is read
AUTH = [
    ('auth_md5_no_id', request(309, 0x901, auth_md5(b'', DIGEST)), '309 CONNECT_CLIENT_AUTH id 8+0= digest 8+16=000102030405060708090a0b0c0d0e0f'),
    ('auth_md5_length_word', request(310, 0x901, word(2) + opaque(b'admin') + opaque(DIGEST)), '310 bad'),
    ('auth_md5_15', request(311, 0x901, auth_md5(b'admin', DIGEST[:15])), '311 bad'),
    ('auth_md5_17', request(312, 0x901, auth_md5(b'admin', DIGEST + b'\0')), '312 bad'),
    ('auth_md5_no_digest', request(313, 0x901, auth_md5(b'admin', b'')), '313 bad'),
    ('auth_md5_left_over', request(314, 0x901, auth_md5(b'admin', DIGEST) + word(0)), '314 bad'),
    ('auth_md5_id_cut', request(315, 0x901, word(2) + word(20) + DIGEST), '315 bad'),
    ('auth_md5_fill', request(316, 0x901, word(2) + opaque(b'admin', b'\0\1\0') + DIGEST), '316 bad'),
    # a password of 12 bytes behind its length is 16 bytes, and one of 6 is fewer
    ('auth_md5_password_12', request(317, 0x901, word(2) + opaque(b'admin') + opaque(b'secretsecret')),
     '317 CONNECT_CLIENT_AUTH id 8+5=61646d696e digest 16+16=0000000c736563726574736563726574'),
    ('auth_md5_password_6', request(318, 0x901, word(2) + opaque(b'admin') + opaque(b'secret')), '318 bad'),
    ('auth_text_digest', request(319, 0x901, word(1) + opaque(b'admin') + DIGEST), '319 CONNECT_CLIENT_AUTH other'),
    ('auth_3_md5_body', request(320, 0x901, word(3) + opaque(b'admin') + DIGEST), '320 CONNECT_CLIENT_AUTH other'),
    ('auth_3_rubbish', request(321, 0x901, word(3) + b'\xff\xfe\xfd'), '321 CONNECT_CLIENT_AUTH other'),
    ('auth_258', request(322, 0x901, word(258)), '322 CONNECT_CLIENT_AUTH other'),
    ('auth_attr_none', request(323, 0x103, auth_attr(0)), '323 CONFIG_GET_AUTH_ATTR type 0'),
    ('auth_attr_text', request(324, 0x103, auth_attr(1)), '324 CONFIG_GET_AUTH_ATTR type 1'),
    ('auth_attr_7_rubbish', request(325, 0x103, auth_attr(7) + b'\xff\xfe\xfd'), '325 CONFIG_GET_AUTH_ATTR type 7'),
    ('auth_attr_none_word', request(326, 0x103, auth_attr(0) + word(2)), '326 CONFIG_GET_AUTH_ATTR type 0'),
    ('auth_attr_258', request(327, 0x103, auth_attr(258)), '327 CONFIG_GET_AUTH_ATTR type 258'),
    ('auth_attr_all_ones', request(328, 0x103, auth_attr(4294967295)), '328 CONFIG_GET_AUTH_ATTR type 4294967295'),
    ('auth_attr_text_left_over_1', request(329, 0x103, auth_attr(1) + b'\0'), '329 CONFIG_GET_AUTH_ATTR type 1'),
    ('auth_attr_text_left_over_4', request(330, 0x103, auth_attr(1) + word(0)), '330 CONFIG_GET_AUTH_ATTR type 1'),
    ('auth_attr_text_rubbish', request(344, 0x103, auth_attr(1) + b'\xff\xfe\xfd'), '344 CONFIG_GET_AUTH_ATTR type 1'),
    ('auth_attr_text_cut', request(345, 0x103, auth_attr(1)[:3]), '345 bad'),
    ('auth_attr_md5_left_over_1', request(331, 0x103, auth_attr(2) + b'\0'), '331 bad'),
    ('auth_attr_md5_left_over_4', request(332, 0x103, auth_attr(2) + word(0)), '332 bad'),
    ('auth_attr_empty', request(333, 0x103), '333 bad'),
    ('auth_attr_cut', request(334, 0x103, auth_attr(2)[:3]), '334 bad'),
    # the bodies that ndmjob, a client that others wrote, sent to log in
    ('auth_attr_client', request(335, 0x103, bytes.fromhex('00000002')), '335 CONFIG_GET_AUTH_ATTR type 2'),
    ('auth_md5_client', request(336, 0x901, bytes.fromhex('00000002 00000004 6e646d70 5da7ac7324b97caf774d6ea4927f57d0')),
     '336 CONNECT_CLIENT_AUTH id 8+4=6e646d70 digest 12+16=5da7ac7324b97caf774d6ea4927f57d0'),
]

# paper 02, 7: the changer's CDBs. What a CDB holds is no question of what the request is read as; a CDB above 16 bytes and a short one are read too.
CHANGER = [
    ('move_drive_to_slot', request(346, 0x206, cdb(0, move_medium(1, 16))), '346 SCSI_EXECUTE_CDB cdb 16+12=a50000000001001000000000 datain_len 0'),
    ('move_slot_to_drive', request(347, 0x206, cdb(0, move_medium(23, 1))), '347 SCSI_EXECUTE_CDB cdb 16+12=a50000000017000100000000 datain_len 0'),
    ('move_slot_to_slot', request(348, 0x206, cdb(0, move_medium(17, 22))), '348 SCSI_EXECUTE_CDB cdb 16+12=a50000000011001600000000 datain_len 0'),
    ('move_flags', request(349, 0x206, cdb(18, move_medium(16, 1, flags=b'\xff\xff\x01\xc0', lun=0xE0))),
     '349 SCSI_EXECUTE_CDB cdb 16+12=a5e0000000100001ffff01c0 datain_len 18'),
    ('move_transport', request(350, 0x206, cdb(0, move_medium(0, 65535, transport=1))), '350 SCSI_EXECUTE_CDB cdb 16+12=a50000010000ffff00000000 datain_len 0'),
    ('move_11', request(351, 0x206, cdb(0, move_medium(1, 16)[:11])), '351 SCSI_EXECUTE_CDB cdb 16+11=a500000000010010000000 datain_len 0'),
    ('move_16', request(352, 0x206, cdb(0, move_medium(1, 16) + b'\xff' * 4)), '352 SCSI_EXECUTE_CDB cdb 16+16=a50000000001001000000000ffffffff datain_len 0'),
    ('move_17', request(353, 0x206, cdb(0, move_medium(1, 16) + b'\0' * 5)), '353 SCSI_EXECUTE_CDB cdb 16+17=a500000000010010000000000000000000 datain_len 0'),
    ('move_fill', request(354, 0x206, word(1, 60000, 0) + opaque(move_medium(1, 16)[:11], b'\1') + opaque(b'')), '354 bad'),
    ('status_all', request(355, 0x206, cdb(152, element_status(0, 0, 10, 152))), '355 SCSI_EXECUTE_CDB cdb 16+12=b8000000000a000000980000 datain_len 152'),
    ('status_slots', request(356, 0x206, cdb(4294967295, element_status(2, 20, 65535, 0xFFFFFF))),
     '356 SCSI_EXECUTE_CDB cdb 16+12=b8020014ffff00ffffff0000 datain_len 4294967295'),
    # VolTag and LUN, CURDATA and DVCID, control
    ('status_flags', request(357, 0x206, cdb(8, element_status(0xF4, 1, 1, 8, options=0x03, end=b'\xff\xc0'))),
     '357 SCSI_EXECUTE_CDB cdb 16+12=b8f40001000103000008ffc0 datain_len 8'),
    ('status_1', request(358, 0x206, cdb(152, element_status(0, 0, 10, 152)[:1])), '358 SCSI_EXECUTE_CDB cdb 16+1=b8 datain_len 152'),
    ('status_out', request(359, 0x206, execute_cdb(3, 0, 152, element_status(1, 0, 1, 152), b'out')),
     '359 SCSI_EXECUTE_CDB cdb 16+12=b80100000001000000980000 datain_len 152'),
    ('mtio_off', request(360, 0x303, mtio(6, 0)), '360 TAPE_MTIO op 6 count 0'),
    ('mtio_off_count', request(361, 0x303, mtio(6, 4294967295)), '361 TAPE_MTIO op 6 count 4294967295'),
]

# paper 02, 5: commands of the remote tape protocol, as 001 lays them out: no record, but the bytes of one call. A path and data as their places in the command
RMT = [
    ('rmt_open_read', b'Otape0\n0\n', 'O path 1+5=7461706530 mode 0'),
    ('rmt_open_write', b'Otape0\n1\n', 'O path 1+5=7461706530 mode 1'),
    ('rmt_open_both', b'Otape0\n2\n', 'O path 1+5=7461706530 mode 2'),
    ('rmt_open_three', b'Otape0\n3\n', 'O path 1+5=7461706530 mode 3'),
    ('rmt_open_dev', b'O/dev/rmt8\n0\n', 'O path 1+9=2f6465762f726d7438 mode 0'),
    ('rmt_open_no_path', b'O\n0\n', 'O path 1+0= mode 0'),
    ('rmt_open_nul', b'Otape0\0\n0\n', 'O path 1+6=746170653000 mode 0'),
    ('rmt_open_mode_ten', b'Otape0\n4294967295\n', 'O path 1+5=7461706530 mode 4294967295'),
    ('rmt_open_mode_above', b'Otape0\n4294967296\n', 'bad'),
    ('rmt_open_gnu', b'Otape0\n65 O_WRONLY|O_CREAT\n', 'bad'),
    ('rmt_open_cut', b'Otape0\n0', 'bad'),
    ('rmt_open_no_mode', b'Otape0\n', 'bad'),
    ('rmt_open_empty_mode', b'Otape0\n\n', 'bad'),
    ('rmt_open_more', b'Otape0\n0\n\n', 'bad'),
    ('rmt_close', b'Ctape0\n', 'C'),
    ('rmt_close_no_path', b'C\n', 'C'),
    ('rmt_close_cut', b'Ctape0', 'bad'),
    ('rmt_close_more', b'Ctape0\nC', 'bad'),
    ('rmt_read', b'R10240\n', 'R count 10240'),
    ('rmt_read_none', b'R0\n', 'R count 0'),
    ('rmt_read_ten', b'R0000010240\n', 'R count 10240'),
    ('rmt_read_eleven', b'R00000010240\n', 'bad'),
    ('rmt_read_greatest', b'R4294967295\n', 'R count 4294967295'),
    ('rmt_read_above', b'R4294967296\n', 'bad'),
    ('rmt_read_nines', b'R9999999999\n', 'bad'),
    ('rmt_read_no_number', b'R\n', 'bad'),
    ('rmt_read_sign', b'R-1\n', 'bad'),
    ('rmt_read_plus', b'R+1\n', 'bad'),
    ('rmt_read_blank', b'R 1\n', 'bad'),
    ('rmt_read_return', b'R1\r\n', 'bad'),
    ('rmt_read_cut', b'R1', 'bad'),
    ('rmt_read_more', b'R1\n1', 'bad'),
    ('rmt_write', b'W5\nHELLO', 'W data 3+5=48454c4c4f'),
    ('rmt_write_none', b'W0\n', 'W data 3+0='),
    ('rmt_write_feeds', b'W3\n\n\n\n', 'W data 3+3=0a0a0a'),
    ('rmt_write_short', b'W5\nHELL', 'bad'),
    ('rmt_write_long', b'W5\nHELLO!', 'bad'),
    ('rmt_write_32768', b'W32768\n' + bytes(32768), 'W data 7+32768'),
    ('rmt_write_32769', b'W32769\n' + bytes(32769), 'W data 7+32769'),
    ('rmt_write_above', b'W4294967296\n', 'bad'),
    ('rmt_marks', b'I0\n2\n', 'I operation 0 count 2'),
    ('rmt_forward_files', b'I1\n1\n', 'I operation 1 count 1'),
    ('rmt_back_files', b'I2\n1\n', 'I operation 2 count 1'),
    ('rmt_forward_records', b'I3\n7\n', 'I operation 3 count 7'),
    ('rmt_back_records', b'I4\n7\n', 'I operation 4 count 7'),
    ('rmt_rewind', b'I5\n4294967295\n', 'I operation 5 count 4294967295'),
    ('rmt_rewind_zeros', b'I05\n00\n', 'I operation 5 count 0'),
    ('rmt_rewind_no_count', b'I5\n', 'bad'),
    ('rmt_rewind_letters', b'I5\nx\n', 'bad'),
    ('rmt_offline', b'I6\n1\n', 'bad'),
    ('rmt_operation_above', b'I4294967295\n1\n', 'bad'),
    ('rmt_operation_cut', b'I0\n2', 'bad'),
    ('rmt_operation_more', b'I0\n2\n\n', 'bad'),
    ('rmt_seek', b'L100\n1\n', 'bad'),
    ('rmt_status', b'S\n', 'bad'),
    ('rmt_lower', b'r5\n', 'bad'),
    ('rmt_feed', b'\n', 'bad'),
    ('rmt_nothing', b'', 'bad'),
]

SAMPLES = HANDLED + FRAMES + UNKNOWN + CONNECT + BARE + SCSI + TAPE + DATA + MOVER + FILL + TCP + ENVIRONMENT + AUTH + CHANGER + RMT


def vector(own, data, expected):
    """Its name and its bytes in hex, by words; below, the expected line."""
    return ' '.join([own] + [data[i:i + 4].hex() for i in range(0, len(data), 4)]) + '\n= ' + expected


def main():
    write('run_requests/stdin', text(vector(*sample) for sample in SAMPLES))
    write('run_requests/stdout', text(f'{own}: {expected}' for own, _, expected in SAMPLES))
    print(f'run_requests: {len(SAMPLES)} records')


main()
