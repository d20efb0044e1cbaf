r"""Logs in forms of many tools, written by hand: a name, the text, and the frames that are in it, each after the direction
that the log says, `-` if it says none. All have a poll for block 5, and a block 5 with an entry, which has printable octets,
or one without."""

POLL, EMPTY, BLOCK = '3605', 'b605000000000001', 'b605018c4121000000416a'
BOTH, NONE = ['>' + POLL, '<' + BLOCK], ['-' + POLL, '-' + BLOCK]
ROWS = '36 05 | B6 05 01 8C 41 21 00 00 00 41 6A'.split(' | ')
# One frame as `hexdump -C` writes it. Its last line, an offset, is digits alone, as a line of frames is.
DUMP = '00000000  b6 05 01 8c 41 21 00 00  00 41 6a                 |....A!...Aj|\n0000000b\n'


def lines(sent, heard, form='%s %s\n', rows=ROWS):
    """A line for each frame."""
    return form % (sent, rows[0]) + form % (heard, rows[1])


def each(sent, heard, form='%s\n'):
    """A line for each octet."""
    return ''.join(form % (side, octet) for side, row in zip((sent, heard), ROWS) for octet in row.split())


READ = [
    ("Arduino's monitor", '07:15:02.100 -> 36 05\n07:15:02.106 -> B6 05 01 8C 41 21 00 00 00 41 6A\n', ['>' + POLL, '-' + BLOCK]),
    ("Arduino's monitor with names", lines('07:15:02.100 -> TX', '07:15:02.106 -> RX'), BOTH),
    ('picocom', '[36][05]\n[b6][05][01][8c][41][21][00][00][00][41][6a]\n', NONE),
    ('mbpoll', '[36][05]\n<B6><05><01><8C><41><21><00><00><00><41><6A>\n', NONE),
    ('Bray', '$36$05\n$B6$05$01$8C$41$21$00$00$00$41$6A\n', NONE),
    ('Hercules', '{36}{05}\n{B6}{05}{01}{8C}{41}{21}{00}{00}{00}{41}{6A}\n', NONE),
    ('Modbus Poll', lines('Tx:000012-', 'Rx:000013-', '%s%s\n'), BOTH),
    ('Modbus Slave', lines('000012-Tx:', '000013-Rx:', '%s%s\n'), BOTH),
    ('RTT viewer', lines('00> TX', '00> RX'), BOTH),
    ('interceptty', '> 0x36 (6)\n> 0x05\n< 0xb6\n< 0x05\n' + '< 0x00\n' * 5 + '< 0x01\n', ['>' + POLL, '<' + EMPTY]),
    ('PulseView', each('10-17 UART: TX data:', '90-97 UART: RX data:', '%s %s\n'), BOTH),
    ('Saleae, an octet a line', 'Time [s],Analyzer Name,Decoded Protocol Result\n0.100,TX,0x36\n0.10001,TX,0x05\n0.2,RX,0xB3\n0.20001,RX,0x00\n',
     ['>' + POLL, '<b300']),
    ('xxd -p of a stream', '3605b6050000000000013606b6060000000000013607b607000000000001\n3608b608000000000001\n',
     [one % number for number in range(5, 9) for one in ('>36%02x', '<b6%02x000000000001')]),
    ('od -An -t x1', ' 36 05 b6 05 00 00 00 00 00 01 36 06 b6 06 00 00\n 00 00 00 01 36 07\n',
     ['>3605', '<b605000000000001', '>3606', '<b606000000000001', '>3607']),
    ('strace -xx', 'write(3, "\\x36\\x05", 2) = 2\nread(3, "\\xb6\\x05\\x00\\x00\\x00\\x00\\x00\\x01", 4096) = 8\n', ['>' + POLL, '<' + EMPTY]),
    ('strace -x', 'write(3, "\\x36\\x05", 2) = 2\nwrite(3, "\\x36\\x06", 2) = 2\nwrite(3, "6\\n", 2) = 2\n', ['>3605', '>3606', '>360a']),
    ('tshark -T json', '[\n' + ','.join('''  {
    "_source": {
      "layers": {
        "frame": {
          "frame.time_epoch": "1795331702.1%s"
        },
        "udp": {
          "udp.payload": "%s"
        },
        "data": {
          "data.data": "%s"
        }
      }
    }
  }
''' % (digit, octets, octets) for digit, octets in zip('02', ['36:05', 'b6:05:00:00:00:00:00:01'])) + ']\n', ['-' + POLL, '-' + EMPTY]),
    ('tcpdump -X', '07:15:02.100000 IP 127.0.0.1.2070 > 127.0.0.1.2071: UDP, length 2\n'
     '\t0x0000:  4500 001e 0001 4000 4011 3ccc 7f00 0001  E.....@.@.<.....\n\t0x0010:  7f00 0001 0816 0817 000a 0000 3605       ............6.\n',
     ['-' + POLL]),
    ('plain text of Wireshark', 'No.     Time           Source       Destination  Protocol Length Info\n'
     '      1 0.000000       127.0.0.1    127.0.0.2    UDP      50     2070 → 2071 Len=8\n\n'
     '0000  00 00 00 00 00 00 00 00 00 00 00 00 08 00 45 00   ..............E.\n'
     '0010  00 24 00 01 40 00 40 11 3c c6 7f 00 00 01 7f 00   .$..@.@.<.......\n'
     '0020  00 02 08 16 08 17 00 10 00 00 b6 05 00 00 00 00   ................\n'
     '0030  00 01                                             ..\n', ['-' + EMPTY]),
    ('tshark -T fields', '0.100\t127.0.0.1\t3605\n0.106\t127.0.0.2\tb605000000000001\n', ['-' + POLL, '-' + EMPTY]),
    ('jq', '{\n  "ts": 1.5,\n  "dir": "tx",\n  "data": [\n    54,\n    5\n  ]\n}\n', ['>' + POLL]),
    ('JSON, all on one line', '[{"dir": "tx", "data": "3605"}, {"dir": "rx", "data": "b605000000000001"}]\n', ['>' + POLL, '<' + EMPTY]),
    ('journalctl -o json', '{"__REALTIME_TIMESTAMP": "1795331702100000", "_PID": "412", "MESSAGE": "TX 36 05"}\n', ['>' + POLL]),
    ('Docker', '{"log":"RX b3 00\\n","stream":"stdout","time":"2026-11-22T07:15:02.1Z"}\n', ['<b300']),
    ('Node.js', 'tx <Buffer 36 05>\nrx <Buffer b6 05 00 00 00 00 00 01>\n', ['>' + POLL, '<' + EMPTY]),
    ('Erlang', 'tx <<54,5>>\nrx <<182,5,0,0,0,0,0,1>>\n', ['>' + POLL, '<' + EMPTY]),
    ('Elixir', '07:15:02.100 [debug] TX: <<0x36, 0x05>>\n', ['>' + POLL]),
    ('Java', '07:15:02.100 DEBUG Link - sent [54, 5]\n07:15:02.106 DEBUG Link - received [-74, 5, 0, 0, 0, 0, 0, 1]\n', ['>' + POLL, '<' + EMPTY]),
    ('NLog', lines('2026-11-22 07:15:02.1000|DEBUG|Fio.Link|TX', '2026-11-22 07:15:02.1060|DEBUG|Fio.Link|RX'), BOTH),
    ('logcat -v brief', lines('D/FioLink( 1234): TX:', 'D/FioLink( 1234): RX:'), BOTH),
    ('glog', lines('I1122 07:15:02.100000  1234 link.cc:88] TX', 'I1122 07:15:02.106000  1234 link.cc:88] RX'), BOTH),
    ('a source line', lines('07:15:02 DEBUG src/link.c:142: TX', '07:15:02 DEBUG src/link.c:150: RX'), BOTH),
    ('ESP-IDF', 'I (3107) fio: sent 2 bytes\nI (3107) fio: 36 05 \nI (3140) fio: received 17 bytes\n'
     'I (3140) fio: b6 05 03 8c 41 21 8d 41 22 8e 41 23 00 00 00 41 \nI (3140) fio: 6a \n',
     ['-' + POLL, '<b605038c41218d41228e412300000041' + '6a']),
    ('print_hex_dump', '[ 12.100] fio tx: 36 05\n[ 12.106] fio rx: b6 05 03 8c 41 21 8d 41 22 8e 41 23 00 00 00 41\n[ 12.106] fio rx: 6a\n',
     ['>' + POLL, '<b605038c41218d41228e4123000000416a']),
    ('Zephyr', '[00:00:00.100,000] <dbg> fio: link_tx:\n' + ' ' * 30 + '33 02 0c 05 03 83 00 00  |3....... \n'
     '[00:00:00.106,000] <dbg> fio: link_rx:\n' + ' ' * 30 + 'b6 05 01 8c 41 21 00 00  00 41 6a                |....A!.. .Aj\n',
     ['-33020c0503830000', '-' + BLOCK]),
    ('hexdump -C of one frame', DUMP, ['-' + BLOCK]),
    ('Format-Hex of PowerShell 7', '   Label: Byte[]\n\n          Offset Bytes                                           Ascii\n'
     '                 00 01 02 03 04 05 06 07 08 09 0A 0B 0C 0D 0E 0F\n          ------ ----------------------------------------------- -----\n'
     '0000000000000000 B6 05 01 8C 41 21 00 00 00 41 6A                 ¶���A!   Aj\n', ['-' + BLOCK]),
    ('xxd -p', 'b6050a8c41218d41228e41238f4124904125914126924127934128944129\n95412a000000416a\n',
     ['-b6050a8c41218d41228e41238f412490412591412692412793412894412995412a000000416a']),
    ('colours', lines('\x1b[32mTX\x1b[0m', '\x1b[36mRX\x1b[0m'), BOTH),
    ('carriage returns alone', lines('TX', 'RX', '%s %s\r'), BOTH),
    ('NUL after each line', lines('TX', 'RX', '%s %s\0\n'), BOTH),
    ('blanks that do not break', lines('TX', 'RX', '%s\u00a0%s\n', [row.replace(' ', '\u00a0') for row in ROWS]), BOTH),
    ('CSV without a header', '2026-11-22 07:15:02.1,TX,2,36 05\n2026-11-22 07:15:02.2,RX,11,B6 05 01 8C 41 21 00 00 00 41 6A\n', BOTH),
    ('counts after the octets', 'TX 36 05 len=2\nRX B6 05 01 8C 41 21 00 00 00 41 6A len=11\n', BOTH),
    ('sentences', '07:15:02: Wrote 2 bytes to FIO: 36 05\n07:15:02: Read 11 bytes from FIO: B6 05 01 8C 41 21 00 00 00 41 6A\n', BOTH),
    ('names of messages', lines('CMD POLL:', 'RSP BLOCK 5:'), BOTH),
    ('calls', lines('write() 2 bytes:', 'read() 11 bytes:'), BOTH),
    ('a name on all lines', lines('07:15:02 fio:', '07:15:02 fio:'), ['-' + POLL, '<' + BLOCK]),
    ('\\u', 'TX "6\\u0005"\n', ['>' + POLL]),
    ('base64', 'TX NgU=\nRX tgUAAAAAAAE=\n', BOTH[:1] + ['<' + EMPTY]),
]

# What is not read, or not all of it: nothing is read that is not in the log.
PASSED = [
    ('decimal numbers that go up', ''.join('i2c w 36 %02d\n' % number for number in range(30)), []),
    ('question and answer on one line', '36 05 -> B3 00\n36 05 -> 34\n', []),
    ('a packet that is cut', '\t0x0000:  4500 0024 0001 4000 4011 3cc6 7f00 0001\n\t0x0010:  7f00 0002 0816 0817 0010 0000 b605\n', []),
    ('what is no octets after a direction', 'TX 36 05\nRX B3 00\nTX retries 36 00\nRX window 36:05\nCPU temperature 36,05\nTX to B3 00\n'
     'write() 34\nTX mac b3:00\nRX id: 36-05\n', ['>3605', '<b300']),
    ('two frames on one line', 'TX 36 05 RX B3 00\n', []),
    ('a list of octets in brackets, one damaged', '[b6] [0?] [05] [34]\n', []),
    ('milliseconds in brackets', 'I (3605) wifi: up\n[3605] up\n(36) up\n', []),
    ('a count after the octets that does not fit', 'TX 36 05\nTX 36 06 (11 bytes)\n', ['>3605']),
    ('a number without its 0x', 'tx []byte{0x36, 05}\n', []),
    ('a list that is cut', 'rx <<182,47,2,54,196\n', []),
    ('a buffer that is cut', 'rx <Buffer b6 05 00 ... 40 more bytes>\nrx <Buffer 54 05>\n', []),
    ('a buffer with a digit too many', 'tx <Buffer 36 055>\n', []),
    ('an object that is cut', '{\n  "dir": "tx",\n  "data": "3605"\n{\n  "dir": "rx",\n  "data": "b300"\n}\n', ['<b300']),
    ('an octet a line below whole frames', 'TX 36 05\nTX 36\nTX 34\n', ['>3605', '>34']),
    ('a type of any length, an octet a line', '> 36\n> 05\n< bc\n< 02\n', ['>3605']),
    ('the rest of a row that may be a frame', 'b605038c41218d41228e412300000036\n05\n3605\n', ['-b605038c41218d41228e41230000003605', '-3605']),
    ('a row and a frame, or one frame', 'b605088c41218d41228e41238f4124904125914126924127934128000000\n3605\n', []),
    ('\\u of a letter above 255', 'TX "6\\u0105"\n', []),
    ('an escape without its digits', 'write(3, "\\x36\\x05", 2) = 2\nwrite(3, "\\x36\\x", 2) = 2\n', ['>3605']),
    ('an escape without its beginning', 'TX "\\x36\\x05"\nTX "\\x36A"\nRX "\\xb30"\nRX "\\xb3\\0"\n', ['>3605']),
    ('octets lost in a call', 'write(3, "\\x36\\x05", 2) = 2\nread(3, "\\xb3\\x00", 4096) = 8\n', ['>3605']),
    ('a lone half of \\u', 'TX "6\\u000"\n', []),
]
