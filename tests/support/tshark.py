"""Runs the Wireshark dissector over frames with tshark, in each way in which a capture can carry them."""

import json
import os
import re
import struct
import subprocess

from support.line_model import ADDRESS, CONTROL, with_check
from support.tables import TOP

DISSECTOR = os.path.join(TOP, 'tools', 'wireshark', 'fio2070.lua')

FIELDS = '''frame.number _ws.col.Info _ws.col.Protocol _ws.col.Source _ws.col.Destination fio2070.octets fio2070.type
fio2070.type.answer fio2070.undecoded fio2070.body fio2070.clear fio2070.load fio2070.items fio2070.block.number
fio2070.outputs.data fio2070.outputs.control fio2070.watchdog.timeout fio2070.flags fio2070.errors.receive
fio2070.errors.transmit fio2070.stamp fio2070.status fio2070.inputs fio2070.block.entries fio2070.block.flags
fio2070.block.flags.c fio2070.block.flags.f fio2070.block.flags.e fio2070.block.flags.g fio2070.watchdog.status
fio2070.item.input fio2070.item.ignore fio2070.item.leading fio2070.item.trailing
fio2070.entry.input fio2070.entry.state fio2070.entry.stamp fio2070.entry.wide
_ws.expert.message _ws.malformed fio2070.response_in fio2070.response_to fio2070.time fio2070.repeat_of'''.split()


def over_udp(octets):
    """An IPv4 packet between 10.0.0.1, the CPU, and port 2070 of 10.0.0.2, the module."""
    cpu, module = (b'\x0a\0\0\1', 40000), (b'\x0a\0\0\2', 2070)
    source, target = (module, cpu) if octets[0] >= 128 else (cpu, module)
    udp = struct.pack('>HHHH', source[1], target[1], 8 + len(octets), 0) + octets
    return struct.pack('>BBHHHBBH', 0x45, 0, 20 + len(udp), 0, 0, 64, 17, 0) + source[0] + target[0] + udp


def in_sdlc(octets):
    """A frame preceded by an address and a control octet and followed by two octets of frame check."""
    return with_check(bytes((ADDRESS, CONTROL)) + octets)


class Way:
    """How a capture carries frames: its link type, what is put around each frame, and the words for tshark."""

    def __init__(self, link_type, around, words, longest=262_000):
        self.link_type, self.around, self.words, self.longest = link_type, around, words, longest


WAYS = {
    'user link type by preference': Way(147, bytes, ['-o', 'fio2070.user:0']),
    'SDLC by preference': Way(149, in_sdlc, ['-o', 'fio2070_sdlc.user:2-4']),
    'user link type by table': Way(150, bytes, ['-o', 'uat:user_dlts:"User 3 (DLT=150)","fio2070","0","","0",""']),
    'SDLC without frame check': Way(149, lambda octets: b'\x14\x83' + octets,
                                    ['-o', 'fio2070_sdlc.user:2', '-o', 'fio2070_sdlc.check:FALSE']),
    'SDLC by table': Way(152, in_sdlc, ['-o', 'uat:user_dlts:"User 5 (DLT=152)","fio2070","2","","2",""']),
    'UDP by Decode As': Way(101, over_udp, ['-d', 'udp.port==2070,fio2070'], 65_507),
    'upper PDU': Way(252, lambda octets: struct.pack('>HH8sHH', 12, 8, b'fio2070\0', 0, 0) + octets, []),
}
BARE, SDLC = WAYS['user link type by preference'], WAYS['SDLC by preference']


def write_capture(path, link_type, frames, missing=0):
    """A pcap file with frames a millisecond apart; this many octets at the end of each were not captured."""
    with open(path, 'wb') as capture:
        capture.write(struct.pack('<IHHiIII', 0xa1b2c3d4, 2, 4, 0, 0, 262_144, link_type))
        for place, octets in enumerate(frames):
            lengths = (len(octets), len(octets) + missing)
            capture.write(struct.pack('<IIII', place // 1000, place % 1000 * 1000, *lengths) + octets)


class Tshark:
    """tshark with one dissector, and a folder for captures and for a configuration of its own."""

    def __init__(self, folder, dissector=DISSECTOR):
        self.folder, self.dissector = folder, dissector
        os.makedirs(os.path.join(folder, 'configuration'), exist_ok=True)

    def run(self, capture, words):
        """What tshark writes for a capture. It reports faults of a dissector only on standard error."""
        home = os.path.join(self.folder, 'configuration')
        done = subprocess.run(['tshark', '-n', '-X', 'lua_script:' + self.dissector, '-r', capture] + words,
                              stdout=subprocess.PIPE, stderr=subprocess.PIPE, timeout=600,
                              env=dict(os.environ, WIRESHARK_CONFIG_DIR=home, HOME=home, LC_ALL='C.UTF-8'))
        noise = [line for line in done.stderr.decode().splitlines() if line and 'Running as user' not in line]
        if done.returncode or noise:
            raise RuntimeError('tshark: status %d %s' % (done.returncode, '; '.join(noise[:2])))
        return done.stdout.decode()

    def capture(self, way, frames, missing=0):
        """The path of a new capture of frames that are not wrapped yet."""
        path = os.path.join(self.folder, 'frames.pcap')
        write_capture(path, way.link_type, [way.around(octets) for octets in frames], missing)
        return path

    def columns(self, capture, words, names):
        """For each frame a list with the value of each of these fields."""
        fields = [word for name in names for word in ('-e', name)]
        separators = ['-E', 'occurrence=a', '-E', 'aggregator=|', '-E', 'separator=/t']
        return [line.split('\t') for line in self.run(capture, words + ['-T', 'fields'] + separators + fields)
                .split('\n')[:-1]]

    def rows(self, way, frames, words=(), missing=0):
        """For each frame a dictionary with the value of each field."""
        return self.read(self.capture(way, frames, missing), way.words + list(words))

    def read(self, capture, words=()):
        return [dict(zip(FIELDS, values)) for values in self.columns(capture, list(words), FIELDS)]

    def trees(self, way, frames):
        """For each frame the lines of `show` as the labels of the tree have them."""
        text = self.run(self.capture(way, frames), way.words + ['-V', '-O', 'fio2070'])
        for tree in re.split(r'(?m)^Frame \d+: ', text)[1:]:
            yield (re.findall(r'(?m)^Model 2070 Field I/O: (.*)$', tree)
                   + ['  ' + line for line in re.findall(r'(?m)^    (input \d+ .*)$', tree)])

    def nested(self, way, frames, group, names):
        """For each frame the elements of a group, each with these fields, as JSON nests them."""
        text = self.run(self.capture(way, frames), way.words + ['-T', 'json', '--no-duplicate-keys'])
        for packet in json.loads(text):
            elements = packet['_source']['layers'].get('fio2070', {}).get('fio2070.' + group, [])
            yield [tuple(element['fio2070.%s.%s' % (group, name)] for name in names)
                   for element in (elements if isinstance(elements, list) else [elements])]
