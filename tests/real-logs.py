#!/usr/bin/env -S python3 -B
"""Logs that real tools wrote of one right link (tests/real-logs.tar.xz: the log, and what the link sent), by `fiolog` with no option:
each is read whole but those that are named here, no frame is read that is not there, and no end is accused. `--all`: all 188; else each tenth. Last line: `N passed, M failed`."""

import collections
import os
import tarfile
import tempfile

from support.check import Check
from support.fiolog import fiolog, use_library, written
from support.tables import TOP

# Logs that are not read whole, and how many frames are missed; CAPTURES says why, and what to do.
NOT_WHOLE = {
    'c_trunc16': 30, 'cat_v_live': 115, 'cat_v_tap': 115, 'hexdump_live_tap': 63, 'hexdump_ts_live': 3, 'journalctl_g_RX': 60,
    'minicom_C': 115, 'minicom_H_screen': 115, 'perl_dumper': 115, 'perl_dumper_useqq': 3, 'python_print_backslash': 115,
    'python_print_latin1': 115, 'python_print_uu': 115, 'screen_L': 115, 'script_timing_cat': 115, 'script_typescript': 115, 'sh_q': 115,
    'sigrok_bits_output': 115, 'sigrok_hex_output': 115, 'sigrok_uart_all': 115, 'sigrok_uart_ascii_format': 115,
    'sigrok_uart_packet_delim': 115, 'sigrok_vcd': 115, 'socat_R_dev_bin': 115, 'socat_R_dev_xxd': 115, 'socat_R_hdlc_bin': 60,
    'socat_r_cpu_bin': 115, 'socat_v': 115, 'strace': 6, 'strace_rw': 6, 'strace_xx_s32': 6, 'tcpdump_tcp_A': 115, 'tcpdump_udp_A': 115,
}
# Logs whose own order is not that of the link: the last line is first; both polls stand above both answers.
TURNED = {'journalctl_r', 'hexdump_ts_live'}


def frames_of(path):
    """The octets of the frames that `fiolog decode` finds, in order."""
    return [row['octets'] for row in fiolog('decode', '--json', path).objects() if 'octets' in row and 'fault' not in row]


def accused(path):
    """The rules that `fiolog check` says are broken."""
    return [row['rule'] for row in fiolog('check', '--json', path).objects() if 'rule' in row]


def try_log(check, name, path, sent):
    """The rows of a log."""
    found = frames_of(path)
    missed, more = (collections.Counter(one) - collections.Counter(other) for one, other in ((sent, found), (found, sent)))
    check.equal('%s: frames that are not there' % name, [], sorted(more.elements()))
    check.equal('%s: frames missed' % name, NOT_WHOLE.get(name, 0), sum(missed.values()))
    check.equal('%s: rules that are broken' % name, [], accused(path))
    if name not in TURNED and name not in NOT_WHOLE:
        check.holds('%s: the frames are in order' % name, found == sent)


def main():
    check = Check()
    use_library(check, 'real logs')
    with tarfile.open(os.path.join(TOP, 'tests', 'real-logs.tar.xz')) as archive, tempfile.TemporaryDirectory() as folder:
        logs = {os.path.basename(entry.name): archive.extractfile(entry).read() for entry in archive if entry.isfile()}
        names = sorted(name for name in logs if name + '.truth' in logs)
        check.equal('188 logs', 188, len(names))
        for name in names if check.given.all else names[::10]:
            lines = logs[name + '.truth'].decode().splitlines()
            sent = [line.split()[1] for line in lines if line[:1] in ('<', '>')]
            try_log(check, name, written(folder, name, logs[name]), sent)
    check.end()


main()
