#compdef fiolog
# Completions of zsh for fiolog: its commands and their options. Written by tools/generate-completions.

_fiolog() {
    local -a commands=(
        'decode:what each frame says'
        'check:whether transitions are lost, where and why; and every breach of the rules'
        'stats:how much, how often, how fast'
        'plan:how often to poll, how long an outage may last, how late a transition can be'
        'convert:the frames as a transcript, frames, pcapng or VCD'
        'record:what the CPU learned, and the entries and answers that no right module sends'
        'live:decodes a line that talks now, and checks it by all these rules'
    )
    if (( CURRENT == 2 )); then
        _describe command commands
        _arguments '(-h --help)'{-h,--help}'[print help]' '(-V --version)'{-V,--version}'[print the versions]' '*:file:_files'
        return
    fi
    local command=$words[2]
    local -a specs=('*:file:_files')
    shift words
    (( CURRENT-- ))
    case $command in
    decode|check|stats|plan|convert|record|live)
        specs+=(
            {-h,--help}'[show this help message and exit]') ;|
    decode|check|stats|convert|record)
        specs+=(
            '--format[auto (the default); frames or transcript, as fio2070 show and check read lines]:name:(auto frames transcript)'
            '--pattern[a regular expression with the group octets (hexadecimal digits), and if you like time and dir]:regex:'
            '--line[the file is what a line carried, octets, or bits (bits-high-first), one a clock, as a text of 0 and 1 or eight to an octet]:form:(octets bits bits-high-first)'
            '--merge[read the files as one log, in the order of their times, such as one file of each channel]'
            {-q,--quiet}'[write only errors to standard error]') ;|
    decode|check|stats|convert|record|live)
        specs+=(
            '--address[the address of the frames of a line that are judged (14), with or without the control octet (1483), several (14,15), or any]:hex:'
            '--like[a line with a message as this log writes it, such as "TX 36 05", or @FILE for such lines; may be given again]:line:'
            {-v,--verbose}'[name each line that is skipped, and why]') ;|
    decode)
        specs+=(
            '--json[one object a line, file, line, time (seconds or null), direction (> or <) and octets; then fault, or type, says, the numbers of that message by name, what its status bits say, of a repeated block that it is one, and entries or items]'
            '--csv[a table; an entry a row]'
            '--input[only messages with this input, and of them its lines]:n:'
            '--color[colours (on a terminal)]:color:(auto always never)') ;|
    check|record)
        specs+=(
            '--at[where the log was taken; auto, at the CPU where directions say so, else on the bus]:at:(auto cpu module bus)'
            '--start-at-poll[leave out what comes before the first poll]') ;|
    check|record|live)
        specs+=(
            '--whole[the log begins at the start of both ends, then more faults can be found]'
            '--limits[of the module, the most entries of a block, and the most that wait (255 1024)]:entries::waiting:') ;|
    check)
        specs+=(
            '--rules[transcript, only the rules on the order of messages, not those on what entries and answers say]:rules:(all transcript)'
            '--tees[leave out the rules that are not of TEES 2009, advance, refusal, done, accepted, cleared]'
            '--explain[say what this rule says, and read no log]:rule:(readable pair number advance same sequence limits rest refusal order fresh alternate apart ignored state clock done accepted cleared watchdog)'
            '--json[an object for each breach, with several logs for each log; and one for the summary]'
            '--csv[a table, a row for each log, with its numbers]') ;|
    check|live)
        specs+=(
            '--except[leave out breaches of this rule, and count them; may be given again]:rule:(readable pair number advance same sequence limits rest refusal order fresh alternate apart ignored state clock done accepted cleared watchdog)'
            '--late-answers[leave out answers that came late or twice, and count them]'
            '--no-loads[the CPU never loads the counter, then more faults can be found below damage]') ;|
    check|stats|record)
        specs+=(
            {-r,--recursive}'[read all files below the folders that are named]') ;|
    check|stats)
        specs+=(
            '--jobs[with several logs, read this many at a time (all processors)]:n:') ;|
    stats)
        specs+=(
            '--json[one object; with several logs one for each, and one for all]') ;|
    plan)
        specs+=(
            '--inputs[inputs that are not ignored, 1 to 64]:n:'
            '--filter[the smallest filter of one of them, 0 to 255]:n:'
            '--limits[1,024 entries wait (standard) or 8,192]:limits:(standard largest)'
            '--block[a block takes N entries, 1 to 255]:n:'
            '--waiting[instead of --limits, N entries wait, 1 to 8,192]:n:'
            '--rate[the line carries so many bits in a second]:bits:'
            '--sync[the line is synchronous (SDLC)]'
            '--async[it is asynchronous, with 1 or 2 stop bits]:stop:'
            '--answer-time[the module begins its answer so late]:ms:'
            '--drift[the clock of the CPU is faster or slower than that of the module by at most so many parts in a million, 0 to 10,000; 100 if not given]:ppm:'
            '--jitter[polls are up to MS late by that clock, 0 to 65,535]:ms:'
            {-v,--verbose}'[also the clause that each number is from]'
            '--json[a list of objects]') ;|
    convert)
        specs+=(
            '--to[]:to:(transcript frames pcapng vcd)'
            {-o,--output}'[where to (standard output)]:file:_files'
            '--times[begin lines with their time in seconds]') ;|
    record)
        specs+=(
            '--text[as fio2070 record writes it, to the first breach or restart]'
            '--json[one object a line, an item, with breaks a breach, or with outcome a restart]'
            '--csv[a table; an item, a breach or a restart a row, with its file and address]'
            '--vcd[a VCD file; breaches and restarts on standard error]'
            '--hires[write the transitions as a high-resolution event log (CSV)]:file:_files'
            '--start[when the first block was made, as 2026-03-01T07,00,00]:time:'
            '--signal[the signal of the events]:id:'
            '--on[the state of an input that is on, the profile does not say it]:on:(0 1)'
            '--channels[inputs and channels, as 12,5,0-7,1 (the default is 0-63,1); other inputs are left out]:map:') ;|
    live)
        specs+=(
            '--exec[a process that writes lines > HEX and < HEX, or those of another log]:command:'
            '--serial[octet-stuffed HDLC with frame check]:device:_files'
            '--udp[a frame a datagram]:port:'
            '--fifo[a pipe or file with lines of a log]:file:_files'
            '--rate[of the serial port (153600)]:baud:'
            '--host[the address to hear datagrams at (127.0.0.1)]:host:'
            '--transcript[write what comes as a transcript]:file:_files'
            '--pcapng[write it as pcapng; - for | wireshark -k -i -]:file:_files'
            '--force[overwrite files that are there already]'
            '--at[where it is heard]:at:(auto cpu module bus)'
            '--seconds[end after so long]:n:'
            {-q,--quiet}'[do not write the messages]') ;|
    esac
    _arguments $specs
}

_fiolog "$@"
