//! What this binding alone has, and each of its calls with a right result and an error: the calls below it have their rows in
//! tests/rows.json.

use fio2070::constants::*;
use fio2070::*;

const BLOCK: [u8; 11] = [0xb6, 5, 1, 0x8c, 3, 0xe7, 0, 0, 0, 3, 0xe8];
const ITEMS: [u8; 8] = [0x33, 2, 12, 5, 3, 0x83, 0, 0];
const POLL: [u8; 2] = [0x36, 5];

/// A block answer without entries.
fn block(number: u8, stamp: u8) -> [u8; 8] {
    [0xb6, number, 0, 0, 0, 0, 0, stamp]
}

fn words(it: impl std::fmt::Debug) -> String {
    format!("{it:?}")
}

fn items(input: u8, count: usize) -> Vec<ConfigurationItem> {
    let (ignore, leading, trailing) = (false, 3, 2);
    let item = ConfigurationItem {
        input,
        ignore,
        leading,
        trailing,
    };
    vec![item; count]
}

#[test]
fn messages_are_read_and_written() {
    let mut out = [0; LONGEST_FRAME];
    let answer = decode_answer(&BLOCK).unwrap();
    assert_eq!((answer.block, answer.count, answer.stamp), (5, 1, 1000));
    let mut room = [Entry::default(); 2];
    let entries = block_entries(&BLOCK, &mut room).unwrap();
    assert_eq!(entries.len(), 1);
    let entry = &entries[0];
    assert_eq!((entry.input, entry.state, entry.stamp), (12, 1, 999));
    let written = encode_answer(&answer, entries, &[], &mut out);
    assert_eq!(written, Ok(&BLOCK[..]));
    let written = encode_answer(&answer, &[], &[], &mut out);
    assert_eq!(written, Err(Unwritten::NoMessage));
    let command = decode_command(&ITEMS).unwrap();
    let mut room = items(0, 2);
    let read = command_items(&ITEMS, &mut room).unwrap();
    assert_eq!((read[0].ignore, read[1].ignore), (false, true));
    let written = encode_command(&command, read, &[], &mut out);
    assert_eq!(written, Ok(&ITEMS[..]));
    let read = command_items(&BLOCK, &mut room);
    assert_eq!(read, Err(Unwritten::NoMessage));
    assert_eq!(decode_answer(&[0xb6]).unwrap_err().needed, 8);
}

#[test]
fn what_has_no_room_is_not_written() {
    let (mut out, poll) = ([0; LONGEST_FRAME], decode_command(&POLL).unwrap());
    let written = encode_command(&poll, &[], &[], &mut out[..1]);
    assert_eq!(written, Err(Unwritten::NoRoom(2)));
    let written = encode_command(&poll, &items(0, 2), &[], &mut out);
    assert_eq!(written, Err(Unwritten::NoMessage));
    let configuration = decode_command(&ITEMS).unwrap();
    let written = encode_command(&configuration, &items(0, 2), &[], &mut out[..7]);
    assert_eq!(written, Err(Unwritten::NoRoom(8)));
    let mut room = items(0, 1);
    let read = command_items(&ITEMS, &mut room);
    assert_eq!(read, Err(Unwritten::NoRoom(2)));
    assert_eq!(block_entries(&BLOCK, &mut []), Err(Unwritten::NoRoom(1)));
    let mut text = [b'?'; 16];
    assert_eq!(show(&POLL, &mut text[..13]), Err(Unwritten::NoRoom(14)));
    assert_eq!(text[0], b'?');
    assert_eq!(show(&POLL, &mut text), Ok("poll block 5\n"));
    assert_eq!(&text, b"poll block 5\n\0??");
    let written = wire_frame(&POLL, 0x14, 0x83, &mut out[..13]);
    assert_eq!(written, Err(Unwritten::NoRoom(14)));
    let mut text = [0; 4];
    assert_eq!(rule_text(RULE_PAIR, &mut text), Err(Unwritten::NoRoom(5)));
}

#[test]
fn errors_have_words() {
    fn reads(octets: &[u8]) -> Result<Command, Box<dyn std::error::Error>> {
        Ok(decode_command(octets)?)
    }
    let fault = reads(&[0x33]).unwrap_err();
    assert_eq!(fault.to_string(), "wrong length needed 2 got 1");
    assert_eq!(reads(&POLL).unwrap().code, TYPE_POLL);
    assert_eq!(decode_command(&[]).unwrap_err().kind, FAULT_EMPTY);
    let place = ConfigurationError::AbsentInput { place: 1 };
    let words: [(&dyn std::error::Error, &str); 3] = [
        (&place, "item 1 names an input above 63"),
        (&ConfigurationError::TooManyItems, "more than 255 items"),
        (&Unwritten::NoRoom(5), "no room: 5 are needed"),
    ];
    for (error, said) in words {
        assert_eq!(error.to_string(), said);
    }
}

/// The constants that a text declares: their names, each with its number or with the name that it stands for.
fn declared(text: &str, before: &str) -> std::collections::BTreeMap<String, String> {
    let parts = text.split(before).skip(1);
    let pairs = parts.filter_map(|rest| rest.split_once(" = "));
    let named = pairs.map(|(name, rest)| {
        let value = rest.split([',', ';', ')', '}', '/', '\n']).next().unwrap_or("").trim();
        let name = name.split(':').next().unwrap_or("");
        (name.to_string(), value.replace('_', ""))
    });
    let is_name = |name: &str| !name.contains(|one: char| one != '_' && !one.is_ascii_uppercase());
    named.filter(|(name, _)| is_name(name)).collect()
}

#[test]
fn constants_are_those_of_the_header() {
    let header = include_str!("../../../../include/fio2070.h")
        .replace("= FIO2070_", "= ")
        .replace("#define FIO2070_VERSION ", "FIO2070_VERSION = ")
        .replace("NO_MESSAGE SIZE_MAX", "NO_MESSAGE = usize::MAX")
        .replace(" (SIZE_MAX - ", " = usize::MAX - ");
    let ours = declared(include_str!("../src/constants.rs"), "pub const ");
    assert_eq!(ours, declared(&header, "FIO2070_"));
    assert!(ours.len() > 50);
}

#[test]
fn numbers_have_texts() {
    let mut text = [0; LONGEST_TEXT];
    assert_eq!(rule_text(RULE_PAIR, &mut text), Ok("pair"));
    assert_eq!(content_rule_text(CONTENT_FRESH, &mut text), Ok("fresh"));
    assert_eq!(content_rule_text(255, &mut text), Ok(""));
    assert_eq!(show(&[7], &mut text), Ok("unknown type 7\n"));
    assert_eq!((widen(0x10002, 65534), widen(0x10002, 2)), (65534, 0x10002));
    assert_eq!(wire_check(b"123456789"), 0x906e);
    let line = Line { rate: 614_400, waiting: 1024, per_block: 255, inputs: 64, filter: 5, ..Line::default() };
    let pace = plan(&line).unwrap();
    assert_eq!((pace.scans, pace.round, pace.late, pace.load), (4, 4, 7, 833));
    assert_eq!(plan(&Line { rate: 153_600, ..line }), None);
    assert_eq!(plan(&Line { drift: 100, jitter: 2, ..line }).unwrap().scans, 16);
}

#[test]
fn a_module_has_limits_and_is_called() {
    assert!(Module::<3>::sized(2, 0).is_none() && Module::<0>::sized(2, 255).is_none());
    assert!(Module::<8193>::sized(2, 255).is_none() && Module::<8192>::sized(2, 255).is_some());
    assert!(Module::new(2, 0).is_none());
    let (mut module, mut out) = (Module::<3>::sized(2, 255).unwrap(), [0; LONGEST_FRAME]);
    let loaded = module.receive(&[0x32, 0, 0, 0, 9], &mut out);
    assert_eq!(loaded, Some(&[0xb2, 0][..]));
    assert_eq!(module.receive(&[6], &mut out), None);
    module.line_sync();
    module.raise(3);
    module.set_errors(3, 4);
    module.count_receive_error();
    module.count_transmit_error();
    let state = module.state();
    assert_eq!((state.counter, state.flags), (9, 0x83));
    assert_eq!((state.errors.receive, state.errors.transmit), (4, 5));
    let status = module.receive(&[0x31, 0x80], &mut out);
    assert_eq!(status, Some(&[0xb1, 3, 4, 5, 0, 0, 0, 9][..]));
    module.restart();
    assert_eq!((module.state().counter, module.state().flags), (0, 0x80));
}

/// The answers of the module's maker, and why they are refused.
#[test]
fn a_maker_answers() {
    let (mut module, mut out) = (Module::new(2, 255).unwrap(), [0; LONGEST_FRAME]);
    assert_eq!(module.makers_command(&POLL), None);
    assert_eq!(module.makers_command(&[57, 1]), Some((57, &[1][..])));
    let refused = module.answer_other(59, &[], &mut out);
    assert_eq!(refused, Err(AnswerRefusal::OtherAwaited));
    let refused = module.answer_other(57, &[0; 773], &mut out);
    assert_eq!(refused, Err(AnswerRefusal::TooLong));
    assert_eq!(
        module.answer_other(57, &[4], &mut out),
        Ok(&[0xb9, 4][..])
    );
    let refused = module.answer_other(57, &[4], &mut out).unwrap_err();
    assert_eq!(refused.to_string(), "no answer is awaited");
}

/// Of a copy of a module entries wait, whatever becomes of the module.
#[test]
fn a_poller_polls_a_copy() {
    let (mut module, mut out) = (Module::new(2, 255).unwrap(), [0; LONGEST_FRAME]);
    module.receive(&[51, 1, 12, 1, 1], &mut out);
    assert_eq!(module.state().watchdog_ms, 0);
    module.scan(!(1 << 12));
    let (mut copy, mut poller) = (module.clone(), Poller::new(5));
    module.restart();
    assert_eq!((module.state().waiting, copy.state().waiting), (0, 1));
    let mut poll = [0; 2];
    let answer = copy.receive(poller.poll(&mut poll).unwrap(), &mut out);
    let answer = answer.unwrap();
    assert_eq!(answer, [0xb6, 5, 1, 12, 0, 1, 0, 0, 0, 0, 1]);
    let (mut item, heard) = ([RecordItem::default()], poller.hear(answer, &mut []));
    assert_eq!(words(heard), "NoRoom { number: 5, stamp: 1, items: 1 }");
    assert_eq!(heard.to_string(), "no room needed 1");
    let taken = "Taken { number: 5, stamp: 1, entries: 1, status: 0, items: 1 }";
    assert_eq!(words(poller.hear(answer, &mut item)), taken);
    assert_eq!(poller.number(), 6);
    assert_eq!((item[0].gap, item[0].input, item[0].wide), (false, 12, 1));
    let words = [
        (&[][..], "unreadable empty"),
        (&[0xb3, 0][..], "other 179"),
        (answer, "stale 5"),
    ];
    for (octets, said) in words {
        assert_eq!(poller.hear(octets, &mut item).to_string(), said);
    }
}

#[test]
fn filters_change_after_their_samples() {
    let mut filters = Filters::new();
    assert_eq!(filters.configure(&items(2, 1)), Ok(()));
    let absent = ConfigurationError::AbsentInput { place: 0 };
    assert_eq!(filters.configure(&items(64, 1)), Err(absent));
    let many = filters.configure(&items(2, 256));
    assert_eq!(many, Err(ConfigurationError::TooManyItems));
    let samples = [1, 0, 0, 1, 0, 0, 0, 1, 0, 1, 1];
    let changes = samples.map(|sample| filters.scan(sample << 2));
    assert_eq!(changes, [0, 0, 0, 0, 0, 0, 4, 0, 0, 0, 4]);
    assert_eq!((filters.raw(), filters.filtered()), (4, 4));
    assert_eq!(filters.scan(0), 0);
    assert_eq!((filters.raw(), filters.filtered()), (0, 4));
}

#[test]
fn a_counter_is_loaded_at_the_line_sync() {
    let mut counter = Counter::new();
    counter.tick();
    counter.ask_load(u32::MAX);
    assert_eq!(counter.now(), 1);
    counter.line_sync();
    counter.tick();
    assert_eq!(counter.now(), 0);
}

#[test]
fn checkers_find_breaches() {
    assert!(Checker::within(255, 0).is_none() && Checker::anywhere(0, 1).is_none());
    for mut checker in [Checker::new(), Checker::within(255, 64).unwrap()] {
        assert!(checker.sent(&POLL).is_none());
        let breach = checker.heard(&[0xb3, 0]).unwrap();
        assert_eq!((breach.rule, breach.has_due), (RULE_PAIR, true));
        assert_eq!((breach.due, breach.got), (182, 179));
    }
    let mut checker = Checker::anywhere(255, 64).unwrap();
    assert!(checker.heard(&[0xb3, 0]).is_none());
    let mut content = ContentChecker::new();
    content.sent(&[0x32, 0, 0, 0, 0]);
    let breach = content.heard(&[0xb2, 1]).unwrap();
    assert_eq!((breach.rule, breach.input), (CONTENT_DONE, NO_INPUT));
    let breach = ContentChecker::begun().heard(&[0xb3, 1]).unwrap();
    assert_eq!(breach.rule, CONTENT_ACCEPTED);
}

#[test]
fn judges_find_breaches() {
    assert!(LinkJudge::anywhere(255, 0).is_none() && LinkJudge::begun(0, 1).is_none());
    let mut judge = LinkJudge::anywhere(255, 1024).unwrap();
    assert_eq!(judge.sent(AT_CPU, &POLL).kind, OUTCOME_KEPT);
    let found = judge.heard(&block(6, 5));
    assert_eq!((found.kind, found.rule), (OUTCOME_BROKEN, RULE_NUMBER));
    assert_eq!((found.has_due, found.due, found.got), (true, 5, 6));
    judge.lose();
    assert_eq!(judge.sent(AT_BUS, &[0x34]).why, WHY_PLACE_LOST);
    let mut judge = LinkJudge::begun(255, 1024).unwrap();
    assert_eq!(judge.heard(&block(6, 5)).rule, RULE_PAIR);
}

#[test]
fn judges_of_logs_take_frames_and_lines() {
    let start = |waiting| LogJudge::new(LOG_TAKEN_AT_CPU, LOG_BEGINS_WITH_ENDS, 255, waiting);
    assert!(start(0).is_none());
    let mut judge = start(1024).unwrap();
    assert_eq!(judge.frame(true, LOG_FROM_CPU, &POLL).kind, OUTCOME_KEPT);
    judge.miss();
    judge.possible();
    let heard = |judge: &mut LogJudge| judge.frame(false, LOG_NO_SIDE, &block(6, 5));
    assert_eq!(heard(&mut judge).why, WHY_PLACE_LOST);
    judge.frame(true, LOG_NO_SIDE, &POLL);
    assert_eq!(heard(&mut judge).rule, RULE_NUMBER);
    judge.frame(true, LOG_NO_SIDE, &POLL);
    judge.lose();
    assert_eq!(heard(&mut judge).why, WHY_PLACE_LOST);
}

#[test]
fn lost_lines_of_a_cpu_that_never_loads_the_counter_are_no_load() {
    for (start, expected) in [
        (LOG_BEGINS_WITH_ENDS, OUTCOME_EXCUSED),
        (LOG_BEGINS_WITH_ENDS + LOG_NEVER_LOADS, OUTCOME_RESTARTED),
    ] {
        let mut judge = LogJudge::new(LOG_TAKEN_AT_CPU, start, 255, 1024).unwrap();
        judge.frame(true, LOG_FROM_CPU, &[0x36, 5]);
        judge.frame(false, LOG_FROM_MODULE, &[0xb6, 5, 0, 0, 0, 0, 3, 0xe8]);
        judge.lose();
        judge.frame(true, LOG_FROM_CPU, &[0x36, 6]);
        let back = judge.frame(false, LOG_FROM_MODULE, &[0xb6, 6, 0, 0, 0, 0, 0, 10]);
        assert_eq!(back.kind, expected);
    }
}

#[test]
fn frames_of_logs_are_counted_and_have_signs() {
    let mut counts = LogCounts::new();
    assert_eq!(counts.frame(&POLL, Some(10)), None);
    assert_eq!(counts.frame(&block(5, 5), Some(40)), Some(30));
    counts.frame(&POLL, None);
    counts.lose();
    counts.frame(&[0x36, 6], None);
    assert_eq!((counts.polls, counts.unanswered), (3, 0));
    let mut signs = LogSigns::new();
    assert_eq!(signs.sign(), LOG_SIGN_NONE);
    for number in [0, 0, 1, 1, 2, 2, 3, 3] {
        signs.frame(false, LOG_NO_SIDE, &block(number, 1));
    }
    assert_eq!(signs.sign(), LOG_SIGN_TWICE);
}

/// On a thread with room for reader and batch, which a build for debugging copies.
#[test]
fn logs_are_read_by_batches() {
    let thread = std::thread::Builder::new().stack_size(1 << 24);
    thread.spawn(read_by_batches).unwrap().join().unwrap();
}

fn read_by_batches() {
    let text = b"00:00:01.000 TX 36 05\n00:00:01.003 RX b6 05 00 00 00 00 00 05\n\
        00:00:02.000 TX 36 06\n00:00:02.002 RX b6 07 00 00 00 00 00 06\n";
    let mut reader = Box::new(LogReader::new(LOG_AUTO));
    let mut batch = Box::new(LogBatch::new());
    let (mut outcomes, mut taken) = ([JudgeOutcome::default(); 20480], [0; 20480]);
    assert_eq!(reader.read(text, &mut batch), text.len());
    assert!(batch.verdicts().next().is_none());
    reader.end();
    assert_eq!(reader.read(&[], &mut batch), 0);
    let kinds: Vec<_> = batch.verdicts().map(|it| (it.line, it.kind)).collect();
    assert_eq!(kinds, [1, 2, 3, 4].map(|line| (line, LOG_SAYS)));
    let mut second = batch.verdicts().nth(1).unwrap();
    let place = second.places[0];
    assert_eq!((place.line, place.start, place.end), (2, 16, 39));
    assert_eq!(second.frames.next(), Some(&block(5, 5)[..]));
    assert_eq!(second.reason, LOG_NO_REASON);
    assert_eq!(
        (second.time, second.said),
        (Some(1_003_000), LOG_FROM_MODULE)
    );
    let forms = reader.forms();
    let fronts: Vec<_> = forms.iter().map(|it| (it.before(), it.lines)).collect();
    assert!(fronts.contains(&(&b"00:00:01.000 TX "[..], 2)) && fronts.len() == 2);
    let mut given = Box::new(LogReader::new(LOG_AUTO));
    assert_eq!((given.like(b"no octets"), given.like(b"TX 36 05")), (0, 1));
    assert_eq!(given.forms().iter().count(), 1);
    let mut judge = LogJudge::new(LOG_TAKEN_AUTO, LOG_BEGINS_ANYWHERE, 255, 1024).unwrap();
    let found = judge.batch(false, &batch, &mut outcomes);
    let rules: Vec<_> = found.iter().map(|it| it.rule).collect();
    assert_eq!(rules, [0, 0, 0, RULE_NUMBER]);
    let mut counts = LogCounts::new();
    assert_eq!(counts.batch(&batch, &mut taken), [3000, 2000]);
    assert_eq!((counts.frames, counts.polls), (4, 2));
    let (mut stretches, mut seams) = (LogStretches::new(), [LogSeam::default(); 20480]);
    let found = stretches.batch(&batch, &outcomes, &mut seams);
    let causes: Vec<_> = found.iter().map(|it| (it.frame, it.cause, it.missing)).collect();
    assert_eq!(causes, [(3, SEAM_MISSING, 1)]);
    assert_eq!((stretches.blocks, stretches.missing_blocks), (2, 1));
    let mut part = Box::new(LogBatch::new());
    assert_eq!(part.take_part(&batch, &[1, 1, 2]), 2);
    let kinds: Vec<_> = part.verdicts().map(|it| it.kind).collect();
    assert_eq!(kinds, [LOG_SAYS, LOG_SAYS, LOG_DAMAGED, LOG_BLANK]);
    assert_eq!(
        part.verdicts().nth(1).unwrap().frames.next(),
        Some(&block(5, 5)[..])
    );
    assert_eq!(judge.batch(false, &part, &mut outcomes).len(), 2);
    let lines = [0, 0, 1, 1, 2, 2, 3, 3].map(|number| format!("b60{number}000000000001\n"));
    let (mut reader, mut signs) = (LogReader::new(LOG_FRAMES), LogSigns::new());
    reader.read(lines.concat().as_bytes(), &mut batch);
    signs.batch(false, &batch);
    assert_eq!(signs.sign(), LOG_SIGN_TWICE);
}

#[test]
fn lines_are_written_and_read() {
    let line = [0x7e, 0x14, 0x83, 0x36, 5, 0xc4, 0x1b, 0x7e];
    let frame = "{ address: 20, control: 131, message: [54, 5] }";
    let mut out = [0; WIRE_LONGEST];
    let written = wire_frame(&POLL, 0x14, 0x83, &mut out);
    assert_eq!(written, Ok(&line[..]));
    let mut wire = Wire::new(Some(0x15), None);
    let heard = wire.read(&mut &line[..]).map(words);
    assert_eq!(heard, Some(format!("Other {frame}")));
    assert_eq!(wire.read(&mut &line[..3]), None);
    wire.lose();
    assert_eq!(wire.read(&mut &line[3..]), Some(WireHeard::Damaged));
    let mut bits = &b"01111110001010001100000101101100101000000010001111011000"[..];
    let mut decoder = WireBits::new(Some(0x14), Some(0x83));
    assert_eq!(decoder.read(&mut bits), None);
    let heard = decoder.read(&mut &b"01111110"[..]).map(words);
    assert_eq!(heard, Some(format!("Message {frame}")));
    let mut longest = wire_frame(&[0x7e; 773], 0x7d, 0x7e, &mut out).unwrap();
    let mut wire = Wire::new(None, None);
    let heard = wire.read(&mut longest);
    assert!(matches!(heard, Some(WireHeard::Message { message, .. }) if message == [0x7e; 773]));
    assert!(longest.is_empty());
}
