//! The constants of include/fio2070.h, without their prefix.

pub const VERSION: u32 = 10_000;

pub const LONGEST_FRAME: usize = 773;
pub const MOST_ENTRIES: usize = 255;
pub const MOST_RECORD_ITEMS: usize = 256;
pub const STANDARD_WAITING: usize = 1_024;
pub const MOST_WAITING: usize = 8_192;
pub const LONGEST_TEXT: usize = 62;
pub const NO_MESSAGE: usize = usize::MAX;
pub const NOT_AWAITED: usize = usize::MAX - 1;
pub const OTHER_AWAITED: usize = usize::MAX - 2;
pub const BODY_TOO_LONG: usize = usize::MAX - 3;
pub const NO_INPUT: u8 = 255;

// Types of commands; that of an answer is TYPE_ANSWER more.
pub const TYPE_STATUS: u8 = 49;
pub const TYPE_LOAD_COUNTER: u8 = 50;
pub const TYPE_CONFIGURE_INPUTS: u8 = 51;
pub const TYPE_RAW_INPUTS: u8 = 52;
pub const TYPE_FILTERED_INPUTS: u8 = 53;
pub const TYPE_POLL: u8 = 54;
pub const TYPE_SET_OUTPUTS: u8 = 55;
pub const TYPE_TRACK_INPUTS: u8 = 56;
pub const TYPE_COMPLEX_OUTPUTS: u8 = 57;
pub const TYPE_WATCHDOG: u8 = 58;
pub const TYPE_CONTROLLER_ID: u8 = 59;
pub const TYPE_IDENTIFY: u8 = 60;
pub const TYPE_ANSWER: u8 = 128;

// Bits of statuses and flags.
pub const BIT_ERROR: u8 = 1;
pub const BIT_SET_BEFORE: u8 = 1;
pub const BIT_MORE: u8 = 8;
pub const BIT_LOST: u8 = 4;
pub const BIT_AGAIN: u8 = 2;
pub const BIT_OUT_OF_SEQUENCE: u8 = 1;
pub const BIT_WAS_RESET: u8 = 128;

// Kinds of faults.
pub const FAULT_NONE: u8 = 0;
pub const FAULT_EMPTY: u8 = 1;
pub const FAULT_TOO_LONG: u8 = 2;
pub const FAULT_UNKNOWN_TYPE: u8 = 3;
pub const FAULT_WRONG_LENGTH: u8 = 4;

// Kinds of what a poller hears.
pub const HEARD_TAKEN: u8 = 0;
pub const HEARD_UNREADABLE: u8 = 1;
pub const HEARD_OTHER: u8 = 2;
pub const HEARD_STALE: u8 = 3;
pub const HEARD_NO_ROOM: u8 = 4;

// What became of a configuration of filters.
pub const CONFIGURED_APPLIED: u8 = 0;
pub const CONFIGURED_ABSENT_INPUT: u8 = 1;
pub const CONFIGURED_TOO_MANY_ITEMS: u8 = 2;

// What a start of a module returns.
pub const STARTED: u8 = 0;
pub const REFUSED: u8 = 1;

// Rules of transcripts.
pub const RULE_NONE: u8 = 0;
pub const RULE_READABLE: u8 = 1;
pub const RULE_PAIR: u8 = 2;
pub const RULE_NUMBER: u8 = 3;
pub const RULE_ADVANCE: u8 = 4;
pub const RULE_SAME: u8 = 5;
pub const RULE_SEQUENCE: u8 = 6;
pub const RULE_LIMITS: u8 = 7;
pub const RULE_REST: u8 = 8;
pub const RULE_REFUSAL: u8 = 9;

// Rules on content.
pub const CONTENT_NONE: u8 = 0;
pub const CONTENT_ORDER: u8 = 1;
pub const CONTENT_FRESH: u8 = 2;
pub const CONTENT_ALTERNATE: u8 = 3;
pub const CONTENT_APART: u8 = 4;
pub const CONTENT_IGNORED: u8 = 5;
pub const CONTENT_STATE: u8 = 6;
pub const CONTENT_CLOCK: u8 = 7;
pub const CONTENT_DONE: u8 = 8;
pub const CONTENT_ACCEPTED: u8 = 9;
pub const CONTENT_CLEARED: u8 = 10;
pub const CONTENT_WATCHDOG: u8 = 11;

// What a frame is.
pub const OUTCOME_KEPT: u8 = 0;
pub const OUTCOME_BROKEN: u8 = 1;
pub const OUTCOME_BROKEN_CONTENT: u8 = 2;
pub const OUTCOME_EXCUSED: u8 = 3;
pub const OUTCOME_RESTARTED: u8 = 4;
pub const OUTCOME_NOT_JUDGED: u8 = 5;

// Where a frame was logged.
pub const AT_CPU: u8 = 0;
pub const AT_MODULE: u8 = 1;
pub const AT_BUS: u8 = 2;

// Why a frame is excused or not judged.
pub const WHY_NONE: u8 = 0;
pub const WHY_LOAD: u8 = 1;
pub const WHY_UNHEARD: u8 = 2;
pub const WHY_ABOVE_COMMAND: u8 = 3;
pub const WHY_PLACE_LOST: u8 = 4;
pub const WHY_LATE: u8 = 5;
pub const WHY_LATE_ABOVE: u8 = 6;

// How the lines of a log are read.
pub const LOG_AUTO: u8 = 0;
pub const LOG_FRAMES: u8 = 1;
pub const LOG_TRANSCRIPT: u8 = 2;

// What a line of a log is.
pub const LOG_BLANK: u8 = 0;
pub const LOG_SAYS: u8 = 1;
pub const LOG_PART: u8 = 2;
pub const LOG_POSSIBLE: u8 = 3;
pub const LOG_DAMAGED: u8 = 4;
pub const LOG_PASSED_OVER: u8 = 5;

// Why a line of a log gives no frame, or what else is in one that does.
pub const LOG_NO_REASON: u8 = 0;
pub const LOG_NO_OCTETS: u8 = 1;
pub const LOG_NO_MESSAGE: u8 = 2;
pub const LOG_NO_FORM: u8 = 3;
pub const LOG_MORE: u8 = 4;
pub const LOG_UNREAD_FRAME: u8 = 5;
pub const LOG_TOO_LONG: u8 = 6;
pub const LOG_BAD_LINE: u8 = 7;
pub const LOG_LOSS: u8 = 10;
pub const LOG_HEADING: u8 = 11;
pub const LOG_COPY: u8 = 13;
pub const LOG_BROKEN: u8 = 14;

// Who sent the octets of a line of a log, as it says.
pub const LOG_NO_SIDE: u8 = 0;
pub const LOG_FROM_CPU: u8 = 1;
pub const LOG_FROM_MODULE: u8 = 2;

// What the time of a line of a log counts from.
pub const LOG_NO_TIME: u8 = 0;
pub const LOG_DATE: u8 = 1;
pub const LOG_TIME_OF_DAY: u8 = 2;
pub const LOG_SINCE_START: u8 = 3;

/// Where a log was taken.
pub const LOG_TAKEN_AUTO: u8 = 0;
pub const LOG_TAKEN_AT_CPU: u8 = 1;
pub const LOG_TAKEN_AT_MODULE: u8 = 2;
pub const LOG_TAKEN_ON_BUS: u8 = 3;

/// How a log begins, or that late answers are left out of it; added to one of these, that its CPU never loads the counter.
pub const LOG_BEGINS_ANYWHERE: u8 = 0;
pub const LOG_BEGINS_WITH_ENDS: u8 = 1;
pub const LOG_LEAVES_OUT_LATE: u8 = 2;
pub const LOG_NEVER_LOADS: u8 = 4;

/// What kind of log a log looks like.
pub const LOG_SIGN_NONE: u8 = 0;
pub const LOG_SIGN_TWICE: u8 = 1;
pub const LOG_SIGN_BOTH_ENDS: u8 = 2;
pub const LOG_SIGN_REVERSED: u8 = 3;
pub const LOG_SIGN_TWO_LINKS: u8 = 4;
pub const LOG_SIGN_EMPTY_LEFT_OUT: u8 = 5;

/// Why a stretch of a log ends above a block.
pub const SEAM_NONE: u8 = 0;
pub const SEAM_MISSING: u8 = 1;
pub const SEAM_PASSED_OVER: u8 = 2;
pub const SEAM_UNKNOWN: u8 = 3;
pub const SEAM_RESTART: u8 = 4;
pub const SEAM_DISBELIEVED: u8 = 5;

// One's own frames on a line, and the most octets of one.
pub const WIRE_ADDRESS: u8 = 0x14;
pub const WIRE_CONTROL: u8 = 0x83;
pub const WIRE_ANY: u16 = 256;
pub const WIRE_LONGEST: usize = 1556;

// What an octet or a bit of a line ends.
pub const WIRE_NOTHING: u8 = 0;
pub const WIRE_MESSAGE: u8 = 1;
pub const WIRE_OTHER: u8 = 2;
pub const WIRE_DAMAGED: u8 = 3;

// What `plan` finds.
pub const PACE_FOUND: u8 = 0;
pub const NO_PACE: u8 = 1;
pub const NO_LINE: u8 = 2;
