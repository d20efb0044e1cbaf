// How much in a log is usual and how much shows something: bindings/python/fiolog/log_numbers.py says what each number is. Written by
// tools/generate-messages.

export const STATIONS = { most: 32, odd: 8, silent: 4, share: 64 };
