/* The reader of logs: a log that is cut at random; what is said of its batches, and of parts of them. The signs of a log: frames, of
 * which some come twice. */
#include "calls.h"

#include <stdlib.h>
#include <string.h>

static struct fio2070_log_reader reader;
static struct fio2070_log_batch batch, part;
static struct fio2070_judge_outcome outcomes[sizeof batch.lengths / sizeof batch.lengths[0]];
static struct fio2070_log_seam seams[sizeof batch.lengths / sizeof batch.lengths[0]];
static uint64_t taken_times[sizeof batch.lengths / sizeof batch.lengths[0]];
static struct fio2070_log_form_list forms;

/* The frames of a batch are messages, their number is what its verdicts say, and lines are numbered without a gap. */
static void require_batch(uint64_t *line) {
    struct fio2070_command command;
    struct fio2070_answer answer;
    uint64_t frames = 0, places = 0;
    size_t at = 0, place;
    for (place = 0; place < batch.verdict_count; place++) {
        const struct fio2070_log_verdict *verdict = &batch.verdicts[place];
        require(verdict->line == ++*line, "lines are numbered without a gap");
        frames += verdict->frames, places += verdict->places;
        mix(verdict->line), mix(verdict->time), mix(verdict->frames), mix(verdict->places), mix(verdict->kind);
        mix(verdict->reason), mix(verdict->time_kind), mix(verdict->said);
    }
    require(frames == batch.frame_count && places == batch.place_count, "the counts of verdicts are those of the batch");
    for (place = 0; place < batch.place_count; place++)
        mix(batch.places[place].line), mix(batch.places[place].start), mix(batch.places[place].end);
    for (place = 0; place < batch.frame_count; at += batch.lengths[place++]) {
        const uint8_t *frame = batch.octets + at;
        require(*frame < FIO2070_TYPE_ANSWER ? fio2070_decode_command(frame, batch.lengths[place], &command).kind == 0
                                             : fio2070_decode_answer(frame, batch.lengths[place], &answer).kind == 0,
                "a frame of a log is a message");
    }
    require(at == batch.octet_count, "the frames are all octets of the batch");
    mix_octets(batch.octets, batch.octet_count);
}

/* What the judge, the counts and the signs keep of a log, by its batches or by parts of them. */
struct kept {
    struct fio2070_log_judge judge;
    struct fio2070_log_counts counts;
    struct fio2070_log_signs signs;
    struct fio2070_log_stretches stretches;
};

static void start_kept(struct kept *kept, uint8_t how) {
    const struct fio2070_limits limits = {FIO2070_STANDARD_WAITING, FIO2070_MOST_ENTRIES, 0};
    untouch(kept, sizeof *kept);
    require(fio2070_log_judge_start(&kept->judge, limits, how % 4, (uint8_t)(how >> 3)) == FIO2070_STARTED, "limits in their range are taken");
    fio2070_log_counts_start(&kept->counts);
    fio2070_log_signs_start(&kept->signs);
    fio2070_log_stretches_start(&kept->stretches);
}

static void keep(struct kept *kept, const struct fio2070_log_batch *said, uint8_t as_said) {
    const uint64_t above = kept->counts.frames;
    uint32_t count = fio2070_log_judge_batch(&kept->judge, as_said, said, outcomes), place;
    require(count == said->frame_count, "each frame of a batch has an outcome");
    for (place = 0; place < count; place++) mix(outcomes[place].kind), mix(outcomes[place].why), mix(outcomes[place].rule);
    count = fio2070_log_stretches_batch(&kept->stretches, said, outcomes, seams);
    require(count <= said->frame_count, "no more places than frames");
    for (place = 0; place < count; place++) {
        require(seams[place].frame < said->frame_count && (place == 0 || seams[place].frame > seams[place - 1].frame), "places are in order");
        mix(seams[place].frame), mix(seams[place].cause), mix(seams[place].is_lost), mix(seams[place].missing);
    }
    mix(kept->stretches.blocks), mix(kept->stretches.transitions), mix(kept->stretches.missing_blocks), mix(kept->stretches.stamped_whole);
    count = fio2070_log_counts_batch(&kept->counts, said, taken_times);
    require(count <= said->frame_count && kept->counts.frames - above <= said->frame_count, "no more is counted than there is");
    for (place = 0; place < count; place++) mix(taken_times[place]);
    mix(kept->counts.frames), mix(kept->counts.polls), mix(kept->counts.unanswered);
    fio2070_log_signs_batch(&kept->signs, as_said, said);
    mix(fio2070_log_signs_sign(&kept->signs));
}

/* The frames of a line of a part are those of the line of the batch, or none. */
static void require_frames(const uint8_t *mask, size_t length) {
    uint32_t line, frame = 0, at = 0, here = 0, here_at = 0, end;
    for (line = 0; line < batch.verdict_count; line++) {
        const int is_taken = line < length && mask[line] == 1;
        for (end = frame + batch.verdicts[line].frames; frame < end; at += batch.lengths[frame++]) {
            const uint16_t octets = batch.lengths[frame];
            if (!is_taken) continue;
            require(part.lengths[here] == octets && memcmp(part.octets + here_at, batch.octets + at, octets) == 0,
                    "a part has the frames of the lines that it takes");
            here++, here_at += octets;
        }
    }
    require(here == part.frame_count && here_at == part.octet_count, "a part has no other frames");
}

/* A part of the batch contains all its lines: those that the mask takes, and blank ones. */
static void require_part(const uint8_t *mask, size_t length) {
    uint32_t count, line;
    untouch(&part, sizeof part);
    count = fio2070_log_batch_part(&batch, mask, length, &part);
    require(count == part.frame_count && part.place_count == 0 && part.verdict_count == batch.verdict_count, "a part has each line, and no places");
    for (line = 0; line < part.verdict_count; line++) {
        const struct fio2070_log_verdict *one = &part.verdicts[line], *whole = &batch.verdicts[line];
        const int how = line < length ? mask[line] : 0;
        require(one->line == whole->line && one->time == whole->time && one->said == whole->said && one->places == 0, "a line has its number and time");
        require(one->kind == (how == 1 ? whole->kind : how == 2 ? FIO2070_LOG_DAMAGED : FIO2070_LOG_BLANK), "a line is as it is taken");
        require(one->frames == (how == 1 ? whole->frames : 0), "a line that is not taken has no frames");
    }
    require_frames(mask, length);
}

/* The forms of a log have no more lines than those that have a verdict. */
static void require_forms(uint64_t lines) {
    size_t place;
    fio2070_log_forms(&reader, &forms);
    require(forms.count <= 16, "there are no more forms than have room");
    mix(forms.count);
    for (place = 0; place < forms.count; place++) {
        const struct fio2070_log_read_as *form = &forms.forms[place];
        require(form->damaged <= form->lines && form->lines <= lines && form->from <= lines, "a form has lines that have verdicts");
        require(form->front_length <= sizeof form->front && form->is_echo <= 1, "the text before octets has room");
        mix(form->from), mix(form->lines), mix(form->damaged), mix(form->is_echo), mix_octets(form->front, form->front_length);
    }
}

static struct kept of_log, of_part;

/* Says of a batch that has lines, and of a part of it, what is said of a log. The mask has what the octets of the piece are modulo 4. */
static void say(const uint8_t *piece, size_t length, uint8_t as_said) {
    size_t place;
    uint8_t *mask;
    if (batch.verdict_count == 0) return;
    mask = length > 0 ? (uint8_t *)untouched(length) : NULL;
    for (place = 0; place < length; place++) mask[place] = piece[place] % 4;
    require_part(mask, length);
    keep(&of_log, &batch, as_said), keep(&of_part, &part, as_said);
    free(mask);
}

/* Reads a piece whole. */
static void read_piece(const uint8_t *piece, size_t length, uint64_t *line) {
    size_t taken = 0;
    int idle = 0;
    do {
        size_t count = fio2070_log_read(&reader, length > 0 ? piece + taken : NULL, length - taken, &batch);
        require(count <= length - taken, "no more octets are taken than there are");
        taken += count;
        require_batch(line);
        say(piece, length, (uint8_t)(length & 1));
        idle = count == 0 && batch.verdict_count == 0 ? idle + 1 : 0;
    } while (taken < length && idle < 2);
    require(taken == length, "each octet is taken at last");
}

void call_log_reader(struct input *input) {
    uint64_t line = 0;
    uint8_t how = take8(input);
    untouch(&reader, sizeof reader);
    fio2070_log_start(&reader, how % 4);
    start_kept(&of_log, how), start_kept(&of_part, how);
    if (how & 4) {
        size_t length;
        uint8_t *samples = take_frame(input, &length);
        mix(fio2070_log_like(&reader, samples, length));
        free(samples);
    }
    while (input->left > 0) {
        size_t length;
        uint8_t *piece = take_frame(input, &length);
        read_piece(piece, length, &line);
        free(piece);
    }
    fio2070_log_end(&reader);
    do {
        require(fio2070_log_read(&reader, NULL, 0, &batch) == 0, "of no octets none is taken");
        require_batch(&line);
        say(NULL, 0, 0);
    } while (batch.verdict_count > 0);
    require_forms(line);
}

void call_log_signs(struct input *input) {
    struct fio2070_log_signs *signs = (struct fio2070_log_signs *)untouched(sizeof *signs);
    uint8_t how = take8(input), sign = FIO2070_LOG_SIGN_NONE;
    fio2070_log_signs_start(signs);
    require(fio2070_log_signs_sign(signs) == sign, "a log without frames has no sign");
    if (has_garbage && how & 1) take_into(input, signs, sizeof *signs);
    while (input->left > 0) {
        size_t length;
        uint8_t *frame = take_frame(input, &length);
        how = take8(input);
        fio2070_log_signs_frame(signs, how & 1, how >> 6, frame, length);
        if (how & 2) fio2070_log_signs_frame(signs, how & 1, how >> 4 & 3, frame, length);
        sign = fio2070_log_signs_sign(signs);
        require(sign <= FIO2070_LOG_SIGN_EMPTY_LEFT_OUT, "the sign is in its range");
        mix(sign);
        free(frame);
    }
    free(signs);
}
