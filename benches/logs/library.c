/* Reads a log by libfio2070 alone, a piece at a time, and counts its frames; with the word "check" both checkers judge each of
 * them. It shows what of the time of `fiolog` is the library's (../logs.py). */
#include <fio2070.h>
#include <stdio.h>
#include <string.h>

enum { PIECE = 1 << 16, ANSWER = 128 };

static struct fio2070_log_reader reader;
static struct fio2070_log_batch batch;
static struct fio2070_checker checker;
static struct fio2070_content_checker content;
static unsigned long lines, frames, breaches;
static int checks;

static void judge(const uint8_t *octets, size_t length) {
    struct fio2070_breach breach;
    struct fio2070_content_breach of_content;
    if (octets[0] < ANSWER) {
        breaches += fio2070_checker_sent(&checker, octets, length, &breach) != 0;
        fio2070_content_sent(&content, octets, length);
    } else {
        breaches += fio2070_checker_heard(&checker, octets, length, &breach) != 0;
        breaches += fio2070_content_heard(&content, octets, length, &of_content) != 0;
    }
}

static void take_batch(void) {
    const uint8_t *octets = batch.octets;
    lines += batch.verdict_count;
    frames += batch.frame_count;
    for (uint32_t frame = 0; checks && frame < batch.frame_count; octets += batch.lengths[frame++]) {
        judge(octets, batch.lengths[frame]);
    }
}

static void read_piece(const uint8_t *octets, size_t length) {
    while (length > 0) {
        size_t taken = fio2070_log_read(&reader, octets, length, &batch);
        octets += taken;
        length -= taken;
        take_batch();
    }
}

int main(int count, char **words) {
    static uint8_t piece[PIECE];
    size_t length;
    checks = count > 1 && strcmp(words[1], "check") == 0;
    fio2070_log_start(&reader, FIO2070_LOG_AUTO);
    fio2070_checker_start(&checker);
    fio2070_content_start(&content);
    while ((length = fread(piece, 1, sizeof piece, stdin)) > 0) read_piece(piece, length);
    fio2070_log_end(&reader);
    while (fio2070_log_read(&reader, piece, 0, &batch) == 0 && batch.verdict_count > 0) take_batch();
    printf("lines %lu, frames %lu, breaches %lu\n", lines, frames, breaches);
    return 0;
}
