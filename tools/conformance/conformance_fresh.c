/* Runs scripts in new processes, in which the end under test has never run before. One process is forked at the begin,
 * and waits; for each script it forks another. The script is passed in a file, whose place they share. */
#define _POSIX_C_SOURCE 200809L
#include "conformance_fresh.h"

#include <string.h>
#include <sys/wait.h>
#include <unistd.h>

/* What is requested, apart from the script. */
struct request {
    struct rule_set masked, left_out;
    int guard_ms;
};

/* Writes what a script came to. Returns 0 if it can't. */
static int tell(const struct fresh *fresh, size_t event, const struct difference *difference) {
    return fwrite(&event, sizeof event, 1, fresh->from) == 1 && fwrite(difference, sizeof *difference, 1, fresh->from) == 1 &&
           fflush(fresh->from) == 0;
}

/* In the last process: reads the script, and writes the event's number and the difference. */
static void answer(const struct fresh *fresh, const struct ends *given, const struct request *request) {
    static struct script script;
    static struct script_text text;
    static struct difference difference;
    struct ends ends = *given;
    size_t event = 0;
    text.in = fresh->text;
    ends.masked = request->masked;
    ends.left_out = request->left_out;
    ends.guard_ms = request->guard_ms;
    rewind(fresh->text);
    if (conformance_read(&script, &text)) event = conformance_compare(&ends, &script, &difference);
    _exit(!tell(fresh, event, &difference));
}

/* In the process that waits. */
static void wait_for_scripts(const struct fresh *fresh, const struct ends *ends) {
    static struct difference nothing; /* all 0 */
    struct request request;
    while (fread(&request, sizeof request, 1, fresh->to) == 1) {
        pid_t process = fork();
        int status = 0;
        if (process == 0) answer(fresh, ends, &request);
        if (process < 0) _exit(1);
        waitpid(process, &status, 0);
        /* It ended without an answer. */
        if (status != 0 && !tell(fresh, 0, &nothing)) _exit(1);
    }
    _exit(0);
}

void conformance_fresh_begin(struct fresh *fresh, const struct ends *ends) {
    int to[2], from[2];
    memset(fresh, 0, sizeof *fresh);
    fresh->text = tmpfile();
    if (fresh->text == NULL || pipe(to) != 0 || pipe(from) != 0) return;
    fresh->process = fork();
    if (fresh->process == 0) {
        close(to[1]);
        close(from[0]);
        fresh->to = fdopen(to[0], "r");
        fresh->from = fdopen(from[1], "w");
        wait_for_scripts(fresh, ends);
    }
    close(to[0]);
    close(from[1]);
    fresh->to = fdopen(to[1], "w");
    fresh->from = fdopen(from[0], "r");
    fresh->is_there = fresh->process > 0;
}

void conformance_fresh_end(struct fresh *fresh) {
    if (fresh->text != NULL) fclose(fresh->text);
    if (!fresh->is_there) return;
    fclose(fresh->to);
    fclose(fresh->from);
    waitpid((pid_t)fresh->process, NULL, 0);
    fresh->is_there = 0;
}

size_t conformance_fresh_compare(struct fresh *fresh, const struct ends *ends, const struct script *script,
                                 struct difference *difference) {
    struct request request;
    size_t event = 0;
    if (fresh == NULL) return conformance_compare(ends, script, difference);
    memset(difference, 0, sizeof *difference);
    if (!fresh->is_there) return 0;
    rewind(fresh->text);
    if (ftruncate(fileno(fresh->text), 0) != 0) return 0;
    conformance_write(script, fresh->text);
    fflush(fresh->text);
    memset(&request, 0, sizeof request);
    request.masked = ends->masked;
    request.left_out = ends->left_out;
    request.guard_ms = ends->guard_ms;
    if (fwrite(&request, sizeof request, 1, fresh->to) != 1 || fflush(fresh->to) != 0 ||
        fread(&event, sizeof event, 1, fresh->from) != 1 || fread(difference, sizeof *difference, 1, fresh->from) != 1) {
        fresh->is_there = 0;
        return 0;
    }
    return event;
}
