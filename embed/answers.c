/* Answers that the library keeps: what sm_tool writes for the bytes on standard input.

       answers audit [--strict] [--json] [--run IDS]
       answers evidence [--json] [--run IDS]
       answers draw [--run IDS]
       answers decide [--json]
       answers accuse [--receipts] --general GENERAL [--run IDS]
       answers receipt --general GENERAL [--run IDS]
       answers receipts [--json] [--run IDS]
       answers show [--json] [--run IDS]
       answers explain|words|plan|run-ids

   IDS are one to four run ids of 64 hexadecimal digits, with commas between them. `explain` reads the name from
   standard input, and `run-ids` writes the IDS of a file. The exit status is that of sm_tool, and so is the line of
   what failed. */
#include "answers.h"
#include <stdbool.h>
#include <string.h>

/* What the words ask for. The options have the run ids in `runs`. */
struct job {
    const char *name;
    uint32_t general;
    sm_options options;
    uint8_t runs[SM_RUNS_MOST * SM_RUN_ID_BYTES];
};

/* The value of a hexadecimal digit, or -1. */
static int digit(char it) {
    const char *digits = "0123456789abcdef";
    const char *found = it != '\0' ? strchr(digits, it) : NULL;
    return found != NULL ? (int)(found - digits) : -1;
}

/* Whether a word is run ids, which are then the job's. */
static bool takes_runs(struct job *job, const char *word) {
    size_t length = strlen(word), count = (length + 1) / 65;
    if (length % 65 != 64 || count > SM_RUNS_MOST) return false;
    for (size_t at = 0; at < length; at++) {
        if (at % 65 == 64) {
            if (word[at] != ',') return false;
            continue;
        }
        int value = digit(word[at]);
        size_t place = (at / 65) * SM_RUN_ID_BYTES + (at % 65) / 2;
        if (value < 0) return false;
        job->runs[place] = (uint8_t)(at % 65 % 2 == 0 ? 16 * value : job->runs[place] + value);
    }
    job->options.runs = job->runs;
    job->options.run_count = count;
    return true;
}

/* Whether a word is the number of a general, which is then the job's. */
static bool takes_general(struct job *job, const char *word) {
    char *end = NULL;
    unsigned long general = strtoul(word, &end, 10);
    job->general = (uint32_t)general;
    return word[0] >= '0' && word[0] <= '9' && *end == '\0' && general < 16;
}

/* Whether the words ask for a job. */
static bool is_asked(struct job *job, int words, char **word) {
    bool has_general = false;
    job->name = words > 1 ? word[1] : "";
    for (int at = 2; at < words; at++) {
        if (strcmp(word[at], "--strict") == 0) {
            job->options.strict = 1;
        } else if (strcmp(word[at], "--json") == 0) {
            job->options.form = SM_JSON;
        } else if (strcmp(word[at], "--receipts") == 0) {
            job->options.receipts = 1;
        } else if (at + 1 < words && strcmp(word[at], "--run") == 0) {
            if (!takes_runs(job, word[++at])) return false;
        } else if (at + 1 < words && strcmp(word[at], "--general") == 0) {
            if (!takes_general(job, word[++at])) return false;
            has_general = true;
        } else {
            return false;
        }
    }
    return has_general == (strcmp(job->name, "accuse") == 0 || strcmp(job->name, "receipt") == 0);
}

/* One call of the library. */
static uint32_t call(const struct job *job, struct bytes input, sm_answer *answer) {
    static const struct {
        const char *name;
        uint32_t (*ask)(const uint8_t *, size_t, const sm_options *, sm_answer *);
        uint32_t (*tell)(const uint8_t *, size_t, sm_answer *);
    } jobs[] = {
        {"audit", sm_audit, NULL}, {"evidence", sm_evidence, NULL}, {"decide", sm_decide, NULL},
        {"draw", sm_draw, NULL},   {"show", sm_show, NULL},         {"receipts", sm_receipts, NULL},
        {"words", NULL, sm_words}, {"explain", NULL, sm_explain},   {"plan", NULL, sm_plan},
        {"run-ids", NULL, sm_run_id},
    };
    if (strcmp(job->name, "accuse") == 0) return sm_accuse(job->general, input.at, input.length, &job->options, answer);
    if (strcmp(job->name, "receipt") == 0) return sm_receipt(job->general, input.at, input.length, &job->options, answer);
    for (size_t at = 0; at < sizeof jobs / sizeof *jobs; at++) {
        if (strcmp(job->name, jobs[at].name) != 0) continue;
        if (jobs[at].ask != NULL) return jobs[at].ask(input.at, input.length, &job->options, answer);
        return jobs[at].tell(input.at, input.length, answer);
    }
    return SM_MISUSE;
}

/* Writes the run ids of a file in digits; returns the exit status. */
static int tell_runs(uint32_t status, sm_answer *answer) {
    if (status == SM_FAULT) return failed(SM_FAULT, "no whole file");
    struct bytes ids = status == SM_OK ? text_of(answer) : (struct bytes){NULL, 0};
    sm_answer_free(answer);
    if (ids.at == NULL) return failed(SM_MEMORY, "memory");
    for (size_t at = 0; at < ids.length; at++)
        printf("%s%02x", at != 0 && at % SM_RUN_ID_BYTES == 0 ? "," : "", ids.at[at]);
    free(ids.at);
    return printf("\n") == 1 && fflush(stdout) == 0 ? SM_OK : failed(STREAM_FAILED, "write failed");
}

/* Does a job on standard input; returns the exit status. */
static int answered(const struct job *job) {
    sm_answer answer = {0};
    struct bytes input = read_all();
    if (ferror(stdin)) {
        free(input.at);
        return failed(STREAM_FAILED, "read failed");
    }
    if (input.at == NULL) return failed(SM_MEMORY, "memory");
    uint32_t status = call(job, input, &answer);
    free(input.at);
    return strcmp(job->name, "run-ids") == 0 ? tell_runs(status, &answer) : tell(status, &answer);
}

int main(int words, char **word) {
    struct job job = {0};
    return is_asked(&job, words, word) ? answered(&job) : failed(SM_MISUSE, "usage: see the first lines of answers.c");
}
