/* Answers in structs: sm_tool's answer to the bytes on standard input, of which each line is made of the facts of the
   answer.

       typed audit [--strict]
       typed decide|receipts

   The exit status is that of sm_tool, and so is the line of what failed. */
#include "answers.h"
#include <inttypes.h>
#include <string.h>

/* The facts of an answer. */
struct facts {
    sm_fact *at;
    size_t count;
};

/* The facts that an answer holds; null where memory was refused. */
static struct facts facts_of(sm_answer *answer) {
    struct facts facts = {NULL, 0};
    uint32_t status = sm_answer_facts(answer, NULL, 0, &facts.count);
    facts.at = malloc((facts.count + 1) * sizeof *facts.at);
    if (facts.at != NULL && status == SM_LENGTH) status = sm_answer_facts(answer, facts.at, facts.count, &facts.count);
    return facts;
}

/* Prints a finding. */
static void print_finding(const sm_fact *it) {
    printf("N%" PRIu32, it->number);
    if (it->number <= 7) printf(" general %" PRIu32, it->general);
    if (it->number == 3) printf(" L%" PRIu32, it->log_fault);
    if (it->chain_fault != 0) printf(" C%" PRIu32, it->chain_fault);
    if (it->number == 5 || it->number == 7) printf(" entry %" PRIu64, it->entry);
    if (it->number == 8 || it->number == 9)
        printf(" from %" PRIu32 " to %" PRIu32 " round %" PRIu32 " order %" PRIu32, it->general, it->other, it->round,
               it->order);
    if (it->number == 10) printf(" pair %" PRIu32 " %" PRIu32, it->general, it->other);
    printf("\n");
}

/* Prints the line of the run id. */
static void print_run_id(const sm_fact *it) {
    printf("run ");
    for (size_t place = 0; place < SM_RUN_ID_BYTES; place++) printf("%02x", it->run_id[place]);
    printf("\n");
}

/* Prints what is said of a run first. */
static void print_run(const sm_fact *it) {
    print_run_id(it);
    switch (it->number) {
    case SM_VERDICT_AGREED: printf("verdict agreed %" PRIu32 "\n", it->order); break;
    case SM_VERDICT_EXPLAINED: printf("verdict explained\n"); break;
    default: printf("verdict no\n"); break;
    }
}

/* Prints the line of a fact of a verdict, if it has one. */
static void print_fact(const sm_fact *it) {
    switch (it->kind) {
    case SM_FACT_RUN: print_run(it); break;
    case SM_FACT_DECISION: printf("general %" PRIu32 " decides %" PRIu32 "\n", it->general, it->order); break;
    case SM_FACT_FINDING: print_finding(it); break;
    case SM_FACT_CONVICTION: printf("convicted %" PRIu32 " by K%" PRIu32 "\n", it->general, it->number); break;
    case SM_FACT_ACROSS:
        printf("convicted %" PRIu32 " by K1 across %" PRIu32 " %" PRIu32 "\n", it->general, it->run, it->other);
        break;
    case SM_FACT_EQUAL_ROOTS: printf("equal roots %" PRIu32 " %" PRIu32 "\n", it->general, it->other); break;
    default: break;
    }
}

/* Prints a verdict on a bundle or a campaign. */
static void print_verdict(struct facts facts, int is_campaign, int is_strict) {
    const sm_fact *it = facts.at, *end = facts.at + facts.count;
    uint32_t runs = 0;
    int is_open = 0;
    for (; it != end; it++) runs += it->kind == SM_FACT_RUN;
    if (is_campaign) printf("campaign %" PRIu32 "\n", runs);
    for (it = facts.at; it != end && it->kind != SM_FACT_EQUAL_ROOTS; it++) {
        int is_behind = it->kind == SM_FACT_RUN || it->kind == SM_FACT_ACROSS;
        if (is_open && is_behind) printf("end\n");
        if (is_behind) is_open = it->kind == SM_FACT_RUN;
        print_fact(it);
    }
    if (is_open) printf("end\n");
    if (is_campaign) printf("end campaign\n");
    for (; is_strict && it != end; it++) print_fact(it);
}

/* Prints a set of orders behind a word. */
static void print_set(const char *word, uint32_t set) {
    const char *before = "";
    printf("%s ", word);
    if (set == 0) printf("-");
    for (uint32_t order = 0; order < SM_ORDERS_MOST; order++) {
        if ((set >> order & 1) == 0) continue;
        printf("%s%" PRIu32, before, order);
        before = ",";
    }
}

/* Prints what a general decides, in a scenario or by a receipt. */
static void print_decision(const sm_fact *it) {
    printf("general %" PRIu32, it->general);
    print_set(" set", it->set);
    printf(" decides %" PRIu32 "\n", it->order);
}

/* Prints the decisions of a scenario. */
static void print_decisions(struct facts facts) {
    for (const sm_fact *it = facts.at; it != facts.at + facts.count; it++) print_decision(it);
}

/* Prints what receipts show. */
static void print_receipts(struct facts facts) {
    for (const sm_fact *it = facts.at; it != facts.at + facts.count; it++) {
        if (it->kind == SM_FACT_SHOWN) {
            print_run_id(it);
            print_set("shown", it->set);
            printf("\n");
        } else if (it->kind == SM_FACT_CONVICTION) {
            printf("general %" PRIu32 " convicted\n", it->general);
        } else if (it->number == 1) {
            print_decision(it);
        } else {
            printf("general %" PRIu32 " fails\n", it->general);
        }
    }
    printf("end\n");
}

/* The jobs. */
enum job { AUDIT, DECIDE, RECEIPTS, NO_JOB };

/* Answers by facts; returns the exit status. */
static int answered(enum job job, int is_strict, struct bytes input) {
    const sm_options options = {.strict = (uint32_t)is_strict};
    sm_answer answer = {0};
    uint32_t status = job == AUDIT    ? sm_audit(input.at, input.length, &options, &answer)
                      : job == DECIDE ? sm_decide(input.at, input.length, &options, &answer)
                                      : sm_receipts(input.at, input.length, &options, &answer);
    if (status > SM_NO) return tell(status, &answer);
    struct facts facts = facts_of(&answer);
    sm_answer_free(&answer);
    if (facts.at == NULL) return failed(SM_MEMORY, "memory");
    if (job == AUDIT) print_verdict(facts, input.length > 3 && memcmp(input.at, "SMC2", 4) == 0, is_strict);
    if (job == DECIDE) print_decisions(facts);
    if (job == RECEIPTS) print_receipts(facts);
    free(facts.at);
    return fflush(stdout) == 0 && !ferror(stdout) ? (int)status : failed(STREAM_FAILED, "write failed");
}

/* The job that the words ask for. */
static enum job job_of(int words, char **word, int is_strict) {
    if (words != (is_strict ? 3 : 2)) return NO_JOB;
    if (strcmp(word[1], "audit") == 0) return AUDIT;
    if (is_strict) return NO_JOB;
    if (strcmp(word[1], "decide") == 0) return DECIDE;
    return strcmp(word[1], "receipts") == 0 ? RECEIPTS : NO_JOB;
}

int main(int words, char **word) {
    int is_strict = words == 3 && strcmp(word[2], "--strict") == 0;
    enum job job = job_of(words, word, is_strict);
    if (job == NO_JOB) return failed(SM_MISUSE, "usage: typed audit [--strict] or typed decide|receipts");
    struct bytes input = read_all();
    int told = ferror(stdin)      ? failed(STREAM_FAILED, "read failed")
               : input.at == NULL ? failed(SM_MEMORY, "memory")
                                  : answered(job, is_strict, input);
    free(input.at);
    return told;
}
