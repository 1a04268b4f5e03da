/* The library called from C: what sm_tool writes for the bytes on standard input.

       example audit|draw|evidence|decide
       example accuse GENERAL

   The exit status is that of sm_tool, and so is the line of what failed. */
#include "answers.h"
#include <string.h>

/* The number of the general that a word names, or 16. */
static uint32_t general_of(const char *word) {
    char *end = NULL;
    unsigned long general = strtoul(word, &end, 10);
    return word[0] >= '0' && word[0] <= '9' && *end == '\0' && general < 16 ? (uint32_t)general : 16;
}

/* One call of the library, which asks for nothing besides. */
static uint32_t call(char **word, struct bytes input, sm_answer *answer) {
    if (strcmp(word[1], "accuse") == 0) return sm_accuse(general_of(word[2]), input.at, input.length, NULL, answer);
    if (strcmp(word[1], "audit") == 0) return sm_audit(input.at, input.length, NULL, answer);
    if (strcmp(word[1], "draw") == 0) return sm_draw(input.at, input.length, NULL, answer);
    if (strcmp(word[1], "evidence") == 0) return sm_evidence(input.at, input.length, NULL, answer);
    return strcmp(word[1], "decide") == 0 ? sm_decide(input.at, input.length, NULL, answer) : SM_MISUSE;
}

int main(int words, char **word) {
    if (words < 2 || words != (strcmp(word[1], "accuse") == 0 ? 3 : 2))
        return failed(SM_MISUSE, "usage: example audit|draw|evidence|decide|accuse GENERAL");
    struct bytes input = read_all();
    sm_answer answer = {0};
    int told = ferror(stdin)      ? failed(STREAM_FAILED, "read failed")
               : input.at == NULL ? failed(SM_MEMORY, "memory")
                                  : tell(call(word, input, &answer), &answer);
    free(input.at);
    return told;
}
