/* What both libraries for C share: versions, statuses, and sizes.

   sm_embed.h and sm_node.h include this header. docs/EMBED.md says more.

   The version of the headers is SM_VERSION_NUMBER. The version of an archive is sm_version() or sm_node_version(). Each
   is 1000000 times the first number of the version, 1000 times the second, and the third. In versions 0.x:

   - If the third number alone is greater, each function, number and text is as before. New ones may have come. A
     program that was compiled with the older header runs with the newer library.
   - If the second number is greater, names that are called old below may be gone, and CHANGELOG.md says what else has
     changed. The program is compiled anew. So a shared library is named by the first two numbers.
   - A caller takes a status that it does not know as a failure.
   - The formats of bytes have versions of their own, which stand in the bytes.

   The functions here are C, and no proof is about them. */
#ifndef SM_STATUS_H
#define SM_STATUS_H

#include <stddef.h>
#include <stdint.h>

/* What a compiler of C is told of a call: its status is not to be left unread, and these pointers are never null. In
   C++ both would be parts of the type of a function, so nothing is told. */
#if !defined(__cplusplus) && (defined(__GNUC__) || defined(__clang__))
#define SM_CALL(...) __attribute__((warn_unused_result, nonnull(__VA_ARGS__)))
#else
#define SM_CALL(...)
#endif

#ifdef __cplusplus
extern "C" {
#endif

/* The version of the headers, 0.2.0. */
#define SM_VERSION "0.2.0"
enum { SM_VERSION_NUMBER = 2000 };

/* The statuses of all calls. The comment of a function names those that it returns. */
enum sm_status {
    SM_OK = 0,     /* it was done; an answer is not a no */
    SM_NO = 1,     /* it was done, and the answer is a no */
    SM_MISUSE = 2, /* the call is not allowed here. Nothing was done, but an sm_answer that is to be filled is freed */
    SM_FAULT = 3,  /* the input has a fault, which is told */
    SM_MEMORY = 4, /* memory was refused: the same call may be made again */
    SM_LENGTH = 5, /* what is to be written is longer than the room, and its length is told */
    SM_NOBODY = 6, /* the general is none of the run's */
    SM_OTHER = 7   /* the input is of another run or system than the one that is expected */
};

/* Old names of statuses, which the next version does not have. */
#define SM_YES SM_OK
#define SM_GENERAL SM_MISUSE
#define SM_DONE SM_OK
#define SM_BAD SM_FAULT
#define SM_REFUSED SM_MEMORY
#define SM_SHORT SM_LENGTH

/* The sizes of a seed, of a root of keys, of a run id, of a secret, of the id and the context of a system, and of the
   record of the state of a secret. The most bytes of a header, the most generals, orders and logs of a bundle, the most
   runs of a campaign, and the most levels of an identity. */
enum {
    SM_SEED_BYTES = 32,
    SM_ROOT_BYTES = 32,
    SM_RUN_ID_BYTES = 32,
    SM_SECRET_BYTES = 32,
    SM_SYSTEM_ID_BYTES = 32,
    SM_CONTEXT_BYTES = 32,
    SM_STATE_BYTES = 68,
    SM_HEADER_MOST = 760,
    SM_GENERALS_MOST = 16,
    SM_ORDERS_MOST = 15,
    SM_LOGS_MOST = 64,
    SM_RUNS_MOST = 4,
    SM_LEVELS_MOST = 20
};

/* The name of a status in words. It is never null, and stays as it is. */
static inline const char *sm_status_text(uint32_t status) {
    switch (status) {
    case SM_OK: return "done";
    case SM_NO: return "the answer is no";
    case SM_MISUSE: return "the call is not allowed here";
    case SM_FAULT: return "the input has a fault";
    case SM_MEMORY: return "memory was refused";
    case SM_LENGTH: return "the room is too short";
    case SM_NOBODY: return "the general is none of the run's";
    case SM_OTHER: return "the input is of another run or system";
    default: return "a status that this header does not know";
    }
}

#ifdef __cplusplus
}
#endif

/* Whether bytes are missing. Bytes of which there are none have any pointer, also null. */
static inline int sm_is_missing(const void *at, size_t length) { return at == NULL && length != 0; }

#endif
