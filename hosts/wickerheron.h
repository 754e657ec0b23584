/* The call that hosts in C and the like make to Wickerheron: the certificate of a trace file. */
#ifndef WICKERHERON_H
#define WICKERHERON_H

#include <stddef.h>
#include <stdint.h>

#ifdef __cplusplus
extern "C" {
#endif

/* Counts what changes here: the call, its answers, the trace file or the certificate's grammar. */
#define WICKERHERON_VERSION 1

/* The edition of the trace file, which its first two bytes name. */
#define WICKERHERON_EDITION 1

/*
 * The kinds of keeper that the run can use. All give the same certificate, byte for byte. Take clocks, which are the
 * quickest; the others are there to be compared with them.
 */
#define WICKERHERON_LOCKSETS 1u
#define WICKERHERON_CLOCKS 2u
#define WICKERHERON_SHORTCUT_LOCKSETS 3u
#define WICKERHERON_SHORTCUT_CLOCKS 4u

/* The negative answers. */
#define WICKERHERON_NO_ROOM (-19)      /* the certificate has more than out_len bytes */
#define WICKERHERON_NO_SUCH_KIND (-22) /* the kind is none of the four; tested first */

/*
 * The most bytes of a trace file that is not refused for its length; and the most of any certificate, which is proved:
 * where the buffer has so much room, each of the four kinds is answered a length.
 */
#define WICKERHERON_MOST_TRACE 65536
#define WICKERHERON_MOST_TEXT 35075

/* So many bytes of stack are enough for a call. Some 40,000 were measured, of every kind; no proof speaks of them. */
#define WICKERHERON_STACK 65536

/*
 * Runs the trace file in the trace_len bytes at trace, over the keeper of that kind, and writes the certificate to the
 * front of the out_len bytes at out. Any bytes may stand at trace: a file that is in disorder gets a certificate too,
 * one that ends with its refusal.
 *
 * Answers the certificate's length in bytes, or one of the negative answers above. The text isn't ended by a zero byte.
 * The bytes behind the text keep what they held; with a negative answer all of the buffer does.
 *
 * The certificate is lines of ASCII, each ended by a line feed; every number is a plain decimal:
 *
 *     certificate = "accepted " number " declined " number LF { finding LF } last LF
 *     finding     = "event " number " place " number " witness " number
 *     last        = "clean" | "not clean"
 *                 | "refused " number " section " number " event " number " byte " number
 *
 * There are as many findings, 1,000 at most, as the first line says are declined. docs/CERTIFICATE.md tells what each
 * line means.
 *
 * The call takes no memory but the stack's, and has no state: several threads may call at once, each with a buffer of
 * its own. They may share a trace.
 *
 * Neither pointer may be NULL, not for a length of 0 either. The trace must not change during the call, and the two
 * ranges must not overlap. The call keeps neither pointer, and nothing else, when it returns.
 */
int64_t wickerheron_certify(const uint8_t *trace, size_t trace_len, uint32_t kind, uint8_t *out, size_t out_len);

#ifdef __cplusplus
}
#endif

#endif
