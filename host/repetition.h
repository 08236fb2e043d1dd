/* The repetition count test of NIST SP 800-90B 4.4.1, proved: it hears every sample of a noise
 * source, and the alarm stands where the source repeats itself for too long.
 *
 * A sample has passed only where number AND alarm are both 0: a refusal carries alarm 0 as well.
 *
 * Link librepetition.a, which host/prove makes, and nothing else; README.md beside this file says
 * how. This header needs no other. abutfern.h may be included as well, before it or after it.
 *
 * What cannot be done is refused by number:
 *   0  done
 *   5  the entropy is under 1/64, above 8 or not a number
 *   10 a sample before a start, or a state that no start and samples could have left
 * After a refusal the lent state is what it was.
 *
 * A test is six bytes that the host lends. They may be kept wherever three uint16_t may, saved and
 * restored: the test goes on where it was. A zeroed one was never started. The pointer must not be
 * NULL. Nothing else is kept, so each noise source has a test of its own; two threads do not share
 * one without a lock.
 *
 * How a board figure of abutfern.h starts a test:
 *
 *   abutfern_RepetitionTest test = ABUTFERN_NEVER_STARTED;
 *   abutfern_Figure figure = abutfern_board_figure(a, b, c, d, width);
 *   if (figure.number != 0 || abutfern_repetition_start(&test, figure.value) != 0)
 *       use_no_sample_of_this_board();
 *
 * A figure of 0, of a board that gives nothing, is under 1/64 and refused with 5. A start that is
 * refused leaves the test as it was: one that was never started stays so, and its samples are
 * answered 10; one that is running goes on with the entropy that it had.
 */
#ifndef ABUTFERN_REPETITION_H
#define ABUTFERN_REPETITION_H

#include <stdint.h>

#ifdef __cplusplus
extern "C" {
#endif

#define ABUTFERN_NEVER_STARTED { 0, 0, 0 } /* a test before its first start, as an initializer */
#define ABUTFERN_START_UP_SAMPLES 1024     /* the least that a start-up test hears */

/* The host reads these as it likes and leaves the writing to the functions. A state that was
 * damaged is answered 10 unless it is one that a start and samples could have left. */
typedef struct {
    uint16_t cutoff;      /* how many equal samples in a row the alarm stands at */
    uint16_t last_sample; /* 0 before the first */
    uint16_t count;       /* how many equal samples end with the last, the cutoff at most */
} abutfern_RepetitionTest;

/* cutoff: 4 to 1,281, or 0 if refused */
typedef struct { uint64_t number, cutoff; } abutfern_Cutoff;

/* alarm: 1 where it stands; 0 where it does not, and 0 if refused */
typedef struct { uint64_t number, alarm; } abutfern_Alarm;

/* The cutoff for a false alarm probability of 2^-20: the entropy, in bits of min-entropy per
 * sample, is rounded down to j/64, and the cutoff is 1 plus 1280/j rounded up. Answers 0, 5. */
abutfern_Cutoff abutfern_repetition_cutoff(double entropy);

/* Starts a test with that cutoff, from any state; what it had heard is forgotten. Answers 0, 5. */
uint64_t abutfern_repetition_start(abutfern_RepetitionTest *test, double entropy);

/* Takes the next sample. The alarm stands after it exactly where the number of equal samples that
 * end with it, since the start, has reached the cutoff. So it falls with the next sample that
 * differs: that it stood is for the host to keep. Answers 0, 10.
 *
 * A sample is a byte, 0 to 255: the symbol as the noise source gives it. C cuts a larger number to
 * its low byte before the call, so that 260 arrives as 4.
 *
 * SP 800-90B 4.3 asks that a start-up test run over at least ABUTFERN_START_UP_SAMPLES samples
 * before any is used: start, hear as many, and use none where one did not pass. Then go on with the
 * same test, without another start. */
abutfern_Alarm abutfern_repetition_sample(abutfern_RepetitionTest *test, uint8_t sample);

#ifdef __cplusplus
}
#endif

#endif
