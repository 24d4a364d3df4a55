/* The detector that the desk speaks to: a command program that it starts (program.c), or the library linked in (linked.c). */
#ifndef DETECTOR_H
#define DETECTOR_H

#include <nimbleshale.h>

/* Starts the detector, with what the desk was called with behind its own name. Returns 0 where that is not what it needs. */
int begin_detector(int count, char **arguments);

/* Has a command run, in its bytes of the stream. The answer has as many bytes as that command's has. */
void answer_command(const uint8_t *command, size_t length, uint8_t answer[NIMBLESHALE_LONGEST_ANSWER]);

/* Returns 0 where the detector ended well. */
int end_detector(void);

/* The register block as the radio chip has it. */
struct registers {
    uint8_t (*read)(size_t offset);
    void (*write)(size_t offset, uint8_t value);
    uint8_t (*line)(void);
    void (*reset)(void);
};

/* NULL where the detector has none. */
extern const struct registers *const registers;

#endif
