/* Runs the controller's self-test and reads its result, then saves the state
 * and goes on from the image. Prints what the host sees. */
#include <stdio.h>

#include "calugnid.h"

static void print_answer(struct calugnid_answer answer)
{
    printf("refusal %d, read %02X%s, status %02X, P2 %02X\n", answer.refusal, answer.read,
           answer.old ? " (old)" : "", answer.status, answer.p2);
}

int main(void)
{
    static const uint8_t self_test[] = {
        CALUGNID_WRITE_COMMAND, CALUGNID_CMD_SELF_TEST, 0,
        CALUGNID_READ_STATUS, 0, 0,
        CALUGNID_READ_DATA, 0, 0,
    };
    uint8_t state[CALUGNID_STATE_BYTES], restored[CALUGNID_STATE_BYTES];
    struct calugnid_answer answers[3];
    uint8_t image[CALUGNID_IMAGE_BYTES];

    calugnid_start(state, CALUGNID_ORDINARY, 0);
    if (calugnid_run_state(state, self_test, sizeof self_test,
                           calugnid_bytes(answers), sizeof answers) != CALUGNID_ACCEPTED)
        return 1;
    for (size_t i = 0; i < 3; i++)
        print_answer(answers[i]);
    if (calugnid_save(state, image, sizeof image) != CALUGNID_ACCEPTED)
        return 1;
    if (calugnid_load(restored, 0, image, sizeof image) != CALUGNID_ACCEPTED)
        return 1;
    calugnid_event(restored, CALUGNID_READ_DATA, 0, calugnid_bytes(answers));
    print_answer(answers[0]);
    printf("frame of 14h: %03X, judged %02X\n", calugnid_frame(0x14),
           calugnid_judge(calugnid_frame(0x14)));
    return 0;
}
