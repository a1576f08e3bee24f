/*
 * Opens a sealed pack of stereo sound, a left sample and a right one in turn, and writes it as a WAV file: stereo,
 * floats of 32 bits, which are exact. All else is as pack_to_wav has it. A pack does not say that it is stereo; one
 * with an odd count of samples can't be, and is refused.
 */
#include "pack_wav.h"

static const struct wav_format stereo = {IEEE_FLOAT, 2, sizeof(float)};

/* The four bytes of a float as one number, for a WAV file has them in its own order. */
static uint32_t bits_of(float side)
{
    uint32_t bits;
    memcpy(&bits, &side, sizeof bits);
    return bits;
}

int main(int words, char **word)
{
    struct job job = begin_job(&stereo, PACK_WAV_USAGE("pack_to_float_wav", "frames"), words, word);
    float *frames = room_for(job.sample_count, sizeof *frames);
    uint8_t no = semivrakh_pack_open_stereo(job.pack.bytes, job.pack.length, job.keys.bytes, job.keys.length,
                                            frames, job.sample_count, job.answer, SEMIVRAKH_OPENED_NUMBERS);
    if (no != SEMIVRAKH_OK) refused_opening(no, &job);

    static struct wav wav;
    begin_wav(&wav, &job);
    for (size_t i = 0; i < job.sample_count; i++) put(&wav, bits_of(frames[i]), sizeof *frames);
    end_job(&job, &wav);
    free(frames);
    return 0;
}
