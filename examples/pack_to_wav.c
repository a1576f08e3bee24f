/*
 * Opens a sealed pack, under the cipher that it says, and writes its sound as a WAV file: mono, 16 bits, PCM. The
 * pack's loops go to a 'smpl' chunk, where a sampler finds them. A pack with a tag is opened only if the tag is right,
 * and before that nothing that the file says of itself is printed.
 */
#include "pack_wav.h"

static const struct wav_format mono = {PCM, 1, sizeof(int16_t)};

int main(int words, char **word)
{
    struct job job = begin_job(&mono, PACK_WAV_USAGE("pack_to_wav", "samples"), words, word);
    int16_t *samples = room_for(job.sample_count, sizeof *samples);
    uint8_t no = semivrakh_pack_open(job.pack.bytes, job.pack.length, job.keys.bytes, job.keys.length,
                                     samples, job.sample_count, job.answer, SEMIVRAKH_OPENED_NUMBERS);
    if (no != SEMIVRAKH_OK) refused_opening(no, &job);

    static struct wav wav;
    begin_wav(&wav, &job);
    for (size_t i = 0; i < job.sample_count; i++) put(&wav, (uint16_t)samples[i], sizeof *samples);
    end_job(&job, &wav);
    free(samples);
    return 0;
}
