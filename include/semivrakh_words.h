/*
 * semivrakh_words.h: the numbers for no in words, and what to do about each. Plain C over no library: nothing here is
 * proved, and nothing rests on it.
 *
 *     if (no != SEMIVRAKH_OK) fprintf(stderr, "refused %d: %s; %s\n", no, semivrakh_words(no), semivrakh_advice(no));
 *
 * The table is the one place of these words. A row stands in one line, so that scripts can read it too.
 */
#ifndef SEMIVRAKH_WORDS_H
#define SEMIVRAKH_WORDS_H

/* ROW(number, words, advice) */
#define SEMIVRAKH_WORDS_TABLE(ROW) \
    ROW(0, "not refused", "go on") \
    ROW(1, "a key has not its cipher's length (10 bytes, 16 for Enocoro and TRIAD), or all keys not 168", "lend the whole key, or all keys, and no more") \
    ROW(2, "an initial value has not its cipher's length (10 bytes, 8 for Enocoro, 12 for TRIAD), or a pair name not 6", "lend all of it, and no more") \
    ROW(3, "a cipher record has not its length (48 bytes, 34 for Enocoro)", "lend the bytes that making wrote, all of them, to the calls of the same cipher") \
    ROW(11, "the name is over 32 bytes long", "opening: this is no pack, or a damaged one; sealing: shorten the name") \
    ROW(12, "the name has a byte that is not printable ASCII", "opening: the file is damaged; sealing: use bytes 32 to 126 only") \
    ROW(13, "the key count is none of 11, 9 and 13", "opening: this is no pack, or a damaged one; sealing: name the cipher by 11, Trivium, 9, Enocoro, or 13, TRIAD") \
    ROW(14, "the key number is over 3", "opening: the file is damaged; sealing: name one of the keys 0 to 3") \
    ROW(15, "there are more than 16,384 samples", "opening: the file is damaged; sealing: cut the sound") \
    ROW(16, "there are more than 8 loops, or a loop has no end", "opening: the file is damaged; sealing: lend two numbers a loop, 16 at most") \
    ROW(17, "a loop is empty or ends after the samples", "opening: the file is damaged; sealing: mend the loop") \
    ROW(18, "there are bytes after the last section", "get the file again: it is damaged, or something was added to it") \
    ROW(19, "a lent buffer is too short", "lend more room and call again") \
    ROW(20, "no session number is left", "pair both ends anew, under another pair name") \
    ROW(21, "the sound is over 32,768 bytes long", "send it as two sounds, or a shorter one") \
    ROW(22, "no transfer is under way", "a sender that sends: begin a sound first; one that hears: an answer came late, ignore it") \
    ROW(23, "the lent sound or buffer is not of the transfer's length", "lend the same sound, or the same buffer, as in every call before") \
    ROW(24, "these bytes are no frame for this end", "ignore them: a frame is lent whole and alone, as the other end wrote it") \
    ROW(25, "the frame is of another session", "ignore it: it came late; if every opening is refused so, the ends are no pair any more: pair both anew") \
    ROW(26, "the frame says what can't be", "ignore it; if it comes again, an end was set back or is another: pair both anew") \
    ROW(27, "these bytes are no record of a link end, or one out of rule", "lend the bytes that the last call left; if they are lost, pair both ends anew") \
    ROW(30, "the file ends inside its name section", "get the file again: it is empty, or was cut short") \
    ROW(31, "the file ends inside its key section", "get the file again: it was cut short") \
    ROW(32, "the file ends inside its sample section", "get the file again: it was cut short") \
    ROW(33, "the file ends inside its loop section", "get the file again: it was cut short") \
    ROW(34, "a sample is -32,768, which has no opposite", "raise each such sample to -32,767, which nobody hears; wav_to_pack does it with --raise") \
    ROW(35, "the count of samples is odd, and a stereo frame takes two", "open the pack as samples: it is mono, or a side of its last frame is missing") \
    ROW(36, "an opening of the session in hand names another length", "keep what is held; the sender was set back or made anew: pair both ends anew") \
    ROW(38, "the tag is not that of the file under its key", "do not play it: it was changed, or sealed under another key; get it again from whoever sealed it") \
    ROW(45, "the file ends inside its tag section, or that section's count is not 8", "get the file again: it was cut short or is damaged")

/* The refusal in words. A number that no call answers is called so. */
static inline const char *semivrakh_words(unsigned number)
{
#define SEMIVRAKH_WORDS_ROW(row, words, advice) case row: return words;
    switch (number) {
        SEMIVRAKH_WORDS_TABLE(SEMIVRAKH_WORDS_ROW)
    default: return "a number that no call answers";
    }
#undef SEMIVRAKH_WORDS_ROW
}

/* What to do about it. */
static inline const char *semivrakh_advice(unsigned number)
{
#define SEMIVRAKH_WORDS_ROW(row, words, advice) case row: return advice;
    switch (number) {
        SEMIVRAKH_WORDS_TABLE(SEMIVRAKH_WORDS_ROW)
    default: return "see that library and header have the same version";
    }
#undef SEMIVRAKH_WORDS_ROW
}

#endif
