/* The families of generated input. Each call makes some dozens to some hundreds of comparisons. */
#ifndef FAMILIES_H
#define FAMILIES_H

#include <stdbool.h>
#include <stdint.h>

void making_ciphers(void);
void enciphering(void);
void streams_in_pieces(void);
void damaged_ciphers(void);
void random_cipher_input(void);
void all_splits_of_tagged_bytes(void);
void tagging_bytes(void);

void sealing_packs(void);
void opening_packs(void);
void refusing_keys_of_packs(void);
void packs_of_all_shapes(void);
void large_packs(void);
void packs_under_another_count(void);
void damaged_packs(void);
void damaged_tagged_packs(void);
void cut_packs(void);
void sealing_lowest_samples(void);
void opening_lowest_words(void);
/* Each of the 65,536 words as a left and as a right sample, under each cipher. */
void all_words_on_both_sides(void);
void random_packs(void);
/* Prints how often packs under each cipher were opened, as samples and as frames, and sealed, and refused for their odd
 * count, key count or initial value, and answers if each was at least so many times. */
bool ciphers_often_enough(uint64_t each);
/* The same of tagged packs that were damaged in each count and in each body, and of tag sections that were no such. */
bool tags_often_enough(uint64_t each);
/* Prints how often a file was cut in each count and in each body, and answers if each was so at least so many times. */
bool cuts_often_enough(uint64_t each);
/* The same of samples of -32,768 that were refused and words of 80 00 that were opened, at each place of eight and in
 * the rest behind, and of packs that were opened and sealed again. */
bool lowest_often_enough(uint64_t each);

void making_ends(void);
void beginning(void);
void sending(void);
void sender_hearing(void);
void receiver_hearing(void);
void asking_ends(void);
void damaged_sender(void);
void damaged_receiver(void);
void all_records_at_the_edges(void);
void some_records_at_the_edges(void);
void random_link_input(void);
void whole_transfers(void);

#endif
