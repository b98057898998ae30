/* The groups of checks. Each returns where all of it is as expected. */
#ifndef GROUPS_H
#define GROUPS_H

/* frames.c */
void check_header(void);
void check_parity(void);
void check_samples(void);
void check_all_samples(void);

/* common_fields.c */
void check_other_categories(void);
void check_rc_and_it(void);

/* tsunami.c */
void check_arrivals_in_areas(void);
void check_areas(void);
void check_warnings(void);
void check_wide_tsunami_records(void);

/* volcano.c */
void check_activity_times(void);
void check_places(void);
void check_volcano_codes(void);
void check_wide_volcano_records(void);

/* flood.c */
void check_flood_areas(void);
void check_flood_regions(void);
void check_wide_flood_records(void);

/* spares.c */
void check_spares_kept(void);
void check_beside_spares(void);
void check_wide_spares(void);

/* refusals.c */
void check_reading_refused(void);
void check_lines_refused(void);
void check_records_lent_for_reading(void);

/* writing_refusals.c */
void check_writing_refused(void);
void check_records_lent_for_writing(void);

/* unused.c */
void check_unused_refused(void);

/* values.c */
void check_values_of_fields(void);
void check_values_together(void);
void check_values_of_pairs(void);
void check_values_behind_others(void);
void check_values_of_names(void);
void check_values_of_takings(void);

/* value_lengths.c */
void check_values_of_other_lengths(void);

/* sentences.c */
void check_example_sentence(void);
void check_sentences(void);
void check_sentence_lengths(void);
void check_sentence_values(void);
void check_sentence_rubbish(void);

/* sentence_refusals.c */
void check_sentences_refused(void);
void check_sentence_writings_refused(void);

/* meanings.c */
void check_depths(void);
void check_magnitudes(void);
void check_arrivals(void);
void check_heights(void);
void check_activities(void);
void check_validities(void);
void check_prefectures(void);
void check_standings(void);
void check_slots_used(void);

/* bulletins.c */
void check_opening(void);
void check_taking(void);
void check_same_page(void);
void check_as_many_frames_as_pages(void);
void check_text(void);
void check_live_store_kept(void);
void check_merging(void);

/* bulletin_refusals.c */
void check_taking_refused(void);
void check_merging_refused(void);
void check_unsound(void);
void check_stores_of_other_lengths(void);
void check_takings_of_other_lengths(void);
void check_openings_of_other_lengths(void);

#endif
