/*
 * The functions of include/lavendelzug.h, called from C. Prints a line for each
 * group of checks and ends with an error at the first difference. Standard input
 * has the lines of document 004's reports.
 */
#include "groups.h"

#include <stdio.h>

struct group {
    const char *name;
    void (*check)(void);
};

static const struct group groups[] = {
    {"answers and tables of the header", check_header},
    {"known parities", check_parity},
    {"a report of each category, both ways", check_samples},
    {"reports of document 004, read and written back", check_all_samples},
    {"categories that are not read", check_other_categories},
    {"Rc and It of each category", check_rc_and_it},
    {"arrivals in each area of a tsunami report", check_arrivals_in_areas},
    {"used, empty and half-filled areas of a tsunami report", check_areas},
    {"notifications and warning codes", check_warnings},
    {"tsunami records with more than a frame has bits for", check_wide_tsunami_records},
    {"known, unknown and mixed times of an activity", check_activity_times},
    {"used and empty places of a volcano report", check_places},
    {"ambiguities, warning codes and volcanoes", check_volcano_codes},
    {"volcano records with more than a frame has bits for", check_wide_volcano_records},
    {"used, empty and half-filled areas of a flood report", check_flood_areas},
    {"regions of 40 bits", check_flood_regions},
    {"flood records with more than a frame has bits for", check_wide_flood_records},
    {"spare bits, read and written back", check_spares_kept},
    {"what stands beside a spare", check_beside_spares},
    {"spares too wide for their fields", check_wide_spares},
    {"refused readings, in their order", check_reading_refused},
    {"refused writings, in their order", check_writing_refused},
    {"bytes for which a category has nothing", check_unused_refused},
    {"refused lines", check_lines_refused},
    {"a sentence whose checksum was worked out by hand", check_example_sentence},
    {"a report of each category from each satellite, both ways", check_sentences},
    {"refused sentences, in their order", check_sentences_refused},
    {"refused writings of sentences, in their order", check_sentence_writings_refused},
    {"sentences and buffers of other lengths", check_sentence_lengths},
    {"values of sentences", check_sentence_values},
    {"rubbish in every argument of a sentence", check_sentence_rubbish},
    {"buffers of other lengths for a record", check_records_lent_for_reading},
    {"records of other lengths, written", check_records_lent_for_writing},
    {"depths", check_depths},
    {"magnitudes", check_magnitudes},
    {"arrivals", check_arrivals},
    {"heights", check_heights},
    {"times of an activity", check_activities},
    {"what is valid by an ambiguity", check_validities},
    {"prefectures", check_prefectures},
    {"the list of places", check_standings},
    {"slots used", check_slots_used},
    {"opening a store", check_opening},
    {"new, same, disputed", check_taking},
    {"pages that differ where it plays no part", check_same_page},
    {"as many frames as pages, one of them twice", check_as_many_frames_as_pages},
    {"the text of a bulletin", check_text},
    {"a live bulletin and a refused opening", check_live_store_kept},
    {"merging", check_merging},
    {"refused takings, in their order", check_taking_refused},
    {"refused merges, in their order", check_merging_refused},
    {"stores that are not sound", check_unsound},
    {"stores of other lengths", check_stores_of_other_lengths},
    {"records of other lengths, taken", check_takings_of_other_lengths},
    {"names and buffers of other lengths, opened", check_openings_of_other_lengths},
    {"values of each field", check_values_of_fields},
    {"values of fields that go together", check_values_together},
    {"values where two fields are out of range", check_values_of_pairs},
    {"no values behind other refusals", check_values_behind_others},
    {"values of names", check_values_of_names},
    {"values of takings", check_values_of_takings},
    {"values of other lengths", check_values_of_other_lengths},
};

int main(void)
{
    for (size_t i = 0; i < sizeof groups / sizeof groups[0]; i++) {
        groups[i].check();
        printf("%s: as expected\n", groups[i].name);
        fflush(stdout);
    }
    return 0;
}
