/* The proved fit checker's calls for C: libfitcheck.a, x86-64 Linux.
 *
 * A slice is a pointer and then a length in bytes. A length may be 0; the
 * pointer is not null even then. `out` overlaps no image. The library
 * allocates nothing, keeps no pointer, and any number of threads may call it.
 *
 * The word that a call returns: the upper 32 bits are the refusal's number, 0
 * where the call is answered; the lower 32 bits are the count, 0 where it is
 * refused. docs/CALLING.md has an example. */
#ifndef FITCHECK_H
#define FITCHECK_H

#include <stddef.h>
#include <stdint.h>

#ifdef __cplusplus
extern "C" {
#endif

/* Bytes of an entry; a list has at most FITCHECK_MOST_ENTRIES of them, the
 * skills of one result at most FITCHECK_MOST_SKILLS, and a hall call takes at
 * most FITCHECK_FITS_PER_CALL fits. */
#define FITCHECK_ENTRY_BYTES 24
#define FITCHECK_MOST_ENTRIES 5654
#define FITCHECK_MOST_SKILLS 512
#define FITCHECK_FITS_PER_CALL 64

/* What makes an entry is at most so many bytes. */
#define FITCHECK_CAUSE_BYTES 1024

/* What is to be taken off is at most so many bytes, and no fit has more tries than
 * these. */
#define FITCHECK_LEAVE_OUT_BYTES 1032
#define FITCHECK_MOST_TRIES 65552

/* What the main page takes: so many pairs (items that have a result) of a fit,
 * and so many wanted skills of a result. */
#define FITCHECK_MAIN_PAIRS 256
#define FITCHECK_MAIN_SKILLS 512

/* Who reads what a list or skill call gives. A pilot's skills are private: a
 * guest's list has no NotASkill (rule 21), and a guest's skill call is refused
 * by 20. A number above these is refused by 19. There is no default: whoever
 * calls says whom it is for. */
#define FITCHECK_GUEST 0
#define FITCHECK_PILOT 1
#define FITCHECK_OFFICER 2

/* The rules that document 01 does not have, in an entry's second byte: of a
 * group that the league bans, more points than it allows, of a type that the
 * catalogue lacks. docs/FORMAT.md has all of them. */
#define FITCHECK_BANNED 24
#define FITCHECK_POINTS 25
#define FITCHECK_UNKNOWN_TYPE 26

/* The refusals that fit_cause alone gives. */
#define FITCHECK_NO_SUCH_ENTRY 14
#define FITCHECK_CARGO_VOLUME 15

/* The refusal that training alone gives. */
#define FITCHECK_LISTED_SKILLS 16

#define FITCHECK_REFUSAL(word) ((uint32_t)((word) >> 32))
#define FITCHECK_COUNT(word) ((uint32_t)((word)&0xFFFFFFFFu))

/* Of the hall call's count. */
#define FITCHECK_CLEAR(word) (FITCHECK_COUNT(word) & 0xFFu)
#define FITCHECK_FAULTED(word) (FITCHECK_COUNT(word) >> 8 & 0xFFu)
#define FITCHECK_REFUSED(word) (FITCHECK_COUNT(word) >> 16)

/* Every rule that the fit breaks: the entries stand from the beginning of
 * `out`. A refused call writes nothing. A league's profile of no bytes is none,
 * and then the allowance is not read. `pairs` and `skills` are what the page
 * takes: a fit with more pairs is refused by 13; no list asks for skills. A
 * number above the main page's counts as that. A hull's list ends with
 * FITCHECK_UNKNOWN_TYPE for each item with a result whose type the catalogue
 * lacks. The count, and the room that `out` has to have, are of what the reader
 * gets. */
uint64_t fit_list(uint32_t reader,
                  const uint8_t *catalogue, size_t catalogue_length,
                  const uint8_t *fit, size_t fit_length,
                  const uint8_t *profile, size_t profile_length,
                  uint32_t allowance,
                  uint32_t pairs, uint32_t skills,
                  uint8_t *out, size_t out_length);

/* The skills that one result wants and the character lacks: result 0 is the
 * ship's, 1 the character's, 2 the first item's. A fit with more than `pairs`
 * pairs, and a result that wants more than `skills` skills, is refused by 13. A
 * guest is refused by 20, whatever the bytes. */
uint64_t fit_skill(uint32_t reader,
                   const uint8_t *catalogue, size_t catalogue_length,
                   const uint8_t *fit, size_t fit_length,
                   uint32_t result,
                   uint32_t pairs, uint32_t skills,
                   uint8_t *out, size_t out_length);

/* How many fits are clear to fly, faulted and refused. The input: u32 number
 * of fits, their lengths (u32), then the fits end to end. A fit is clear where
 * its list is empty and it has as many results as items; an empty list with
 * unequal numbers is faulted. */
uint64_t fit_hall(const uint8_t *catalogue, size_t catalogue_length,
                  const uint8_t *input, size_t input_length);

/* An old catalogue, whose base values are f32, in the new form: its bytes stand
 * from the beginning of `out`, and the count is how many they are. Refusals 1 to
 * 3 are about the old form; what is written may be longer than a catalogue may
 * be. */
uint64_t fit_widen(const uint8_t *old, size_t old_length,
                   uint8_t *out, size_t out_length);

/* The fit that training for one result leads to, so many steps long: each raises
 * by one level the first skill that fit_skill would list, and lists it at level 1
 * where it was not listed. Its bytes stand from the beginning of `out`, and the
 * count is how many they are: as many as the fit has, and five more for each skill
 * that is added, which are at most FITCHECK_MOST_SKILLS. What is no skill and no
 * level is as it was. Steps beyond those that are missing change nothing. Where the
 * skills that are lacking and not listed would carry the listed ones over 1,024,
 * the call is refused by FITCHECK_LISTED_SKILLS, whatever the steps. It names no
 * reader: it is the officer's. */
uint64_t fit_train(const uint8_t *catalogue, size_t catalogue_length,
                   const uint8_t *fit, size_t fit_length,
                   uint32_t result, uint32_t steps,
                   uint8_t *out, size_t out_length);

/* The catalogue that one fit touches, for a page that fetches no more: all names and
 * effects, the types of the ship, the mode, the listed skills and the items, every
 * skill that a result wants, and all links and bases under those ids in their old
 * order. Its bytes stand from the beginning of `out`, and the count is how many they
 * are, never more than the catalogue's own. fit_list and fit_skill of this fit give
 * the same under it as under the whole one; of another fit they may not. Refused by
 * 1 to 6, by 9 where any result wants more than FITCHECK_MOST_SKILLS skills, and by
 * 10. It names no reader. */
uint64_t fit_trim(const uint8_t *catalogue, size_t catalogue_length,
                  const uint8_t *fit, size_t fit_length,
                  uint8_t *out, size_t out_length);

/* Which items make an entry of the list: the pairs that are kept when, from the last to
 * the first, each is dropped without which the entry stays, about the same item and with
 * the same rule, sub and id. Without any one or more of them it is gone. `position`
 * counts from 0 in the list that fit_list gives to FITCHECK_OFFICER without a profile;
 * a guest's list is another one, and so is a league's. The kept pairs' numbers in the
 * fit stand from the beginning of `out`, a little-endian uint32_t each, ascending, and
 * the count is how many bytes they are, at most FITCHECK_CAUSE_BYTES. An entry that
 * looks at no item has none. Refused by 1 to 6, by 14 where the list ends before the
 * position, by 15 where an item in Cargo that has a result, whatever the entry, has a
 * volume below zero, infinite or NaN, and by 10. It names no reader. */
uint64_t fit_cause(const uint8_t *catalogue, size_t catalogue_length,
                   const uint8_t *fit, size_t fit_length,
                   uint32_t position,
                   uint8_t *out, size_t out_length);

/* Which items to take off a fit, so that its list has none of SlotTaken, SubsystemTaken,
 * MaxGroup, MaxType and the six racks' Slots. A set of pairs (items that have a result) is
 * enough where the list of the fit without it has none of these; that of all pairs is.
 * Each try checks one set: first each pair is put back in turn, from the first, and stays
 * where what is left off is then still enough; after that, with up to 16 pairs, every set
 * is taken by ascending number, pair i counting 2 to the power i. The answer is the
 * smallest set that is enough of those that were checked and of all pairs, which need no
 * try; the earliest among equals. From the beginning of `out` stand little-endian
 * uint32_t: the tries that were made, which are all that there are or else the budget; how
 * many fewer pairs might be enough, at most; and the numbers of the pairs to take off,
 * ascending. The count is how many bytes they are, at most FITCHECK_LEAVE_OUT_BYTES. With
 * a budget of FITCHECK_MOST_TRIES and up to 16 pairs no smaller set is enough. Refused by
 * 1 to 6 and by 10. It names no reader. */
uint64_t fit_leave_out(const uint8_t *catalogue, size_t catalogue_length,
                       const uint8_t *fit, size_t fit_length,
                       uint32_t budget,
                       uint8_t *out, size_t out_length);

/* The number of this set of calls, images and rules, which its name has too: a
 * library of another set does not link with a program that asks for this. */
uint64_t fit_interface_10(void);

#ifdef __cplusplus
}
#endif

#endif
