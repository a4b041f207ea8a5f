#!/usr/bin/env python3
"""Brings the repository's own definitions and lemmas to today's spelling: words in snake case, types in camel case, a dash only
between two names. It follows /opt/rattle/port/port.py, once, at the top of the repository; a second run changes nothing.

It respells specs/ and proofs/ whole, and of src/ only what is ghost: imports, clauses, ghost members and fields. Functions of
src/, strings, inputs and outputs keep their names. It prints where a new name stood already: so far only modules of the proofs of
functions of that name.
"""
import re
import subprocess
import sys

TABLE = dict(line.split() for line in """
above-rises above_rises
all-courses all_courses
all-rowsOf All-rows_of
allowed-swap allowed_swap
bar-clean bar_clean
bar-held bar_held
bar-ok bar_ok
bar-parts bar_parts
barAt bar_at
barCount bar_count
barFault bar_fault
barFields bar_fields
barRows bar_rows
bars-all bars_all
bars-held bars_held
bars-inside bars_inside
bars-is bars_is
bars-more bars_more
bars-named bars_named
bars-ok bars_ok
bars-rising bars_rising
bars-stop bars_stop
barsFault bars_fault
barsFields bars_fields
barsPlace bars_place
between-below between_below
between-same between_same
between-swap between_swap
bit-above bit_above
bit-draft bit_draft
bit-frame bit_frame
bit-here bit_here
bit-lt bit_lt
bit-set bit_set
bit-tested bit_tested
bit-zero bit_zero
bits-ext bits_ext
bitsFault bits_fault
byte-below byte_below
byte-is byte_is
bytes-ext bytes_ext
choice-holds choice_holds
choice-lawful choice_lawful
choice-ok choice_ok
choiceAt choice_at
choiceFault choice_fault
choiceFields choice_fields
choiceRow choice_row
choiceRows choice_rows
choices-below choices_below
choices-filled choices_filled
choices-hold choices_hold
choices-is choices_is
choices-lawful choices_lawful
choices-ok choices_ok
choicesFault choices_fault
clash-swap clash_swap
clashFree clash_free
clean-sheet clean_sheet
cleared-draft cleared_draft
cleared-frame cleared_frame
count-is count_is
count-le count_le
count-ok count_ok
count-there count_there
countFault count_fault
counts-at counts_at
counts-length counts_length
counts-more counts_more
countsOf counts_of
course-choices course_choices
course-good course_good
course-holds course_holds
course-lawful course_lawful
course-ok course_ok
course-test course_test
courseAt course_at
courseCount course_count
courseFault course_fault
courseFields course_fields
courseRow course_row
courseRows course_rows
courses-hold courses_hold
courses-is courses_is
courses-more courses_more
courses-ok courses_ok
courses-stop courses_stop
coursesFault courses_fault
coursesFields courses_fields
decoded-count decoded_count
editionFault edition_fault
enough-room enough_room
few-bars few_bars
few-checked few_checked
few-choices few_choices
fields-push fields_push
fill-ok fill_ok
fillFault fill_fault
filled-room filled_room
filled-sheet filled_sheet
first-both first_both
first-none first_none
firstOf-each first_of_each
firstOf-more first_of_more
firstOf-none first_of_none
firstOf-stop first_of_stop
fit-bars fit_bars
fits-bar fits_bar
fits-bars fits_bars
fits-choices fits_choices
fits-courses fits_courses
fits-layout fits_layout
front-all front_all
front-bit front_bit
front-more front_more
front-none front_none
getD-rowsOf get_or-rows_of
held-sheet held_sheet
hold-bars hold_bars
hold-choice hold_choice
hold-course hold_course
hold-courses hold_courses
hold-lengths hold_lengths
holds-all holds_all
holds-append holds_append
holds-back holds_back
holds-bars holds_bars
holds-choices holds_choices
holds-courses holds_courses
holds-front holds_front
holds-laid holds_laid
in-widest in_widest
joined-part joined_part
label-all label_all
label-below label_below
label-in label_in
label-le label_le
label-mono label_mono
label-more label_more
label-next label_next
label-some label_some
labels-differ labels_differ
labels-least labels_least
labels-most labels_most
laid-here laid_here
laid-holds laid_holds
laid-later laid_later
laid-past laid_past
late-fault late_fault
lawful-rows lawful_rows
lawful-sound lawful_sound
length-choiceRows length-choice_rows
length-rowsOf length-rows_of
lengthFault length_fault
lengths-hold lengths_hold
limits-hold limits_hold
long-enough long_enough
made-byte made_byte
made-here made_here
made-parts made_parts
mark-none mark_none
mark-some mark_some
mark-strikes mark_strikes
named-says named_says
named-swap named_swap
names-hold names_hold
never-refused never_refused
next-fault next_fault_lem
nextFault next_fault
no-fault no_fault
noBar no_bar
noChoice no_choice
noCourse no_course
none-frame none_frame
none-marked none_marked
none-some none_some
number-below number_below
one-clean one_clean
one-pairing one_pairing
one-reading one_reading
one-sheet one_sheet
other-bit other_bit
own-inside own_inside
ownChoices own_choices
packed-laws packed_laws
packed-preorder packed_preorder
packedBytes packed_bytes
packedDraft packed_draft
pair-below pair_below
pair-none pair_none
pair-some pair_some
pairCount pair_count
pairNumber pair_number
pairs-most pairs_most
pairs-suc pairs_suc
pairsAmong pairs_among
part-is part_is
part-lawful part_lawful
part-long part_long
part-own part_own
prior-more prior_more
prior-next prior_next
puts-course puts_course
puts-more puts_more
puts-pair puts_pair
puts-row puts_row
puts-sheet puts_sheet
readFault read_fault
reads-back reads_back
reads-sheets reads_sheets
recheckFault recheck_fault
refusalOf refusal_of
rest-kept rest_kept
restrict-lawful restrict_lawful
restrict-strike restrict_strike
rises-above rises_above
rising-holds rising_holds
room-to-read room_to_read
room-to-write room_to_write
rows-lawful rows_lawful
rows-limits rows_limits
rowsFault rows_fault
rowsOf-more rows_of_more
rowsOf-suc rows_of_suc
rule-frame rule_frame
rule-lawful rule_lawful
rule-strike rule_strike
ruleDraft rule_draft
same-bars same_bars
same-below same_below
same-choices same_choices
same-counts same_counts
same-courses same_courses
same-says same_says
set-none set_none
set-one set_one
sheet-clean sheet_clean
sheet-fault sheet_fault
sheet-filled sheet_filled
sheet-holds sheet_holds
sheet-parts sheet_parts
sheet-size sheet_size
short-list short_list
size-bars size_bars
size-choices size_choices
size-fields size_fields
size-layout size_layout
size-rows size_rows
size-sheet size_sheet
some-choice some_choice
sound-lawful sound_lawful
standing-widest standing_widest
start-ok start_ok
startFault start_fault
strike-absent strike_absent
sum-most sum_most
tail-fault tail_fault_lem
tail-limits tail_limits
tailFault tail_fault
teacher-ok teacher_ok
tells-after tells_after
total-courseRows total-course_rows
total-le total_le
total-push total_push
unless-none unless_none
val-bit val_bit
val-ext val_ext
val-lt val_lt
val-more val_more
what-if-lawful what_if_lawful
what-if-strike what_if_strike
whatIf what_if
whole-lawful whole_lawful
whole-rows whole_rows
widest-first widest_first
widest-within widest_within
writeFault write_fault
writes-back writes_back
writes-lawful writes_lawful
written-again written_again
written-front written_front
written-more written_more
written-rest written_rest
zeros-not-set zeros_not_set
""".strip().splitlines())

WORD = re.compile(r"(?<![\w'])[A-Za-z_][\w'-]*")
GHOST = re.compile(r"\s*(?:pub\s+)?(?:ghost|requires|ensures|forall)\b|^use Rattle\.|.*⌜|.*◌")


def respell(text):
    return WORD.sub(lambda m: TABLE.get(m[0], m[0]), text)


def ghost_lines(text):
    """The text with its ghost lines respelled: from a line that begins with a ghost word to where its braces close."""
    out, deep = [], 0
    for line in text.splitlines(keepends=True):
        inside = deep > 0 or (GHOST.match(line) and not line.lstrip().startswith("//"))
        if inside:
            deep += line.count("{") - line.count("}")
            line = respell(line)
        out.append(line)
    return "".join(out)


def main():
    files = subprocess.run(["git", "ls-files", "-co", "--exclude-standard", "crates"], capture_output=True, text=True, check=True).stdout.split()
    texts = {}
    for f in files:
        if f.endswith((".antt", ".rt")):
            try:
                with open(f, encoding="utf-8") as it:
                    texts[f] = it.read()
            except FileNotFoundError:
                pass
    new = set(TABLE.values())
    if len(new) != len(TABLE):
        sys.exit("two names fall together")
    old = {w for t in texts.values() for w in WORD.findall(t)} & set(TABLE)
    if not old:
        print("nothing to respell")
        return
    for f, t in texts.items():
        if f.endswith(".antt"):
            for k, line in enumerate(t.splitlines(), 1):
                for w in WORD.findall(line.split("--")[0]):
                    if w in new:
                        print(f"{f}:{k}: {w} stands already")
    turned = {f: respell(t) if f.endswith(".antt") else ghost_lines(t) for f, t in texts.items()}
    for f, t in turned.items():
        if t != texts[f]:
            with open(f, "w", encoding="utf-8") as it:
                it.write(t)
    print(f"{len(old)} names respelled in {sum(turned[f] != texts[f] for f in texts)} files")


main()
