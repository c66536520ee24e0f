#!/usr/bin/env python3
"""Brings the repository's own definitions and lemmas to the spelling of the library: words in snake case, a dash only after a name that is itself defined.

usage: python3 tools/respell.py [--docs]      at the top of the repository, once, after port.py

It goes by text over specs/, proofs/, src/ and must-fail/ of every crate, and with --docs over README.md and docs/ too, where it turns
names between backquotes only. Functions of src/, strings, inputs and outputs keep their names.
"""
import pathlib
import re
import sys

TABLE = """
    aboveAt above_at
    accountText account_text
    admitAt admit_at
    afterAmend after_amend
    amendDue amend_due
    amendIn amend_in
    answerTo answer_to
    atMostAt at_most_at
    bandCeiling band_ceiling
    bandFloor band_floor
    bandTicks band_ticks
    bandedCeiling banded_ceiling
    bandedFloor banded_floor
    bandedNumber banded_number
    bandedRows banded_rows
    bandedTicks banded_ticks
    byLetter by_letter
    byteText byte_text
    callingDue calling_due
    commandAt command_at
    distancesCheck distances_check
    dropOf drop_of
    dueIn due_in
    enterDue enter_due
    enterIn enter_in
    findIn find_in
    firstAbove first_above
    firstFit first_fit
    firstRow first_row
    firstWith first_with
    flatCeiling flat_ceiling
    flatCheck flat_check
    flatFloor flat_floor
    flatNumber flat_number
    flatTicks flat_ticks
    goesOn goes_on
    hasAccount has_account
    heldByArrival held_by_arrival
    heldByPriority held_by_priority
    hexDigit hex_digit
    insertBy insert_by
    isApart is_apart
    isBehind is_behind
    isBounded is_bounded
    isSheet is_sheet
    isSorted is_sorted
    isTick is_tick
    keyOf key_of
    kindByte kind_byte
    kindWord kind_word
    lastBelow last_below
    lawfulBand lawful_band
    lawfulBanded lawful_banded
    lawfulFlat lawful_flat
    letterOf letter_of
    loadCheck load_check
    losesPlace loses_place
    newOrder new_order
    nextAll next_all
    nextIn next_in
    ofSide of_side
    onStep on_step
    priceDue price_due
    priceLetter price_letter
    priorityOf priority_of
    putIn put_in
    quantityDue quantity_due
    quantityIn quantity_in
    rankDue rank_due
    refusalIn refusal_in
    refusedFor refused_for
    refusedIf refused_if
    rowsByArrival rows_by_arrival
    rowsByPriority rows_by_priority
    rowsCheck rows_check
    ruleOf rule_of
    saidAt said_at
    saleOf sale_of
    sameSide same_side
    shutDue shut_due
    sideByte side_byte
    sideWord side_word
    sidesOf sides_of
    someOf some_of
    sortBy sort_by
    startDue start_due
    stepAbove step_above
    stepAt step_at
    stepAtMost step_at_most
    stepNumber step_number
    takeFrom take_from
    tapeNumber tape_number
    tooLong too_long
    unlessAdmitted unless_admitted
    withKind with_kind
    withOrders with_orders
    withSide with_side
    withTerms with_terms
    withdrawDue withdraw_due
    withdrawIn withdraw_in
    writeNumber write_number
    add-lawful add_lawful
    admit-before admit_before
    admit-mid admit_mid
    admit-over admit_over
    admit-past admit_past
    arrival-laws arrival_laws
    arrival-stored arrival_stored
    as-many-left as_many_left
    behind-all behind_all
    behind-here behind_here
    behind-none behind_none
    behind-those behind_those
    best-insert best_insert
    best-joined best_joined
    best-step best_step
    best-turn best_turn
    closed-held closed_held
    closed-past closed_past
    distances-all distances_all
    distances-fine distances_fine
    distances-more distances_more
    eq-eqb-or eq_eqb_or
    escaped-text escaped_text
    firstAbove-at first_above-at
    firstAbove-none first_above-none
    flat-conditions flat_conditions
    flat-ladder flat_ladder
    getD-progression slice_index-progression
    going-none going_none
    gone-mid gone_mid
    isTick-at is_tick-at
    isTick-none is_tick-none
    kind-read kind_read
    lastBelow-at last_below-at
    lastBelow-first last_below-first
    lastBelow-none last_below-none
    lots-kept lots_kept
    nextAll-push next_all-push
    no-rest no_rest
    of-kind kind_of_byte
    of-side side_of_byte
    or-else or_else-some
    or-false or_false
    or-none or_none
    part-is part_is
    priority-laws priority_laws
    priority-stored priority_stored
    putIn-at put_in-at
    quotient-over quotient_over
    quotient-under quotient_under
    removed-is removed_is
    replaced-at replaced_at
    replaced-fits replaced_fits
    sheet-kept sheet_kept
    side-arranged side_arranged
    side-fits side_fits
    side-laws side_laws
    side-on side_on
    side-read side_read
    side-with side_with
    sound-fine sound_fine
    sound-from sound_from
    there-above there_above
    there-below there_below
    there-tick there_tick
    three-bytes three_bytes
    three-words three_words
    two-words two_words
    when-either when_either
    when-none when_none
    when-some when_some
    with-lawful with_lawful
    with-own with_own
    with-with with_with
"""

names = dict(line.split() for line in TABLE.strip().splitlines())
camel = {k: v for k, v in names.items() if "-" not in k}
dashed = {k: v for k, v in names.items() if "-" in k}


def pattern(table, before):
    words = "|".join(re.escape(k) for k in sorted(table, key=len, reverse=True))
    return re.compile(rf"(?<![{before}])(?:{words})(?![\w'-])")


# a name with a dash after a dot is a goal's or a step's of a proof, and stays; a longer dashed name that begins with a camel word is in the table itself
CAMEL = pattern(camel, r"\w'\"\\-")
DASHED = pattern(dashed, r"\w'.-")


def respell(text):
    text = DASHED.sub(lambda m: dashed[m[0]], text)
    return CAMEL.sub(lambda m: camel[m[0]], text)


def write(path, new):
    if new != path.read_text():
        path.write_text(new)
        print(path)


for path in sorted(pathlib.Path("crates").rglob("*")):
    if path.suffix in (".antt", ".rt", ".edit") and "out" not in path.parts and path.is_file():
        write(path, respell(path.read_text()))
if "--docs" in sys.argv:
    for path in [pathlib.Path("README.md"), *sorted(pathlib.Path("docs").glob("*.md"))]:
        if not path.name.startswith("PORT"):
            write(path, re.sub(r"`[^`\n]*`", lambda m: respell(m[0]), path.read_text()))
