#!/usr/bin/env python3
"""Turned the names of lemmas inside modules with parameters, which tools/respell.py had passed over, to snake case,
with the name of a fact or a definition as it stands, after a dash.
Run at the top; it may be run again. usage: tools/respell_inner.py CRATE.. (all crates where none is named)"""
import glob
import re
import sys

NAMES = {
    'all-least': 'all_least', 'answer-told': 'answer_told', 'by-err': 'by_err', 'by-ok': 'by_ok', 'card-by': 'card_by', 'card-said': 'card_said',
    'cases-le': 'cases_le', 'cases-lt-one': 'cases_lt_one', 'digits-large': 'digits_large', 'ends-are': 'ends_are', 'entered-card': 'entered_card',
    'entered-sound': 'entered_sound', 'entered-state': 'entered_state', 'entered-whole': 'entered_whole', 'enters-sound': 'enters_sound',
    'first-kept': 'first_kept', 'first-least': 'first_least', 'flow-in': 'flow_in', 'flow-there': 'flow_there', 'head-is': 'head_is',
    'hole-shuffles': 'hole_shuffles', 'hole-swaps': 'hole_swaps', 'keeps-behind': 'keeps_behind', 'keeps-pop': 'keeps_pop',
    'keeps-push': 'keeps_push', 'keeps-refused': 'keeps_refused', 'keeps-room': 'keeps_room', 'lane-there': 'lane_there', 'lanes-are': 'lanes_are',
    'lead-counted': 'lead_counted', 'least-child-set': 'least_child_set', 'left-least': 'left_least', 'left-only': 'left_only',
    'lines-fault': 'lines_fault', 'lines-front': 'lines_front', 'lines-read': 'lines_read', 'local-then': 'local_then', 'moved-sound': 'moved_sound',
    'moved-state': 'moved_state', 'moved-whole': 'moved_whole', 'moves-sound': 'moves_sound', 'none-at': 'none_at', 'out-counted': 'out_counted',
    'out-state': 'out_state', 'out-whole': 'out_whole', 'parent-read': 'parent_read', 'reads-account': 'reads_account', 'reads-small': 'reads_small',
    'reads-text': 'reads_text', 'removes-last': 'removes_last', 'right-least': 'right_least', 'rise-ends': 'rise_ends',
    'section-front': 'section_front', 'section-reads': 'section_reads', 'section-writes': 'section_writes', 'skip-off': 'skip_off',
    'skip-on': 'skip_on', 'spell-more': 'spell_more', 'then-errs': 'then_errs', 'then-late': 'then_late', 'then-oks': 'then_oks',
    'then-used': 'then_used', 'turn-ends': 'turn_ends', 'turn-fault': 'turn_fault', 'turn-goes': 'turn_goes', 'turn-memory': 'turn_memory',
    'unread-told': 'unread_told',
    'all-sorted': 'AllByRecursion-sorted', 'charge_for_lem': 'own_charge', 'first-sorted': 'first_sorted', 'ordered-insert': 'Ordered-insert',
    'ordered-sorted': 'Ordered-sorted', 'peeked-head': 'peeked_head', 'popped-sorted': 'popped_sorted', 'pushed-sorted': 'pushed_sorted',
    'same-ordered': 'same_ordered', 'shuffled-insert': 'IsPermutation-insert', 'shuffled-sorted': 'IsPermutation-sorted',
    'sorted-shuffled': 'sorted-IsPermutation', 'worded-blank': 'worded_blank',
}
WORD = re.compile(r"(?<![\w'·-])(%s)(?![\w'·-])" % "|".join(re.escape(n) for n in sorted(NAMES, key=len, reverse=True)))

for crate in sys.argv[1:] or sorted(p.split("/")[1] for p in glob.glob("crates/*/")):
    for path in sorted(glob.glob(f"crates/{crate}/specs/**/*.antt", recursive=True) + glob.glob(f"crates/{crate}/proofs/**/*.antt", recursive=True)):
        with open(path, encoding="utf-8") as f:
            old = f.read()
        new = WORD.sub(lambda m: NAMES[m.group(1)], old)
        if new != old:
            with open(path, "w", encoding="utf-8") as f:
                f.write(new)
