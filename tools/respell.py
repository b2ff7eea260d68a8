#!/usr/bin/env python3
"""Turned this repository's own names to the spelling of its present language: definitions and lemmas in snake case,
a dash only between the names of two definitions, `_lem` where a lemma would have a function's or a definition's name.
Run once, at the top, on the tree as the toolchain's own script had left it; it is kept to compare old trees with new ones."""
import glob
import re

NAMES = {
    'above-for': 'above_for', 'addFlows': 'add_flows', 'addLanes': 'add_lanes', 'adds-more': 'adds_more', 'after-d': 'after_d',
    'agree-itself': 'agree_itself', 'agree-means': 'agree_means', 'all-at': 'all_at', 'all-before': 'all_before', 'all-kept': 'all_kept',
    'all-lowered': 'all_lowered', 'all-over': 'all_over', 'all-wait': 'all_wait', 'allOf-at': 'all_of_at', 'allOf-more': 'all_of_more',
    'allOf-push': 'all_of_push', 'allRight': 'all_right', 'allStarts': 'all_starts', 'among-nowhere': 'among_nowhere', 'among-only': 'among_only',
    'among-placed': 'among_placed', 'among-tail': 'among_tail', 'andThen-cases': 'and_then_cases', 'andThen-ok': 'and_then_ok',
    'answerKind': 'answer_kind', 'answerLine': 'answer_line', 'around-push': 'around_push', 'around-some': 'around_some',
    'arrival-reads': 'arrival_reads', 'arrival-says': 'arrival_says', 'arrivalOf': 'arrival_of', 'arrivals-step': 'arrivals_step_lem',
    'arrive-moves': 'arrive_moves', 'arrive-quiet': 'arrive_quiet', 'arriveRule': 'arrive_rule', 'arrives-so': 'arrives_so', 'as-fault': 'as_fault',
    'at-line': 'at_line', 'at-lowered': 'at_lowered', 'at-start': 'at_start', 'back-state': 'back_state', 'bank-at': 'bank_at', 'bank-le': 'bank_le',
    'bank-set': 'bank_set', 'banksOf': 'banks_of', 'bare-says': 'bare_says', 'bareOf': 'bare_of', 'before-end': 'before_end',
    'before-lacks': 'before_lacks', 'before-past': 'before_past', 'begins-one': 'begins_one', 'below-four': 'below_four', 'below-pow': 'below_pow',
    'bit-fits': 'bit_fits', 'bit-new': 'bit_new', 'bit-none': 'bit_none', 'bit-old': 'bit_old', 'bit-ones': 'bit_ones', 'bit-or': 'bit_or_lem',
    'blank-arrives': 'blank_arrives', 'blank-kicks': 'blank_kicks', 'blank-says': 'blank_says', 'blank-sends': 'blank_sends',
    'books-fair': 'books_fair_lem', 'booksOf': 'books_of', 'both-within': 'both_within', 'by-letter': 'by_letter', 'by-ready': 'by_ready',
    'byLead': 'by_lead', 'byStart': 'by_start', 'byTicket': 'by_ticket', 'callKind': 'call_kind', 'calls-push': 'calls_push', 'can-send': 'can_send',
    'card-was-empty': 'card_was_empty', 'cardLine': 'card_line', 'cardOf': 'card_of', 'carries-handed': 'carries_handed',
    'carries-stays': 'carries_stays', 'charge-for': 'charge_for_lem', 'charge-none': 'charge_none', 'charge-some': 'charge_some',
    'chargeFor': 'charge_for', 'chargeOf': 'charge_of', 'chargeOrZero': 'charge_or_zero', 'commandAt': 'command_at', 'commandOf': 'command_of',
    'commands-fresh': 'commands_fresh', 'commands-from-sums': 'commands_from_sums', 'commands-jobs': 'commands_jobs',
    'commands-lowered': 'commands_lowered', 'commands-push': 'commands_push', 'commandsAll': 'commands_all', 'commandsIn': 'commands_in',
    'commandsOf': 'commands_of', 'cond-none': 'cond_none', 'cond-ok': 'cond_ok', 'cond-some': 'cond_some', 'contentOf': 'content_of',
    'count-length': 'count_length', 'count-reads': 'count_reads', 'count-stays': 'count_stays', 'count-up': 'count_up',
    'count-writes': 'count_writes', 'cut-after': 'cut_after', 'cut-here': 'cut_here', 'cut-reads': 'cut_reads', 'cut-tells': 'cut_tells',
    'cut-writes': 'cut_writes', 'cuts-agree': 'cuts_agree', 'digit-fits': 'digit_fits', 'digits-all': 'digits_all', 'digits-end': 'digits_end',
    'digits-off': 'digits_off', 'digits-on': 'digits_on', 'digits-read': 'digits_read', 'digits-say': 'digits_say', 'digits-some': 'digits_some',
    'digitsFrom': 'digits_from', 'draftOf': 'draft_of', 'else-err': 'else_err', 'else-ok': 'else_ok', 'end-at': 'end_at', 'ended-err': 'ended_err',
    'ended-late': 'ended_late', 'ended-more': 'ended_more', 'ended-ok': 'ended_ok', 'ended-well': 'ended_well', 'ends-err': 'ends_err',
    'ends-got': 'ends_got', 'ends-ok': 'ends_ok', 'endsOf': 'ends_of', 'expectedText': 'expected_text', 'faultNumber': 'fault_number',
    'faultText': 'fault_text', 'feeds-end': 'feeds_end', 'feeds-off': 'feeds_off', 'feeds-on': 'feeds_on', 'feedsIn': 'feeds_in',
    'few-flows': 'few_flows', 'few-lanes': 'few_lanes', 'few-slots': 'few_slots', 'few-wait': 'few_wait', 'few-waiting': 'few_waiting',
    'figures-lack': 'figures_lack', 'finishRule': 'finish_rule', 'finished-alike': 'finished_alike', 'finished-for': 'finished_for',
    'finished-oldest': 'finished_oldest', 'finished-taken': 'finished_taken', 'finishedBy': 'finished_by', 'finishedLimit': 'finished_limit',
    'first-cut': 'first_cut', 'first-line': 'first_line_lem', 'first-open': 'first_open', 'firstReady': 'first_ready', 'flow-added': 'flow_added',
    'flow-fits': 'flow_fits_lem', 'flow-le': 'flow_le', 'flow-reads': 'flow_reads', 'flow-size': 'flow_size', 'flow-writes': 'flow_writes',
    'flowAt': 'flow_at', 'flowCharge': 'flow_charge', 'flowFits': 'flow_fits', 'flowIs': 'flow_is', 'flowLine': 'flow_line', 'flowRule': 'flow_rule',
    'flows-add': 'flows_add', 'flows-fit': 'flows_fit', 'formText': 'form_text', 'found-sums': 'found_sums', 'from-set': 'from_set',
    'front-decides': 'front_decides', 'front-taken': 'front_taken', 'gathered-kept': 'gathered_kept', 'gathered-least': 'gathered_least',
    'gave-d': 'gave_d', 'gave-t': 'gave_t', 'getD-down': 'get_d_down', 'goesFirst': 'goes_first', 'good-runs': 'good_runs',
    'good-sheet': 'good_sheet', 'handFirst': 'hand_first', 'handed-sent': 'handed_sent', 'has-head': 'has_head', 'has-moved': 'has_moved',
    'has-sent': 'has_sent', 'has-tail': 'has_tail', 'has-ticket': 'has_ticket', 'hasRoom': 'has_room', 'has_room': 'has_room_lem',
    'head-lacks': 'head_lacks', 'headLine': 'head_line', 'heads-over': 'heads_over', 'holds-from': 'holds_from', 'if-own': 'if_own',
    'in-card': 'in_card_lem', 'in-card-few': 'in_card_few', 'in-card-ordered': 'in_card_ordered', 'in-flows': 'in_flows', 'in-lanes': 'in_lanes',
    'inCard': 'in_card', 'inCardOf': 'in_card_of', 'is-ready': 'is_ready', 'isBlank': 'is_blank', 'isDigit': 'is_digit', 'jobs-push': 'jobs_push',
    'jobsFrom': 'jobs_from', 'jobsOf': 'jobs_of', 'just-d': 'just_d', 'just-t': 'just_t', 'kept-le': 'kept_le', 'kick-carries': 'kick_carries',
    'kick-quiet': 'kick_quiet', 'kick-sheet': 'kick_sheet', 'kickFrom': 'kick_from', 'kickRule': 'kick_rule', 'kicks-hand': 'kicks_hand_lem',
    'kicks-step': 'kicks_step_lem', 'kind-cond': 'kind_cond', 'kind-count': 'kind_count', 'kind-line': 'kind_line', 'kind-of': 'kind_of',
    'kind-ranged': 'kind_ranged', 'kind-some': 'kind_some', 'known-in-force': 'known_in_force', 'known-runs': 'known_runs',
    'lacks-decimal': 'lacks_decimal', 'lacks-figures': 'lacks_figures', 'lacks-more': 'lacks_more', 'lane-added': 'lane_added',
    'lane-at': 'lane_at_lem', 'lane-few': 'lane_few', 'lane-one': 'lane_one', 'lane-only': 'lane_only', 'lane-reads': 'lane_reads',
    'lane-set': 'lane_set', 'lane-size': 'lane_size', 'lane-writes': 'lane_writes', 'laneAt': 'lane_at', 'laneFits': 'lane_fits', 'laneIs': 'lane_is',
    'lanes-add': 'lanes_add', 'lanes-eight': 'lanes_eight', 'lanes-few': 'lanes_few', 'lanes-ordered': 'lanes_ordered', 'later-step': 'later_step',
    'lead-head': 'lead_head', 'lead-new': 'lead_new', 'lead-stays': 'lead_stays', 'lead-waits': 'lead_waits', 'leadAt': 'lead_at',
    'leadRule': 'lead_rule', 'leadUpto': 'lead_upto', 'leadsFrom': 'leads_from', 'leadsOf': 'leads_of', 'least-again': 'least_again',
    'least-from': 'least_from', 'least-high': 'least_high', 'least-is': 'least_is', 'least-lane': 'least_lane', 'least-low': 'least_low',
    'least-over': 'least_over', 'least-reached': 'least_reached', 'least-stands': 'least_stands_lem', 'led-there': 'led_there',
    'length-banks': 'length_banks', 'length-held': 'length_held', 'length-jobs': 'length_jobs', 'less-all': 'less_all', 'letterOf': 'letter_of',
    'lettered-is': 'lettered_is', 'lettered-reads': 'lettered_reads', 'lettered-writes': 'lettered_writes', 'letteredOf': 'lettered_of',
    'letters-lack': 'letters_lack', 'limit-met': 'limit_met', 'line-by': 'line_by', 'line-front': 'line_front', 'line-goes': 'line_goes',
    'line-says': 'line_says', 'line-shorter': 'line_shorter', 'line-used': 'line_used', 'lineAs': 'line_as', 'lineEnds': 'line_ends',
    'lineInto': 'line_into', 'lines-append': 'lines_append', 'lines-size': 'lines_size', 'linesInto': 'lines_into', 'listed-none': 'listed_none',
    'load-first': 'load_first', 'load-tie': 'load_tie', 'load-tied': 'load_tied', 'loadRule': 'load_rule', 'loadingOf': 'loading_of',
    'loads-empty': 'loads_empty', 'loads-step': 'loads_step_lem', 'local-line': 'local_line', 'local-lines': 'local_lines',
    'local-none': 'local_none', 'local-section': 'local_section', 'local-sections': 'local_sections', 'low-under': 'low_under',
    'lowered-all': 'lowered_all', 'lowered-more': 'lowered_more', 'lowered-turn': 'lowered_turn', 'made-call': 'made_call', 'map-down': 'map_down',
    'mapped-some': 'mapped_some', 'minus-at': 'minus_at', 'more-all': 'more_all', 'more-among': 'more_among', 'more-end': 'more_end',
    'more-length': 'more_length', 'more-plus': 'more_plus', 'more-put': 'more_put', 'more-said': 'more_said', 'more-sum': 'more_sum',
    'more-tally': 'more_tally', 'moveRule': 'move_rule', 'moved-runs': 'moved_runs', 'movedFrom': 'moved_from', 'near-upto': 'near_upto',
    'nearest-first': 'nearest_first', 'never-falls': 'never_falls', 'new-books': 'new_books', 'new-rests': 'new_rests', 'next-front': 'next_front',
    'next-is': 'next_is', 'next-none': 'next_none', 'next-some': 'next_some', 'nextLine': 'next_line', 'no-length-in': 'no_length_in',
    'no-params': 'no_params', 'no-tags': 'no_tags', 'no-waiting': 'no_waiting', 'noFlow': 'no_flow', 'noLead': 'no_lead', 'noRecord': 'no_record',
    'noRequest': 'no_request', 'no_lead': 'no_lead_lem', 'none-nearer': 'none_nearer', 'none-ready': 'none_ready', 'none-waited': 'none_waited',
    'now-loaded': 'now_loaded', 'number-lacks': 'number_lacks', 'number-none': 'number_none', 'number-reads': 'number_reads',
    'number-says': 'number_says', 'number-writes': 'number_writes', 'numberFor': 'number_for', 'numbered-reads': 'numbered_reads',
    'numbered-says': 'numbered_says', 'numberedOf': 'numbered_of', 'ofTicket': 'of_ticket', 'ok-some': 'ok_some', 'old-is': 'old_is',
    'oldest-ready': 'oldest_ready', 'onArrival': 'on_arrival', 'onLoad': 'on_load', 'one-due': 'one_due', 'one-flow': 'one_flow',
    'one-param': 'one_param', 'one-sheet': 'one_sheet', 'ones-members': 'ones_members', 'or-false': 'or_false', 'or-false-both': 'or_false_both',
    'or-false-end': 'or_false_end', 'outcomeOf': 'outcome_of', 'pair-some': 'pair_some', 'pair-writes': 'pair_writes', 'param-goes': 'param_goes',
    'param-size': 'param_size', 'param-writes': 'param_writes', 'paramLine': 'param_line', 'parameterOf': 'parameter_of',
    'params-front': 'params_front', 'params-go': 'params_go', 'params-read': 'params_read', 'params-section': 'params_section',
    'params-section-front': 'params_section_front', 'params-size': 'params_size', 'params-write': 'params_write', 'placed-lowered': 'placed_lowered',
    'placed-put': 'placed_put', 'placed-taken': 'placed_taken', 'plus-after': 'plus_after', 'plus-at': 'plus_at', 'plus-before': 'plus_before',
    'plus-end': 'plus_end', 'popped-some': 'popped_some', 'pops-at': 'pops_at', 'pushes-at': 'pushes_at', 'queue-arrived': 'queue_arrived',
    'queue-calm': 'queue_calm', 'queue-sent': 'queue_sent', 'ranged-ok': 'ranged_ok', 'readSheet': 'read_sheet', 'ready-bits': 'ready_bits_lem',
    'ready-down': 'ready_down', 'ready-k': 'ready_k', 'ready-leads': 'ready_leads', 'readyBits': 'ready_bits', 'readyLanes': 'ready_lanes',
    'readyRule': 'ready_rule', 'readyWith': 'ready_with', 'reap-moves': 'reap_moves', 'reap-sheet': 'reap_sheet', 'reap-tied': 'reap_tied',
    'reapFound': 'reap_found', 'reapRule': 'reap_rule', 'reapingLine': 'reaping_line', 'reapingOf': 'reaping_of', 'reaps-step': 'reaps_step_lem',
    'recordAt': 'record_at', 'refusalNumber': 'refusal_number', 'refusalOf': 'refusal_of', 'refusedLine': 'refused_line',
    'removed-fewer': 'removed_fewer', 'removed-found': 'removed_found', 'removed-sound': 'removed_sound', 'removed-without': 'removed_without',
    'requestOf': 'request_of', 'requestUpto': 'request_upto', 'requests-from-sums': 'requests_from_sums', 'rest-shorter': 'rest_shorter',
    'right-from': 'right_from', 'roundedUp': 'rounded_up', 'rule-none': 'rule_none', 'rule-some': 'rule_some', 'runs-push': 'runs_push',
    'said-of-all': 'said_of_all', 'same-all': 'same_all', 'same-among': 'same_among', 'same-card': 'same_card', 'same-handed': 'same_handed',
    'same-lowered': 'same_lowered', 'same-pow': 'same_pow', 'same-sheet': 'same_sheet', 'same-sym': 'same_sym', 'same-tally': 'same_tally',
    'same-trans': 'same_trans', 'same-waiting': 'same_waiting', 'sane-count': 'sane_count', 'sane-cut': 'sane_cut', 'sane-ends': 'sane_ends',
    'sane-line': 'sane_line', 'sane-lines': 'sane_lines', 'sane-section': 'sane_section', 'sane-sections': 'sane_sections', 'sane-then': 'sane_then',
    'says-one': 'says_one', 'section-size': 'section_size', 'sectionOf': 'section_of', 'sections-front': 'sections_front',
    'sections-write': 'sections_write', 'seen-pass': 'seen_pass', 'seen-some': 'seen_some', 'sees-loaded': 'sees_loaded',
    'send-carries': 'send_carries', 'send-moves': 'send_moves', 'send-quiet': 'send_quiet', 'send-sheet': 'send_sheet', 'sendFirst': 'send_first',
    'sendRule': 'send_rule', 'sendingLine': 'sending_line', 'sendingOf': 'sending_of', 'sent-alike': 'sent_alike', 'sent-apt': 'sent_apt',
    'sent-for': 'sent_for', 'sent-sheet': 'sent_sheet', 'sent-told': 'sent_told', 'sentBy': 'sent_by', 'sentLimit': 'sent_limit',
    'setSlots': 'set_slots', 'setThreshold': 'set_threshold', 'sheet-at': 'sheet_at', 'sheet-push': 'sheet_push', 'sheetA': 'sheet_a',
    'sheetAfter': 'sheet_after', 'sheetDeed': 'sheet_deed', 'sheetFrom': 'sheet_from', 'sheetText': 'sheet_text', 'short-reads': 'short_reads',
    'skip-end': 'skip_end', 'some-counted': 'some_counted', 'some-from-head': 'some_from_head', 'some-goes': 'some_goes', 'some-ok': 'some_ok',
    'some-ready': 'some_ready', 'some-slots': 'some_slots', 'some-start': 'some_start', 'sorting-stands': 'sorting_stands_lem',
    'sound-arrived': 'sound_arrived', 'sound-finished': 'sound_finished', 'sound-loaded': 'sound_loaded', 'sound-lowered': 'sound_lowered',
    'sound-rests': 'sound_rests', 'sound-sent': 'sound_sent', 'sound-taken': 'sound_taken', 'start-le': 'start_le', 'start-low': 'start_low',
    'stateFrom': 'state_from', 'stays-tied': 'stays_tied', 'stays-whole': 'stays_whole', 'steps-push': 'steps_push', 'submit-held': 'submit_held',
    'submit-put': 'submit_put', 'submit-taken': 'submit_taken', 'submitRule': 'submit_rule', 'submitted-length': 'submitted_length',
    'submitted-sum': 'submitted_sum', 'submitted-tally': 'submitted_tally', 'sumBy-mono': 'sum_by_mono', 'sumBy-zero': 'sum_by_zero',
    'sums-starts': 'sums_starts', 'tailOf': 'tail_of', 'take-set-under': 'take-set_under', 'takeFrom': 'take_from', 'tally-none': 'tally_none',
    'tally-some': 'tally_some', 'text-reads': 'text_reads', 'text-size': 'text_size', 'text-writes': 'text_writes', 'three-some': 'three_some',
    'threeOf': 'three_of', 'threshold-reads': 'threshold_reads', 'through-more': 'through_more', 'through-none': 'through_none',
    'ticketIn': 'ticket_in', 'ticketIs': 'ticket_is', 'tickets-fewer': 'tickets_fewer', 'tied-least': 'tied_least', 'tied-length': 'tied_length',
    'tied-room': 'tied_room', 'tied-same': 'tied_same', 'tied-starts': 'tied_starts', 'tied-update': 'tied_update',
    'time-is-least': 'time_is_least_lem', 'timeOf': 'time_of', 'told-by-start': 'told_by_start', 'told-by-ticket': 'told_by_ticket',
    'trailing-low': 'trailing_low', 'true-within': 'true_within', 'two-due': 'two_due', 'two-places': 'two_places', 'unreadLine': 'unread_line',
    'upto-alike': 'upto_alike', 'upto-chain': 'upto_chain', 'upto-either': 'upto_either', 'used-lines': 'used_lines', 'waiting-less': 'waiting_less',
    'waiting-mono': 'waiting_mono', 'waiting-more': 'waiting_more', 'waiting-sums': 'waiting_sums', 'waitingOf': 'waiting_of', 'waits-f': 'waits_f',
    'waits-g': 'waits_g', 'waits-lead': 'waits_lead', 'with-card': 'with_in_card', 'withCard': 'with_card', 'withFlow': 'with_flow',
    'withLane': 'with_lane', 'withParam': 'with_param', 'withSlots': 'with_slots', 'withThreshold': 'with_threshold', 'withTicket': 'with_ticket',
    'within-true': 'within_true', 'without-none': 'without_none', 'withoutTicket': 'without_ticket', 'word-reads': 'word_reads',
    'word-writes': 'word_writes', 'worded-ok': 'worded_ok', 'words-say': 'words_say', 'workOf': 'work_of', 'wrap-below': 'wrap_below',
    'wrap-high': 'wrap_high', 'wrap-is': 'wrap_is', 'wrap-low': 'wrap_low', 'wrap-other': 'wrap_other', 'zero-reads': 'zero_reads',
    'zero-tells': 'zero_tells', 'zipped-push': 'zipped_push', 'zipped-some': 'zipped_some',
}
WORD = r"(?<![\w'·-])(%s)(?![\w'·-])" % "|".join(re.escape(n) for n in sorted(NAMES, key=len, reverse=True))
PLAIN = re.compile(WORD)
# what Rattle names itself: the goals of a proof, and the modules that hold them
MADE = re.compile(r"\bgoal\.[^\s(){},;]+|\.(?:Goals|Given)\.\{[^}]*\}|\.(?:Goals|Given)\.[^\s(){},;]+")


def turned(text):
    return PLAIN.sub(lambda m: NAMES[m.group(1)], text)


def turned_proof(text):
    out, at = [], 0
    for m in MADE.finditer(text):
        out += [turned(text[at:m.start()]), m.group(0)]
        at = m.end()
    return "".join(out + [turned(text[at:])])


def turned_source(text):
    """The lines of clauses and ghost items; code, comments and strings keep their words."""
    out, deep = [], 0
    for line in text.split("\n"):
        word = line.strip().split("//")[0]
        begins = re.match(r"(?:pub )?(?:ghost|requires|ensures|decreases)\b", word)
        if begins or deep > 0:
            deep = max(0, deep) + word.count("{") - word.count("}")
            line = turned(line)
        out.append(line)
    return "\n".join(out)


for path in sorted(glob.glob("crates/**/*.antt", recursive=True) + glob.glob("crates/**/*.rt", recursive=True)):
    with open(path, encoding="utf-8") as f:
        old = f.read()
    new = turned_proof(old) if path.endswith(".antt") else turned_source(old)
    if new != old:
        with open(path, "w", encoding="utf-8") as f:
            f.write(new)
