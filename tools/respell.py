#!/usr/bin/env python3
"""Respells this project's own definitions and lemmas as words in snake case.

usage: python3 tools/respell.py        at the top, once, right after the kit's port.py

Each name of NAMES is replaced by the one after it, wherever it stands whole, in the sources, specs, proofs and
must-fail edits of every crate and in tests/versions. Names of functions in src, exported names, strings, inputs and
outputs are not in the table. The last eight put back a dash that port.py had turned: a definition has the name with
`_` now, and a lemma the one with a dash.
"""
import pathlib
import re

NAMES = """
afterErase after_erase, afterInfo after_info, aloneUnder alone_under, always-refuseIf always-refuse_if,
answerFrom answer_from, answerSize answer_size, answeredBy answered_by, answeredTo answered_to, appVersion app_version,
askOf ask_of, askedAs asked_as, askedBy asked_by, askedFor asked_for, attachedTo attached_to, badCheck bad_check,
badPrefix bad_prefix, badText bad_text, baudOf baud_of, beforeRow before_row, bitAfter bit_after, bitsAsked bits_asked,
bitsIn bits_in, bitsOf-inj bits_of-inj, bootBaud boot_baud, bootVersion boot_version, bufferOf buffer_of,
bytesFor bytes_for, candidateOf candidate_of, carriedBy carried_by, changesNoState changes_no_state,
chunksTo chunks_to, clientOf client_of, codeAnswer code_answer, codeAnswers code_answers, codeCall code_call,
codeInfo code_info, codeLine code_line, confirmRest confirm_rest, crcBit crc_bit, crcByte crc_byte, crcFrom crc_from,
demandFrame demand_frame, demandOf demand_of, digit-hexDigit digit-hex_digit, endId end_id, endSays end_says,
endTable end_table, eraseAddresses erase_addresses, eraseAfter erase_after, eraseAll erase_all, eraseIn erase_in,
eraseOne erase_one, eraseProgress erase_progress, eraseRequest erase_request, eraseSize erase_size, erasedIn erased_in,
erasesFrom erases_from, erasesMost erases_most, firstIds first_ids, flashMost flash_most, flatOf flat_of,
frameBody frame_body, frameBytes frame_bytes, frameCheck frame_check, frameHead frame_head, fromEven from_even,
fromOdd from_odd, frontOf front_of, gainOf gain_of, goesOn goes_on, going-refuseIf going-refuse_if,
goodCount good_count, handedBy handed_by, handedOut handed_out, headFor head_for, heardAs heard_as, heardBy heard_by,
heardFrom heard_from, heardIn heard_in, heardOf heard_of, heardTag heard_tag, hearsOut hears_out, heldBy held_by,
hexDigit hex_digit, hexDigit-digit hex_digit-digit, hexDigit-few hex_digit-few, hexDigit-more hex_digit-more,
hexText hex_text, hexText-append hex_text-append, hexText-length hex_text-length, hostRun host_run, idAfter id_after,
idFrom id_from, idLines id_lines, idOver id_over, imageBytes image_bytes, imageCompat image_compat, inBoot in_boot,
inPaper in_paper, infoOf info_of, infoRequest info_request, informOnly inform_only, insertAll insert_all,
insertAll-insert insert_all-insert, insertRow insert_row, isEnded is_ended, isGranted is_granted, isLong is_long,
isNothing is_nothing, isOk is_ok, isOne is_one, isOnward is_onward, isThere is_there, jobFlat job_flat, jobIn job_in,
joinedIn joined_in, keyCode key_code, keyIn key_in, keyOr0 key_or0, lastLine last_line, lastMark last_mark,
lentFor lent_for, lentIn lent_in, lentTo lent_to, linkFailed link_failed, linkFailed-fits link_failed-fits,
linkFailed-holds link_failed-holds, linkFailed-sim link_failed-sim, loadedFlat loaded_flat, loadedGain loaded_gain,
loadedId loaded_id, loadedInfo loaded_info, loadedNote loaded_note, loadedReset loaded_reset, loadedTable loaded_table,
loadedWalk loaded_walk, logOf log_of, lostAs lost_as, lowerCase lower_case, machineCall machine_call, markAt mark_at,
maxPayload max_payload, nextBit next_bit, nextSeed next_seed, noReset no_reset, noTable no_table, noWalk no_walk,
nothingYet nothing_yet, oldBytes old_bytes, onAnswer on_answer, onAsked on_asked, onErase on_erase, onEvent on_event,
onGoes on_goes, onHeard on_heard, onInformed on_informed, onJob on_job, onLeft on_left, onPhase on_phase,
onPlace on_place, onPlaced on_placed, onPurpose on_purpose, onReading on_reading, onReplies on_replies, onSays on_says,
onSearch on_search, onSome on_some, onStage on_stage, onThen on_then, onTouch on_touch, onTurn on_turn, onWay on_way,
oneHeard one_heard, openedBy opened_by, otherFor other_for, otherImage other_image, otherLength other_length,
outcomeIn outcome_in, outcomeNote outcome_note, overRecords over_records, ownAlone own_alone, ownSelects own_selects,
paperAnswer paper_answer, paperAnswers paper_answers, paperCall paper_call, paperInfo paper_info, paperLine paper_line,
paperOf paper_of, parseUid parse_uid, payloadOf payload_of, phaseFlat phase_flat, phaseIn phase_in, phaseOf phase_of,
prefixIn prefix_in, progressIn progress_in, progressOf progress_of, purposeIn purpose_in, purposeOf purpose_of,
putUid put_uid, readAs read_as, readBack read_back, readEvent read_event, readFrom read_from, readSized read_sized,
readSynced read_synced, readUid read_uid, recordOf record_of, refusalIn refusal_in, refusalNote refusal_note,
refuseIf refuse_if, refuseIf-read refuse_if-read, refuseIf-sim refuse_if-sim, refusedAs refused_as,
repliedBy replied_by, repliesHeard replies_heard, replyOf reply_of, resetFlags reset_flags, resetIn reset_in,
resetOf reset_of, resetPhase reset_phase, resetRequest reset_request, restAfter rest_after, restFrom rest_from,
resumeJob resume_job, resumeSearch resume_search, rightCheck right_check, roomA room_a, roomS room_s,
rowBytes row_bytes, saidAt said_at, saidBy said_by, sameId same_id, sameId-refl same_id-refl, sameKey same_key,
savedFlat saved_flat, savedFront saved_front, savedHead saved_head, savedId saved_id, savedInfo saved_info,
savedPlace saved_place, savedReset saved_reset, savedTable saved_table, savedWalk saved_walk, saysIn says_in,
searchFlat search_flat, searchFrame search_frame, searchIn search_in, searchOf search_of, seedAfter seed_after,
seedAt seed_at, seedOver seed_over, selectFrame select_frame, selectOnly select_only, selectPayload select_payload,
selectRoom select_room, setBit set_bit, settledBy settled_by, shortCode short_code, shownAnswer shown_answer,
shownFrom shown_from, shownHeard shown_heard, shownInfo shown_info, shownKey shown_key, shownSays shown_says,
showsAttached shows_attached, someBelow some_below, sort-insertAll sort-insert_all, sortRows sort_rows,
spansTooFar spans_too_far, standingAt standing_at, startAttach start_attach, startAttach-fits start_attach-fits,
startAttach-holds start_attach-holds, startAttach-sim start_attach-sim, startAttachTo start_attach_to,
startDeselect start_deselect, startDeselect-fits start_deselect-fits, startDeselect-holds start_deselect-holds,
startDeselect-sim start_deselect-sim, startDiscover start_discover, startDiscover-fits start_discover-fits,
startDiscover-holds start_discover-holds, startDiscover-sim start_discover-sim, startErase start_erase,
startErase-fits start_erase-fits, startErase-holds start_erase-holds, startErase-sim start_erase-sim,
startFlash start_flash, startFlash-fits start_flash-fits, startFlash-holds start_flash-holds,
startFlash-sim start_flash-sim, startInfo start_info, startInfo-fits start_info-fits, startInfo-holds start_info-holds,
startInfo-sim start_info-sim, startReset start_reset, startReset-fits start_reset-fits,
startReset-holds start_reset-holds, startReset-sim start_reset-sim, startSelect start_select,
startSelect-fits start_select-fits, startSelect-holds start_select-holds, startSelect-sim start_select-sim,
startSetBaud start_set_baud, startSetBaud-fits start_set_baud-fits, startSetBaud-holds start_set_baud-holds,
startSetBaud-sim start_set_baud-sim, startWith start_with, startedAs started_as, startedBy started_by,
startedOf started_of, stateAfter state_after, stateSize state_size, stopOf stop_of, successAfter success_after,
sumOver sum_over, sumUnder sum_under, tableIn table_in, toErase to_erase, toInform to_inform, toVerify to_verify,
toWrite to_write, toldAs told_as, toldBy told_by, toldIn told_in, toldOf told_of, tooLarge too_large, tooLong too_long,
uidHex uid_hex, unhex-hexText unhex-hex_text, unlessEcho unless_echo, unlessLong unless_long,
verifyRequest verify_request, walkIn walk_in, walkingOf walking_of, wireOf wire_of, withOne with_one,
withPlace with_place, withTable with_table, withWalk with_walk, within-refuseIf within-refuse_if,
withinLongest within_longest, writeFlags write_flags, writeIn write_in, writeOne write_one, writeRequest write_request,
writeSize write_size, writeWithin write_within, writesFrom writes_from, writtenCode written_code, writtenIn written_in,
wroteIn wrote_in,
bits_in bits-in, code_call code-call, goes_on goes-on, handed_out handed-out, insert_all insert-all, key_in key-in,
rest_from rest-from, too_long too-long
"""

TOP = pathlib.Path(__file__).resolve().parent.parent
TOKEN = re.compile(r"[A-Za-z0-9_'\u2080-\u2089-]+")
PLACES = ["crates/*/src/**/*.rt", "crates/*/specs/**/*.antt", "crates/*/proofs/**/*.antt",
          "crates/*/must-fail/*.edit", "crates/*/must-fail-long/*.edit", "tests/versions/*"]


def main():
    table = dict(pair.split() for pair in NAMES.split(","))
    changed = 0
    for place in PLACES:
        for path in sorted(TOP.glob(place)):
            if not path.is_file():
                continue
            old = path.read_text(encoding="utf-8")
            new = TOKEN.sub(lambda m: table.get(m.group(), m.group()), old)
            if new != old:
                path.write_text(new, encoding="utf-8")
                changed += 1
    print(f"respell: {len(table)} names, {changed} files changed")


if __name__ == "__main__":
    main()
