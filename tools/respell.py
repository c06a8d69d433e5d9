#!/usr/bin/env python3
"""Brings the names of specs/ and proofs/ to the spelling of today's Rattle: words in snake case, facts and types in camel case.

usage: python3 tools/respell.py        at the top of the repository, once, after the toolchain's own script has turned the sources

Each name of the table is replaced where it stands as a whole word in specs/, in proofs/, in the sources and in the must-fail edits. Strings and the
text of comments stay, but for names in camel case. Names of functions, of steps and of goals are not in the table: they keep their spelling.
"""

import re
import sys
from pathlib import Path

TABLE = """
After-fits AfterFits, Algorithm-of AlgorithmOf, All-hold AllHold, At-rest AtRest, Bytes-bytesOf Bytes-bytes_of,
Bytes-putBits Bytes-put_bits, Came-back CameBack, Chain-fits ChainFits, Checking-stands CheckingStands, Closed-up
ClosedUp, Closing-fits ClosingFits, Coder-laws CoderLaws, Coder-of CoderOf, Count-fits CountFits, Edge-bounds
EdgeBounds, Ends-recorded EndsRecorded, Exactly-one ExactlyOne, Example-stands ExampleStands, Extra-fits ExtraFits,
Form-put FormPut, Form-refused FormRefused, Format-stands FormatStands, Has-room HasRoom, Has-section HasSection,
Head-agrees HeadAgrees, Head-place HeadPlace, Holds-section HoldsSection, If-given IfGiven, Is-recorded IsRecorded,
Name-fits NameFits, Pads-apart PadsApart, Part-at PartAt, Pile-of PileOf, Put-fits PutFits, Put-on PutOn,
Reads-exactly ReadsExactly, Recording-fits RecordingFits, Right-form RightForm, Right-word RightWord, Room-for
RoomFor, Runs-are-recorded RunsAreRecorded, Same-flags SameFlags, Section-fits SectionFits, Some-bytes SomeBytes,
Some-words SomeWords, Sound-pile SoundPile, Spot-bounds SpotBounds, Stands-at StandsAt, Table-fits TableFits,
Validity-is-plain ValidityIsPlain, addedBits added_bits, after-fits after_fits, afterClose after_close, afterFew
after_few, afterFill after_fill, afterFlags after_flags, afterLast after_last, afterOpen after_open, answerTotals
answer_totals, as-was as_was, begin-fits begin_fits, beginBytes begin_bytes, beginFault begin_fault, beginResult
begin_result, behind-stream behind_stream, bits-mod bits_mod, bitsIn bits_in, bitsOf-append bits_of-append,
bitsOf-append-put bits_of-append-put, bitsOf-bytes bits_of-bytes, bitsOf-bytesOf bits_of-bytes_of, bitsOf-from
bits_of-from, bitsOf-inj bits_of-inj, bitsOf-putBits bits_of-put_bits, bitsOf-stored bits_of-stored, bitsOf-zeros
bits_of-zeros, bodyAnswer body_answer, bodyBytes body_bytes, bodyLeft body_left, bodyTotals body_totals, bytes-bitsOf
bytes-bits_of, bytesBehind bytes_behind, bytesIn bytes_in, bytesOf-bitsOf bytes_of-bits_of, bytesPer bytes_per,
came-back came_back, channelAnswer channel_answer, channelAt channel_at, channelCount channel_count, channelOf
channel_of, checkAnswer check_answer, checking-stands checking_stands, clearedFrom cleared_from, closedBits
closed_bits, closedEdge closed_edge, closedEnd closed_end, closingBits closing_bits, closingBytes closing_bytes,
closingEnd closing_end, closingFits closing_fits, closingOf closing_of, coder-all coder_all, coder-end coder_end,
coder-fault coder_fault, coder-full coder_full, coder-laws coder_laws, coder-more coder_more, coder-reads coder_reads,
coder-unfit coder_unfit, coderAnswer coder_answer, coderCoding coder_coding, coderSpread coder_spread, coderWidth
coder_width, coderWords coder_words, codingOf coding_of, contentsOf contents_of, count-divided count_divided,
count-frames count_frames, countWords count_words, cut-bytesOf cut-bytes_of, cutShort cut_short, deltaChannel
delta_channel, deltaIf delta_if, deltaIf-sound delta_if-sound, describeAnswer describe_answer, describeTable
describe_table, describes-true describes_true, description-is description_is, descriptionBits description_bits,
drop-bitsOf drop-bits_of, eachCells each_cells, eachRead each_read, endResult end_result, endTag end_tag,
ends-recorded ends_recorded, example-stands example_stands, exampleChannel example_channel, exampleFile example_file,
extraBits extra_bits, extraByte extra_byte, extraBytes extra_bytes, extraFits extra_fits, extraPlace extra_place,
false-true false_true, faultOf fault_of, faults-apart faults_apart, few-channels few_channels, few-leftovers
few_leftovers, few-sections few_sections, field-putBits field-put_bits, field-putBits-after field-put_bits-after,
field-putBits-before field-put_bits-before, fieldsBits fields_bits, fieldsFilled fields_filled, fillAnswer
fill_answer, fillBytes fill_bytes, fillLeaves fill_leaves, fillPuts fill_puts, fillResult fill_result, fillTable
fill_table, filled-pads filled_pads, filled-so filled_so, filledBits filled_bits, filledBytes filled_bytes, fillsBy
fills_by, firstBits first_bits, firstTurn first_turn, fits-pads fits_pads, flagByte flag_byte, flagsIn flags_in,
form-put form_put, form-refused form_refused, formBits form_bits, formFault form_fault, formIn form_in, formNext
form_next, formOf-has form_of-has, formOf-is form_of-is, formOf-means form_of-means, formOf-none form_of-none,
formOf-over form_of-over, formOf-renamed form_of-renamed, formPart form_part, format-stands format_stands, frameBytes
frame_bytes, frameWords frame_words, frontBits front_bits, frontEnd front_end, given-mod given_mod, givenAfter
given_after, givenNext given_next, goesOn goes_on, goes_on goes_on-is, head-agrees head_agrees, head-place head_place,
headAnswer head_answer, headFits head_fits, headIn head_in, headLength head_length, heldEnd held_end, holds-section
holds_section, in-width in_width, isField is_field, isGiven is_given, isRaw is_raw, isTag is_tag, is_field
is_field-fits, kept-begin kept_begin, kept-open kept_open, kept-void kept_void, keptPut kept_put, keptTaken
kept_taken, laidBytes laid_bytes, lastBytes last_bytes, lastFault last_fault, lastResult last_result, laterFault
later_fault, law-slim law_slim, leftoversOf leftovers_of, lenTaken len_taken, length-bitsOf length-bits_of,
length-bytesOf length-bytes_of, length-putBits length-put_bits, length-rawBytes length-raw_bytes, length-rawWords
length-raw_words, magic-is magic_is, many-uncountable many_uncountable, marksByte marks_byte, marksOf marks_of,
memoryAfter memory_after, memoryAt memory_at, memoryOf memory_of, mod-mod-le mod_mod_le, moreBytes more_bytes,
moreFault more_fault, moreResult more_result, mostBytes most_bytes, mostChannels most_channels, mostName most_name,
mostSections most_sections, movedOn moved_on, name-faults name_faults, nameBits name_bits, nameByte name_byte,
nameBytes name_bytes, nameFits name_fits, namePlace name_place, nameRoom name_room, nextPart next_part, nextRow
next_row, nextTaken next_taken, nextTurn next_turn, no-fill no_fill, no-last no_last, no-magic no_magic, no-more
no_more, no-open no_open, no-put no_put, no-void no_void, noChannel no_channel, noSection no_section, none-uncountable
none_uncountable, not-true not_true, nothing-behind nothing_behind, one-channel one_channel, one-row-limited
one-row_limited, onePut one_put, onlySize only_size, onlySpot only_spot, open-fits open_fits, open-length open_length,
openBits open_bits, openBytes open_bytes, openFault open_fault, openResult open_result, openSpot open_spot, openTable
open_table, outlineIn outline_in, packAnswer pack_answer, packBytes pack_bytes, packHost pack_host, packHostBytes
pack_host_bytes, packedSize packed_size, paddedBits padded_bits, pads-on pads_on, pads-stand pads_stand, partBytes
part_bytes, passAnswer pass_answer, pileCoding pile_coding, plainChannel plain_channel, pointerField pointer_field,
pouredBytes poured_bytes, pouredResult poured_result, put-as-was put_as_was, put-fits put_fits, putAnswer put_answer,
putBits put_bits, putBits-none put_bits-none, putBits-same put_bits-same, putBits-twice put_bits-twice, putBy put_by,
putBytes put_bytes, putFault put_fault, putLength put_length, putParts put_parts, putResult put_result, putSpot
put_spot, putStream put_stream, putTable put_table, rawBytes raw_bytes, rawField raw_field, rawOf raw_of, rawSize
raw_size, rawTotal raw_total, rawWords raw_words, readAnswer read_answer, readBytes read_bytes, readHost read_host,
readHostBytes read_host_bytes, readWords read_words, recordResult record_result, recording-fits recording_fits,
recordingBy recording_by, recordingOf recording_of, recordingTotals recording_totals, reducedForm reduced_form,
rest-no-pads rest-no_pads, roomAnswer room_answer, roomBytes room_bytes, rotr-mod rotr_mod, rowBytes row_bytes,
rowsBits rows_bits, rowsIn rows_in, runs-are-recorded runs_are_recorded, saidPart said_part, section-fits
section_fits, sectionAt section_at, sectionBits section_bits, sectionBytes section_bytes, sectionFlags section_flags,
sectionIn section_in, sectionResult section_result, sectionsBytes sections_bytes, settingsBy settings_by, settingsOf
settings_of, sizeField size_field, sizeFilled size_filled, sizeRoom size_room, sizedOnly sized_only, some-channels
some_channels, some-sections some_sections, sound-pile sound_pile, soundOf sound_of, spreadAnswer spread_answer,
spreadBytes spread_bytes, stream-all stream_all, stream-from stream_from, struck-out struck_out, sumBehind sum_behind,
tailOf tail_of, take-bitsOf take-bits_of, takeAnswer take_answer, takenParts taken_parts, turnAfter turn_after, turnAt
turn_at, turnBehind turn_behind, turnRead turn_read, turnSpread turn_spread, unpackAnswer unpack_answer, unpackBytes
unpack_bytes, validity-is-plain validity_is_plain, voidBytes void_bytes, voidFault void_fault, voidResult void_result,
voidTable void_table, withAdded with_added, wordNext word_next, wordTaken word_taken, wordsAt words_at, wordsBits
words_bits, wordsFrom words_from, wordsTotal words_total, wrong-count wrong_count-is, wrong-magic wrong_magic,
wrong-rows wrong_rows, wrongCount wrong_count, zeroFree zero_free
"""

# Fields of records and constructors of specs/: a dash in them is replaced behind a dot, too.
PARTS = set(
    "no-open no-fill no-put no-more no-last no-void nothing-behind some-channels few-channels one-channel some-sections few-sections few-leftovers".split()
)

NAMES = dict(pair.split() for pair in TABLE.replace("\n", " ").split(","))
WORD = re.compile(r"[^\s(){}.;,@?«»&:\[\]<>|*=!\"⌜⌝→×]+")
# The names that a lemma and a function share: only the lemma is renamed, which stands in proofs/.
LEMMAS = {"is_field", "goes_on"}


def turned(line: str, antt: bool) -> str:
    """The line with each name of the table replaced."""
    comment = line.lstrip().startswith("--" if antt else "//")

    def word(found: re.Match) -> str:
        old = found.group(0)
        new = NAMES.get(old)
        if new is None:
            return old
        camel = re.search("[A-Z]", old) is not None
        if not camel:
            behind = found.start() > 0 and line[found.start() - 1] == "."
            before = re.search(r"([^\s(){}.;,]+)\.$", line[: found.start()]) if behind else None
            if not antt or comment or behind and old not in PARTS and (before is None or before.group(1) not in ALIASES):
                return old
        return new

    return WORD.sub(word, line)


ALIASES: set[str] = set()


def turn(path: Path) -> bool:
    """Turns a file; says whether it changed."""
    antt = path.suffix == ".antt"
    old = path.read_text(encoding="utf-8")
    ALIASES.clear()
    ALIASES.update(re.findall(r"^(?:ghost )?use \S+ as ([^\s;]+)", old, re.M))
    lines = old.split("\n")
    if not antt:
        LEMMA = {name: NAMES.pop(name) for name in LEMMAS}
        lines = [turned(line, antt) for line in lines]
        NAMES.update(LEMMA)
    else:
        lines = [turned(line, antt) for line in lines]
    new = "\n".join(lines)
    if new != old:
        path.write_text(new, encoding="utf-8")
    return new != old


def main() -> int:
    top = Path("crates")
    if not top.is_dir():
        print("respell: no crates/ here", file=sys.stderr)
        return 2
    files = sorted(p for p in top.rglob("*") if p.suffix in (".antt", ".rt", ".edit") and "out" not in p.parts)
    print(sum(turn(p) for p in files), "files changed")
    return 0


if __name__ == "__main__":
    sys.exit(main())
