#!/usr/bin/env python3
"""Brings the repository's own definitions and lemmas to snake case.

usage: python3 tools/respell.py     once, at the top of a checkout that the kit's port.py has turned

Names of definitions (CAMEL) are replaced in specs, proofs, clauses, must-fail edits and pages; names of lemmas (HYPHENS)
only in specs, proofs and ghost items, outside comments. Names between « and » lose these. Text in quotes stays. Running it again changes nothing.
"""

import os
import re

CAMEL = """
afterWord allSpoken appendRefusal appendRoom appendWrites appendedBy atHand backedBy badGate badLast badLine
badZeros behindFull bigEndian blanksOf blobLine blobOf blobOfPosition blobText blobsText boundaryOf bytesIn
bytesText causeByte causeName causeOf causeRefusal clearWrites clearingTo commandOf commandText configRefusal
corruptionDetail countInserted countRemoved countedBy countedIn courseOf cutByRow decodedText detailText
downTorn droppingFrames emptyBlob encodedOf endLine endsFirst errorLine eventBytes eventKind eventOf
eventReason eventSize eventText eventWords failsWith faultOf faultText firstKept firstSpoken foundBy frameLine
frameRefusal framesFrom fromBlank gateOf hexDigit hexOf hexValue inspectBy inspectFrom isBlank isEnd isFull
isOpening isPadded isPresent isSpoken isThere itemSize journalOf keepingOffsets lastByte lastCause lastIn
lastSpoken limitsOf lowestMissing makeRefusal maxBlobs maxGate maxItem maxLine maxNumber maxOpening maxPerBlob
maxPosition maxPrefix minLine numberAt numberText numbersAbove numbersBelow numbersOf offsetAt offsetWrites
offsetsRefusal offsetsRules oldestBelow onBlobs onOffsets oneIn oneOrNone openingIn openingOf orBad
orBadSetting orUnknown outcomeLine outcomeText payloadOf pieceBehind pieceBy pieceIn pieceLine prefixFrom
pruneWrites prunedTo readAt readBlob readBlobAt readFrom readPiece readRefused readUnless readingOn
reasonNumber recoveryRefusal refusedBy refusedLine refusedText reportFrom reportOf retainedBy safeCount safeIn
safeOf sameBytes scanBy scanCommand scanFrom scanOf scanText scannedIn secondsOf seenIn settingIn shelfOf
shelfRefusal shelfRules spokenKind spokenReason spokenText stackIn threeFrames tooMuch tornLine transcriptOf
twoBlobs upAndA upToBlank verbOf walkedTo wantsBacking watermarkOf wholeFrames withBlobs withByte withBytes
withHex withKind withSafe withTail withoutBlanks withoutBlobs writtenAll
""".split()

HYPHENS = """
a-at-3 ceiling-one ceiling-two data-too-short dropping-differs end-not-backed keeping-differs offsets-behind
one-frame-too-many padded-is-bad padded-is-torn reading-on-differs second-blob-alone three-hundred torn-at-5 torn-end
two-frames up-at-0
add-tested after-bytes all-between all-cut all-passed all-put allowed-from always-sound always-told
always-wrote any-call asked-same asked-tells at-end at-unspoken bad-prefix blanks-blank blanks-whole
blob-refused blobs-more by-piece by-prefix byte-cause bytes-of-number bytes-told change-done change-fits
change-is change-none change-other change-over change-own change-rising changed-back changed-between
changed-to changes-at changes-between cond-is cond-none cut-from cut-is-torn cut-kept cut-prefix decides-from
drop-on each-length each-numbers each-rising empty-plain encodes-again ended-from ended-next ends-bad
ends-long ends-reading ends-short ends-whole enough-in entries-stay entry-append entry-drop entry-take
entry-there entry-within err-is event-of-record failed-as-restart fails-reading few-frames fields-again
fields-bytes first-eight first-is-digit first-refused floor-is floor-low found-over frame-some framed-prefix
framed-same from-allowed from-begun from-restored front-after front-append front-from front-here front-none
front-padded front-plain front-short front-take front-to goes-behind goes-on-below good-beside good-kept
good-lowered good-next good-raised good-safer good-shortened grown-none grown-on head-is head-sizes headed-is
headed-same held-left held-lowered held-raised held-safer held-short hexOf-more hexOf-push higher-behind
higher-from insert-done inserted-between inserts-at inserts-between item-at item-is-frame item-sizes judged-is
judged-same keeps-after keeps-back keeps-good keeps-new keeps-to keeps-was kept-blob last-digit last-form
last-is least-whole left-kept left-of left-safe length-between length-change length-frame length-put line-told
low-is lower-before lower-upto made-or-was make-free make-tested missed-at more-form more-is most-front
most-short most-whole next-sizes no-text-reads-none none-higher none-lower none-refuse none-some not-bad
not-nil not-rising number-of-bytes numberAfter-div numberAfter-split ok-err ok-is only-digit
outcomes-as-allowed over-less over-rising padded-reads-none parsed-as parsed-small part-both part-down
part-first past-spoken piece-same place-there plain-to prefix-sizes put-over put-own put-rising reads-back
reads-one-form record-from-parts record-of-event remembered-append remembered-below remembered-cut
remembered-entry remembered-past remembered-prune remove-done removes-at removes-between rest-begins rest-ends
rest-on rest-starts restart-of restarted-good restarted-stays restarts-once rising-after rising-cons
rising-cut rising-end rising-put rising-short rising-split rising-tail rowOf-between rowOf-gap rowOf-none
rowOf-other rowOf-past run-keeps safe-by safe-bytes-stay safe-within safer-kept same-as-whole same-blob
same-blobs scan-is-only scan-is-read served-count served-fits served-kept served-rising setting-missing
setting-there shifted-out shortened-fits shortened-number size-from size-last size-on sizes-from skips-no-more
small-cause small-drop small-front small-push small-take splits-as states-stay-good tail-is take-of-set
to-allowed to-begun to-restored torn-payload torn-prefix turned-good turned-off turned-stays upper-value
value-digit value-more weight-more where-is whole-both within-at within-from within-left without-between
without-over without-own without-rising woken-next word-ends word-stops word-unblank word-whole worked-frames
worked-openings writes-all writes-from writes-last writes-on written-reads-back written-short written-sizes
written-some wrote-next zero-is-alone
""".split()

# Names that would fall together with another.
OTHERS = {
    "cause-byte": "cause_byte_lem",
    "first-kept": "first_kept_lem",
    "goesOn": "what_follows",
    "in-range": "in_range_lem",
}

TOKEN = re.compile(r'"(?:\\.|[^"\\\n])*"|[A-Za-z_\u0080-\uffff][\w\'\-]*')
PLAIN = re.compile(r'"(?:\\.|[^"\\\n])*"|[A-Za-z_\u0080-\uffff][\w\']*')


def snake(name):
    """firstKept is first_kept, front-take is front_take; hexOf-more, two names joined, keeps its dash as hex_of-more."""
    if name in OTHERS:
        return OTHERS[name]
    turned = re.sub(r"([A-Z])", lambda m: "_" + m[1].lower(), name)
    return turned if turned != name else name.replace("-", "_")


NAMES = {name: snake(name) for name in CAMEL + HYPHENS + list(OTHERS)}
WORDS = {name: new for name, new in NAMES.items() if "-" not in name}


def replaced(text, token, names):
    return token.sub(lambda m: names.get(m[0], m[0]), text)


def respelled(path, text):
    if path.endswith(".antt"):
        text = re.sub("«([a-z][\\w-]*)»", lambda m: m[1].replace("-", "_"), text)
    if path.endswith(".rt"):
        ghost = re.compile(r"\s*ghost\s")
        return "\n".join(replaced(line, TOKEN, NAMES) if ghost.match(line) else replaced(line, PLAIN, WORDS) for line in text.split("\n"))
    if not path.endswith(".antt"):
        return replaced(text, PLAIN, WORDS)
    lines = []
    for line in text.split("\n"):
        begin = re.search(r"(?:^|\s)--(?:\s|$)", line)
        at = begin.start() if begin else len(line)
        lines.append(replaced(line[:at], TOKEN, NAMES) + replaced(line[at:], PLAIN, WORDS))
    return "\n".join(lines)


def main():
    for top in ("crates", "docs", "README.md"):
        found = [top] if os.path.isfile(top) else [os.path.join(d, f) for d, _, files in os.walk(top) for f in files]
        for path in sorted(found):
            if not path.endswith((".antt", ".rt", ".edit", ".md")) or "/out/" in path or os.path.basename(path).startswith("PORT"):
                continue
            with open(path, encoding="utf-8") as f:
                text = f.read()
            new = respelled(path, text)
            if new != text:
                with open(path, "w", encoding="utf-8") as f:
                    f.write(new)


if __name__ == "__main__":
    main()
