#!/usr/bin/env python3
"""Respells the names of this repository's own definitions and lemmas: words in snake case, joined by an underscore.

Run once, at the top of the repository, after the toolchain's own porting script. Names of Rust functions and types,
strings, and names that the check makes (goals, facts of a call) stay as they are.
"""
import glob
import re

# names of definitions, lemmas, record fields and variables, and the aliases under which contracts import them
OWN = """
actingColumn actingFactor actingRow actsMarked allInside allNear allOne anti-r arrangementOf asTheyAre at-corner at-kept
band-alone band-inside bandCell bandRule bandSlot bandedOf below-c below-d blankBand blankOf bottomOf bottomReach
bounded-laid bounded-over bounded-through by-fill by-rewrite by-slot byClass cell-within cellIn class-down class-up
columns-apart columns-inside countsRefusal dualOf endsText exchangeRefusal exchangedOf extentOf factorRefusal factorsFit
factorsOf faultAt faultNumber faultOf faultText few-columns few-rows first-commutes first-down first-of-proper
first-opposite first-order first-reached first-times first-up firstByParts firstRefusal fitsCounts fourProducts frameModel
freeRefusal from-slot gearedReach grid-alone gridCell gridRule gridSlot hasColumn hasPlace held-checks held-column
held-over heldRefusal heldWithin high-up holdRefusal inBand inLimit inside-parts inside-set is-product isD isFactor
isMultiple isN isNought isP isZ kindText laid-columns laid-rows largestOf least-of left-order left-zero low-down loweredBy
markRefusal marksOf max-left max-right max-times maxCount maxHeld maxReach minus-times mm-is mm-pos mono-r mp-is mp-pos
multiple-down multiple-laws multiple-opposite multiple-up multipleOf multipleRefusal near-cell near-set neg-down neg-pos
neg-times neg-up negated-twice noMarks none-at nought-is number-within of-duals of-opposite of-proper onePart oppositeOf
orRaised ownRefusal parts-raised parts-stand partsRule placedText plus-down plus-pos plus-up pm-is pm-pos pos-neg pos-pos
pp-is pp-pos product-fst product-laws product-size product-snd product-times productOf proper-multiple put-cell put-over
put-through putRefusal raisedOf reached-by ready-found ready-vacant refusalOf refusedIn rest-near rest-one right-order
row-total rowSum second-reached signed-twice signed-within slotted-set small-reach some-columns some-rows standing-most
standsAt steps-are sub-times sum-laws tableCell times-add times-assoc times-neg total-is total-none total-raised total-sum
unlessRefused verdictText view-ends widthRefusal withCell withCellAt withCells withFactor withHeld withMark withValue
withinOf zero-by-either
""".split()

# where the rule alone would make two names one, or give a definition the name of a Rust function in the same file
GIVEN = {
    "getD-same": "get_or_same",
    "by-class": "by_class_by_parts",
}

# definitions named as a Rust function now is: a contract imports such a one under a name of its own
BESIDE_FUNCTION = ["inLimit", "isFactor", "isMultiple", "isNought", "standsAt"]


def snake(name):
    name = re.sub(r"(?<=[a-z0-9])(?=[A-Z])", "_", name)
    return name.replace("-", "_").lower()


NEW = {name: GIVEN.get(name, snake(name)) for name in OWN}
NEW.update(GIVEN)
WORD = re.compile(r"\"(?:[^\"\\\n]|\\.)*\"|[A-Za-z_][A-Za-z0-9_'\-≢]*")


def respelled(text, names):
    def one(match):
        word = match.group(0)
        return names.get(word, word)

    return WORD.sub(one, text)


def respelled_source(text):
    used = dict(NEW)
    imported = dict(NEW)
    for name in BESIDE_FUNCTION:
        used[name] = NEW[name] + "_of"
        imported[name] = NEW[name] + " as " + NEW[name] + "_of"
    lines = text.split("\n")
    return "\n".join(respelled(line, imported if line.startswith("ghost use ") else used) for line in lines)


def main():
    if len(set(NEW.values())) != len(NEW):
        raise SystemExit("two names fall together")
    for path in sorted(glob.glob("crates/**/*", recursive=True)):
        if "/out/" in path or not path.endswith((".antt", ".rt")):
            continue
        with open(path, encoding="utf-8") as file:
            text = file.read()
        changed = respelled_source(text) if path.endswith(".rt") else respelled(text, NEW)
        if changed != text:
            with open(path, "w", encoding="utf-8") as file:
                file.write(changed)


if __name__ == "__main__":
    main()
