"""The paper quotes documents 01 and 02.

python3 tests/quotes.py             each definition of crates/paper/specs has above it what it renders, and none quotes
                                    what a request has withdrawn
python3 tests/quotes.py --compare   each quotation stands in its document

What a definition renders is a quotation in double quotes (of a sentence, or of a section's name), or the words "Of the
next" where it only serves the one below it. A quotation after a request's number, as in `W-202: "the check covers"`,
stands in the paragraph of that request in document 02, any other in a paragraph of document 01: its pieces between
` .. ` in their order, once lines are joined and markdown's marks dropped. The documents are not in this repository, but
in ../shared/documents beside it; without them --compare fails.
"""
import re

import project
from project import Faults, root

sources = {"01": project.documents / "01-scope.md", "02": project.documents / "02-change-requests.md"}
withdrawn = {"W-202": "A5 included"}  # words of document 01 that a request of document 02 takes back
quoted = re.compile(r'(?:(W-\d+): )?"([^"]+)"')
definition = re.compile(r"(?:unfoldable |abbrev )?pub (?:data |record )?(?!mod |use )(\S+)")


def joined(text):
    """A paragraph in one line, without markdown's marks."""
    return " ".join(re.sub(r"(?m)^\s*(?:#+|-) ", "", text).translate(str.maketrans("|", " ", "*`")).split())


def stands(quotation, paragraph):
    """Whether the pieces of a quotation stand in a paragraph, one after the other."""
    place = 0
    for piece in quotation.split(" .. "):
        place = paragraph.find(piece, place)
        if place < 0:
            return False
        place += len(piece)
    return True


def quotations():
    """Of each definition, the file's name, its own, and what it quotes: the request or "", and the words; None where
    that is missing."""
    for file in sorted((root / "crates/paper/specs").rglob("*.antt")):
        lines = file.read_text().split("\n")
        yield from ((file.name, "its first line", quotation) for quotation in quoted.findall(lines[0]))
        for number, line in enumerate(lines):
            name = definition.match(line)
            if not name:
                continue
            first = number
            while lines[first - 1].startswith("-- "):
                first -= 1
            comment = " ".join(part[3:] for part in lines[first:number])
            found = quoted.findall(comment)
            yield from ((file.name, name[1], quotation) for quotation in found)
            if not found and not comment.startswith("Of the next: "):
                yield file.name, name[1], None


def paragraphs(document):
    if not sources[document].exists():
        raise Faults(f"document {document} is not in ../shared/documents: its quotations are not compared")
    return [joined(part) for part in re.split(r"\n\s*\n", sources[document].read_text())]


def faults_of_definitions(every):
    """A definition that quotes nothing, or what a request has withdrawn."""
    for file, name, quotation in every:
        if quotation is None:
            yield f"{file}: {name} has no quotation above it"
            continue
        for request, words in withdrawn.items():
            if words in quotation[1]:
                yield f"{file}: {name}: {request} has withdrawn: {words}"


def faults_of_quotations(found):
    """A quotation that is not in its document."""
    scope, requests = paragraphs("01"), paragraphs("02")
    for file, name, (request, words) in found:
        among = [part for part in requests if part.startswith(f"{request}. ")] if request else scope
        if not any(stands(words, part) for part in among):
            yield f"{file}: {name}: not in {request or 'document 01'}: {words}"


def main(words):
    if words not in ([], ["--compare"]):
        raise Faults(__doc__)
    every = list(quotations())
    found = [quotation for quotation in every if quotation[2]]
    faults = list(faults_of_quotations(found) if words else faults_of_definitions(every))
    of_02 = sum(1 for _, _, (request, _) in found if request)
    counted = f"{len(found) - of_02} quotations of document 01 and {of_02} of document 02"
    return project.finish(faults, f"{counted}{' compared' if words else ''}, {len(faults)} faults", found)


if __name__ == "__main__":
    project.run(main)
