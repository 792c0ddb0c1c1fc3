"""Comments without what they say of proofs."""
import re
import textwrap

# What speaks of proofs, contracts and laws, or of what is for the prover alone.
OF_PROOFS = re.compile(
    r"\b(?:prov(?:e|es|ed|en|er|ing)|proofs?|clauses?|contracts?|laws?|ghosts?|lemmas?|tactics?|theorems?|premises?|the plain way"
    r"|the plain function|antt)\b|`(?:requires|ensures)`",
    re.I,
)
SENTENCE = re.compile(r"(?<=[.!?:])\s+(?=[A-Z`\[(])")
MARKER = re.compile(r"//[/!]?")
WIDTH = 120


def plain(lines, indent):
    """The lines of a comment, each with its marker, without the sentences that speak of proofs."""
    if not any(OF_PROOFS.search(line) for line in lines):
        return lines
    marker = MARKER.match(lines[0]).group()
    kept = []
    for paragraph in paragraphs([line[len(marker):] for line in lines]):
        kept += reworded(paragraph, marker, indent)
    while kept and kept[-1] == marker:
        kept.pop()
    while kept and kept[0] == marker:
        kept.pop(0)
    return [line for i, line in enumerate(kept) if line != marker or kept[i - 1] != marker]


def paragraphs(lines):
    """Runs of lines: an empty line, an item of a list and a fenced block each begin one."""
    found, fenced = [], False
    for line in lines:
        begins = not line.strip() or line.lstrip().startswith("- ") or not found or not found[-1][-1].strip()
        if line.strip().startswith("```"):
            fenced = not fenced
            begins = fenced
        elif fenced:
            begins = False
        if begins:
            found.append([line])
        else:
            found[-1].append(line)
    return found


def reworded(paragraph, marker, indent):
    """A paragraph without such sentences, broken again where one went."""
    text = " ".join(line.strip() for line in paragraph)
    if not OF_PROOFS.search(text) or text.startswith("```"):
        return [marker + line for line in paragraph]
    item = "- " if text.startswith("- ") else ""
    sentences = [one for one in SENTENCE.split(text[len(item):]) if not OF_PROOFS.search(one)]
    if not sentences:
        return []
    ending = " ".join(sentences)
    ending = ending[:-1] + "." if ending.endswith(":") else ending
    return textwrap.wrap(
        ending, WIDTH - indent, initial_indent=f"{marker} {item}", subsequent_indent=f"{marker} {' ' * len(item)}",
        break_long_words=False, break_on_hyphens=False)
