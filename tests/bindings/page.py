"""The examples of four pages, run from top to bottom as they stand there: each answers what the page prints below it, and each page
has one of every answer that is named here. It is run from the project's root with bindings/python on PYTHONPATH. The last line is
'N passed, M failed'."""
import doctest
import sys

RULES = {f"W{rule}": f"WriteAnswer(refusal=0, rule={rule}," for rule in range(1, 6)}
PAGES = {
    "docs/READING-WRITE-DATA.md": {
        "clean": "WriteAnswer(refusal=0, rule=0,", **RULES, "refusal 2": "WriteAnswer(refusal=2,", "refusal 3": "WriteAnswer(refusal=3,"},
    "docs/FOLLOWING-USER-BITS.md": {
        "two records": "StreamAnswer(refusal=0, rule=0, place=0, count=2)", "R3": "StreamAnswer(refusal=0, rule=3,",
        "padding": "StreamAnswer(refusal=3,"},
    "docs/TWO-CAMERAS.md": {
        "merged": "MergeAnswer(refusal=0, port=0, place=0, count=5)", "17": "MergeAnswer(refusal=17, port=0, place=1,",
        "3 of port 1": "MergeAnswer(refusal=3, port=1,", "2 of port 1": "MergeAnswer(refusal=2, port=1,", "5": "MergeAnswer(refusal=5, port=0,"},
    "docs/ARCHIVED-FILES.md": {
        "lanes mode": r"'verdict=clean\ntransfers=3\npackets=2\nrecords=6\n", "15": r"'verdict=refused\nrefusal=15\n",
        "2 of the report": r"'verdict=refused\nrefusal=2\n", "no transfer": r"'verdict=clean\ntransfers=0\n",
        "two records": "StreamAnswer(refusal=0, rule=0, place=0, count=2)", "the report's octets": "True",
        "2 of repacking": "(StreamAnswer(refusal=2,"},
}


def run(name, needed):
    """How many examples and needed answers of a page there are, and how many of them fail."""
    with open(name, encoding="utf-8") as page:
        test = doctest.DocTestParser().get_doctest(page.read(), {}, name, name, 0)
    told = [example.want for example in test.examples if not example.options]  # an option may let any answer pass
    lines = []
    ran = doctest.DocTestRunner(verbose=False).run(test, out=lines.append)
    print("".join(lines).replace("Failed example", "FAILED example"), end="")
    missing = [answer for answer, start in needed.items() if not any(want.startswith(start) for want in told)]
    for answer in missing:
        print(f"FAILED: {name} has no example of {answer}")
    return ran.attempted + len(needed), ran.failed + len(missing)


counts = [run(name, needed) for name, needed in PAGES.items()]
failed = sum(count[1] for count in counts)
print(f"{sum(count[0] for count in counts) - failed} passed, {failed} failed")
sys.exit(1 if failed else 0)
