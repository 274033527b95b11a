#!/usr/bin/env bash
# Compares README.md, the pages of docs/ and the READMEs of examples/ with the tree: each link leads to a file and a heading that are
# there, each path between backticks is there, and each line that calls ./casbin_cli has a command and options that docs/SCRIPTS.md
# lists, and files that are there. Usage: checks/pages.sh
set -u
cd "$(dirname "${BASH_SOURCE[0]}")/.." || exit 1
exec python3 - <<'PYTHON'
import glob, os, re, sys

PAGES = ["README.md", *sorted(glob.glob("docs/*.md")), *sorted(glob.glob("examples/*/README.md"))]
FENCE = re.compile(r"^```.*?^```", re.M | re.S)
# Names that stand for any file or crate.
ANY = ("MODEL", "POLICY", "NAME", "N")
wrong = []


def text_of(page):
    with open(page) as file:
        return file.read()


# The heading of a line as GitHub makes a link of it.
def anchor(heading):
    plain = re.sub(r"\[([^]]*)\]\([^)]*\)", r"\1", heading.replace("`", "").strip().lower())
    return re.sub(r"[^\w\- ]", "", plain).replace(" ", "-")


anchors = {page: {anchor(line) for line in re.findall(r"^#+ (.*)$", FENCE.sub("", text_of(page)), re.M)} for page in PAGES}


def check_link(page, link):
    name, _, heading = link.partition("#")
    target = os.path.normpath(os.path.join(os.path.dirname(page), name)) if name else page
    if not os.path.exists(target):
        wrong.append(f"{page}: no file {link}")
    elif heading and heading not in anchors.get(target, ()):
        wrong.append(f"{page}: no heading {link}")


def check_path(page, word):
    if word.partition("/")[0] in ("crates", "docs", "bench", "checks", "examples", ".ci"):
        places = [word]
    elif re.match(r"\w+/(specs|src|proofs|must-fail)\b", word):
        places = [f"crates/{word}"]
    else:
        return
    if not any(part in ANY for part in word.split("/")) and not any(glob.glob(place) for place in places):
        wrong.append(f"{page}: no path {word}")


# The commands with their options, as the first table of docs/SCRIPTS.md has them.
commands = {"help": set(), "prove": set()}
for row in re.findall(r"^\| `(\w+) .*?` \| ", re.search(r"^\| Command \|.*\n(?:\|.*\n)+", text_of("docs/SCRIPTS.md"), re.M)[0], re.M):
    commands[row] = set(re.findall(r"--[\w-]+", re.search(rf"^\| `{row} (.*?)` \|", text_of("docs/SCRIPTS.md"), re.M)[1]))


def check_command(page, line):
    for given in re.findall(r"< (\S+)", line):
        if "/" in given and not os.path.exists(given):
            wrong.append(f"{page}: no input {given}")
    name, *words = re.sub(r"[<>|].*", "", line).split()
    if name not in commands:
        wrong.append(f"{page}: no command {name}")
    for word in words:
        option = word.partition("=")[0]
        if option.startswith("--") and option not in commands.get(name, ()):
            wrong.append(f"{page}: {name} has no option {option}")
        if re.match(r"(examples|crates)/", word) and not os.path.exists(word):
            wrong.append(f"{page}: no file {word}")


links = paths = calls = 0
for page in PAGES:
    text = text_of(page)
    prose = FENCE.sub("", text)
    for link in re.findall(r"\]\(([^)\s]+)\)", prose):
        if not link.startswith("http"):
            links += 1
            check_link(page, link)
    for code in re.findall(r"`([^`\n]+)`", prose):
        for word in code.split():
            paths += 1
            check_path(page, word.strip(",;"))
    for line in re.findall(r"\./casbin_cli ([^`\n)]+)", text):
        calls += 1
        check_command(page, line)

for line in wrong:
    print(line, file=sys.stderr)
if wrong:
    sys.exit("the pages and the tree are not the same")
print(f"{links} links, {paths} words of code and {calls} commands of {len(PAGES)} pages are there")
PYTHON
