"""What the scripts that make pages share: the layers of crates.txt, what the code says of its crates and modules, and the form of
rows. Read by tools/definitions.py and tools/contracts.py."""
import argparse
import pathlib
import re
import sys

TOP = pathlib.Path(__file__).resolve().parent.parent
CRATES = TOP / "crates"
# The folder for pages that a script makes; links lead from a folder in it to the top of the repository by TO_TOP.
PAGES = TOP / "out" / "pages"
TO_TOP = "../../.."
# With this each page begins that a script has made.
MADE = "<!-- Made by "
LAYER = re.compile(r"# == ([^:]+): (.+) ==$")


class Layer:
    """A layer of crates.txt: its name, what it is, and its crates from the lowest up."""

    def __init__(self, name, says):
        self.name = name
        self.says = says
        self.crates = []

    def slug(self):
        """The name as a file and an anchor have it."""
        return re.sub(r"[^a-z0-9]+", "-", self.name.lower()).strip("-")


class Complaints:
    """What is wrong: said on standard error as it is found, and told by the exit status."""

    def __init__(self, speaker):
        self.speaker = speaker
        self.count = 0

    def add(self, text):
        print(f"{self.speaker}: {text}", file=sys.stderr)
        self.count += 1


def read_layers(complaints):
    """The layers of crates.txt, by the comment lines `# == Name: what it is ==`; crates before the first one are a layer too."""
    layers = []
    for line in (TOP / "crates.txt").read_text().splitlines():
        heading = LAYER.match(line)
        if heading:
            layers.append(Layer(heading.group(1), heading.group(2)))
        elif line.startswith("# =="):
            complaints.add(f"crates.txt: not `# == Name: what it is ==`: {line}")
        name = line.split("#")[0].split(":")[0].split()
        if name:
            if not layers:
                layers.append(Layer("Crates", "all crates, from the lowest up"))
            layers[-1].crates.append(name[0])
    return layers


def read_uses():
    """What each crate of crates.txt uses, by its name."""
    uses = {}
    for line in (TOP / "crates.txt").read_text().splitlines():
        name, _, used = line.split("#")[0].partition(":")
        if name.split():
            uses[name.split()[0]] = used.split()
    return uses


def module_head(path):
    """What the first lines of a file of code say of it."""
    words = []
    for line in path.read_text().splitlines() if path.is_file() else []:
        if not line.startswith("//!"):
            break
        words.append(line[3:].strip())
    return " ".join(word for word in words if word)


def crate_head(crate):
    """What the code of a crate says of it."""
    source = CRATES / crate / "src"
    return module_head(source / "lib.rt") or module_head(source / "main.rt")


def to_cell(text):
    """A text as a row of a table has it: outside backquotes Markdown's marks stand for themselves."""
    parts = text.split("`")
    for at in range(0, len(parts), 2):
        parts[at] = parts[at].replace("*", r"\*").replace("<", r"\<")
    return "`".join(parts).replace("|", r"\|")


def write_pages(pages, doc):
    """Writes pages, which are lists of lines by their paths, into the folder that the words name. Removes other pages that a script has
    made from their folders."""
    parser = argparse.ArgumentParser(description=doc.split("\n")[0])
    parser.add_argument("--into", metavar="FOLDER", default=str(PAGES), help="instead of out/pages/")
    folder = pathlib.Path(parser.parse_args().into)
    for inner in {str(pathlib.Path(path).parent) for path in pages} - {"."}:
        for page in (folder / inner).glob("*.md"):
            if f"{inner}/{page.name}" not in pages and page.read_text().startswith(MADE):
                page.unlink()
    for path, lines in pages.items():
        page = folder / path
        page.parent.mkdir(parents=True, exist_ok=True)
        page.write_text("\n".join(lines) + "\n")
