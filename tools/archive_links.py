"""tools/archive_links.py FOLDER: takes links out of the pages of an archive that would lead out of it.

Of a link to a file that FOLDER doesn't have the text alone is left, as in a page that is read without the sources.
"""
import pathlib
import re
import sys

# A link to a file: its text, the file's path, and maybe a place in it.
LINK = re.compile(r"\[([^\[\]]+)\]\(([^()\s#:]+)(#[^()\s]*)?\)")


def main():
    folder = pathlib.Path(sys.argv[1])
    for page in folder.rglob("*.md"):
        def kept(link):
            return link[0] if (page.parent / link[2]).exists() else link[1]
        page.write_text(LINK.sub(kept, page.read_text(encoding="utf-8")), encoding="utf-8")


main()
