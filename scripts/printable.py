"""Makes a page of HTML that can be printed from a document of this repository.

It knows the Markdown that docs/ uses: headings, paragraphs, fenced and indented blocks, tables,
lists of one depth, code, bold, links and pictures. Anything else is a fault with its line, so that
no page shows less than its document. Standard library only.
"""

import base64
import html
import re

STYLE = """
@page { size: A4; margin: 16mm 15mm; }
body { font: 10.5pt/1.4 "Liberation Serif", "DejaVu Serif", Georgia, serif; color: #000;
  max-width: 180mm; margin: 0 auto; padding: 0 1em; }
h1, h2, h3, h4 { font-family: "Liberation Sans", "DejaVu Sans", Helvetica, sans-serif;
  line-height: 1.2; break-after: avoid; }
h1 { font-size: 20pt; } h2 { font-size: 15pt; margin-top: 1.6em; } h3 { font-size: 12pt; }
h4 { font-size: 10.5pt; }
code, pre { font-family: "Liberation Mono", "DejaVu Sans Mono", monospace; }
code { font-size: 88%; overflow-wrap: anywhere; }
code.short { white-space: nowrap; }
pre { font-size: 7.8pt; line-height: 1.3; padding: 0.6em 0.8em; border: 0.5pt solid #999;
  white-space: pre-wrap; overflow-wrap: anywhere; break-inside: avoid; }
pre code { font-size: 100%; }
table { border-collapse: collapse; width: 100%; font-size: 9pt; }
th, td { border: 0.5pt solid #999; padding: 0.2em 0.5em; text-align: left; vertical-align: top; }
th { background: #eee; } tr { break-inside: avoid; } thead { display: table-header-group; }
img { max-width: 100%; max-height: 110mm; display: block; margin: 0.8em 0; }
a { color: inherit; }
@media print { body { max-width: none; padding: 0; } }
"""

SHORT = 24  # code of so many characters stands in one line
FENCE, RULE = "```", re.compile(r"\|(\s*:?-+:?\s*\|)+")
HEADING = re.compile(r"(#{1,4}) (.*)")
ITEM = re.compile(r"(- |\d+\. )(.*)")
# what stands in a text: code, a picture, a link, or bold
INLINE = re.compile(r"`([^`]+)`|!\[([^\]]*)\]\(([^)\s]*)\)|\[([^\]]*)\]\(([^)\s]*)\)|\*\*(.+?)\*\*")


class NotKnown(Exception):
    """A line is of no kind that this module knows."""


def slug(heading):
    """The anchor of a heading, as GitHub makes it."""
    return re.sub(r"[^\w\- ]", "", heading.lower()).replace(" ", "-")


class Page:
    """The page of a document. `names` says which documents stand beside it as pages, from their
    paths below `top` to the names of their pages. A link to any other file is a text on the
    page."""

    def __init__(self, path, top, names):
        self.folder, self.top, self.names = path.parent, top, names
        self.lines, self.at = path.read_text().splitlines(), 0
        self.out, self.anchors, self.links = [], set(), []
        self.title = self.lines[0].lstrip("# ")
        self.made()

    def whole(self):
        """The page, as a file."""
        body = "\n".join(self.out)
        return (f'<!DOCTYPE html>\n<html lang="en">\n<head>\n<meta charset="utf-8">\n'
                f"<title>{html.escape(self.title)}</title>\n<style>{STYLE}</style>\n</head>\n"
                f"<body>\n{body}\n</body>\n</html>\n")

    def linked(self, target):
        """Where a link of the document leads on the page. None: its text stands alone."""
        name, mark, anchor = target.partition("#")
        if re.match(r"[a-z]+:", target):
            return target
        there = None
        if name:
            there = str((self.folder / name).resolve().relative_to(self.top.resolve()))
            if there not in self.names:
                return None
        self.links.append((there, anchor))
        return (self.names[there] if there else "") + mark + anchor

    def picture(self, source):
        """A picture, as the page holds it."""
        return base64.b64encode((self.folder / source).read_bytes()).decode()

    def line(self):
        return self.lines[self.at] if self.at < len(self.lines) else None

    def fault(self, why):
        return NotKnown(f"line {self.at + 1}: {why}")

    # --- inside a paragraph ----------------------------------------------------------------------

    def shown(self, text):
        """A text with code, bold, links and pictures."""
        out, end = [], 0
        for found in INLINE.finditer(text):
            out.append(self.plain(text[end:found.start()]))
            out.append(self.marked(*found.groups()))
            end = found.end()
        return "".join([*out, self.plain(text[end:])])

    def plain(self, text):
        if "`" in text or "**" in text or "](" in text:
            raise self.fault(f"marks that are not closed in {text!r}")
        return html.escape(text, quote=False)

    def marked(self, code, alternative, source, words, target, bold):
        if code is not None:
            kind = ' class="short"' if len(code) <= SHORT else ""
            return f"<code{kind}>{html.escape(code, quote=False)}</code>"
        if source is not None:
            return (f'<img src="data:image/png;base64,{self.picture(source)}" '
                    f'alt="{html.escape(alternative)}">')
        if bold is not None:
            return f"<strong>{self.shown(bold)}</strong>"
        where = self.linked(target)
        words = self.shown(words)
        return words if where is None else f'<a href="{html.escape(where)}">{words}</a>'

    # --- blocks ----------------------------------------------------------------------------------

    def taken(self, belongs):
        """The next lines, as long as they belong."""
        start = self.at
        while self.line() is not None and belongs(self.line()):
            self.at += 1
        return self.lines[start:self.at]

    def pre(self, lines):
        text = html.escape("\n".join(lines), quote=False)
        self.out.append(f"<pre><code>{text}</code></pre>")

    def fenced(self):
        self.at += 1
        lines = self.taken(lambda line: line != FENCE)
        if self.line() is None:
            raise self.fault("a block is not closed")
        self.at += 1
        self.pre(lines)

    def indented(self):
        lines = self.taken(lambda line: not line or line.startswith("    "))
        while not lines[-1]:
            lines.pop()
        self.pre([line[4:] for line in lines])

    def heading(self, marks, text):
        self.at += 1
        anchor = slug(text)
        if anchor in self.anchors:
            raise self.fault(f"another heading has the anchor {anchor}")
        self.anchors.add(anchor)
        level = len(marks)
        self.out.append(f'<h{level} id="{anchor}">{self.shown(text)}</h{level}>')

    def table(self):
        start = self.at
        rows = self.taken(lambda line: line.startswith("|"))
        if len(rows) < 2 or not RULE.fullmatch(rows[1].strip()):
            self.at = start
            raise self.fault("a table without a rule below its head")
        cells = [[cell.strip() for cell in row.strip()[1:-1].split("|")] for row in rows]
        for number, row in enumerate(cells):
            if len(row) != len(cells[0]):
                self.at = start + number
                raise self.fault(f"{len(row)} cells under a head of {len(cells[0])}")
        head, _, *body = cells
        self.out.append("<table><thead>" + self.row(head, "th") + "</thead><tbody>")
        self.out += [self.row(row, "td") for row in body]
        self.out.append("</tbody></table>")

    def row(self, cells, kind):
        return "<tr>" + "".join(f"<{kind}>{self.shown(it)}</{kind}>" for it in cells) + "</tr>"

    def list(self):
        kind = "ul" if self.line().startswith("- ") else "ol"
        items = []
        while self.line() is not None and (found := ITEM.match(self.line())):
            self.at += 1
            more = self.taken(lambda line: line.startswith("  ") and line.strip())
            if any(ITEM.match(line.strip()) for line in more):
                raise self.fault("a list in a list")
            items.append(" ".join([found[2], *(line.strip() for line in more)]))
        self.out.append(f"<{kind}>")
        self.out += [f"<li>{self.shown(item)}</li>" for item in items]
        self.out.append(f"</{kind}>")

    def paragraph(self):
        def belongs(line):
            return line and not line.startswith((FENCE, "|", "#"))

        text = " ".join(self.taken(belongs))
        if re.match(r"[>=<]|---|\* |\+ ", text):
            raise self.fault(f"not known: {text[:40]!r}")
        self.out.append(f"<p>{self.shown(text)}</p>")

    def made(self):
        """Makes the page of all lines."""
        while (line := self.line()) is not None:
            if not line:
                self.at += 1
            elif line == FENCE:
                self.fenced()
            elif line.startswith("    "):
                self.indented()
            elif found := HEADING.fullmatch(line):
                self.heading(*found.groups())
            elif line.startswith("|"):
                self.table()
            elif ITEM.match(line):
                self.list()
            else:
                self.paragraph()
