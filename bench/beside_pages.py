"""What the pages beside the list say, as checks/beside compares it with the second program."""

import html.parser


class Text(html.parser.HTMLParser):
    """The elements of a page in their order: tag, class, the text in it, and the attributes."""

    def __init__(self, page):
        super().__init__(convert_charrefs=True)
        self.found, self.open = [], []
        self.feed(page.decode())

    def handle_starttag(self, tag, attributes):
        one = [tag, dict(attributes).get("class"), "", dict(attributes)]
        self.found.append(one)
        if tag not in ("meta", "link", "br", "input"):
            self.open.append(one)

    def handle_data(self, text):
        for one in self.open:
            one[2] += text

    def handle_endtag(self, tag):
        while self.open and self.open.pop()[0] != tag:
            pass


def rows_of(page):
    """The rows of the table of a page, without its head."""
    rows = []
    for tag, _, text, _ in Text(page).found:
        if tag == "tr":
            rows.append([])
        elif tag in ("th", "td"):
            rows[-1].append(text)
    return rows[1:]


def lines_of(page, section, *attributes):
    """The lines of the tables in the section of a class: these attributes of a line, and its cells,
    each with its class where it has one."""
    lines, inside = [], False
    for tag, kind, text, of in Text(page).found:
        if tag == "section":
            inside = section in (kind or "").split()
        elif inside and tag == "tr":
            lines.append([of.get(name, "") for name in attributes])
        elif inside and (tag == "td" or tag == "th" and of.get("scope") == "row"):
            lines[-1].append((text, kind) if kind else text)
    return [line for line in lines if len(line) > len(attributes)]


def tables_of(page):
    """The tables of a schedule: the time zone, the room, the caption, and the lines, each with the
    path that its name leads to, if it does."""
    tables = []
    for tag, kind, text, of in Text(page).found:
        if tag == "table":
            tables.append([of.get("data-zone"), of.get("data-room"), None, []])
        elif tag == "caption":
            tables[-1][2] = text
        elif tag == "tr" and "data-what" in of:
            tables[-1][3].append([kind == "group", of["data-start"], of["data-end"],
                                  of["data-what"]])
        elif tag == "time":
            tables[-1][3][-1] += [of.get("datetime"), text]
        elif tag == "th" and of.get("scope") == "row":
            tables[-1][3][-1].append(text)
        elif tag == "a" and tables:
            tables[-1][3][-1].append(of["href"])
    return tables


def cards_of(page):
    """The cards of a page: the texts of its lines, and of its rows the class, the heading and how
    many fields they have."""
    cards = []
    for tag, kind, text, _ in Text(page).found:
        if tag == "section" and kind != "scorecard":
            break
        if tag == "section":
            cards.append({"rows": []})
        elif tag == "p":
            cards[-1][kind] = text
        elif tag in ("b", "bdi", "span") and cards:
            cards[-1].setdefault(tag, text)
        elif tag == "tr":
            cards[-1]["rows"].append([kind, None, 0])
        elif tag == "th" and len(cards[-1]["rows"]) > 1:
            cards[-1]["rows"][-1][1] = text
        elif tag == "td":
            cards[-1]["rows"][-1][2] += 1
    return cards


def shown_of(page):
    """Whose the cards of a page are: number, name, WCA ID, and where they sit."""
    return [(card["b"], card["bdi"], card["span"], card["group"]) for card in cards_of(page)]


def duties_of(page):
    """Who helps in each group, at the end of a page of cards: heading, and lists of names."""
    made = []
    for tag, kind, text, _ in Text(page).found:
        if tag == "section" and kind == "duties":
            made.append([None, []])
        elif tag == "h2":
            made[-1][0] = text
        elif tag == "h3":
            made[-1][1].append([])
        elif tag == "li":
            made[-1][1][-1].append(text)
    return made


def labels_of(page):
    """The labels of a page: number, name, and what is below."""
    labels = []
    for tag, kind, text, _ in Text(page).found:
        if tag == "p" and kind == "label":
            labels.append(())
        elif tag in ("b", "bdi", "span") and labels:
            labels[-1] += (text,)
    return labels


def texts_of(page, wanted, of_class=None):
    """The texts of the elements of a tag, of a class alone where one is given."""
    return [text for tag, kind, text, _ in Text(page).found
            if tag == wanted and of_class in (None, kind)]
