"""The forms of a page, as a browser without scripts reads and sends them."""

import html.parser


class Form:
    """A form of a page, with what it would send: its action, the values of its fields, and the name
    and the value of each of its buttons that has a name, of which the one that is pressed is sent.
    """

    def __init__(self, action):
        self.action, self.fields, self.buttons = action, {}, []


class Forms(html.parser.HTMLParser):
    """The forms of a page, with the values that its fields have when the page is shown."""

    def __init__(self, text):
        super().__init__()
        self.found, self.inside = [], False
        self.select, self.option, self.area, self.chosen = None, None, None, False
        self.feed(text)

    def handle_starttag(self, tag, attributes):
        words = dict(attributes)
        if tag == "form":
            self.found.append(Form(words["action"]))
            self.inside = True
        if not self.inside or "name" not in words and tag != "option":
            return
        fields = self.found[-1].fields
        if tag == "input" and words.get("type") not in ("checkbox", "file", "submit"):
            fields[words["name"]] = words.get("value", "")
        elif tag == "button":
            self.found[-1].buttons.append((words["name"], words.get("value", "")))
        elif tag == "textarea":
            self.area = words["name"]
            fields[self.area] = ""
        elif tag == "select":
            self.select = words["name"]
            fields[self.select] = None
        elif tag == "option" and self.select:
            self.option = words.get("value")
            self.chosen = "selected" in words or fields[self.select] is None
            if self.option is not None and self.chosen:
                fields[self.select] = self.option

    def handle_data(self, text):
        if self.area:
            # the first line end after the tag is none of the text
            self.found[-1].fields[self.area] += text
        elif self.select and self.option is None and self.chosen and text.strip():
            self.found[-1].fields[self.select] = text.strip()

    def handle_endtag(self, tag):
        if tag == "textarea":
            fields = self.found[-1].fields
            fields[self.area] = fields[self.area].removeprefix("\n")
            self.area = None
        elif tag == "select":
            self.select = self.option = None
        elif tag == "option":
            self.option, self.chosen = None, False
        elif tag == "form":
            self.inside = False


def form_in(text, action, **wanted):
    """The first form of a page for an action, with these fields. None where there is none."""
    for form in Forms(text).found:
        if form.action == action and wanted.items() <= form.fields.items():
            return form
    return None
