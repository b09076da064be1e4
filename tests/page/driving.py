"""The page in a browser: gives it files and texts, and asks what it says."""
import base64
import json
import os
from typing import Any, Dict, Sequence

from tests.tools.browser import Browser

SHOWN = "!($('result').hidden && $('message').hidden)"
IDLE = f"$('busy').hidden && {SHOWN}"
HIDE = "$('result').hidden = $('message').hidden = true; 0"
# the bytes of a result of the last run
BYTES = """(async () => {
    const file = new Blob([kept[%s]]), reader = new FileReader();
    await new Promise(done => { reader.onload = done; reader.readAsDataURL(file); });
    return reader.result.slice(reader.result.indexOf(",") + 1);
})()"""
# a place within an element, near its corner
PLACE = """(element => {
    element.scrollIntoView();
    const box = element.getBoundingClientRect();
    return [box.x + 9, box.y + 9];
})(document.querySelector(%s))"""
# pastes a file into a field
PASTE = """{
    const data = new DataTransfer(), how = { bubbles: true, cancelable: true, clipboardData: data };
    data.items.add(new File([%s], %s));
    $(%s).dispatchEvent(new ClipboardEvent("paste", how));
} 0"""
# pastes a text; what the page leaves to the browser is done here
PASTE_TEXT = """{
    const data = new DataTransfer(), how = { bubbles: true, cancelable: true, clipboardData: data };
    data.setData("text/plain", %s);
    const place = $(%s) ?? document.body;
    place.focus();
    if (place.dispatchEvent(new ClipboardEvent("paste", how)) && place !== document.body) {
        place.value = data.getData("text/plain");
    }
} 0"""
# what the viewer reads, with all that it makes when it is asked for
DATA = "JSON.parse(JSON.stringify(shownData))"


class Tab(Browser):
    """A tab with the page."""

    page = ""

    def fresh(self) -> None:
        """Opens the page anew, without the example that it shows at first."""
        self.open("file://" + self.page)
        self.wait("document.body.classList.contains('welcome') && $('busy').hidden"
                  " && !$('result').hidden || !$('message').hidden")
        self.ask("$('message').hidden && hide(); $('levels').value = '';"
                 " document.body.classList.remove('welcome'); 0")

    def reload(self) -> None:
        """Loads the page once more, as a user does."""
        self.loaded = False
        self.call("Page.reload")
        while not self.loaded:
            self._message()

    def wait(self, expression: str, seconds: float = 30) -> None:
        """Waits until an expression holds."""
        if not self.until(expression, seconds):
            raise TimeoutError(expression)

    def press_button(self, name: str) -> None:
        """Clicks a button of the form, which is folded once there is a result."""
        self.ask("$('form').open = true; 0")
        self.click(f"#{name}")

    def give(self, *names: str) -> str:
        """Gives the page files, and waits for the result. Returns the page's message, or ''."""
        self.ask(HIDE)
        self.choose(*names)
        self.wait(IDLE, 100)
        return self.message()

    def choose(self, *names: str) -> None:
        """Gives the page files."""
        found = self.call("Runtime.evaluate", expression="$('files')")["result"]["objectId"]
        self.call("DOM.setFileInputFiles", objectId=found,
                  files=[os.path.abspath(it) for it in names])

    def drop(self, selector: str, *names: str) -> None:
        """Drops files at the corner of an element, and waits for the result."""
        self.drag(selector, {"items": [], "files": [os.path.abspath(it) for it in names]})
        self.wait(IDLE)

    def drag(self, selector: str, data: Dict[str, Any]) -> None:
        """Drops what a user may drag at the corner of an element."""
        x, y = self.ask(PLACE % json.dumps(selector))
        for kind in ("dragEnter", "dragOver", "drop"):
            self.call("Input.dispatchDragEvent", type=kind, x=x, y=y,
                      data={**data, "dragOperationsMask": 1})

    def paste(self, field: str, text: str) -> str:
        """Pastes a text into a field, and waits for the result. Returns the page's message."""
        self.ask(f"{HIDE}; $('form').open = true; $('{field}').select(); 0")
        self.call("Input.insertText", text=text)
        self.ask(f"$('{field}').dispatchEvent("
                 "new ClipboardEvent('paste', { bubbles: true })); 0")
        self.wait(IDLE)
        return self.message()

    def paste_text(self, place: str, text: str) -> None:
        """Pastes a text as a user does whose focus is in a field or outside, and waits for the
        result."""
        self.ask(HIDE)
        self.ask(PASTE_TEXT % (json.dumps(text), json.dumps(place)))
        self.wait(IDLE)

    def click_in_view(self, selector: str) -> None:
        """Clicks on an element in the frame."""
        self.ask(f"$('view').querySelector({json.dumps(selector)}).click(); 0")

    def paste_file(self, field: str, name: str, text: str) -> bool:
        """Pastes a file into a field, and waits for the result. Returns whether its name is shown
        in place of the field."""
        self.ask(f"{HIDE}; {PASTE % tuple(map(json.dumps, (text, name, field)))}")
        self.wait(IDLE)
        return self.text(f"{field}-file").startswith(f"{name}, ")

    def opened(self, number: int = 0) -> None:
        """Opens a level, if one is named, and waits until it is drawn, or isn't."""
        if number:
            self.ask(f"viewer.go({number})")
        self.wait("$('view').querySelector('.level:not([hidden]) :is(.two, .misjudged)')")

    def message(self) -> str:
        """The page's message, or ''."""
        return str(self.ask("$('message').hidden ? '' : $('message').textContent"))

    def told(self) -> Sequence[str]:
        """What the page says was read with a change, or not at all."""
        return list(self.ask("[...$('told').children].map(it => it.textContent)"))

    def text(self, name: str) -> str:
        """The text of an element of the page."""
        return str(self.ask(f"$('{name}').textContent"))

    def saved(self, what: str) -> bytes:
        """The bytes of a result of the last run: its report, answers or page."""
        return base64.b64decode(self.ask(BYTES % json.dumps(what)))

    def seen(self, selector: str) -> Sequence[str]:
        """The texts of the elements in the frame that fit a selector."""
        return list(self.ask("[...$('view').querySelectorAll("
                             f"{json.dumps(selector)})].map(e => e.textContent)"))
