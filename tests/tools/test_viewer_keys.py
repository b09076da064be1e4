"""The page in a real browser, by keyboard and by ear."""
from typing import Any, List

from tests.tools.helping import ONE
from tests.tools.viewing import CARD, FOCUS, HASH, SAID, Page, shared

IN_VIEW = """(element => {
    const box = element.getBoundingClientRect(), header = document.querySelector("header");
    return !element.dataset.level
        || box.top >= header.getBoundingClientRect().bottom && box.bottom <= innerHeight;
})(document.activeElement)"""


class Keys(Page):
    """Everything by keyboard."""

    def many(self, count: int) -> None:
        self.page("\n".join(f"Level {n}\n{ONE}" for n in range(1, count + 1)))
        self.open()

    def level(self) -> Any:
        return shared.ask(CARD)

    def test_tab_goes_through_all_levels(self) -> None:
        shared.size(1000, 700)
        self.many(100)
        shared.press("Tab")
        while not self.level():
            shared.press("Tab")
        seen = []
        for _ in range(101):
            seen.append(self.level())
            self.assertTrue(shared.ask(IN_VIEW), f"card {seen[-1]} is out of view")
            shared.press("Tab")
        self.assertEqual(seen, [str(n) for n in range(1, 101)] + [""])

    def test_tab_goes_back(self) -> None:
        shared.size(1000, 700)
        self.many(100)
        shared.press("End", *["Shift+Tab"] * 60)
        self.assertEqual(self.level(), "40")
        self.assertTrue(shared.ask(IN_VIEW))

    def test_ten_thousand_levels(self) -> None:
        self.many(10000)
        self.assertTrue(10 < len(self.all(".card")) < 200)
        shared.press("End")
        self.assertEqual(self.level(), "10000")
        shared.press("ArrowLeft", "Shift+Tab")
        self.assertEqual(self.level(), "9998")
        self.assertTrue(10 < len(self.all(".card")) < 200)
        shared.press("Home")
        self.assertEqual(self.level(), "1")

    def test_arrows_move_the_focus(self) -> None:
        self.many(40)
        tops = shared.ask("[...document.querySelectorAll('.card')]"
                          ".map(card => card.getBoundingClientRect().top)")
        columns = tops.count(tops[0])
        self.assertGreater(columns, 2)
        wanted = 1
        for key, by in (("ArrowRight", 0), ("ArrowRight", 1), ("ArrowDown", columns),
                        ("ArrowLeft", -1), ("ArrowUp", -columns), ("End", 39), ("Home", -39),
                        ("PageDown", min(39, 4 * columns)), ("PageUp", -min(39, 4 * columns))):
            shared.press(key)
            wanted += by
            self.assertEqual(self.level(), str(wanted), key)

    def test_focus_opens_and_comes_back(self) -> None:
        self.many(200)
        shared.press("/", "L", "e", "v", "e", "l", "Enter")
        self.assertEqual(self.level(), "1")
        shared.press(*["ArrowRight"] * 57, "Enter")
        self.holds(HASH, "#58")
        self.holds(FOCUS + ".className", "heading")
        shared.press("n", "n")
        self.holds(HASH, "#60")
        self.holds(FOCUS + ".textContent.split(' ')[1]", "60")
        shared.press("p", "Escape")
        self.holds(CARD, "59")
        shared.press("Tab")
        self.assertEqual(self.level(), "60")

    def test_chips_keep_the_focus(self) -> None:
        self.samples("every")
        self.open()
        shared.ask("document.querySelector('.chip.unsolvable').focus()")
        shared.press("Enter")
        self.assertEqual(shared.ask(f"{FOCUS}.dataset.status"), "unsolvable")
        pressed = ["false", "false", "true", "false", "false"]
        self.assertEqual(self.all(".chip", "aria-pressed"), pressed)
        self.assertEqual(self.all(".card", "data-level"), ["2", "3"])

    def test_focus_moves_on_from_a_level_that_is_hidden(self) -> None:
        self.samples("every")
        self.open()
        shared.press("ArrowRight", "u")
        self.assertEqual(self.level(), "2")
        shared.press("m")
        self.assertEqual(self.level(), "23")
        shared.press("a")
        self.assertEqual(self.level(), "23")
        self.assertEqual(len(self.all(".card")), 23)

    def test_text_fields_keep_their_keys(self) -> None:
        self.walk()
        shared.press("/", "n", "s", "/", "?", "Home", "ArrowRight")
        self.assertEqual(shared.ask(FOCUS + ".value"), "ns/?")
        self.assertEqual(shared.ask("viewer.help.open"), False)
        self.open("#1")
        shared.ask("document.querySelector('details').open = true")
        shared.ask("document.querySelector('textarea').focus()")
        at = self.all(".count b")
        shared.press("n", "End", "Home", "ArrowRight", " ", "PageUp")
        self.assertEqual((self.all(".count b"), shared.ask(HASH)), (at, "#1"))
        self.assertEqual(shared.ask(FOCUS + ".localName"), "textarea")
        shared.press("Escape")
        self.assertEqual((shared.ask(HASH), shared.ask(FOCUS + ".localName")), ("#1", "body"))
        self.open("#2")
        shared.ask("document.querySelector('input[type=number]').focus()")
        shared.press("p", "ArrowUp")
        self.holds(HASH, "#2:2")

    def test_half_a_pattern_is_the_one_before(self) -> None:
        self.walk("#2")
        shared.ask("document.querySelector('input[type=number]').select()")
        shared.call("Input.insertText", text="1.5")
        shared.ask("document.querySelector('[aria-label=\"next pattern\"]').click()")
        errors, shared.errors = shared.errors, []
        self.assertEqual((self.all("input[type=number]", "value"), errors), (["2"], []))

    def test_sliders_keep_their_keys(self) -> None:
        self.walk("#1:0")
        at = self.all(".count b")
        shared.ask("document.querySelector('label input').focus()")
        shared.press("ArrowRight", "ArrowRight")
        self.assertEqual((shared.ask(FOCUS + ".value"), self.all(".count b")), ("8", at))
        shared.press("End")
        self.assertEqual((shared.ask(FOCUS + ".value"), self.all(".count b")), ("60", at))
        shared.ask("document.querySelector('.side > input').focus()")
        shared.press("ArrowRight")
        self.assertEqual(shared.ask(FOCUS + ".value"), "1")
        self.assertEqual(self.all(".count b"), ["1", "0", "0"])
        shared.press("n")
        self.holds(HASH, "#2")

    def test_push_leads_to_its_pattern(self) -> None:
        self.walk("#2")
        shared.ask("document.querySelector('.pushes button').focus()")
        shared.press("Enter")
        self.assertEqual(self.all("input[type=number]", "value"), ["2"])
        self.assertTrue(shared.ask(FOCUS + ".closest('.side') !== null"))

    def test_keys_are_listed(self) -> None:
        self.walk()
        shared.press("?")
        self.assertEqual(shared.ask("viewer.help.open"), True)
        shared.press("Escape", "ArrowRight")
        self.assertEqual(self.level(), "1")
        self.assertEqual(self.all(".help", "ariaLabel"), ["keys"])


class Ear(Page):
    """What a screen reader is offered."""

    def pictures(self, address: str) -> List[str]:
        self.open(address)
        return [name for role, name in shared.spoken() if role == "image"]

    def test_board_has_a_name(self) -> None:
        self.walk()
        self.assertEqual(self.pictures("#1:0"), ["boxes 4,2 4,3; player 2,2; box on a goal 4,3"])
        self.assertEqual(self.pictures("#1:2"), ["boxes 5,2 4,3; player 4,2; box on a goal 4,3"])
        self.assertEqual(self.pictures("#2"), ["boxes 3,2 5,2; player in 1 cell; other box 6,4"])
        self.samples("every")
        self.assertEqual(self.pictures("#5"), ["box 3,2; no player"])

    def test_step_is_said(self) -> None:
        self.walk("#1:0")
        self.assertIn(("status", ""), shared.spoken())
        self.assertEqual(shared.ask(SAID), "")
        shared.press("ArrowRight")
        self.holds(SAID, "Letter 1 of 6: step right. 1 box off the goals. "
                   "Letter 4 is refused: case.")
        shared.press("ArrowRight", "ArrowRight")
        self.holds(SAID, "Letter 3 of 6: step left. 1 box off the goals. "
                   "Letter 4 is refused here: case.")

    def test_pattern_is_said(self) -> None:
        self.walk("#2")
        shared.press("ArrowRight")
        self.holds(SAID, "Pattern 2 of 2. Line 9. 2 boxes, 2 cells where the player may be, "
                   "0 pushes out.")

    def test_levels_found_are_said(self) -> None:
        self.walk()
        self.assertEqual(shared.ask(SAID), "")
        shared.press("/", "c", "o", "r")
        self.assertEqual(shared.ask(SAID), "1 level")

    def test_a_pressed_chip_shows_in_forced_colours(self) -> None:
        self.walk()
        shared.call("Emulation.setEmulatedMedia",
                    features=[{"name": "forced-colors", "value": "active"}])
        colours = shared.ask("[...document.querySelectorAll('.chip')].slice(0, 2)"
                             ".map(it => getComputedStyle(it).backgroundColor)")
        shared.size(1280, 800)
        self.assertNotEqual(*colours)

    def test_accents_are_found_in_both_spellings(self) -> None:
        self.page(f"Cafe\u0301\n{ONE}\nOther\n{ONE}\nCaf\u00e9 2\n{ONE}")
        self.open()
        shared.press("/")
        shared.call("Input.insertText", text="caf\u00e9")
        self.assertEqual(shared.ask(SAID), "2 levels")

    def test_names(self) -> None:
        self.walk()
        names = shared.spoken()
        for pair in (("link", "level 2 unsolvable patterns 2. Corridor"),
                     ("searchbox", "Find levels"), ("group", "Show levels by status"),
                     ("region", "Levels"), ("button", "keys")):
            self.assertIn(pair, names)
        self.open("#1")
        names = shared.spoken()
        for pair in (("link", "next level, 2"), ("slider", "letters played"),
                     ("slider", "letters per second"), ("button", "next letter"),
                     ("heading", "Level 1 Walk line 2 of x.xsb")):
            self.assertIn(pair, names)
