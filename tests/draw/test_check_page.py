"""The page for a player's own phone (docs/check.html), a third reading of the rules: its JavaScript by node beside the plain reading, and the page in a
headless browser, 360 pixels wide and offline.
"""
import base64
import json
import subprocess
import sys
import tempfile

import pytest

from second_reading import plain_draw
from second_reading.plain_event import printed
from tests.support.drawn_evenings import begun, changes, drawn_evening, text_bytes
from tests.support.random_evenings import HOSTILE
from tests.support.sheets import BROWSERS
from tests.support.taps import Browser, Phone
from tests.support.waiting import PATIENCE, comes
from tools import TOP

CASES = {"case": (6, 300)}
CHANGES = 10_000
NODE = pytest.mark.needs("the page's JavaScript", command="node", package="nodejs")
BROWSER = pytest.mark.needs("the page in a browser", command=BROWSERS, package="a browser (chromium)")
ASK = """
const core = require(process.argv[1]);
const asked = JSON.parse(require("fs").readFileSync(0));
const bytes = (text) => new Uint8Array(Buffer.from(text, "base64"));
const answers = asked.map(({ texts, saw, who }) => {
  const reports = core.check(texts.map(bytes), saw || "");
  const last = reports[reports.length - 1].text;
  return {
    said: reports.map((it) => it.said),
    working: last && who ? core.working(last, who) : null,
    standings: last ? core.standings(last.players, last.rounds).map((it) => (
      [it.rank, it.player.number, it.points, it.opponentsMatchWins, it.gameWins, it.opponentsGameWins].map(
        (cell) => (typeof cell === "object" ? core.printed(cell) : String(cell))
      )
    )) : null,
  };
});
process.stdout.write(JSON.stringify(answers));
"""


def asked(*cases):
    """What the page's JavaScript says of these texts: a list for each case of its texts, the number that was seen, and a player."""
    words = [dict(zip(("texts", "saw", "who"), case)) for case in cases]
    for it in words:
        it["texts"] = [base64.b64encode(text).decode() for text in it["texts"]]
    ran = subprocess.run(
        ["node", "-e", ASK, f"{TOP}/tools/check_page/core.js"],
        input=json.dumps(words),
        capture_output=True,
        text=True,
        timeout=PATIENCE,
    )
    assert ran.stderr == ""
    return json.loads(ran.stdout)


def kinds_of(said):
    return [[kind for kind, _ in it] for it in said]


def is_wrong(said):
    return any("WRONG" in it for it in kinds_of(said))


@pytest.fixture
def seven():
    return text_bytes(begun([f"P{number}" for number in range(1, 8)]), 1, 1, "0" * 64, "3 8 11 17")


# ---- the JavaScript, by node


@NODE
def test_keys_and_the_text_of_the_documents(seven):
    assert plain_draw.sha256(seven) == "5d014256fdbc02910c032a167689ab331067849aef87354364eb3751b54dde66"
    (answer,) = asked(([seven],))
    assert kinds_of(answer["said"]) == [["right", "right", "right", "right", "is that so?"]]


@NODE
def test_the_number_that_was_seen(seven):
    answers = asked(*(([seven], saw) for saw in ("17 3 8 11", "3,8, 11 17", "3 8 11 18", "", " ")))
    numbers = [it["said"][0][4] for it in answers]
    assert [kind for kind, _ in numbers] == ["right", "right", "WRONG", "is that so?", "is that so?"]
    assert numbers[2][1] == "You saw 3 8 11 18, and its number is 3 8 11 17."
    assert "It was not compared with a number that you saw." in numbers[3][1]


@NODE
def test_what_is_no_text(seven):
    wrong = [
        b"",
        b"\n",
        b"hello",
        b"\xef\xbb\xbf" + seven,
        seven.replace(b"\n", b"\r\n"),
        seven[:-1],
        seven + b"end\n",
        seven.replace(b"P7", b"\xff7"),
        seven.upper(),
    ]
    answers = asked(*(([it],) for it in wrong))
    assert [it["said"][0][0][0] for it in answers] == ["WRONG"] * len(wrong)
    assert all(it["said"][0][0][1].startswith("No text of a round: ") for it in answers)
    assert asked(([],))[0]["said"] == [[["WRONG", "No text of a round: nothing is there."]]]


@NODE
def test_names_that_look_like_something_else():
    names = "Bo\u20297,Zed", "results.csv", "Cy\u0085X", '"q"', "drawn.csv", "end", "key 00", *HOSTILE
    text = text_bytes(begun(names), 1, 1, "0" * 64, "3 8 11 17")
    plain = plain_draw.report([plain_draw.Text(text)], True)
    assert (
        [kind for kind, _ in plain[0][1]]
        == kinds_of(asked(([text],))[0]["said"])[0]
        == ["right"] * 4 + ["is that so?"]
    )


@NODE
def test_tables_and_standings_are_those_of_the_plain_reading(dice, case):
    """Of a random evening with late players, drops and corrections: each text, and the standings before its round."""
    texts = drawn_evening(dice, dice.randint(2, 40), dice.randint(1, 6))
    answers = asked(*(([text], "", 1) for text, _ in texts))
    assert [it for it in answers if is_wrong(it["said"])] == []
    assert [it["standings"] for it in answers] == [
        [line.split()[:6] for line in event.standings()[1:]] for _, event in texts
    ]
    assert not is_wrong(asked(([text for text, _ in texts],))[0]["said"])


@NODE
def test_ten_thousand_single_changes_are_found(dice, seven):
    """Each by its own reader, or by the text that follows on it."""
    event = begun([f"P{number}" for number in range(1, 8)])
    following = text_bytes(event, 1, 2, plain_draw.sha256(seven), "3 8 11 17")
    said = [
        it["said"]
        for it in asked(*(([changed, following],) for changed in changes(dice, seven, CHANGES + 600)))
    ]
    assert len(said) >= CHANGES
    assert all(map(is_wrong, said))


@NODE
def test_the_working_of_a_player(dice):
    texts = drawn_evening(dice, 9, 4)
    text, event = texts[-1]
    (answer,) = asked(([text], "", 1))
    lines, merits = answer["working"], event.merits()
    assert lines[0].startswith(f"{event.names[0]} (1): rank ")
    assert lines[-2].endswith(
        f"{merits[1][1].numerator}/{merits[1][1].denominator} = {printed(merits[1][1])}"
    )
    assert lines[-1].endswith(f"= {printed(merits[1][3])}")
    assert len(lines) == 4 + len(list(event.played(1)))


# ---- the page, in a browser


@pytest.fixture(scope="module")
def opened(browser):
    with tempfile.TemporaryDirectory() as room, Browser(browser, room) as it:
        yield it


@pytest.fixture
def page(opened):
    """The page, from a file, without a network."""
    phone = Phone(opened)
    phone.send("Emulation.setScriptExecutionDisabled", value=False)
    phone.send(
        "Network.emulateNetworkConditions", offline=True, latency=0, downloadThroughput=0, uploadThroughput=0
    )
    phone.go(f"file://{TOP}/docs/check.html")
    return phone


def typed(phone, **fields):
    """Fills fields, presses the button, and gives what is shown then, line by line. It is shown all at once."""
    for name, text in fields.items():
        phone.value(f"document.getElementById({json.dumps(name)}).value = {json.dumps(text)}")
    phone.value("document.getElementById('out').replaceChildren()")
    phone.tap("button", leads_on=False)
    shown = lambda: phone.value("document.getElementById('out').innerText")
    assert comes(shown), "the page says something"
    return shown()


@BROWSER
def test_the_page_in_a_browser(page, dice):
    texts = drawn_evening(dice, 9, 3)
    whole = b"".join(text for text, _ in texts).decode()
    number = plain_draw.Text(texts[-1][0]).number
    said = typed(page, texts=whole, saw=number, me="2")
    assert "WRONG" not in said and said.count("follow") >= 3
    assert f"Its number is the one that you saw: {number}." in said
    assert "Before round" in said and "OMW, the average of the opponents' MWP" in said
    assert page.value("document.documentElement.scrollWidth") <= 360
    assert page.value("getComputedStyle(document.querySelector('.right b')).color") == "rgb(5, 97, 14)"
    # a number that was not compared is never green
    typed(page, texts=whole, saw="", me="")
    assert page.value("getComputedStyle(document.querySelector('.ask b')).color") == "rgb(17, 17, 17)"
    assert "WRONG You saw 1" in typed(page, saw="1").replace("\n", " ")


@BROWSER
def test_what_is_none_is_never_silence(page):
    for text in ("", "hello", "event_reporter draw 2\n"):
        assert "WRONG No text of a round" in typed(page, texts=text, saw="", me="")


@BROWSER
def test_a_name_is_a_text_and_no_markup(page):
    event = begun(("<script>document.title='x'</script>", "<img src=x onerror=alert(1)>", "Bo", "Cy"))
    text = text_bytes(event, 1, 1, "0" * 64, "3 8 11 17").decode()
    assert "<script>document.title='x'</script> (1)" in typed(page, texts=text, me="1")
    assert page.value("document.title") == "Check a round"


def test_it_sends_nothing_and_is_its_sources():
    ran = subprocess.run(
        [sys.executable, "-B", "-m", "tools.check_page.make"], cwd=TOP, capture_output=True, text=True
    )
    assert (ran.returncode, ran.stderr) == (0, "")
    with open(f"{TOP}/docs/check.html", encoding="utf-8") as it:
        page = it.read()
    assert "default-src 'none'" in page
    assert [
        word
        for word in (
            "fetch(",
            "XMLHttpRequest",
            "WebSocket",
            "http://",
            "https://",
            "import(",
            "localStorage",
            "innerHTML",
        )
        if word in page
    ] == []
