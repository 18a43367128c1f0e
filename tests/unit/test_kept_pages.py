"""Pages that are made once for all: by whom, and how often."""
import gzip
import threading

from event_companions.phones.kept_pages import KeptPages, Shown


class Lists:
    """Pages by a clock that is handed in. What is made is counted."""

    def __init__(self):
        self.seconds, self.version, self.pairing, self.made = 0.0, 1, 1, 0
        self.pages = KeptPages(lambda: self.seconds)
        self.meanwhile = lambda: None

    def shown(self):
        return Shown(self.pairing, self.version)

    def make(self):
        self.made += 1
        self.meanwhile()
        return f"page {self.made}".encode()

    def ask(self, name="/board"):
        return self.pages.page(name, self.shown, self.make).body.decode()


def test_one_makes_a_page_and_the_others_get_the_last_one():
    lists, is_making, may_end = Lists(), threading.Event(), threading.Event()
    assert lists.ask() == "page 1"
    lists.version, lists.seconds = 2, 100.0
    lists.meanwhile = lambda: (is_making.set(), may_end.wait(60))
    maker = threading.Thread(target=lists.ask)
    maker.start()
    assert is_making.wait(60)
    assert [lists.ask() for _ in range(100)] == ["page 1"] * 100
    may_end.set()
    maker.join(60)
    assert (lists.ask(), lists.made) == ("page 2", 2)


def test_all_wait_for_the_first_page_and_one_makes_it():
    lists, may_end, got = Lists(), threading.Event(), []
    lists.meanwhile = lambda: may_end.wait(60)
    threads = [threading.Thread(target=lambda: got.append(lists.ask())) for _ in range(25)]
    for thread in threads:
        thread.start()
    may_end.set()
    for thread in threads:
        thread.join(60)
    assert (got, lists.made) == (["page 1"] * 25, 1)


def test_a_page_is_made_at_most_every_five_seconds():
    lists = Lists()
    lists.ask()
    for lists.version, lists.seconds, due in (
        (2, 4.9, "page 1"),
        (3, 5.0, "page 2"),
        (4, 9.9, "page 2"),
        (4, 10.0, "page 3"),
    ):
        assert lists.ask() == due
    # one that shows what it has to is made no more, and one of another pairing at once
    lists.seconds = 1000.0
    assert lists.ask() == "page 3"
    lists.pairing, lists.seconds = 2, 1000.1
    assert [lists.ask(), lists.ask()] == ["page 4"] * 2


def test_what_failed_is_made_by_the_next_one():
    lists = Lists()
    lists.meanwhile = lambda: 1 / 0
    for _ in range(2):
        try:
            lists.ask()
        except ZeroDivisionError:
            pass
    lists.meanwhile = lambda: None
    assert (lists.ask(), lists.made) == ("page 3", 3)


def test_a_page_is_compressed_once():
    lists = Lists()
    kept = lists.pages.page("/board", lists.shown, lists.make)
    assert gzip.decompress(kept.gzipped) == kept.body
    assert lists.pages.page("/board", lists.shown, lists.make) is kept
