"""The queue of scores, with a program whose answers are ready."""
import os
import threading
import time

import pytest
from event_companions.core.handing_in import Answer
from event_companions.core.program import Declined, NoAnswer, Refused, Stamp
from event_companions.core.score import Score
from event_companions.core.turn import Turn
from event_companions.phones import score_queue as module
from event_companions.phones.score_queue import NotNow, ScoreQueue


class Program:
    """Answers each result with the next thing of a list."""

    program, file = "none", "none"

    def __init__(self, *answers):
        self.answers, self.asked, self.turn = list(answers), [], Turn()

    def ask(self, *words):
        self.asked.append(words)
        answer = self.answers.pop(0) if self.answers else f"ok {len(self.asked)}\n"
        if isinstance(answer, Exception):
            raise answer
        return answer


@pytest.fixture
def kept(tmp_path, monkeypatch):
    monkeypatch.setattr(module, "SECONDS_BETWEEN_TRIES", 0.01)
    queue = ScoreQueue("none", f"{tmp_path}/e.event")
    queue.ends_with_us = []
    return queue


def test_a_score_is_a_command_line(kept):
    kept.source = Program()
    assert kept.report(3, 17, Score(2, 1)) == Answer(serial=1)
    assert kept.source.asked == [("result", "3", "17", "2", "1", "0")]


@pytest.mark.parametrize(
    "fault",
    [
        Refused(24, "Memory"),
        Refused(25, "Store"),
        Refused(26, "NeedsReopen"),
        NoAnswer(),
        Declined("x"),
        "",
        "ok x\n",
    ],
)
def test_what_has_no_answer_is_sent_again(kept, fault):
    kept.source = Program(fault, fault, "ok 9\n")
    assert kept.report(1, 1, Score(2, 0)) == Answer(serial=9)
    assert len(kept.source.asked) == 3


@pytest.mark.parametrize("number", [6, 12, 13, 14, 16, 23])
def test_what_is_refused_by_the_rules_is_answered(kept, number):
    kept.source = Program(Refused(number, "x"))
    assert kept.report(1, 1, Score(2, 0)) == Answer(refused=number)


class Tables(Program):
    """A program over a file, whose one round it lists."""

    def __init__(self, file, *answers):
        super().__init__(*answers)
        self.file, self.first, self.serial = file, 1, 0
        self.understood = lambda reader, text: reader(text)

    def stamp(self):
        return stamp_of(self.file)

    def ask(self, *words):
        if words == ("export", "results"):
            self.asked.append(words)
            return f"round,table,a,b,x,y,d\n1,1,{self.first},2,,,\n1,2,3,4,,,\n"
        self.change()
        self.serial += 1
        return super().ask(*words) if self.answers else (self.asked.append(words), f"ok {self.serial}\n")[1]

    def change(self):
        """The file is another one, in the same place and with the same inode."""
        with open(self.file, "a") as written:
            written.write("x")

    @property
    def readings(self):
        return self.asked.count(("export", "results"))


def stamp_of(file):
    status = os.stat(file)
    # each change is told, also if the clock of the disk is coarse
    return Stamp(status.st_ino, status.st_size, 10 * status.st_size + 1, 0)


@pytest.fixture
def tables(kept, tmp_path):
    file = tmp_path / "e.event"
    file.write_text("")
    kept.source = Tables(str(file))
    kept.seats.source = kept.source
    return kept


def test_nothing_is_handed_in_where_others_sit(tables):
    """After a copy was put in place others may sit at the table, and the phone's code was looked at before."""
    assert tables.report(1, 1, Score(2, 0), (1, 2)).is_taken
    tables.source.first = 5
    tables.source.change()
    with pytest.raises(NotNow):
        tables.report(1, 1, Score(2, 0), (1, 2))
    assert [words[0] for words in tables.source.asked] == ["export", "result", "export"]
    # the other table goes on, and so does this one for those who sit there
    assert tables.report(1, 2, Score(2, 0), (3, 4)).is_taken
    assert tables.report(1, 1, Score(2, 0), (5, 2)).is_taken


def test_seats_are_read_again_after_what_others_did_alone(tables):
    for _ in range(2):
        tables.report(1, 1, Score(2, 0), (1, 2))
    # from the second one on it is known that nobody else came between
    assert tables.source.readings == 2
    for _ in range(5):
        tables.report(1, 1, Score(2, 0), (1, 2))
    assert tables.source.readings == 2
    tables.source.change()
    tables.source.serial += 1
    for _ in range(3):
        tables.report(1, 1, Score(2, 0), (1, 2))
    assert tables.source.readings == 4


def test_seats_that_cannot_be_read_are_asked_again(tables):
    ask, failed = tables.source.ask, []

    def fails_once(*words):
        if words[0] == "export" and not failed:
            failed.append(words)
            raise Refused(25, "Store")
        return ask(*words)

    tables.source.ask = fails_once
    assert tables.report(1, 1, Score(2, 0), (1, 2)).is_taken and len(failed) == 1


class Held(Program):
    """A program whose file another one holds until it is free."""

    def __init__(self):
        super().__init__()
        self.is_free = False

    def ask(self, *words):
        if not self.is_free:
            self.asked.append("held")
            raise Refused(25, "Store")
        return super().ask(*words)


@pytest.mark.parametrize(
    "phone, stored", [("10.0.0.7 1", "0-2-0"), ("10.0.0.7 2", "2-0-0"), ("10.0.0.8 1", "2-0-0")]
)
def test_a_phone_replaces_what_it_said_while_that_still_waits(kept, within_seconds, phone, stored):
    """And nobody else does: then the first one goes first, as ever."""
    kept.source, told = Held(), {}

    def hand_in(score, phone):
        try:
            told[score] = kept.report(1, 1, Score.parse(score), (1, 2), phone)
        except NotNow:
            told[score] = None

    kept.seats.at = lambda *_: (1, 2)
    threads = [
        threading.Thread(target=hand_in, args=it) for it in (("2-0-0", "10.0.0.7 1"), ("0-2-0", phone))
    ]
    threads[0].start()
    assert within_seconds(lambda: kept.source.asked)
    threads[1].start()
    # the first one has its answer, or both wait
    assert within_seconds(lambda: "2-0-0" in told or len(kept.waiting) == 2)
    assert within_seconds(lambda: ("2-0-0" in told) == (stored == "0-2-0"))
    kept.source.is_free = True
    for thread in threads:
        thread.join(60)
    sent = ["-".join(words[3:]) for words in kept.source.asked if words != "held"]
    assert (sent[0], sent.count("2-0-0")) == (stored, int(stored == "2-0-0"))
    assert told["0-2-0"].is_taken and (told["2-0-0"] is None) == (stored == "0-2-0")
    assert kept.waiting == []


def test_the_same_score_again_replaces_nothing(kept):
    kept.source = Program()
    assert [kept.report(1, 1, Score(2, 0), None, "a").is_taken for _ in range(2)] == [True, True]


def test_nobody_waits_for_ever(kept, monkeypatch):
    monkeypatch.setattr(module, "SECONDS_FOR_A_SCORE", 0.2)
    kept.source = Program(*[Refused(25, "Store")] * 1000)
    begun = time.monotonic()
    with pytest.raises(NotNow):
        kept.report(1, 1, Score(2, 0))
    assert time.monotonic() - begun < 10
    # the next one is taken all the same
    monkeypatch.setattr(module, "SECONDS_FOR_A_SCORE", 15.0)
    kept.source = Program()
    assert kept.report(1, 2, Score(2, 0)).is_taken


def test_so_many_wait_and_no_more(kept, monkeypatch):
    monkeypatch.setattr(module, "MOST_AT_ONCE", 1)
    monkeypatch.setattr(module, "SECONDS_FOR_A_SCORE", 60.0)
    is_free, kept.source = threading.Event(), Program()
    ask = kept.source.ask
    kept.source.ask = lambda *words: (is_free.wait(60), ask(*words))[1]
    told = []

    def hand_in(table):
        try:
            told.append(kept.report(1, table, Score(2, 0)).is_taken)
        except NotNow:
            told.append(False)

    threads = [threading.Thread(target=hand_in, args=(table,)) for table in range(module.MOST_WAITING + 20)]
    for thread in threads:
        thread.start()
    until = time.monotonic() + 60
    while len(told) < 10 and time.monotonic() < until:
        time.sleep(0.01)
    assert set(told) == {False}
    is_free.set()
    for thread in threads:
        thread.join(60)
    assert told.count(True) >= module.MOST_WAITING


def test_they_go_in_the_order_in_which_they_come(kept):
    is_free, kept.source = threading.Event(), Program()
    ask = kept.source.ask
    kept.source.ask = lambda *words: (is_free.wait(60), ask(*words))[1]
    threads = []
    for table in range(1, 9):
        threads.append(threading.Thread(target=kept.report, args=(1, table, Score(2, 0))))
        threads[-1].start()
        # it stands in line before the next one comes
        until = time.monotonic() + 60
        while kept.line.unfinished_tasks < table and time.monotonic() < until:
            time.sleep(0.001)
    is_free.set()
    for thread in threads:
        thread.join(60)
    assert [int(words[2]) for words in kept.source.asked] == list(range(1, 9))


def test_a_fault_of_its_own_does_not_end_it(kept, capsys):
    kept.source = None
    with pytest.raises(NotNow):
        kept.report(1, 1, Score(2, 0))
    assert "event-phones: AttributeError" in capsys.readouterr().err
    kept.source = Program()
    assert kept.report(1, 1, Score(2, 0)).is_taken
