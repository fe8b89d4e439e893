"""Runs through the module: the stored tapes bit for bit, calls cut anywhere, stored runs, bookings and one reply alone."""

import array
import concurrent.futures
import itertools
import random
import struct
import unittest

import more1090
from more1090 import Refused, Stop

from . import stored

DRAW, RECORD = more1090.DRAW_FIELDS.size, more1090.RECORD_FIELDS.size


def run_of(tape):
    return more1090.Run(tape.settings, tape.taps_s, tape.taps_ac)


def whole(tape):
    """A run in one call: its samples as bytes, its records, and the answer."""
    made = run_of(tape).make(tape.draws, tape.noise)
    return bytes(made.samples), bytes(made.records), made.ran


class Stored(unittest.TestCase):
    def test_worked(self):
        tape = stored.worked()
        samples, records, ran = whole(tape)
        self.assertEqual(stored.text_of(records, ran.samples_written), stored.WORKED_TEXT.read_text().splitlines())
        self.assertEqual(ran, (3, 8000, 16000, 2, Stop.DONE, 536 + 189))
        self.assertEqual(len(samples), 64000)

    def test_all(self):
        """Every stored tape has the text, samples, records and refusal of the tape programs."""
        seen = 0
        for name, given, expected in stored.cases():
            with self.subTest(name):
                wanted = dict(expected)
                wanted["tape"] = [text for word, text in expected if word == "tape"]
                refused = wanted["tape"][0] if wanted["tape"][0].startswith("refused") else None
                try:
                    samples, records, ran = whole(more1090.tape.read(given))
                except Refused as e:
                    # The form of the tape is read before any value is looked at, and the tape program does both in turn.
                    if e.number != 11:
                        self.assertEqual(refused, "refused %d" % e.number)
                    self.assertIsNotNone(refused)
                else:
                    if refused:
                        self.assertEqual(refused, "refused 11")
                        self.assertIn(ran.stop, (Stop.WANTS_NOISE, Stop.WANTS_DRAWS))
                    else:
                        self.assertEqual(wanted["tape"], stored.text_of(records, ran.samples_written))
                        self.assertEqual(wanted["samples"], stored.cksum(samples))
                        self.assertEqual(wanted["records"], stored.cksum(records))
                        self.assertEqual(ran.stop, Stop.DONE)
                        seen += 1
        self.assertEqual(seen, (stored.TAPES / "expected").read_text().count("tape: samples"))

    def test_tape_refused(self):
        tape = stored.WORKED.read_bytes()
        many = more1090.tape.write(*stored.worked()[:3], bytes(65 * 401), array.array("f"))
        for other in (b"", tape[:3], tape[:-1], tape + b"\0", b"\2" + tape[1:], tape[:128] + b"\0" + tape[129:], many):
            with self.assertRaises(Refused) as caught:
                more1090.tape.read(other)
            self.assertEqual(caught.exception.number, 11)

    def test_tape_written(self):
        for name in ("small", "worked", "long", "eight"):
            given = stored.bases()[name]
            self.assertEqual(more1090.tape.write(*more1090.tape.read(given)), given, name)

    def test_specification_draws(self):
        """The worked tape of SPECIFICATION 11.3, made by the module's own words."""
        tape = stored.worked()
        self.assertEqual(tape.settings, more1090.settings(nanoseconds=1000000))
        draws = more1090.draw(gap=100.0, type=2, format=1), more1090.draw(gap=50.5, type=6, data=3584), more1090.draw(gap=1e6, type=2)
        self.assertEqual(tape.draws, b"".join(draws))
        self.assertEqual(more1090.DRAW_FIELDS.unpack(draws[1]).data, 3584)
        self.assertEqual([d.gap for d in more1090.DRAW_FIELDS.read(tape.draws)], [100.0, 50.5, 1e6])


def cut_anywhere(tape, seed, between):
    """The same run in calls of any lengths; `between` gets the run after each and answers the one that goes on."""
    dice = random.Random(seed)
    run = run_of(tape)
    samples, records, added = bytearray(), bytearray(), 0
    drawn, used = 0, 0
    draws, noise = memoryview(tape.draws), memoryview(tape.noise)
    while True:
        output = array.array("f", [7.0]) * (2 * dice.choice((1, 2, 63, 500, 3000)))
        paper = bytearray(RECORD * dice.randrange(3) + dice.randrange(RECORD))
        more_draws = DRAW * dice.randrange(3)
        ran = run.call(
            draws[drawn * DRAW : drawn * DRAW + more_draws], noise[used : used + dice.randrange(4000)], output, paper
        )
        drawn += ran.draws_taken
        used += ran.noise_used
        added += ran.samples_added
        samples += output[: 2 * ran.samples_written].tobytes()
        records += paper[: RECORD * ran.records_written]
        if any(value != 7.0 for value in output[2 * ran.samples_written :]):
            raise AssertionError("output behind what was written is changed")
        if ran.stop == Stop.DONE:
            return bytes(samples), bytes(records), (drawn, used, added)
        run = between(run)


class Cuts(unittest.TestCase):
    def check(self, between):
        for name in ("worked", "long", "eight"):
            tape = more1090.tape.read(stored.bases()[name])
            samples, records, ran = whole(tape)
            for seed in range(3):
                with self.subTest(name, seed=seed):
                    totals = (ran.draws_taken, ran.noise_used, ran.samples_added)
                    self.assertEqual(cut_anywhere(tape, seed, between), (samples, records, totals))

    def test_cut_anywhere(self):
        self.check(lambda run: run)

    def test_stored_between(self):
        self.check(lambda run: more1090.restore(run.save()).run)

    def test_threads(self):
        """Calls that share no memory run at the same time."""
        tape = more1090.tape.read(stored.bases()["long"])
        wanted = whole(tape)
        with concurrent.futures.ThreadPoolExecutor(4) as threads:
            self.assertEqual(list(threads.map(whole, [tape] * 16)), [wanted] * 16)

    def test_stops(self):
        tape = stored.worked()
        run = run_of(tape)
        room, paper = array.array("f", [0.0, 0.0]), bytearray(2 * RECORD)
        self.assertEqual(run.call(None, None, room, None).stop, Stop.WANTS_DRAWS)
        self.assertEqual(run.call(tape.draws, tape.noise, room, paper).stop, Stop.OUTPUT_FULL)
        self.assertEqual(run.call(tape.draws, None, room, paper).stop, Stop.WANTS_NOISE)
        self.assertEqual(run_of(tape).call(tape.draws, tape.noise, array.array("f", bytes(64000)), None).stop, Stop.RECORDS_FULL)
        self.assertEqual((run.written, run.total, run.samples_per_pulse, run.sample_rate), (1, 8000, 4, 8000000))

    def test_make_in_parts(self):
        tape = stored.worked()
        run = run_of(tape)
        first = run.make(tape.draws, tape.noise[:5000])
        self.assertEqual((first.ran.stop, first.ran.samples_written), (Stop.WANTS_NOISE, 2500))
        rest = run.make(tape.draws[first.ran.draws_taken * DRAW :], tape.noise[first.ran.noise_used :])
        samples, records, _ = whole(tape)
        self.assertEqual(bytes(first.samples) + bytes(rest.samples), samples)
        self.assertEqual(bytes(first.records) + bytes(rest.records), records)
        self.assertEqual(run.make(None, None).ran, (0, 0, 0, 0, Stop.DONE, 0))

    def test_refused_changes_nothing(self):
        tape = stored.worked()
        run = run_of(tape)
        run.make(tape.draws[:DRAW], tape.noise)
        before = run.save()
        output, paper = array.array("f", [1.0, 2.0]), bytearray(b"\1" * RECORD)
        with self.assertRaises(Refused) as caught:
            run.call(tape.draws, array.array("f", [0.0, 65.0]), output, paper)
        self.assertEqual((caught.exception.number, caught.exception.value), (8, 1))
        self.assertEqual((run.save(), list(output), paper), (before, [1.0, 2.0], bytearray(b"\1" * RECORD)))


class StoredRuns(unittest.TestCase):
    def test_bytes(self):
        """SPECIFICATION 16.1 and 16.2: what the bytes are, state, prototypes and memory, and the check, at both samples per pulse."""
        for name, prototype, memory in (("worked", 1792, 2252), ("eight", 3584, 4502)):
            run = run_of(more1090.tape.read(stored.bases()[name]))
            kept = run.save()
            self.assertEqual(len(kept), 48 + 192 + 4 * (2 * prototype + memory) + 16)
            self.assertEqual(kept[:48], b"MORE1090" + struct.pack("<5Q", 1, len(kept), prototype, memory, 0))
            self.assertEqual(kept[48:64], struct.pack("<QQ", 0, run.total))
            self.assertEqual(kept[232:240], struct.pack("<Q", run.samples_per_pulse))
            sums = list(itertools.accumulate(kept[:-16]))
            self.assertEqual(kept[-16:], struct.pack("<QQ", sums[-1], sum(sums)))
            back = more1090.restore(bytearray(kept))
            self.assertEqual((back.run.save(), back.rack), (kept, None))
            # With a first tap of 1.0 alone the prototypes are the trapezoids, whose rises have 38 and 40 steps at 4.
            rises = struct.unpack_from("<ff", kept, 240 + 4)[0], struct.unpack_from("<ff", kept, 240 + 4 * prototype + 4)[0]
            steps = 38 * run.samples_per_pulse / 4, 40 * run.samples_per_pulse / 4
            self.assertEqual([round(1 / rise, 3) for rise in rises], list(steps))

    def test_rack(self):
        """A rack that is stored with its run goes on as if it had not been."""
        for name in ("long", "eight"):
            tape = more1090.tape.read(stored.bases()[name])
            run, rack = run_of(tape), more1090.Rack([0, 1000], [1.0, 0.5])
            first = run.make(tape.draws, tape.noise[:5000])
            rack.call(first.samples)
            again, behind = more1090.restore(run.save(rack))
            left = tape.draws[first.ran.draws_taken * DRAW :], tape.noise[first.ran.noise_used :]
            wanted = [bytes(feed) for feed in rack.call(run.make(*left).samples)]
            self.assertEqual([bytes(feed) for feed in behind.call(again.make(*left).samples)], wanted)
            self.assertTrue(any(wanted[1]))

    def test_refused(self):
        kept = run_of(stored.worked()).save()
        damaged = bytearray(kept)
        damaged[5000] ^= 1
        for number, other in (
            (19, None),
            (19, kept[:255]),
            (19, kept[:-1]),
            (19, kept + b"\0"),
            (20, b"m" + kept[1:]),
            (21, kept[:8] + b"\2" + kept[9:]),
            (22, damaged),
        ):
            with self.subTest(number), self.assertRaises(Refused) as caught:
                more1090.restore(other)
            self.assertEqual(caught.exception.number, number)
        run = run_of(stored.worked())
        run._state.samples_per_pulse = 8  # a state with another run's buffers
        with self.assertRaises(Refused) as caught:
            run.save()
        self.assertEqual(caught.exception.number, 9)


class Bookings(unittest.TestCase):
    def test_figures(self):
        tape = stored.worked()
        self.assertEqual(more1090.booking(*tape[:4]), (8000, 16000, 2, 3, True, 2, None))
        self.assertEqual(more1090.booking(*tape[:3], tape.draws[: 2 * DRAW]), (8000, 16000, 2, 2, False, None, 150.5))

    def test_parts(self):
        """Records and draws of the parts are those of the whole, and the whole those of the run."""
        tape = more1090.tape.read(stored.bases()["long"])
        ran = whole(tape)[2]
        booked = more1090.booking(*tape[:4])
        self.assertEqual((booked.samples, booked.records, booked.draws_taken), (ran.samples_written, ran.records_written, ran.draws_taken))
        half = len(tape.draws) // DRAW // 2 * DRAW
        first = more1090.booking(*tape[:3], tape.draws[:half])
        self.assertFalse(first.ended)
        second = more1090.booking(*tape[:3], tape.draws[half:], time=first.time)
        self.assertEqual(first.records + second.records, booked.records)
        self.assertEqual(first.draws_taken + second.draws_taken, booked.draws_taken)


class Single(unittest.TestCase):
    def test_is_the_run(self):
        """One reply alone has the samples of a run of it and of a draw that ends the run (SPECIFICATION 14.4)."""
        for name in ("worked", "eight"):
            tape = more1090.tape.read(stored.bases()[name])
            dice = random.Random(1)
            noise = array.array("f", [dice.uniform(1.0, 2.0) for _ in tape.noise])
            reply = more1090.draw(gap=333.25, type=2, format=1, amplitude=0.75)
            made = run_of(tape).make(reply + more1090.draw(gap=1e6, type=2), noise)
            alone = more1090.single(*tape[:3], reply, noise)
            self.assertEqual(bytes(alone), bytes(made.samples))
            self.assertNotEqual(bytes(alone), bytes(more1090.single(*tape[:3], more1090.draw(type=2), noise)))
            output = array.array("f", bytes(len(bytes(alone))))
            self.assertIs(more1090.single(*tape[:3], reply, noise, output), output)
            self.assertEqual(output.tobytes(), bytes(alone))
