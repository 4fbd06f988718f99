"""fleet/run with a program that stands in for sms-send, cut, refused and lost in all places."""
import fcntl
import os
import random
import resource
import shutil
import signal
import subprocess
import time
import unittest

from jobs import parts_of_job, runs_of_part
from links import State, here, next_run, state_of_folder
from reports import Report
from splitting import split
from tables import put_text
from tests.helpers import Case

HERE = os.path.dirname(os.path.dirname(os.path.realpath(__file__)))
PROGRAM = f"{HERE}/tests/fake_sms_send"


@unittest.skipUnless(shutil.which("parallel"), "GNU parallel isn't installed")
class Running(Case):
    def run_job(self, status=0, *words, home=HERE, **more):
        command = [f"{home}/run", "--program", PROGRAM.replace(HERE, home), self.folder, *words]
        ended = subprocess.run(command, capture_output=True, text=True, **more)
        self.assertEqual(ended.returncode, status, ended.stderr)
        return ended.stderr

    def run_part(self, status=0, *words, **more):
        """The first part alone, without parallel."""
        command = [f"{HERE}/run", "--program", PROGRAM, "--part", f"{self.folder}/parts/01", *words]
        ended = subprocess.run(command, capture_output=True, text=True, **more)
        self.assertEqual(ended.returncode, status, ended.stderr)
        return ended.stderr

    def merge(self, status=0):
        ended = subprocess.run([f"{HERE}/merge", self.folder], capture_output=True, text=True)
        self.assertEqual(ended.returncode, status, ended.stderr)
        return Report(f"{self.folder}/report.csv")

    def does(self, run, what):
        """Says what happens to a run that is NN/K."""
        put_text(what, f"{self.folder}/parts/{run.replace('/', '/does-')}")

    def submits(self):
        with open(f"{self.folder}/submits") as file:
            return sorted(file.read().splitlines())

    def once(self, report, unanswered=0):
        """Each message was sent once, and each account balances to the credit."""
        self.assertEqual(len(self.submits()), len(set(self.submits())))
        outcomes = [it[0][2] for it in report.ends]
        self.assertEqual([outcomes.count(it) for it in ("charged", "unanswered")], [len(outcomes) - unanswered, unanswered])
        self.assertEqual(len(self.submits()), len(outcomes) - unanswered)

    def test_a_job_that_goes_well(self):
        self.job({"a": 25, "b": 3, "c": 4})
        split(self.folder, 2, 10)
        self.run_job()
        self.once(self.merge())
        before = self.submits()
        self.run_job()
        self.assertEqual(self.submits(), before)

    def test_a_run_that_was_killed_is_gone_on_with(self):
        for count in (0, 4, 9):
            with self.subTest(count):
                self.setUp()
                self.job({"a": 25})
                split(self.folder, 1, 10)
                self.does("01/1", f"kill {count}")
                self.assertIn("was killed by signal 9", self.run_part(1))
                self.assertIs(state_of_folder(f"{self.folder}/parts/01/1"), State.CUT)
                self.run_part()
                self.once(self.merge(4), unanswered=1)
                names = [os.path.basename(it) for it in runs_of_part(f"{self.folder}/parts/01")]
                self.assertEqual(names, ["1", "2", "3"])

    def test_a_further_round_that_is_killed_too(self):
        self.job({"a": 9})
        split(self.folder, 1)
        for count in (2, 3):
            self.does("01/1", f"kill {count}")
            self.run_part(1)
        self.run_part()
        self.once(self.merge(4), unanswered=2)

    def test_a_bind_that_is_refused_sent_nothing(self):
        self.job({"a": 5, "b": 5})
        split(self.folder, 2)
        self.does("02/1", "refuse")
        self.assertIn("ended with 3", self.run_job(1))
        self.run_job()
        self.once(self.merge())

    def test_a_lost_centre_is_tried_again_by_the_next_call(self):
        self.job({"a": 5, "b": 5})
        split(self.folder, 1)
        self.does("01/1", "lose 3")
        self.assertIn("run it again to go on", self.run_part(1))
        self.run_part()
        self.once(self.merge())

    def test_a_report_that_had_no_room(self):
        self.job({"a": 5, "b": 5})
        split(self.folder, 1)
        self.does("01/1", "full 10")
        self.assertIn("ended with 1", self.run_part(1))
        self.run_part()
        self.once(self.merge())

    def test_a_journal_that_failed(self):
        """The report that the program printed is kept, and what it left goes on by the next call."""
        self.job({"a": 5, "b": 5})
        split(self.folder, 1)
        self.does("01/1", "journal 4")
        said = self.run_part(1)
        self.assertIn("fault: journal\n  no space left on the device\n", said)
        self.assertIn("`send` ended with 1".replace("`send", f"`{PROGRAM} send"), said)
        outcomes = [it[0][2] for it in Report(f"{self.folder}/parts/01/1/report.csv").ends]
        self.assertEqual(outcomes, ["charged"] * 4 + ["bind-closed"] * 6)
        self.run_part()
        self.once(self.merge())

    def test_a_strict_sending_that_left_messages(self):
        self.job({"a": 5, "b": 5})
        split(self.folder, 1)
        self.does("01/1", "lose 3")
        self.assertIn("run it again to go on", self.run_part(1, "--with=--strict"))
        self.assertIs(state_of_folder(f"{self.folder}/parts/01/1"), State.ENDED)
        self.run_part(0, "--with=--strict")
        self.once(self.merge())

    def test_a_run_that_is_still_going_on(self):
        """Whatever its journal has, nobody recovers it, removes it or sends it again as long as a process holds it."""
        for text in ("", "journal,1,,,,\n", "journal,1,,,,\nbegun,0,0\nsent,0,0,1,0,1\n"):
            with self.subTest(text):
                self.setUp()
                self.job({"a": 5})
                split(self.folder, 1)
                journal = f"{self.folder}/parts/01/1/journal"
                put_text(text, journal)
                with open(journal, "rb") as held:
                    fcntl.flock(held, fcntl.LOCK_EX)
                    self.assertIn("its run is still going on", self.run_part(1))
                with open(journal) as file:
                    self.assertEqual(file.read(), text)
                self.assertFalse(os.path.exists(f"{self.folder}/submits"))
                self.run_part()
                self.assertEqual(len(self.submits()), 4 if "sent" in text else 5)

    def test_a_trial_that_was_killed(self):
        self.job({"a": 5})
        split(self.folder, 1)
        self.does("01/1", "kill 2")
        self.run_part(1, "--loop")
        said = self.run_part(1)
        self.assertIn("fault: journal of a trial: no message centre saw any of it\n", said)
        self.assertIs(state_of_folder(f"{self.folder}/parts/01/1"), State.CUT)
        os.remove(f"{self.folder}/submits")
        self.run_part(0, "--loop")
        self.once(self.merge())

    def test_a_run_goes_on_alone_where_what_started_it_was_killed(self):
        self.job({"a": 5})
        split(self.folder, 1)
        self.does("01/1", "slow")
        part = f"{self.folder}/parts/01"
        with subprocess.Popen([f"{HERE}/run", "--program", PROGRAM, "--part", part], stderr=subprocess.DEVNULL) as child:
            while not os.path.exists(f"{self.folder}/submits"):
                time.sleep(0.05)
            child.kill()
        self.assertIn("is being run", self.run_job(1))
        while self.run_job_quietly():
            time.sleep(0.2)
        self.once(self.merge())
        self.assertEqual([os.path.basename(it) for it in runs_of_part(part)], ["1"])

    def run_job_quietly(self):
        return subprocess.run([f"{HERE}/run", "--program", PROGRAM, self.folder], capture_output=True).returncode

    def test_a_machine_that_went_down(self):
        name, identity, _ = here()
        for begun, has_journal, told in (
            (f"{name} {identity} before sync\n", True, None),
            (f"{name} {identity} before no-sync\n", True, "its journal may lack"),
            (f"{name} {identity} before sync\n", False, "its journal may lack"),
            (f"another {identity} start sync\n", True, "by another machine"),
        ):
            with self.subTest(begun=begun, has_journal=has_journal):
                self.setUp()
                self.job({"a": 5})
                split(self.folder, 1)
                self.does("01/1", "kill 2")
                self.run_part(1)
                at = f"{self.folder}/parts/01/1"
                self.assertFalse(os.path.exists(f"{at}/begun"))
                put_text(begun, f"{at}/begun")
                if not has_journal:
                    os.remove(f"{at}/journal")
                    os.remove(f"{self.folder}/submits")
                if told:
                    self.assertIn(told, self.run_part(1))
                    os.remove(f"{at}/begun")
                self.run_part()
                self.once(self.merge(4 if has_journal else 0), unanswered=int(has_journal))

    def test_names_with_lines_and_spaces(self):
        """Neither the names of accounts nor those of folders are altered on their way."""
        home = f"{self.folder}/it's here"
        shutil.copytree(HERE, home)
        self.job({'a, "b"': 12, "c\r\nd": 3, "e\rf": 3, "ü": 3})
        split(self.folder, 2, 5)
        self.does("02/1", "lose 2")
        self.run_job(1, home=home)
        self.run_job(home=home)
        self.once(self.merge())

    def test_a_storm(self):
        """Whatever is killed whenever, alone or with all that it began: the job ends, and no message is sent twice."""
        seed = random.randrange(10**6)
        dice = random.Random(seed)
        self.job({"a": 40, "b": 21, "c": 9})
        split(self.folder, 2, 10)
        for _ in range(8):
            command = [f"{HERE}/run", "--program", PROGRAM, self.folder]
            quiet = {"stdout": subprocess.DEVNULL, "stderr": subprocess.DEVNULL, "start_new_session": True}
            with subprocess.Popen(command, env={**os.environ, "PAUSE": "0.02"}, **quiet) as child:
                time.sleep(dice.uniform(0, 1.5))
                if dice.random() < 0.5:
                    os.killpg(child.pid, signal.SIGKILL)
                else:
                    child.kill()
            if dice.random() < 0.5:
                self.kill_one(dice)
        ended_by = time.monotonic() + 60
        while status := self.run_job_quietly():
            self.assertLess(time.monotonic(), ended_by, f"seed {seed}: {status}")
        submits, report = self.submits(), self.merge_quietly()
        outcomes = {f"Text, number {k}": it[0][2] for k, it in enumerate(report.ends)}
        self.assertEqual(len(submits), len(set(submits)), f"seed {seed}")
        charged = {it for it in outcomes if outcomes[it] == "charged"}
        unanswered = {it for it in outcomes if outcomes[it] == "unanswered"}
        self.assertEqual(charged | unanswered, set(outcomes), f"seed {seed}")
        self.assertLessEqual(charged, set(submits), f"seed {seed}")
        self.assertLessEqual(len(unanswered), 9, f"seed {seed}")

    def kill_one(self, dice):
        """Kills the process that holds a part's lock: fleet/run or the program."""
        part = dice.choice(parts_of_job(self.folder))
        lock = f"{part}/lock"
        for pid in filter(str.isdigit, os.listdir("/proc")):
            try:
                held = {os.readlink(f"/proc/{pid}/fd/{it}") for it in os.listdir(f"/proc/{pid}/fd")}
            except OSError:
                continue
            if lock in held:
                os.kill(int(pid), signal.SIGKILL)
                return

    def merge_quietly(self):
        subprocess.run([f"{HERE}/merge", self.folder], capture_output=True)
        return Report(f"{self.folder}/report.csv")

    def test_files_that_have_no_room(self):
        """Whichever file is the first that can't be written: the job goes on when there is room, and nothing is sent twice."""
        for room in (20, 70, 160, 300):
            with self.subTest(room):
                self.setUp()
                self.job({"a": 8, "b": 5})
                split(self.folder, 1, 8)
                self.does("01/1", "lose 3")
                self.run_part(1, preexec_fn=lambda room=room: resource.setrlimit(resource.RLIMIT_FSIZE, (room, room)))
                while any(next_run(runs_of_part(it)) for it in parts_of_job(self.folder)):
                    command = [f"{HERE}/run", "--program", PROGRAM, "--part", f"{self.folder}/parts/01"]
                    subprocess.run(command, capture_output=True, check=False, timeout=60)
                report, submits = self.merge_quietly(), self.submits()
                self.assertEqual(len(submits), len(set(submits)))
                outcomes = [it[0][2] for it in report.ends]
                self.assertEqual(len(outcomes), outcomes.count("charged") + outcomes.count("unanswered"))

    def test_words_and_faults(self):
        self.job({"a": 2})
        self.assertIn("was not split", self.run_job(1))
        split(self.folder, 1)
        for words in ([], [self.folder, "--part", "x"], ["--part", "x", "--jobs", "2"]):
            self.assertEqual(subprocess.run([f"{HERE}/run", *words], capture_output=True).returncode, 2)
        shown = subprocess.run([f"{HERE}/run", "--help"], capture_output=True, text=True)
        self.assertEqual((shown.returncode, "usage: fleet/run" in shown.stdout), (0, True))
        self.assertIn("No such file", self.run_part(1, "--program", "/nowhere/sms-send"))
        self.assertIn("GNU parallel is not on the PATH", self.run_job(1, "--no-such-word-of-parallel"))
        os.makedirs(f"{self.folder}/parts/02")
        self.assertIn("parts/02 has no runs", self.run_job(1))
        os.rmdir(f"{self.folder}/parts/02")
        put_text("message,part\n", f"{self.folder}/parts/01/1/report.csv")
        self.assertIn("parts/01/1/report.csv: is no report", self.run_job(1))

    def test_words_go_to_each_sending(self):
        self.job({"a": 5})
        split(self.folder, 1)
        asked = f"{self.folder}/asked"
        put_text(f'#!/bin/sh\necho "$SMS_SEND_VERBOSE $@" >> {asked}\nexec {PROGRAM} "$@"\n', f"{self.folder}/program")
        os.chmod(f"{self.folder}/program", 0o755)
        self.does("01/1", "kill 2")
        words = ["--program", f"{self.folder}/program", "--with=--rate 50 --stop-after 3"]
        self.run_job(1, *words)
        self.run_job(0, *words)
        os.remove(f"{self.folder}/parts/01/1/report.csv")
        self.run_job(0, *words, "--no-sync", "--loop")
        with open(asked) as file:
            said = file.read().splitlines()
        self.assertTrue(all(it.startswith("1 ") for it in said), said)
        said = [it.removeprefix("1 ") for it in said]
        self.assertEqual(said[0], "send --rate 50 --stop-after 3 --quiet --config send.toml --journal journal --sync")
        self.assertEqual(said[-1], "loop --rate 50 --stop-after 3 --quiet --config send.toml --journal journal")
        self.assertEqual(said[1], said[0].replace("send ", "resume ", 1))
        self.assertEqual(len(said), 3)

    def test_a_run_has_its_fields_also_when_it_goes_on(self):
        self.job({"a": 5})
        put_text("priority = 3\n", f"{self.folder}/urgent.toml")
        split(self.folder, 1, fields=f"{self.folder}/urgent.toml")
        os.remove(f"{self.folder}/urgent.toml")
        asked = f"{self.folder}/asked"
        put_text(f'#!/bin/sh\necho "$@" "$(cat fields.toml)" >> {asked}\nexec {PROGRAM} "$@"\n', f"{self.folder}/program")
        os.chmod(f"{self.folder}/program", 0o755)
        self.does("01/1", "kill 2")
        self.run_part(1, "--program", f"{self.folder}/program")
        self.run_part(0, "--program", f"{self.folder}/program")
        with open(asked) as file:
            said = file.read().splitlines()
        words = "--quiet --config send.toml --journal journal --fields fields.toml --sync priority = 3"
        self.assertEqual(said, [f"send {words}", f"resume {words}"])

    @unittest.skipIf(shutil.which("sms-send", path="/usr/bin:/bin"), "sms-send is installed")
    def test_the_program_is_found(self):
        """sms-send on the PATH, or else the launcher of the checkout that the scripts lie in."""
        home, path = f"{self.folder}-home", f"{self.folder}-path"
        shutil.copytree(HERE, f"{home}/fleet")
        os.makedirs(path)
        for place, wanted in ((None, "No such file"), (home, "launcher"), (path, "on the path")):
            if place:
                put_text(f'#!/bin/sh\necho "{wanted}" >> {self.folder}/asked\nexec {PROGRAM} "$@"\n', f"{place}/sms-send")
                os.chmod(f"{place}/sms-send", 0o755)
            self.job({"a": 5})
            split(self.folder, 1)
            more = {"capture_output": True, "text": True, "env": {**os.environ, "PATH": f"{path}:/usr/bin:/bin"}}
            ended = subprocess.run([f"{home}/fleet/run", self.folder], **more)
            self.assertEqual(ended.returncode, 0 if place else 1, ended.stderr)
            if place:
                with open(f"{self.folder}/asked") as file:
                    self.assertEqual(file.read().split("\n")[-2], wanted)
                os.remove(f"{self.folder}/submits")
            else:
                self.assertIn(wanted, ended.stderr)
            shutil.rmtree(f"{self.folder}/parts")

    def test_credits_that_are_others(self):
        self.job({"a": 5})
        split(self.folder, 1, 3)
        liar = f"{self.folder}/liar"
        put_text(f'#!/bin/sh\ncase "$*" in *--accounts*) printf "account,credits\\na,100\\n";; *) exec {PROGRAM} "$@";; esac\n', liar)
        os.chmod(liar, 0o755)
        self.assertIn("leaves free", self.run_part(1, "--program", liar))
        self.run_part()
        self.once(self.merge())

    def test_two_at_once(self):
        self.job({"a": 5})
        split(self.folder, 1)
        with open(f"{self.folder}/parts/01/lock", "w") as lock:
            fcntl.flock(lock, fcntl.LOCK_EX)
            self.assertIn("is being run", self.run_job(1))
        self.run_job(0, "--jobs", "1")
        self.assertIsNone(next_run(runs_of_part(f"{self.folder}/parts/01")))
