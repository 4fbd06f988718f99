"""The bash completion in packaging/. Run by `python3 -m unittest discover tools/tests`."""
import os
import subprocess
import tempfile
import unittest

HOME = os.path.dirname(os.path.dirname(os.path.dirname(os.path.realpath(__file__))))
ASK = """. "$1"; shift
COMP_WORDS=("$@"); COMP_CWORD=$(($# - 1))
_sms_send
printf '%s\\n' "${COMPREPLY[@]}"
"""


class Completion(unittest.TestCase):
    def offered(self, *words):
        """What is offered where the last of the words is completed."""
        asked = ["bash", "-c", ASK, "bash", f"{HOME}/packaging/sms-send.bash-completion", "sms-send", *words]
        ended = subprocess.run(asked, cwd=self.folder, capture_output=True, text=True, check=True)
        self.assertEqual(ended.stderr, "")
        return sorted(filter(None, ended.stdout.splitlines()))

    def setUp(self):
        room = tempfile.TemporaryDirectory()
        self.addCleanup(room.cleanup)
        self.folder = room.name
        for it in ("a.toml", "a b.toml", "a.csv", "accounts"):
            with open(f"{self.folder}/{it}", "w", encoding="ascii"):
                pass
        os.makedirs(f"{self.folder}/app.toml")
        os.makedirs(f"{self.folder}/archive")

    def test_a_config_is_a_toml_file_or_in_a_folder(self):
        wanted = ["a b.toml", "a.toml", "app.toml", "archive"]
        self.assertEqual(self.offered("send", "--config", "a"), wanted)
        self.assertEqual(self.offered("send", "--config", "=", "a"), wanted)
        self.assertEqual(self.offered("send", "--config", "="), wanted)

    def test_other_options_take_each_file(self):
        for option in ("--journal", "--report", "--messages", "--ledger", "--decisions", "--inbox"):
            self.assertEqual(self.offered("recover", option, "a"), ["a b.toml", "a.csv", "a.toml", "accounts", "app.toml", "archive"])

    def test_a_number_has_no_offers(self):
        for option in ("--rate", "--enquire", "--stay"):
            self.assertEqual(self.offered("send", option, ""), [])

    def test_options(self):
        self.assertEqual(self.offered("recover", "--t"), ["--trial"])
        for word in ("loop", "send", "resume"):
            self.assertEqual(self.offered(word, "--s"), ["--stay", "--stop-after", "--strict", "--sync"])
            self.assertEqual(self.offered(word, "--i"), ["--ids", "--inbox"])
            self.assertEqual(self.offered(word, "--e"), ["--enquire"])
        self.assertEqual(self.offered("re"), ["recover", "replay", "rest", "resume"])
        self.assertEqual(self.offered("st"), ["stop"])
        self.assertEqual(self.offered("stop", "--"), ["--help", "--journal", "--verbose"])
        self.assertEqual(self.offered("b"), ["balance", "bill"])
        for word in ("bill", "doubtful"):
            self.assertEqual(self.offered(word, "--"), ["--config", "--help", "--journal", "--refs", "--verbose"])
        self.assertEqual(self.offered("delivered", "--"), ["--config", "--help", "--ids", "--inbox", "--journal", "--refs", "--verbose"])
        self.assertEqual(self.offered("de"), ["decide", "delivered"])
        for word in ("send", "delivered"):
            self.assertEqual(self.offered(word, "--ids", ""), ["dec-hex", "hex-dec"])
        self.assertEqual(self.offered("audit", "--"), ["--config", "--help", "--refs", "--report", "--verbose"])
        self.assertEqual(self.offered("topup", "--"), ["--help", "--ledger", "--ref", "--trial", "--verbose"])
        self.assertEqual(self.offered("balance", "--"), ["--help", "--ledger", "--verbose"])
        self.assertEqual(self.offered("topup", "--ref", ""), [])
        for word in ("loop", "send"):
            self.assertEqual(self.offered(word, "--l"), ["--ledger"])
        self.assertEqual(self.offered("quote", "--l"), [])
        self.assertEqual(self.offered("settle", "--"), ["--config", "--help", "--journal", "--ledger", "--refs", "--verbose"])
        self.assertEqual(self.offered("decide", "--d"), ["--decisions"])


if __name__ == "__main__":
    unittest.main()
