"""tools/balances on reports made by the format. Run by `python3 -m unittest discover tools/tests`."""
import os
import subprocess
import tempfile
import unittest

BALANCES = os.path.join(os.path.dirname(os.path.dirname(os.path.realpath(__file__))), "balances")
MESSAGES = """account,source,destination,text
main,,+447700900123,"two, parts"
main,,4420,Hi
main,,33,Ho
other,,447,He
"""
TARIFF = "prefix,credits\n4477,5\n44,3\n"


def report(main, other):
    return f"""message,part,attempts,outcome,status,id
0,1,1,charged,0,a
0,2,1,unanswered,,
1,1,3,refused,88,
2,1,1,charged,0,b
3,0,0,no-credit,,
account,topped,free,reserved,charged,returned
main,{main}
other,{other}
"""


class Balances(unittest.TestCase):
    def balances(self, text, *tariff):
        with tempfile.TemporaryDirectory() as folder:
            names = [f"{folder}/{it}" for it in range(2 + len(tariff))]
            for name, octets in zip(names, (text, MESSAGES, *tariff)):
                with open(name, "w", encoding="utf-8") as file:
                    file.write(octets)
            ended = subprocess.run([BALANCES, *names], capture_output=True, text=True, check=False)
            return ended.returncode, ended.stdout

    def test_without_a_tariff(self):
        self.assertEqual(self.balances(report("10,7,1,2,1", "2,2,0,0,0")), (0, ""))

    def test_the_longest_prefix_counts_and_none_costs_one(self):
        self.assertEqual(self.balances(report("20,9,5,6,3", "2,2,0,0,0"), TARIFF), (0, ""))
        self.assertEqual(self.balances(report("20,9,5,6,3", "2,2,0,0,0"))[0], 1)
        self.assertEqual(self.balances(report("20,1,5,14,3", "2,2,0,0,0"), TARIFF + ",9\n")[0], 0)

    def test_what_disagrees(self):
        self.assertIn("account main", self.balances(report("10,7,1,3,1", "2,2,0,0,0"))[1])
        self.assertIn("account other", self.balances(report("10,7,1,2,1", "2,1,0,0,0"))[1])
        lacking = report("10,7,1,2,1", "2,2,0,0,0").replace("0,2,1,unanswered,,\n", "")
        self.assertEqual(self.balances(lacking)[0], 1)
        self.assertEqual(self.balances("message\n")[0], 1)

    def test_arguments(self):
        self.assertEqual(subprocess.run([BALANCES, "--help"], capture_output=True, check=False).returncode, 0)
        self.assertEqual(subprocess.run([BALANCES, "one"], capture_output=True, check=False).returncode, 2)


if __name__ == "__main__":
    unittest.main()
