"""What must hold for every recording of the link, as tests: python3 test_link.py, or pytest."""
import subprocess
import unittest

import zones


def matches(pattern, dump="link.vcd"):
    """The zones of a pattern over a dump. A run without an answer is an error."""
    words = ["montre", "--format", "vcd", "--input", dump, "--", pattern]
    run = subprocess.run(words, capture_output=True, text=True)
    if run.returncode != 0:
        raise RuntimeError("%s: %s" % (pattern, run.stderr.strip()))
    return zones.read(run.stdout)[0]


class Link(unittest.TestCase):
    def test_there_are_answers(self):
        self.assertNotEqual(matches("rise(tb.req) ; !tb.ack ; rise(tb.ack)"), [])

    def test_no_answer_is_late(self):
        self.assertEqual(matches("(rise(tb.req) ; !tb.ack) % [71,71]"), [])

    def test_nothing_happens_in_reset(self):
        self.assertEqual(matches("{!tb.reset_n && (tb.req || tb.ack)}"), [])


if __name__ == "__main__":
    unittest.main()
