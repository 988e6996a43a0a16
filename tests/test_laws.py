"""The first random cases against the laws. `python3 -m laws` in tests/ tries as many as it is asked for."""

from laws.soak import soak
from support import replay

CASES, SEED, FIRST, EDITS = 50, 1, 0, 10


class Laws(replay.TestCase):
    """Laws that hold of all rule texts, texts, edits and maps of ids."""

    def test_the_first_random_cases_obey_the_laws(self):
        differences = []
        counts = soak(CASES, SEED, FIRST, EDITS, differences.append)
        self.assertEqual(differences, [])
        self.assertEqual((counts["cases"], counts["differ"]), (CASES, 0))
        self.assertGreater(counts["compared"], 0)
