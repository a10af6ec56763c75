"""Some random programs over the façade; fuzz_facade.py runs any number."""
import unittest

from fuzz_facade import OPTIONS, one
from gvr.live.by_model import by_model


class Fuzz(unittest.TestCase):
    def test_some(self) -> None:
        lines = 0
        for seed in range(40):
            with self.subTest(seed):
                lines += len(one(seed, by_model(OPTIONS)).trace)
        self.assertGreater(lines, 1000)


if __name__ == '__main__':
    unittest.main()
