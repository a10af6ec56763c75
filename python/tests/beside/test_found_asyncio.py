"""The reports on asyncio in docs/found: each program is short, and does what its page says."""
import os
import subprocess
import sys
import unittest
from typing import List

PAGES = os.path.join(os.path.dirname(os.path.abspath(__file__)), '..', '..', '..', 'docs', 'found')
MOST_LINES = 10


def program(page: str) -> List[str]:
    """The lines of a page's program."""
    with open(os.path.join(PAGES, page + '.md')) as file:
        return [line[4:] for line in file.read().split('\n') if line.startswith('    ')]


@unittest.skipUnless(sys.version_info[:2] == (3, 11), 'the pages are of Python 3.11')
class Found(unittest.TestCase):
    def ran(self, page: str) -> 'subprocess.CompletedProcess[str]':
        lines = program(page)
        self.assertLessEqual(len(lines), MOST_LINES)
        return subprocess.run([sys.executable, '-c', '\n'.join(lines)], capture_output=True, text=True, timeout=180)

    def last_line(self, page: str) -> str:
        """The last line on standard error."""
        return self.ran(page).stderr.rstrip('\n').rpartition('\n')[2]

    def test_timeout_in_cleanup(self) -> None:
        mended = sys.version_info >= (3, 11, 3)
        self.assertEqual(self.last_line('asyncio_timeout_in_cleanup'),
                         'TimeoutError' if mended else 'asyncio.exceptions.CancelledError')

    def test_cancelled_returns(self) -> None:
        self.assertEqual(self.ran('asyncio_cancelled_returns').stdout, 'True\n')

    def test_free_lock_waits(self) -> None:
        ran = self.ran('asyncio_free_lock_waits')
        self.assertEqual(ran.stdout, 'False\n')
        self.assertEqual(ran.stderr.rstrip('\n').rpartition('\n')[2], 'TimeoutError')


if __name__ == '__main__':
    unittest.main()
