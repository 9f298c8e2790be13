"""Tests of detio_pytest.py: python3 test_plugin.py, where there is pytest, with both modules on the path."""

import glob
import os
import re
import subprocess
import sys
import tempfile
import textwrap
import unittest

BANK = textwrap.dedent('''
    import os
    import pytest

    def deposit(io):
        if os.path.exists('fee.txt'):
            io.close(io.host_open('fee.txt'))
        account = io.open('/account', 'r+', create=True)
        balance = int(io.pread(account, 20, 0) or b'0')
        io.pwrite(account, str(balance + 1).encode(), 0)
        return balance + 1

    def test_no_deposit_is_lost(detio_run):
        assert max(detio_run(deposit, deposit).values) == 2

    @pytest.mark.detio(seeds=[3, 4], reach=1)
    def test_one_alone(detio_run, detio_seed):
        detio_run(deposit)
        assert detio_run(deposit, check=False).values == [1] and detio_seed in (3, 4)

    def test_of_others():
        pass
''')


class Plugin(unittest.TestCase):
    def setUp(self):
        folder = tempfile.TemporaryDirectory()
        self.addCleanup(folder.cleanup)
        self.folder = folder.name
        with open(os.path.join(self.folder, 'test_bank.py'), 'w') as file:
            file.write(BANK)

    def pytest(self, *words):
        """The status of pytest, and what it printed."""
        words = [sys.executable, '-m', 'pytest', '-p', 'detio_pytest', '-p', 'no:cacheprovider', *words]
        ran = subprocess.run(words, cwd=self.folder, stdout=subprocess.PIPE, stderr=subprocess.STDOUT,
                             universal_newlines=True)
        return ran.returncode, ran.stdout

    def logs(self):
        return sorted(os.path.basename(it) for it in glob.glob(os.path.join(self.folder, 'detio-logs', '*')))

    def test_a_case_for_each_seed(self):
        status, out = self.pytest('-k', 'alone or others')
        self.assertEqual((status, self.logs()), (0, []), out)
        self.assertIn('3 passed', out)
        status, out = self.pytest('--collect-only', '-q', '-k', 'deposit', '--detio-seeds', '1-100')
        self.assertEqual(out.count('test_no_deposit_is_lost[seed-'), 100)
        self.assertEqual(self.pytest('--detio-seeds', 'x')[0], 4)

    def test_a_seed_that_fails_leaves_its_log(self):
        status, out = self.pytest('-k', 'deposit', '--detio-seeds', '1-9')
        failed = sorted(set(re.findall(r'again: pytest (\S+) --detio-seeds (\d+)', out)))
        self.assertEqual(status, 1)
        self.assertEqual(self.logs(), [f'test_no_deposit_is_lost-seed-{seed}.log' for _, seed in failed])
        self.assertTrue(0 < len(failed) < 9, out)
        self.assertIn("pwrite(0, b'1', 0) = 1", out)
        case, seed = failed[0]
        status, out = self.pytest(case.strip("'"), '--detio-seeds', seed)
        self.assertEqual((status, out.count('log: detio-logs')), (1, 1), out)
        status, out = self.pytest(case.strip("'"), '--detio-seeds', seed, '--detio-replay')
        self.assertEqual(status, 1)
        self.assertIn('assert 1 == 2', out)
        open(os.path.join(self.folder, 'fee.txt'), 'w').close()
        status, out = self.pytest(case.strip("'"), '--detio-seeds', seed, '--detio-replay')
        self.assertIn('the log has no more of this thread', out)


if __name__ == '__main__':
    unittest.main()
