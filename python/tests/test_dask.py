"""A test of python/examples/dask_lines.py: what it answers if its workers are killed."""
import os
import pathlib
import signal
import sys
import tempfile
import time
import unittest

sys.path.append(str(pathlib.Path(__file__).resolve().parents[1] / "examples"))
import dask_lines
import distributed

PARTS, COUNT = 60, 600_000


def running(cluster):
    """The numbers of the processes of the workers, which each begins anew after it was killed."""
    return [it.pid for it in cluster.workers.values() if it.pid]


class Killed(unittest.TestCase):
    def test_killed_workers(self):
        with tempfile.TemporaryDirectory() as folder:
            file = pathlib.Path(folder, "moments.txt")
            file.write_bytes(b"".join(b"1970-01-01T00:00:%02dZ\n" % (it % 60) for it in range(COUNT)))
            answers = dask_lines.answers(str(file), blocksize=file.stat().st_size // PARTS)
            with distributed.LocalCluster(n_workers=2, threads_per_worker=1, dashboard_address=None) as cluster, distributed.Client(cluster) as client:
                future, killed = client.compute(answers), []
                for _ in range(2):
                    pids = [it for it in running(cluster) if it not in killed]
                    if pids and not future.done():
                        os.kill(pids[0], signal.SIGKILL)
                        killed.append(pids[0])
                    time.sleep(0.2)
                told = b"".join(future.result())
        self.assertTrue(killed)
        self.assertTrue(told == b"".join(b"%d\n" % (it % 60 * 1_000_000) for it in range(COUNT)))


if __name__ == "__main__":
    unittest.main()
