"""Answers the lines of a file on a cluster of processes: python3 dask_lines.py FILE [PROGRAM], where dask and distributed are.

With PROGRAM, the bin/speedate_lines that bin/build_program installs, each line is a kind and a text, as
`date 2020-02-29`, and what is printed is the program's answers, in their order. Without it each line is a date-time, and
what is printed is its microseconds from 1970-01-01T00:00Z, or NaT.
"""
import subprocess
import sys

import dask.bag
import distributed
import speedate

NOT_A_TIME = -(2**63)


def answered(program, lines):
    """What the program answers to the lines of a part of the file, as one object: a million small ones would take longer to
    bring back than to make."""
    text = "".join(lines).encode(errors="surrogateescape")
    return [subprocess.run([program], input=text, stdout=subprocess.PIPE, check=True).stdout]


def numbered(lines):
    """The numbers of the lines of a part of the file, as one object. A line of a bag has its line feed."""
    text = "".join(lines).encode(errors="surrogateescape")
    column = speedate.datetime_column(text, missing_offset="utc", refused="number")
    return ["".join("NaT\n" if it == NOT_A_TIME else f"{it}\n" for it in column).encode()]


def answers(file, program=None, blocksize="4MiB"):
    """The answers to the lines of a file, the bytes of each part."""
    # A line feed alone ends a line, and bytes that are no UTF-8 are kept.
    lines = dask.bag.read_text(file, blocksize=blocksize, linedelimiter="\n", errors="surrogateescape")
    return lines.map_partitions(lambda part: answered(program, part) if program else numbered(part))


def main(file, program=None):
    with distributed.LocalCluster(n_workers=4, threads_per_worker=1, dashboard_address=None) as cluster, distributed.Client(cluster):
        sys.stdout.buffer.writelines(answers(file, program).compute())


if __name__ == "__main__":
    main(*sys.argv[1:])
