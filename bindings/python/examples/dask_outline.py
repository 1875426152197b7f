"""Writes the outlines of all Markdown files of a folder as lines of JSON. Processes of a Dask cluster read them.

python3 dask_outline.py [--workers N] [--partition N] FOLDER

A worker takes paths and returns rows. Neither texts nor documents are sent between processes: a row is small. Each
process needs the package first_pass, and finds the files under the same paths.
"""

import argparse
import json
from pathlib import Path

import dask.bag
from distributed import Client, LocalCluster


def row(path):
    """The file at a path with its headings, or with what is wrong with it."""
    import first_pass

    try:
        with open(path, "rb") as file:
            headings = first_pass.outline(file.read(), first_pass.Options.GITHUB)
    except (OSError, first_pass.InputError) as error:
        return {"file": path, "fault": str(error)}
    return {"file": path, "headings": [heading._asdict() for heading in headings]}


def main():
    parser = argparse.ArgumentParser(description="Write the outlines of the Markdown files of a folder.")
    parser.add_argument("--workers", type=int, default=2, help="how many processes read")
    parser.add_argument("--partition", type=int, default=250, help="how many files a process is given at a time")
    parser.add_argument("folder", type=Path)
    arguments = parser.parse_args()
    paths = sorted(map(str, arguments.folder.rglob("*.md")))
    with LocalCluster(arguments.workers, threads_per_worker=1, dashboard_address=None) as cluster, Client(cluster):
        bag = dask.bag.from_sequence(paths, partition_size=arguments.partition)
        for outline in bag.map(row).compute():
            print(json.dumps(outline, ensure_ascii=False))


if __name__ == "__main__":
    main()
