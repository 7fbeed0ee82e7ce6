#!/usr/bin/env python3
"""Elects a leader among workers, one after another: share/elect.py DIR [PROGRAM]. Each leads once, and never two at a time."""
import sys
import threading
import time

import rr


def work(names: rr.Names, worker: str) -> None:
    """Waits until it leads, does what only a leader may do, and steps down."""
    while True:
        try:
            names.claim("leader", worker)
            break
        except rr.Taken:
            time.sleep(0.05)
    print(f"{worker} leads, by the registry {names.look('leader').value}", flush=True)
    names.release("leader")


def main() -> None:
    with rr.Names(sys.argv[1], client=1, program=(sys.argv[2:] or ["rr"])[0]) as names:
        # One process has the folder, so a leader of an earlier life is no more.
        if names.look("leader"):
            names.release("leader")
        workers = [threading.Thread(target=work, args=(names, f"worker-{number}")) for number in range(3)]
        for worker in workers:
            worker.start()
        for worker in workers:
            worker.join()


main()
