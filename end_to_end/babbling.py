#!/usr/bin/env python3
"""Writes an accepted network that is drawn by chance, and captures of it in which one port babbles.

It writes ROOM/table.toml and ROOM/in/port-K.pcap, the same for the same seed.
"""
import argparse
import random
import shutil

import babblers


def main() -> None:
    parser = argparse.ArgumentParser(description=__doc__, formatter_class=argparse.RawDescriptionHelpFormatter)
    parser.add_argument("room", help="a folder, which is made anew")
    parser.add_argument("seed", type=int)
    given = parser.parse_args()
    room, chance = given.room, random.Random(given.seed)
    table = babblers.accepted_network(chance)
    babbler = chance.choice(table.ports).id
    shutil.rmtree(room, ignore_errors=True)
    babblers.write(f"{room}/table.toml", babblers.text_of(table).encode())
    for port in table.ports:
        babbles = port.id == babbler
        frames = babblers.babble(chance, table, port.id) if babbles else babblers.traffic(chance, table, port.id)
        babblers.write(f"{room}/in/port-{port.id}.pcap", babblers.capture(frames))


if __name__ == "__main__":
    main()
