"""Gives each row the jitter that it needs, and has the program judge the network."""
from dataclasses import dataclass
from pathlib import Path

from afdx import files, printed
from afdx.icd.network import Network
from afdx.icd.tables import Table, texts_of
from afdx.program import Answer, Program

MOST = 10_000  # µs that a row can have


@dataclass
class Verdict:
    """What the program says of a network, and its files."""
    texts: dict[str, bytes]
    answer: Answer  # of `afdx network check`, or of `afdx network jitter` if that refuses the network
    broken: list[str]  # if the network is refused, its rows that need too much jitter and its ports that break rules


def put_all(command: str, folder: Path, texts: dict[str, bytes]) -> None:
    for name, text in texts.items():
        files.put(command, folder / name, text)


def give(tables: dict[str, Table], said: str) -> list[str]:
    """Gives the rows the jitters that `afdx network jitter` printed, as far as a table can have them. Returns the lines
    of rows that need more, with their names."""
    lines = []
    for need in printed.rows_of(said):
        row, jitter_us = tables[need["switch"]].rows[int(need["link"])], int(need["jitter_us"])
        row.give(min(jitter_us, MOST))
        if jitter_us > MOST:
            lines.append(f"{need['switch']} link {need['link']} needs jitter_us {jitter_us} ({row.link.name})")
    return lines


def broken_ports(program: Program, folder: Path, tables: dict[str, Table]) -> list[str]:
    """Returns the lines that `afdx size` has for ports that break rules, with the names of switch and port."""
    lines = []
    for switch, table in tables.items():
        file = folder / f"{switch}.toml"
        ports = printed.rows_of(program.ask("size", file, printed.CSV).said)
        for line, port in zip(program.ask("size", file).said.splitlines(), ports):
            if port["breaks"]:
                lines.append(f"{switch} {line} ({table.names([int(port['port'])])})")
    return lines


def settle(program: Program, tables: dict[str, Table], network: Network) -> Verdict:
    """Gives the rows their jitters and checks the network. One turn is enough: from the jitters at the links' first
    switches on, `afdx network jitter` itself goes on until none changes."""
    with files.temporary_folder(program.progress.command) as room:
        folder = Path(room)
        put_all(program.progress.command, folder, texts_of(tables, network))
        needs = program.ask("network", "jitter", folder / "network.toml", printed.CSV)
        broken = give(tables, needs.said)
        texts = texts_of(tables, network)
        put_all(program.progress.command, folder, texts)
        answer = needs if needs.status else program.ask("network", "check", folder / "network.toml")
        return Verdict(texts, answer, broken + broken_ports(program, folder, tables) if answer.status else [])
