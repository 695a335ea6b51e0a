"""What the package reads of a recording, as plain records."""
from pathlib import Path

from afdx.recordings.reading import Recording
from captures import Record


def read(path: Path, piece: int = 4096) -> tuple[list[Record], Recording]:
    """Returns the records, and the recording after its last one."""
    recording = Recording(path, path.name, piece)
    records = []
    for batch in recording.batches():
        columns = (batch.start, batch.captured, batch.original, batch.stamp, batch.interface)
        for begin, captured, original, stamp, interface in zip(*(column.tolist() for column in columns)):
            records.append(Record(stamp, batch.data[begin:begin + captured], original, interface))
    return records, recording
