"""What a case's streams and files may be, other than bytes."""

from dataclasses import dataclass

# A stream that is not open.
CLOSED = object()
# A pipe that nobody reads any more.
UNREAD = object()
# A folder, with nothing in it.
FOLDER = object()
# A pipe with a name.
PIPE = object()


@dataclass(frozen=True)
class Link:
    """A link to a name."""

    target: str
