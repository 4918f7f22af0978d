"""What is left of a store whose program was killed, by the model: trials/kill.c counts the page writes and flushes of the program in the same way."""
import copy

from store_model import Disk


class Killed(Exception):
    """The program was killed."""


class KilledDisk(Disk):
    """The disk of a program that is killed behind so many page writes and flushes, None where it isn't. A round's writes come with its flush, in the order of
    their pages on the device. Of those behind the last flush that are written, each whose bit is 0 is lost. An opening flushes twice: ahead of the
    pairs of pages, which a store of format 2 has none of, and ahead of all else."""

    def __init__(self, disk, last, kept):
        super().__init__(disk.durable, disk.twins, disk.turned)
        self.last, self.kept = last, kept
        self.made, self.lost = 1, 0
        self.opening = self.made + 1

    def flush(self):
        written = sorted(self.volatile, key=lambda write: self.half_of(write[0]))
        if self.last is not None and self.made + len(written) + 1 > self.last:
            self.volatile = written[:max(self.last - self.made, 0)]
            bits = [self.kept[at:at + 1] != "0" for at in range(len(self.volatile))]
            self.lost = bits.count(False)
            self.crash(bits)
            raise Killed
        self.made += len(written) + 1
        super().flush()


def played(model, play, last=None, kept=""):
    """A copy of the model after a command, what that answered, None where the program was killed before it did, and the disk."""
    after = copy.deepcopy(model)
    disk = after.store.disk = KilledDisk(model.store.disk, last, kept)
    try:
        answer = play(after)
    except Killed:
        answer = None
    after.store.disk = Disk(disk.durable, disk.twins, disk.turned)
    return after, answer, disk
