"""An nbdkit plugin: a virtual disk in a disk of tsd, as a network block device. docs/VIRTUAL_DISKS.md has a tour.

    nbdkit -U disk.sock python contrib/nbdkit/tsd_disk.py hub=tsd.sock root=1 cap=owner.cap size=64M

| word | what it says |
|---|---|
| `hub=SOCKET`, or `image=FILE` | the hub that is joined; or the image, which this server then has for itself |
| `cap=FILE` | the file whose first word is the capability to write the root block (or to read it, for reading alone) |
| `root=N` | the primary block under which the virtual disk is kept; 0 where nothing is said |
| `size=BYTES` | makes a virtual disk of this size (`K`, `M`, `G` too) where the root block has nothing yet |
| `cache=BYTES` | how much of what was read is kept in memory; 32M where nothing is said |
| `place=PLACE` | with `image`: which free block is taken first; `near` where nothing is said |
| `python=FOLDER` | where the package tsd is, where Python doesn't find it and this file isn't in a clone |
"""

import errno
import os
import sys

import nbdkit

API_VERSION = 2
# An error is a line, and not how the call came about.
sys.tracebacklimit = 0
KEYS = ("hub", "image", "cap", "root", "size", "cache", "place", "python")
HERE = os.path.dirname(os.path.realpath(__file__))
config_of = {}
state = {}


def config(key, value):
    """A word of the command line."""
    if key not in KEYS:
        raise RuntimeError(f"there is no word {key}=; there are {', '.join(KEYS)}")
    config_of[key] = value


def config_complete():
    """Once all words are there."""
    if ("hub" in config_of) == ("image" in config_of):
        raise RuntimeError("give hub=SOCKET or image=FILE, and not both")
    if "cap" not in config_of:
        raise RuntimeError("give cap=FILE, the file with the capability of the root block")
    for key in {"hub", "image", "cap"} & set(config_of):
        config_of[key] = os.path.abspath(config_of[key])
    for key in {"size", "cache"} & set(config_of):
        config_of[key] = nbdkit.parse_size(config_of[key])
    if not config_of.get("root", "0").isdigit():
        raise RuntimeError(f"root= is the number of a primary block, not {config_of['root']}")
    beside = [os.path.join(HERE, "..", "..", "python"), os.path.join(HERE, "..", "..", "lib", "tsd", "python")]
    sys.path[:0] = [config_of["python"]] if "python" in config_of else beside


def thread_model():
    """Several requests at once."""
    return nbdkit.THREAD_MODEL_PARALLEL


def opened():
    """Opens the disk, and the virtual disk in it."""
    import tsd
    from tsd.virtual_disk import DEFAULT_CACHE, VirtualDisk

    state["errors"] = tsd
    where = config_of.get("hub") or config_of["image"]
    try:
        cap = tsd.Capability.from_file(config_of["cap"])
        state["tsd"] = tsd.connect(where) if "hub" in config_of else tsd.open(where, config_of.get("place", "near"))
        root, cache = int(config_of.get("root", 0)), config_of.get("cache", DEFAULT_CACHE)
        state["disk"] = VirtualDisk(state["tsd"].session(), root, cap, config_of.get("size"), cache)
    except (tsd.TsdError, OSError, ValueError) as error:
        words = "; ".join(str(error).splitlines())
        raise RuntimeError(f"the virtual disk at {where}: {words}") from None


def get_ready():
    """Tells before anything is served what is wrong. What is opened here wouldn't outlive this server's fork."""
    opened()
    cleanup()


def after_fork():
    """Opens the disk in the process that serves."""
    opened()


def cleanup():
    """Ends the link; a program that was started for it ends too."""
    if "tsd" in state:
        try:
            state.pop("tsd").close()
        except state["errors"].TsdError as error:
            nbdkit.debug(f"closing: {error}")


def carried_out(action, *given):
    """Does something at the virtual disk; an error is told as the client knows it, and in a line of this server."""
    tsd = state["errors"]
    try:
        return action(*given)
    except tsd.Full as error:
        nbdkit.set_error(errno.ENOSPC)
        raise RuntimeError(f"{error}: trim what isn't used, or move to a larger disk by tsd-copy") from None
    except tsd.PointersFull as error:
        nbdkit.set_error(errno.ENOSPC)
        raise RuntimeError(f"{error}: trim what isn't used, or make a disk with more pointer slots") from None
    except tsd.Denied as error:
        nbdkit.set_error(errno.EPERM)
        raise RuntimeError(f"{error}: the capability isn't right for this any more, or gives reading alone") from None
    except tsd.LinkError as error:
        nbdkit.set_error(errno.EIO)
        words = "; ".join(str(error).splitlines())
        raise RuntimeError(f"{words}: start the hub and this server again") from None


def open(readonly):
    """A client. All have the same virtual disk."""
    return state["disk"]


def get_size(disk):
    """Its bytes."""
    return disk.size


def block_size(disk):
    """The least, the best and the greatest length of a request."""
    return (1, disk.block_length, 32 << 20)


def can_flush(disk):
    return True


def can_fua(disk):
    """Each write is on the disk when it is answered."""
    return nbdkit.FUA_NATIVE


def can_trim(disk):
    return True


def can_zero(disk):
    return True


def can_multi_conn(disk):
    """All connections see what one of them has written."""
    return True


def can_extents(disk):
    return True


def is_rotational(disk):
    return False


def pread(disk, buf, offset, flags):
    buf[:] = carried_out(disk.read, offset, len(buf))


def pwrite(disk, buf, offset, flags):
    carried_out(disk.write, offset, bytes(buf))


def trim(disk, count, offset, flags):
    carried_out(disk.trim, offset, count)


def zero(disk, count, offset, flags):
    carried_out(disk.zero, offset, count)


def flush(disk, flags):
    carried_out(disk.flush)


def extents(disk, count, offset, flags):
    holes = nbdkit.EXTENT_HOLE | nbdkit.EXTENT_ZERO
    found = carried_out(lambda: list(disk.extents(offset, count)))
    return [(start, length, 0 if is_there else holes) for start, length, is_there in found]
