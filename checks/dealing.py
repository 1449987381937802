"""Which device gets which operations, where none of them stalls, by a legal scheduler text. It knows nothing of the
program."""

# How many operations a device has room for whenever a burst is offered.
DEPTH = 128


def pieces(size, items):
    return [items[at:at + size] for at in range(0, len(items), size)]


def in_turn(workers, size, numbers):
    """Each call goes to the next worker. A call takes at most what one worker has room for."""
    lists = [[] for _ in range(workers)]
    calls = [call for burst in pieces(size, numbers) for call in pieces(DEPTH, burst)]
    for place, call in enumerate(calls):
        lists[place % workers] += call
    return lists


def by_size(threshold, lengths, numbers):
    """Long data goes to the first worker, and short data to the second."""
    long = [number for number in numbers if lengths[number] >= threshold]
    return [long, [number for number in numbers if lengths[number] < threshold]]


def over(size, numbers):
    """What the first worker has no room for goes to the second."""
    bursts = pieces(size, numbers)
    return [[number for burst in bursts for number in burst[part]] for part in (slice(DEPTH), slice(DEPTH, None))]


def lists_of(vdev, burst, lengths):
    """The numbers of the operations that each worker gets, of operations with these data lengths."""
    fields = vdev.split(",")
    workers = sum(field.startswith("worker=") for field in fields)
    thresholds = [int(field.rpartition(":")[2]) for field in fields if field.startswith("mode_param=")]
    numbers = list(range(len(lengths)))
    if "mode=packet-size-distr" in fields:
        return by_size(thresholds[0] if thresholds else 128, lengths, numbers)
    if "mode=fail-over" in fields:
        return over(burst, numbers)
    return in_turn(workers, burst, numbers)
