"""Three nodes in one process, each with its driver; node 1 has a file. README.md beside this file has what it prints."""
import os
import tempfile

import zomtagi

COLOUR = (b"app", b"flags", b"colour")


def driven(node, now):
    """The driver of a node of three."""
    driver = zomtagi.Driver(node, now)
    for member in range(3):
        driver.add(now, member)
    return driver


def agree(drivers, now, frames):
    """Carries frames and lets time pass, until all hold the same. Returns the time."""
    while True:
        for driver in drivers:
            driver.on_time(now)
            frames += driver.frames()
        while frames:
            driver = drivers[zomtagi.to(frames[0])]
            driver.on_frame(now, frames.pop(0))
            frames += driver.frames()
        if len({driver.node.root() for driver in drivers}) == 1:
            return now
        now = max(now, min(driver.wake() for driver in drivers))


def shown(node):
    """What a node shows, as a line."""
    about = node.about()
    values = " ".join("(deleted)" if it.body is None else it.body.decode() for it in node.peek(COLOUR))
    return f"node {about.number}, life {about.life}: {values}"


def main(path):
    zero, one, two = zomtagi.Node.new(0, 1), zomtagi.Node.create(path, 1), zomtagi.Node.new(2, 1)
    drivers = [driven(node, 0) for node in (zero, one, two)]
    now = agree(drivers, 0, zero.write_over(COLOUR, b"red"))
    print(shown(one))

    # A write that has read nothing stands beside; one that has read both replaces both, here by the greater of them.
    now = agree(drivers, now, one.write(COLOUR, b"blue"))
    print(shown(two))
    read = two.read(COLOUR)
    now = agree(drivers, now, two.write(COLOUR, max(it.body for it in read.values), read.context))
    two.forget(read.context)
    print(shown(one))

    # What node 1 wrote or kept is in its file.
    one.keep(COLOUR)
    one.close()
    one = zomtagi.Node.open(path, 1)
    drivers[1] = driven(one, now)
    print(shown(one))
    agree(drivers, now, one.write_over(COLOUR, None))
    print(shown(zero))
    try:
        zero.write_over(COLOUR, bytes(1025))
    except zomtagi.Refused as refused:
        print("a value of 1,025 bytes:", refused)


with tempfile.TemporaryDirectory() as folder:
    main(os.path.join(folder, "node-1"))
