"""Network namespaces for scripts: one for each server, whose wire to the log can be cut."""
import os
import subprocess

FRONT, BACK = "front", "back"


def say(*words):
    subprocess.run(words, check=True, stdout=subprocess.DEVNULL, stderr=subprocess.PIPE)


class Namespace:
    """A network namespace with two wires to this machine: by `front` members and vendors come, by `back` it goes to the
    log.

    Only root can make one."""

    def __init__(self, number):
        self.name = f"hx{os.getpid()}-{number}"
        self.ends = {wire: f"hx{wire[0]}{number}-{os.getpid()}" for wire in (FRONT, BACK)}
        # (of 198.18.0.0/15, which is there for trials)
        first = 4 * os.getpid() + 2 * number
        self.nets = {wire: f"198.18.{(first + at) % 256}" for at, wire in enumerate((FRONT, BACK))}
        say("ip", "netns", "add", self.name)
        try:
            for wire in (FRONT, BACK):
                self.lay(wire)
            say("ip", "-n", self.name, "link", "set", "lo", "up")
        except subprocess.CalledProcessError:
            self.remove()
            raise

    def lay(self, wire):
        say("ip", "link", "add", self.ends[wire], "type", "veth", "peer", "name", wire, "netns", self.name)
        say("ip", "addr", "add", f"{self.outside(wire)}/30", "dev", self.ends[wire])
        say("ip", "link", "set", self.ends[wire], "up")
        say("ip", "-n", self.name, "addr", "add", f"{self.inside(wire)}/30", "dev", wire)
        say("ip", "-n", self.name, "link", "set", wire, "up")

    def outside(self, wire):
        """The address of this machine at the wire's end."""
        return f"{self.nets[wire]}.1"

    def inside(self, wire):
        """The address of the namespace at the wire's other end."""
        return f"{self.nets[wire]}.2"

    def words(self):
        """The words in front of a command that runs there."""
        return ["ip", "netns", "exec", self.name]

    def cut(self, wire):
        """From now on nothing passes, in either direction, and nobody is notified."""
        say("ip", "link", "set", self.ends[wire], "down")

    def mend(self, wire):
        say("ip", "link", "set", self.ends[wire], "up")

    def remove(self):
        say("ip", "netns", "del", self.name)


def namespaces(count):
    """`count` namespaces; none if none can be made."""
    made = []
    try:
        for number in range(count):
            made.append(Namespace(number))
    except (OSError, subprocess.CalledProcessError):
        for namespace in made:
            namespace.remove()
        return []
    return made
