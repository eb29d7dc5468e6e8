"""The sample of a number: a script and two data files that are drawn by a stated generator."""

SCRIPT = b"""load graph S nodes 'nodes.csv' edges 'edges.csv';
create view collection W on S [w: window t from 0 to 150 width 40 step 10];
run dist(1, w) on W within 2000 rounds split auto;
"""


class Generator:
    """A linear congruential generator of 64 bits; a draw is from the high 32 bits of its state."""

    def __init__(self, seed):
        self.state = seed

    def draw(self, most):
        self.state = (6364136223846793005 * self.state + 1442695040888963407) % 2**64
        return (self.state >> 32) % most


def write_sample(number, folder):
    """Writes nodes.csv and edges.csv into a folder."""
    generator = Generator(number)
    with open(f"{folder}/nodes.csv", "w", encoding="ascii", newline="") as nodes:
        nodes.write("id\n" + "".join(f"{node}\n" for node in range(1, 2001)))
    with open(f"{folder}/edges.csv", "w", encoding="ascii", newline="") as edges:
        edges.write("src,dst,w:int,t:int\n")
        for _ in range(10_000):
            source, target = 1 + generator.draw(2000), 1 + generator.draw(2000)
            weight, time = 1 + generator.draw(9), generator.draw(160)
            edges.write(f"{source},{target},{weight},{time}\n")
