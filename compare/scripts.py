#!/usr/bin/env python3
"""Scripts of challenger calls, made from a seed.

A script is written while the driver plays it: a line may depend on the answers before it. So values that were drawn
are observed again, a witness that was found is checked, and the room of a hash challenger is filled to its last byte.
The same seed and the same driver give the same script.

    scripts.py SEED      prints the script of a seed (--driver PATH, --kinds as in run.py)
"""

import argparse
import os
import random
import re
import subprocess

HERE = os.path.dirname(os.path.abspath(__file__))
DRIVER = os.path.join(os.environ.get("CARGO_TARGET_DIR", HERE + "/oracle/target"), "checked", "driver")

# Four kinds of challengers, two calls that need none, and the search of a duplex challenger over bytes.
KINDS = ("duplex", "multi", "hash", "serial", "hashof", "helpers", "find")

# The order and the number single of each domain.
DOMAINS = {
    "bytes": (256, 7),
    "babybear": (2013265921, 27),
    "koalabear": (2130706433, 24),
    "goldilocks": (18446744069414584321, 32),
}
HASHERS = ("sha256", "sha3-256")
LAST = 2**64 - 1
ROOM = 1024

# Shapes that are refused, and ladders that are.
BAD_SHAPES = [(0, 0), (0, 1), (1, 0), (1, 1), (2, 0), (2, 2), (2, 3), (16, 0), (16, 16), (64, 0), (64, 64),
              (64, 65), (65, 1), (65, 64), (65, 65), (64, LAST), (LAST, 1), (LAST, LAST), (LAST, LAST - 1)]
BAD_LADDERS = [0, 17, 18, 255, LAST]
# Words that are no number, and numbers written in an unusual way.
BAD_WORDS = ["x", "-1", "+1", "0x10", "1.0", "1e3", "", "18446744073709551616", "18446744073709551617",
             "99999999999999999999999", "1_000", "1,", "\u0661", "\u00e9", "1\t", "\t", "-", "ff", "1\u00a0", "\u2028"]
ODD_NUMBERS = ["007", "0000000000000000000000001", "00"]
# Lengths of bytes beside the ends of a block of either hash function.
BLOCK_LENGTHS = [0, 1, 2, 3, 31, 32, 33, 55, 56, 63, 64, 65, 119, 120, 127, 128, 135, 136, 137, 271, 272, 273]


class Driver:
    """The driver's process. It answers a line as soon as it is written."""

    def __init__(self, path):
        pipe = subprocess.PIPE
        self.process = subprocess.Popen([path], stdin=pipe, stdout=pipe, stderr=subprocess.DEVNULL)
        self.pairs = [tuple(map(int, line.split())) for line in subprocess.check_output([path, "pairs"]).splitlines()]

    def tell(self, line):
        self.process.stdin.write(line.encode() + b"\n")

    def ask(self, line):
        self.tell(line)
        self.process.stdin.flush()
        answer = self.process.stdout.readline()
        if not answer:
            raise RuntimeError(f"the driver ended at the line {line!r}")
        return answer.decode().rstrip("\n")

    def close(self):
        self.process.stdin.close()
        self.process.wait()


def asks(line):
    """Whether a line has an answer."""
    return line != "" and not line.startswith("#")


def top_bits(order):
    """The greatest b with 2^b below the order."""
    return (order - 1).bit_length() - 1


def limbs_of(sampled, sponge):
    radix = (sampled - 1).bit_length()
    return max([n for n in range(1, 64) if 2 ** (radix * n) <= sponge], default=1)


class Asked:
    """What the generator has to know of the challenger that it talks to."""

    def __init__(self, kind, sampled, taken, digested, batch=1, room=False, mixes=True):
        self.kind = kind
        self.sampled = sampled  # the name of the sampled domain, or None
        self.taken = taken  # numbers below this are observed
        self.digested = digested  # numbers below this are in a digest
        self.batch = batch  # so many fill a block
        self.room = room  # whether its room is bounded
        self.mixes = mixes  # whether a search ends soon, with no small budget
        self.order, self.single = DOMAINS[sampled] if sampled else (256, 7)


class Script:
    def __init__(self, seed, driver, kinds=KINDS):
        self.seed = seed
        self.rng = random.Random(seed)
        self.driver = driver
        self.kinds = [kind for kind in kinds if kind in ("duplex", "multi", "hash", "serial")] or ["duplex"]
        self.extra = [kind for kind in kinds if kind in ("hashof", "helpers")]
        self.searches = "find" in kinds
        self.lines = []
        self.answers = []
        self.drawn = []
        self.witness = None
        self.asked = None

    # ---- telling lines ----

    def say(self, line):
        self.lines.append(line)
        if not asks(line):
            self.driver.tell(line)
            return None
        answer = self.driver.ask(line)
        self.answers.append(answer)
        self.note(line, answer)
        return answer

    def note(self, line, answer):
        """Keeps values that an answer tells, to be observed later."""
        name = line.split(" ")[0]
        if name in ("sample", "bits", "uniform", "grind", "find") or (name == "held" and "row=" in answer):
            values = [int(word) for word in re.findall(r"\d+", answer)]
            self.drawn += self.rng.sample(values, min(3, len(values)))
        if name == "grind" and answer.startswith("ok"):
            self.witness = (line.split(" ")[1], answer.split(" ")[1])

    def chance(self, part):
        return self.rng.random() < part

    # ---- numbers ----

    def code(self, order):
        pick = self.rng.random()
        if pick < 0.35 and self.drawn:
            value = self.rng.choice(self.drawn[-30:])
            if value < order:
                return value
        if pick < 0.5:
            return order - 1
        if pick < 0.62:
            return self.rng.choice([0, 1, 2, 255, order // 2, order - 2])
        return self.rng.randrange(order)

    def not_code(self, order):
        return self.rng.choice([order, order + 1, LAST, self.rng.randrange(order, 2**64)])

    def codes(self, count, order, spoiled=0.07):
        """So many codes; with this chance one of them is none."""
        values = [self.code(order) for _ in range(count)]
        if values and order <= LAST and self.chance(spoiled):
            values[self.rng.randrange(count)] = self.not_code(order)
        return values

    def bits(self, asked):
        top, single = top_bits(asked.order), asked.single
        return self.rng.choice(
            [0, 1, 2, 3, 4, 5, 8, single - 1, single, single + 1, top - 1, top, top + 1, top + 2]
            + [63, 64, 65, LAST] + [self.rng.randrange(top + 1) for _ in range(8)]
        )

    def few_bits(self):
        return self.rng.choice([1, 1, 1, 2, 2, 3, 4, 5, 6])

    def limit(self):
        return self.rng.choice([0, 1, 1, 1, 1, 1, 2, 2, 3, 5, 100, 65535, 65536, LAST, self.rng.randrange(1, 65536)])

    # ---- the calls: each gives a line ----

    def count(self, asked):
        """How many numbers to observe."""
        if asked.room:
            return self.rng.choice([0, 1, 1, 2, 3, 4, 5, 8, 31, 32, 33, self.rng.randrange(80)])
        b = asked.batch
        if b > 100 and self.chance(0.7):
            return self.rng.randrange(6)
        return self.rng.choice([0, 1, 1, 1, 2, 2, 3, b - 1, b, b + 1, 2 * b, 2 * b + 1, self.rng.randrange(2 * b + 2)])

    def filling(self, bytes_each):
        """As many as fill the room left, a few less, or one more."""
        held = self.say("held")
        text = re.search(r"input=(\S+)", held)
        room = ROOM - (0 if not text or text[1] == "-" else len(text[1]) // 2)
        return max(0, room // bytes_each + self.rng.choice([-9, -4, -3, -2, -1, 0, 0, 0, 1, 1, 2]))

    def numbers(self, name, values):
        return " ".join([name] + [str(value) for value in values])

    def some_codes(self, asked, order, bytes_each):
        """Codes to observe. Where room is bounded, they are now and then about as many as fit, a bad one among them."""
        if asked.room and self.chance(0.15):
            return self.codes(self.filling(bytes_each), order, 0.25)
        return self.codes(self.count(asked), order)

    def observe(self, asked):
        return self.numbers("observe", self.some_codes(asked, asked.taken, 4 if asked.kind == "serial" else 1))

    def digest(self, asked):
        if asked.kind != "multi":
            return self.numbers("digest", self.some_codes(asked, asked.digested, 1))
        # Blocks of a digest have words, and not as many as scalars.
        rate = asked.batch // asked.limbs
        counts = [0, 1, 2, 3, rate - 1, rate, rate + 1, 2 * rate, 2 * rate + 1, 8, 9, 10, 11]
        return self.numbers("digest", self.codes(self.rng.choice(counts), asked.digested))

    def digest64(self, asked):
        if asked.kind != "serial":
            return self.numbers("digest64", self.codes(self.rng.randrange(3), 2**64))
        return self.numbers("digest64", self.some_codes(asked, 2**64, 8))

    def sample(self, asked):
        with_limit = asked.kind == "serial"
        if self.chance(0.03):
            with_limit = not with_limit
        return f"sample {self.limit()}" if with_limit else "sample"

    def sample_bits(self, asked):
        return f"bits {self.bits(asked)}"

    def uniform(self, asked):
        return f"uniform {self.bits(asked)} {self.limit()}"

    def check(self, asked):
        if self.witness and self.chance(0.3):
            return "check {} {}".format(*self.witness)
        bits = self.few_bits() if self.chance(0.6) else self.bits(asked)
        witness = self.not_code(asked.order) if self.chance(0.12) else self.code(asked.order)
        return f"check {bits} {witness}"

    def grind(self, asked):
        order = asked.order
        if self.chance(0.15):
            return f"grind {self.bits(asked)} {self.rng.choice([0, 1, 40, order + 1, LAST])}"
        budgets = [0, 1, 2, 3, 7, 20, 64, 150, 300]
        if order == 256:
            budgets = [0, 1, 2, 3, 7, 20, 64, 128, 255, 256, 256, 257]
        elif asked.mixes:
            return f"grind {self.rng.choice([1, 2, 3])} {self.rng.choice([order - 1, order, order + 1])}"
        return f"grind {self.few_bits()} {self.rng.choice(budgets)}"

    def find(self, asked):
        if self.chance(0.3):
            # Every word passes.
            return f"find {self.rng.choice([0, 1, 2**32, LAST])} {self.rng.choice([0, 2**32, LAST - 2**32 + 1])}"
        if asked.kind == "hash" and self.chance(0.4):
            return f"find {self.rng.choice([2**32 - 1, 2**32, 2**32 + 1, LAST])} {self.rng.choice([1, 3, 128, 255])}"
        masks = [1, 2, 3, 7, 15, 255, 2**31, 2**32 - 1, 2**32 + 1, LAST, self.rng.getrandbits(64)]
        return f"find {self.rng.choice([0, 1, 2, 5, 16, 100, 256, 300])} {self.rng.choice(masks)}"

    def held(self, asked):
        return "held"

    CALLS = {
        "observe": observe, "digest": digest, "digest64": digest64, "sample": sample, "bits": sample_bits,
        "uniform": uniform, "check": check, "grind": grind, "find": find, "held": held,
    }
    # How often each kind is asked for each call, in the order of CALLS.
    WEIGHTS = {
        "duplex": (22, 8, 1, 18, 8, 14, 8, 7, 2, 12),
        "multi": (24, 12, 1, 26, 8, 1, 8, 7, 1, 12),
        "hash": (24, 14, 1, 24, 1, 1, 1, 1, 8, 14),
        "serial": (16, 10, 8, 22, 8, 6, 8, 7, 1, 12),
    }

    def call_line(self, asked):
        name = self.rng.choices(list(self.CALLS), self.WEIGHTS[asked.kind])[0]
        if name == "find" and asked.kind == "duplex" and asked.sampled == "bytes" and not self.searches:
            return "held"
        return self.CALLS[name](self, asked)

    # ---- making ----

    def permutation(self):
        if self.chance(0.06):
            return f"ladder:{self.rng.choice(BAD_LADDERS)}"
        return self.rng.choice(["mirror", "mirror", "ladder:1", "ladder:16", f"ladder:{self.rng.randint(1, 16)}"])

    def shape(self):
        if self.chance(0.08):
            return self.rng.choice(BAD_SHAPES)
        if self.chance(0.5):
            # Small ones turn often.
            return self.rng.choice([pair for pair in self.driver.pairs if pair[0] <= 6])
        return self.rng.choice(self.driver.pairs)

    def hex(self, count):
        if count == 0:
            return "-"
        text = self.rng.randbytes(count).hex()
        return self.rng.choice([text, text, text.upper(), text[: count] + text[count:].upper()])

    def initial(self):
        beside_room = [992, 1016, 1020, 1021, 1023, 1024, 1025, 1026, 1100]
        return self.hex(self.rng.choice(BLOCK_LENGTHS + beside_room + [0, 0, 0, 0, self.rng.randrange(300)]))

    def make_duplex(self):
        domain = self.rng.choice(list(DOMAINS))
        perm, (width, rate) = self.permutation(), self.shape()
        order = DOMAINS[domain][0]
        mixes = perm != "mirror" and width <= 16 and domain in ("babybear", "koalabear")
        asked = Asked("duplex", domain, order, order, rate, mixes=mixes)
        return f"make duplex {domain} {perm} {width} {rate}", asked

    def make_multi(self):
        names = ["bytes", "babybear", "koalabear"]
        sampled = self.rng.choice(names + names + ["goldilocks"])
        above = [name for name in DOMAINS if DOMAINS[name][0] > DOMAINS[sampled][0]] or ["goldilocks"]
        sponge = self.rng.choice(list(DOMAINS) if self.chance(0.12) else above)
        perm, (width, rate) = self.permutation(), self.shape()
        if (sampled, sponge) == ("bytes", "goldilocks") and self.chance(0.2):
            width, rate = self.rng.choice([(64, 36), (37, 36), (64, 37), (38, 37), (64, 63)])
        order, sponge_order = DOMAINS[sampled][0], DOMAINS[sponge][0]
        limbs = limbs_of(order, sponge_order)
        asked = Asked("multi", sampled, order, sponge_order, limbs * max(1, min(rate, 64)), mixes=False)
        asked.limbs = limbs
        return f"make multi {sampled} {sponge} {perm} {width} {rate}", asked

    def make_hash(self):
        return f"make hash {self.rng.choice(HASHERS)} {self.initial()}", Asked("hash", None, 256, 256, room=True)

    def make_serial(self):
        sampled = self.rng.choice(["bytes", "babybear", "babybear", "koalabear", "koalabear", "goldilocks"])
        order = DOMAINS[sampled][0]
        if self.chance(0.5):
            asked = Asked("serial", sampled, order, 256, room=True, mixes=True)
            return f"make serial {sampled} hash {self.rng.choice(HASHERS)} {self.initial()}", asked
        perm, (width, rate) = self.permutation(), self.shape()
        asked = Asked("serial", sampled, order, 256, rate, mixes=False)
        return f"make serial {sampled} duplex {perm} {width} {rate}", asked

    MAKES = {"duplex": make_duplex, "multi": make_multi, "hash": make_hash, "serial": make_serial}

    def make_line(self):
        return self.MAKES[self.rng.choice(self.kinds)](self)

    # ---- lines that cannot be read, and others beside the calls ----

    def spoiled(self, line):
        """A line with one thing wrong, or an unusual one."""
        words = line.split(" ")
        if len(words) > 12:
            words = words[:12]
        at = self.rng.randrange(len(words))
        way = self.rng.randrange(8)
        if way == 0:
            words[at] = self.rng.choice(BAD_WORDS)
        elif way == 1:
            words.insert(at + 1, self.rng.choice(BAD_WORDS + ["0", "7"]))
        elif way == 2:
            words.pop(at)
        elif way == 3:
            words.insert(at, "")
        elif way == 4:
            words.append(self.rng.choice(["", "0", "1", "held"]))
        elif way == 5:
            longer = words[at] + self.rng.choice(["x", "\r", "\t", "#", "0"])
            words[at] = self.rng.choice([words[at].upper(), longer])
        elif way == 6:
            words[at] = words[at][:-1]
        else:
            words[-1] = self.rng.choice(ODD_NUMBERS)
        return " ".join(words)

    def bad_line(self):
        asked = self.asked or Asked("duplex", "bytes", 256, 256)
        lines = [self.make_line()[0], self.safe_call(asked), self.safe_call(asked), "finalize", "held", "sample"]
        if self.extra:
            lines.append(self.extra_line())
        return self.spoiled(self.rng.choice(lines))

    def safe_call(self, asked):
        """A call that stays short where one of its numbers is changed."""
        name = self.rng.choice(["observe", "digest", "sample", "bits", "check"])
        return self.CALLS[name](self, asked)

    def extra_line(self):
        kind = self.rng.choice(self.extra)
        if kind == "helpers":
            return "helpers {} {}".format(*self.rng.choices(list(DOMAINS), k=2))
        return f"hashof {self.rng.choice(HASHERS)} {self.hex(self.rng.choice(BLOCK_LENGTHS + [1024, 1025, 2000]))}"

    def aside(self):
        """A line beside the calls of a part."""
        pick = self.rng.random()
        if pick < 0.08:
            self.say(self.rng.choice(["", "#", "# held", "#make duplex bytes mirror 3 2"]))
        elif pick < 0.2 and self.extra:
            self.say(self.extra_line())
        elif pick < 0.5:
            self.plant()
        else:
            line = self.bad_line()
            answer = self.say(line)
            if line.split(" ")[0] == "make":
                self.asked = None
                if answer == "ok":
                    # It could be read after all, and what it made is not known here.
                    self.say("finalize")
            elif line == "finalize":
                self.asked = None

    def plant(self):
        """Fills blocks with the greatest code, so that draws are refused, and draws."""
        asked = self.asked
        if not asked or asked.kind == "hash":
            return
        name, order = ("digest", 256) if asked.kind == "serial" else ("observe", asked.order)
        count = min(asked.batch, 64)
        self.say(self.numbers(name, [order - 1 if self.chance(0.8) else self.code(order) for _ in range(count)]))
        for _ in range(self.rng.randint(1, min(2 * count, 8))):
            self.say(self.sample(asked) if self.chance(0.4) else self.uniform(asked))

    # ---- a whole script ----

    def part(self, length):
        """A challenger from its making on, and now and then to its end."""
        line, self.asked = self.make_line()
        if self.say(line) != "ok":
            self.asked = None
        for _ in range(self.rng.choice([2, 5, 10, 20, 40, 80])):
            if len(self.lines) >= length:
                return
            if self.chance(0.08):
                self.aside()
            if self.asked is None:
                break
            answer = self.say(self.call_line(self.asked))
            if answer.startswith("no") and self.chance(0.7) or self.chance(0.15):
                self.say("held")
        if self.asked and self.chance(0.5):
            self.say("finalize")
        self.idle()

    def idle(self):
        """Calls, mostly after a finalize or a refused make."""
        for _ in range(self.rng.choice([0, 0, 0, 1, 2])):
            asked = self.asked or Asked("duplex", "bytes", 256, 256)
            lines = [self.safe_call(asked), "finalize", "held", "grind 1 5", "uniform 1 1", "digest64"]
            self.say(self.rng.choice(lines + ([] if self.asked else ["find 1 0"])))
            if self.lines[-1] == "finalize":
                self.asked = None

    def write(self):
        """Scripts have some 20 to 200 lines. The first leaves no challenger, whatever was played before."""
        length = self.rng.randint(20, 200)
        self.say("make duplex bytes mirror 2 2")
        self.idle()
        while len(self.lines) < length:
            self.part(length)
        return self


def main():
    parser = argparse.ArgumentParser(description="prints the script of a seed")
    parser.add_argument("seed", type=int)
    parser.add_argument("--driver", default=DRIVER)
    parser.add_argument("--kinds", default=",".join(KINDS))
    words = parser.parse_args()
    driver = Driver(words.driver)
    print("\n".join(Script(words.seed, driver, words.kinds.split(",")).write().lines))
    driver.close()


if __name__ == "__main__":
    main()
