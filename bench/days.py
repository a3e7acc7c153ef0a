"""Writes a made day as a script, the same for the same words.

days.py orders N [GATEWAYS]   N orders over the two issues of the sample: a quarter of them before the opening, one in ten a market
                              order, the others within 300 of the base price, on either side; the day ends with a close
days.py few N                 N events of one issue at few prices: orders within 30 of the base price, one in ten a market order,
                              one in eight events the cancel of an earlier order
days.py quotes N              about N events of one issue that show special quotes, move them and end them, over `days.py quoted`
days.py stages N [GATEWAYS]   N orders as the first, in stages in which each gateway has one
days.py quoted FILE           the rules of FILE with one session of nearly a day, and special quotes that move each second
days.py gateways FILE N       the rules of FILE with N gateways
"""
import sys

out = []


def say(text):
    out.append(text)


class Draws:
    def __init__(self):
        self.last = 7

    def below(self, n):
        self.last = self.last * 16807 % 2147483647
        return self.last // 65536 % n


ISSUES = (("AAAA", 20000), ("BBBB", 12000))


def order(draws, gateway, issues, steps):
    """A line with an order of a gateway, at a price at most `steps` ticks from the base price."""
    code, base = issues[draws.below(len(issues))]
    participant = draws.below(8) + 1
    side = ("buy", "sell")[draws.below(2)]
    kind = base + 10 * (draws.below(2 * steps + 1) - steps) if draws.below(10) else "market"
    say(f"g{gateway} {code} order p{participant} {side} {kind} {100 * (draws.below(10) + 1)}")
    return code, participant


def orders(count, gateways=4):
    draws = Draws()
    say("g1 * clock 08:00:00\nbarrier")
    for at in range(count):
        if at == count // 4:
            say("barrier\ng1 * clock 09:00:00\nbarrier")
        order(draws, draws.below(gateways) + 1, ISSUES, 30)
    say("barrier\ng1 * clock 15:00:00")


def few(count):
    draws = Draws()
    say("g1 * clock 09:00:00\nbarrier")
    mine = {it: 1 if it == 1 else 0 for it in range(1, 5)}
    made = []
    for _ in range(count):
        if made and draws.below(8) == 0:
            gateway, participant, own = made[draws.below(len(made))]
            say(f"g{gateway} AAAA cancel p{participant} {own}")
        else:
            gateway = draws.below(4) + 1
            made.append((gateway, order(draws, gateway, ISSUES[:1], 3)[1], mine[gateway]))
        mine[gateway] += 1


def quotes(count):
    draws = Draws()
    now, own = 3600, 1
    say("g1 AAAA clock 01:00:00")

    def send(text):
        nonlocal own
        say(f"g1 AAAA {text}")
        own += 1

    def second():
        nonlocal now
        now += 1
        send(f"clock {now // 3600:02}:{now // 60 % 60:02}:{now % 60:02}")

    while own < count and now < 86000:
        side, other, sign = (("buy", "sell", 1), ("sell", "buy", -1))[draws.below(2)]
        # one rests farther away than a trade may go at once, and another wants it: the quote is shown, and goes there step by step
        send(f"order p1 {other} {20000 + sign * 10 * (60 + draws.below(120))} 200")
        wants = own
        send(f"order p2 {side} market 300")
        for _ in range(draws.below(4)):
            send(f"order p{3 + draws.below(6)} {side} {20000 + sign * 10 * draws.below(40)} 100")
            second()
        if draws.below(3) == 0:
            send(f"cancel p2 {wants}")
        for _ in range(3):
            second()


def stages(count, gateways=4):
    draws = Draws()
    say("g1 * clock 09:00:00")
    for at in range(count):
        if at % gateways == 0:
            say("barrier")
        order(draws, at % gateways + 1, ISSUES, 30)


def rules(path, instead):
    """The rules of a file with these lines instead of those of the same name."""
    with open(path, encoding="utf-8") as it:
        for line in it.read().splitlines():
            say(instead.get(line.split("=")[0].strip(), line))


kind, *words = sys.argv[1:]
if kind == "quoted":
    rules(words[0], {"special_ms": "special_ms = 1000", "sessions": 'sessions = [["00:00:01", "00:00:02", "23:59:59"]]'})
elif kind == "gateways":
    names = ", ".join(f'"g{at + 1}"' for at in range(int(words[1])))
    rules(words[0], {"gateways": f"gateways = [{names}]"})
else:
    {"orders": orders, "few": few, "quotes": quotes, "stages": stages}[kind](*map(int, words))
sys.stdout.write("\n".join(out) + "\n")
