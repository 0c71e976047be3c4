"""load.py PORT CONNECTIONS SECONDS: clients that order and search as fast as they are answered. Writes what they were told, as JSON."""
import asyncio
import json
import random
import sys
import time

ITEMS = 50
UNLUCKY = 13  # an order of so many fails on purpose


class Told:
    """What clients were told."""

    def __init__(self):
        self.orders, self.waits, self.faults = [], [], 0

    def note(self, request, answer):
        asked = request["with"]
        if request["do"] == "search":
            assert answer["price"] == 100 + asked["item"], answer
        elif "fault" in answer:
            assert asked["count"] == UNLUCKY, answer
            self.faults += 1
        elif answer["ok"]:
            self.orders.append((asked["number"], asked["item"], asked["count"]))


def request_of(pick, number):
    if pick.random() < 0.5:
        return {"do": "search", "with": {"item": pick.randrange(ITEMS)}}
    count = UNLUCKY if pick.random() < 0.01 else pick.randrange(1, 4)
    return {"do": "order", "with": {"number": number, "item": pick.randrange(ITEMS), "count": count}}


async def client(number, port, end, told):
    reader, writer = await asyncio.open_connection("127.0.0.1", port)
    pick, sent = random.Random(number), 0
    while time.monotonic() < end:
        sent += 1
        request = request_of(pick, number * 1000000 + sent)
        at = time.monotonic()
        writer.write(json.dumps(request).encode() + b"\n")
        answer = json.loads(await reader.readline())
        told.waits.append(time.monotonic() - at)
        told.note(request, answer)
    writer.close()


async def main(port, connections, seconds):
    told, end = Told(), time.monotonic() + seconds
    await asyncio.gather(*(client(number, port, end, told) for number in range(connections)))
    json.dump(vars(told), sys.stdout)


if __name__ == "__main__":
    asyncio.run(main(int(sys.argv[1]), int(sys.argv[2]), float(sys.argv[3])))
