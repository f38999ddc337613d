"""Growth of the crc register over the bits that it covers, on the built program of rows: headers of up to 4,096 bits, as long as any may be."""
from .measure import best_of, report, ROWS

BITS = [256, 512, 1024, 2048, 4096]
TIMES = 40000
POLYNOMIAL = 0xE0


def register(data, times):
    steps = []
    for octet in range(256):
        for _ in range(8):
            octet = octet >> 1 ^ (POLYNOMIAL if octet & 1 else 0)
        steps.append(octet)
    value = 0xFF
    for _ in range(times):
        for octet in data:
            value = steps[value ^ octet]
    return value


def main():
    print("| bits | ms for %d times | ns an octet |" % TIMES)
    print("|---|---|---|")
    found = []
    for count in BITS:
        data = bytes((i * 37 + 11) % 256 for i in range(count // 8))
        row = "register %d %d:%s\n" % (TIMES, count, data.hex())
        best, _ = best_of(row.encode(), 0, b"%02x\n" % register(data, TIMES), ROWS)
        found.append(best / TIMES / len(data))
        print("| %d | %.1f | %.2f |" % (count, best * 1e3, found[-1] * 1e9))
    print("| | one octet at the largest, over one at a quarter of it: %.2f | |" % (found[-1] / found[-3]))
    report("crc", found[-1] / found[-3] <= 1.25)


main()
