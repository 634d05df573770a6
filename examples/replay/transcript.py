"""Turns a captured conversation into a transcript for `anb replay`.

    tshark -r conversation.pcap -q -z follow,tcp,raw,0 | python3 transcript.py 0 > a.transcript

Each line of the capture is what one side sent, in hexadecimal. What node 1 sent stands behind a tab.
The number is that of the node that plays the role. A transcript has a line for each whole frame, in
the order in which they end: `>` for what the role sent, and `<` for what it heard.
"""
import sys

role = int(sys.argv[1])
sides = [bytearray(), bytearray()]
for line in sys.stdin:
    node = 1 if line.startswith("\t") else 0
    try:
        sides[node] += bytes.fromhex(line.strip())
    except ValueError:
        continue  # a head line of the capture
    side = sides[node]
    while len(side) >= 4:
        end = 4 + int.from_bytes(side[:4], "big")
        if len(side) < end:
            break
        print(">" if node == role else "<", side[4:end].hex())
        del side[:end]
if any(sides):
    sys.exit("the capture ends within a frame")
